//! The converter to version 3.

use crate::plan::{require, Plan, Refusal};

/// The plan of a version 1 or 2 file, in version 3.
pub fn convert_file(bytes: &[u8]) -> Result<Vec<u8>, Refusal> {
    require(bytes.len() >= 18 && bytes.starts_with(b"POOL"), 1, 0)?;
    require(matches!(bytes[4], 1 | 2), 2, 0)?;
    let plan = Plan::read(bytes)?;
    Ok(plan.file_of(3, &plan.outs, &plan.points))
}

/// Converts a plan into a lent buffer.
pub fn convert(bytes: &[u8], out: &mut [u8]) -> Result<(), Refusal> {
    let file = convert_file(bytes)?;
    require(out.len() == file.len(), 19, 0)?;
    out.copy_from_slice(&file);
    Ok(())
}
