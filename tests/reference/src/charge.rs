//! The line charge to the cent.

use crate::plan::{require, Plan, Refusal};

/// The elements that each seat sends in a run, those to itself included.
pub fn elements(plan: &Plan) -> Vec<u64> {
    let sends = |seat| (0..plan.last_call()).map(|call| plan.outgoing(seat, call) as u64).sum();
    (1..=plan.n).map(sends).collect()
}

/// A bill shared in proportion to these elements, rounded down; the cents left over by a sort of the remainders.
pub fn share(bill: u64, elements: &[u64]) -> Vec<u64> {
    let all: u64 = elements.iter().sum();
    let mut parts: Vec<u64> = elements.iter().map(|sent| bill * sent / all).collect();
    let left = bill - parts.iter().sum::<u64>();
    let mut seats: Vec<usize> = (0..elements.len()).collect();
    // A stable sort: among equals the lower seats stay first.
    seats.sort_by_key(|&seat| std::cmp::Reverse(bill * elements[seat] % all));
    for &seat in seats.iter().take(left as usize) {
        parts[seat] += 1;
    }
    parts
}

/// Writes each seat's part in cents, four bytes each, and gives the bill; the price is for 1,000 elements.
pub fn charge(file: &[u8], price: u32, parts: &mut [u8]) -> Result<usize, Refusal> {
    let plan = Plan::read(file)?;
    require(price <= 1_000_000, 31, 0)?;
    require(parts.len() == 4 * usize::from(plan.n), 19, 0)?;
    let elements = elements(&plan);
    let bill = (elements.iter().sum::<u64>() * u64::from(price)).div_ceil(1000);
    for (four, part) in parts.chunks_exact_mut(4).zip(share(bill, &elements)) {
        four.copy_from_slice(&(part as u32).to_le_bytes());
    }
    Ok(bill as usize)
}
