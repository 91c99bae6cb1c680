//! The run record and its two readers.

use crate::plan::{bytes, long, numbers, require, List, Plan, Refusal};
use crate::run::seen_spending;

/// An entry of the contents: a body's offset from the file's start and its length in bytes.
const ENTRY: usize = 8;

/// The bytes of a seat's body: its view's numbers, four each.
fn body(plan: &Plan, seat: u16) -> usize {
    4 * plan.view_of(seat)
}

/// The size in bytes of a plan's record.
pub fn record_size(file: &[u8]) -> Result<usize, Refusal> {
    let plan = Plan::read(file)?;
    Ok((1..=plan.n).map(|seat| ENTRY + body(&plan, seat)).sum())
}

/// Stores a run: the contents, then each seat's figures, coins, mail and results. The triples are zeroed.
pub fn record(file: &[u8], figures: &[u8], coins: &[u8], triples: &mut [u8], record: &mut [u8]) -> Result<(), Refusal> {
    let plan = Plan::read(file)?;
    let figures = List::new(figures, plan.figures.len(), 10)?.below(plan.field.p(), 11)?.to_vec();
    let coins = List::new(coins, plan.coins(), 12)?.below(plan.field.p(), 13)?.to_vec();
    plan.check_triples(triples, plan.triples())?;
    require(record.len() == record_size(file)?, 19, 0)?;
    let seats: Vec<u16> = (1..=plan.n).collect();
    let mut offset = ENTRY * seats.len();
    let mut contents = Vec::with_capacity(2 * seats.len());
    for &seat in &seats {
        contents.extend([offset as u32, body(&plan, seat) as u32]);
        offset += body(&plan, seat);
    }
    let seen = seen_spending(&plan, &seats, &figures, &coins, &numbers(triples, 4))?;
    record.copy_from_slice(&[bytes(&contents), bytes(&seen)].concat());
    triples.fill(0);
    Ok(())
}

/// Where each seat's body stands: 28 unless the bodies fill the file after the contents, seats ascending, each with the
/// length that the plan gives.
fn bodies(plan: &Plan, record: &[u8]) -> Result<Vec<(usize, usize)>, Refusal> {
    let seats = usize::from(plan.n);
    require(record.len() >= ENTRY * seats, 28, 0)?;
    let entry = |seat: usize| [0, 4].map(|i| long(record, ENTRY * seat + i) as usize);
    let entries: Vec<(usize, usize)> = (0..seats).map(entry).map(|[offset, length]| (offset, length)).collect();
    let mut free = ENTRY * seats;
    for (seat, &(offset, length)) in (1..).zip(&entries) {
        require(offset == free && length == body(plan, seat), 28, 0)?;
        free += length;
    }
    require(free == record.len(), 28, 0)?;
    Ok(entries)
}

/// The bench's reader: all bodies, as they are stored.
pub fn read_all(file: &[u8], record: &[u8], numbers: &mut [u8]) -> Result<(), Refusal> {
    let plan = Plan::read(file)?;
    let entries = bodies(&plan, record)?;
    require(numbers.len() == entries.iter().map(|entry| entry.1).sum::<usize>(), 19, 0)?;
    let stored: Vec<u8> = entries.iter().flat_map(|&(offset, length)| &record[offset..][..length]).copied().collect();
    numbers.copy_from_slice(&stored);
    Ok(())
}

/// A plant's reader: its seat's body, as it is stored.
pub fn read_seat(file: &[u8], record: &[u8], seat: u16, numbers: &mut [u8]) -> Result<(), Refusal> {
    let plan = Plan::read(file)?;
    let entries = bodies(&plan, record)?;
    let (offset, length) = entries[usize::from(plan.seat(seat)?) - 1];
    require(numbers.len() == length, 19, 0)?;
    numbers.copy_from_slice(&record[offset..][..length]);
    Ok(())
}
