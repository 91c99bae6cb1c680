//! What several tests ask of a run: the direct bench's view, and the matched coins.

use reference::matching::matching;
use reference::plan::{bytes, List, Plan};
use reference::run::bench;

/// The direct bench's view and count of elements sent.
pub fn direct(file: &[u8], set: u16, figures: &[u32], coins: &[u32]) -> (Vec<u32>, usize) {
    let length = Plan::read(file).unwrap().view(set).unwrap();
    let mut seen = vec![0; 4 * length];
    let sent = bench(file, set, &bytes(figures), &bytes(coins), &mut [], &mut seen).unwrap();
    (List::new(&seen, length, 0).unwrap().to_vec(), sent)
}

/// The matched run's coins.
pub fn matched(file: &[u8], set: u16, first: &[u32], second: &[u32], coins: &[u32]) -> Vec<u32> {
    let mut given = vec![0; 4 * coins.len()];
    matching(file, set, &bytes(first), &bytes(second), &bytes(coins), &mut given).unwrap();
    List::new(&given, coins.len(), 0).unwrap().to_vec()
}
