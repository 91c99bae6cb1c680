//! Times the bench against the way it was worked before (before.rs), in one process: 1,000 multiplies at n = 15, t = 7, and smaller plans. Both write
//! the same view, and the bench takes no longer. Shortest times count, both taken in turn, so that other work on the machine weighs little.

mod before;

use before::NUMBER_BYTES;
use std::time::{Duration, Instant};

extern "C" {
    fn pool_bench(
        plan: *const u8,
        plan_len: usize,
        set: u16,
        figures: *const u8,
        figures_len: usize,
        coins: *const u8,
        coins_len: usize,
        triples: *mut u8,
        triples_len: usize,
        view: *mut u8,
        view_len: usize,
    ) -> u64;
    fn pool_run_size(plan: *const u8, plan_len: usize, set: u16, what: u16) -> u64;
}

const P: u16 = 65521;
const MULTIPLIES: u16 = 1000;

/// An input of each of n seats, then multiplies in a chain; one out for each seat.
fn products(n: u8, t: u8) -> Vec<u8> {
    let gates = u16::from(n) + MULTIPLIES;
    let mut plan = b"POOL\x01".to_vec();
    plan.extend([n, t, 0]);
    for number in [P, 18, gates, 18 + 6 * gates, n.into()] {
        plan.extend(number.to_le_bytes());
    }
    for g in 0..gates {
        let input = g < n.into();
        let (kind, a, b) = if input { (1, g + 1, 0) } else { (5, g - 1, (g - u16::from(n)) % g) };
        plan.extend([kind, 0]);
        plan.extend([a.to_le_bytes(), b.to_le_bytes()].concat());
    }
    for seat in 1..=n {
        plan.push(seat);
        plan.extend((gates - u16::from(seat)).to_le_bytes());
    }
    plan
}

/// Elements, as bytes.
fn elements(seed: &mut u64, bytes: usize) -> Vec<u8> {
    let mut next = || {
        *seed ^= *seed << 13;
        *seed ^= *seed >> 7;
        *seed ^= *seed << 17;
        *seed % u64::from(P)
    };
    (0..bytes / NUMBER_BYTES).flat_map(|_| next().to_le_bytes().into_iter().take(NUMBER_BYTES)).collect()
}

fn shortest(best: &mut Duration, work: impl FnOnce()) {
    let start = Instant::now();
    work();
    *best = start.elapsed().min(*best);
}

/// Both on one plan, with the view of the first `members` seats: whether the bench passes, its view is the one before, and it is no slower.
fn compare(n: u8, t: u8, members: u32) -> [bool; 3] {
    let plan = products(n, t);
    let set = (1u16 << members) - 1;
    let size = |what| (unsafe { pool_run_size(plan.as_ptr(), plan.len(), set, what) } >> 8) as usize;
    let mut seed = 88172645463325252;
    let (figures, coins) = (elements(&mut seed, size(0)), elements(&mut seed, size(1)));
    let (mut view, mut old) = (vec![0; size(2)], vec![0; size(2)]);
    let mut none = [0u8; 1]; // a plan without triples
    let (mut before, mut now, mut answer) = (Duration::MAX, Duration::MAX, 0);
    let start = Instant::now();
    while start.elapsed() < Duration::from_millis(1500) {
        shortest(&mut before, || before::bench(&plan, set, &figures, &coins, &mut old));
        shortest(&mut now, || {
            answer = unsafe {
                pool_bench(
                    plan.as_ptr(),
                    plan.len(),
                    set,
                    figures.as_ptr(),
                    figures.len(),
                    coins.as_ptr(),
                    coins.len(),
                    none.as_mut_ptr(),
                    0,
                    view.as_mut_ptr(),
                    view.len(),
                )
            }
        });
    }
    let ratio = now.as_secs_f64() / before.as_secs_f64();
    println!("n = {n}, t = {t}, {MULTIPLIES} multiplies, view of {members}: before {before:.1?}, now {now:.1?}, ratio {ratio:.2}");
    [answer & 0xff == 0, view == old, now <= before]
}

fn main() {
    let facts = [compare(15, 7, 7), compare(15, 7, 0), compare(5, 2, 2), compare(3, 1, 1)].concat();
    let passed = facts.iter().filter(|&&holds| holds).count();
    println!("{passed} passed, {} failed", facts.len() - passed);
    std::process::exit((passed < facts.len()).into());
}
