//! Runs of any plan: by calls against the direct bench and the plan's arithmetic, and a matched pair of them.

use super::common::{direct, matched};
use reference::plan::Plan;
use reference::random::{self, Random};
use reference::run::{granted, ideal, run_by_calls, view};

/// A run with random figures and coins: the calls' results are the plan's arithmetic, and the direct bench sees and counts what they sent.
pub fn calls_equal_the_bench(random: &mut Random, file: &[u8]) {
    let plan = Plan::read(file).unwrap();
    let p = plan.field.p();
    let figures = random.elements(plan.figures.len(), p);
    let coins = random.elements(plan.coins(), p);
    let run = run_by_calls(file, &figures, &coins, |_| ()).unwrap();
    assert_eq!(run.results, granted(&plan, &figures));
    let set = random::set(random, plan.n, plan.t);
    let seen = view(&plan, &plan.members(set).unwrap(), &figures, &coins, &run);
    assert_eq!(direct(file, set, &figures, &coins), (seen, run.sent));
    assert_eq!(run.sent, plan.sent());
}

/// Two random lists of figures: where they agree for a random set, the matched run shows it the same, and matching back gives the coins taken.
/// Whether a coin changed; nothing where the lists don't agree.
pub fn matched_shows_the_same(random: &mut Random, file: &[u8]) -> Option<bool> {
    let plan = Plan::read(file).unwrap();
    let p = plan.field.p();
    let set = random::set(random, plan.n, plan.t);
    let members = plan.members(set).unwrap();
    let first = random.elements(plan.figures.len(), p);
    let second: Vec<u32> = (plan.figure_seats().zip(&first))
        .map(|(seat, &x)| if members.contains(&seat) { x } else { random.element(p) })
        .collect();
    let (granted, asked) = (ideal(&plan, &first), ideal(&plan, &second));
    if plan.outs.iter().any(|out| members.contains(&out.seat) && granted[out.wire] != asked[out.wire]) {
        return None;
    }
    let coins = random.elements(plan.coins(), p);
    let given = matched(file, set, &first, &second, &coins);
    assert_eq!(direct(file, set, &first, &coins), direct(file, set, &second, &given));
    assert_eq!(matched(file, set, &second, &first, &given), coins);
    Some(given != coins)
}
