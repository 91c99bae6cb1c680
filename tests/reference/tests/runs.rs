//! Facts about whole runs, over random plans and over every setting of coins of tiny ones.

mod common;
#[path = "common/whole.rs"]
mod whole;

use common::{direct, matched};
use reference::plan::{plan_file, Gate, Out, Plan};
use reference::random::{self, Random};
use reference::run::ideal;
use std::collections::HashSet;
use whole::{calls_equal_the_bench, matched_shows_the_same};

#[test]
fn calls_equal_the_direct_bench_and_the_plans_arithmetic() {
    let mut random = Random(1);
    for round in 0..600 {
        let plan = if round < 400 { random::plan } else { random::wide_plan };
        let file = plan(&mut random, 40);
        calls_equal_the_bench(&mut random, &file);
    }
}

#[test]
fn matched_runs_give_the_same_view() {
    let mut random = Random(2);
    let mut changed = 0;
    while changed < 450 {
        let plan = if changed < 300 { random::plan } else { random::wide_plan };
        let file = plan(&mut random, 16);
        changed += usize::from(matched_shows_the_same(&mut random, &file) == Some(true));
    }
}

/// Every setting of `count` coins below `p`.
fn settings(count: usize, p: u32) -> impl Iterator<Item = Vec<u32>> {
    (0..(p as usize).pow(count as u32)).map(move |mut x| {
        let mut digit = || {
            let coin = (x % p as usize) as u32;
            x /= p as usize;
            coin
        };
        (0..count).map(|_| digit()).collect()
    })
}

/// Over every setting, for every pair of lists that agree for the set: equal views, and each setting given once.
fn matching_is_a_bijection((n, t): (u8, u8), gates: &[Gate], outs: &[Out], set: u16, least: usize) {
    let file = plan_file(n, t, 5, gates, outs);
    let plan = Plan::read(&file).unwrap();
    let members = plan.members(set).unwrap();
    let agree = |first: &[u32], second: &[u32]| {
        let (granted, asked) = (ideal(&plan, first), ideal(&plan, second));
        plan.figure_seats().enumerate().all(|(i, seat)| !members.contains(&seat) || first[i] == second[i])
            && plan.outs.iter().all(|out| !members.contains(&out.seat) || granted[out.wire] == asked[out.wire])
    };
    let mut pairs = 0;
    for first in settings(plan.figures.len(), 5).step_by(7) {
        for second in settings(plan.figures.len(), 5).filter(|second| agree(&first, second) && *second != first).take(3)
        {
            let mut given = HashSet::new();
            for coins in settings(plan.coins(), 5) {
                let other = matched(&file, set, &first, &second, &coins);
                assert_eq!(direct(&file, set, &first, &coins), direct(&file, set, &second, &other));
                given.insert(other);
            }
            assert_eq!(given.len(), 5usize.pow(plan.coins() as u32));
            pairs += 1;
        }
    }
    assert!(pairs >= least, "only {pairs} pairs");
}

#[test]
fn matching_is_a_bijection_on_tiny_plans() {
    let product = [Gate::Input(1), Gate::Input(2), Gate::Multiply(0, 1), Gate::Add(2, 0)];
    matching_is_a_bijection((3, 1), &product, &[Out { seat: 3, wire: 3 }], 0b100, 3);
    matching_is_a_bijection((3, 1), &product, &[Out { seat: 3, wire: 3 }], 0b001, 3);
    let square = [Gate::Input(2), Gate::Multiply(0, 0), Gate::Input(3), Gate::Add(1, 2)];
    matching_is_a_bijection((3, 1), &square, &[Out { seat: 1, wire: 3 }, Out { seat: 2, wire: 1 }], 0b001, 3);
    let sum = [Gate::Input(1), Gate::Input(2), Gate::Input(3), Gate::Add(0, 1), Gate::Add(3, 2), Gate::Scale(4, 3)];
    matching_is_a_bijection((3, 1), &sum, &[Out { seat: 2, wire: 5 }, Out { seat: 2, wire: 4 }], 0b010, 3);
    let pair = [Gate::Input(1), Gate::Input(2), Gate::Input(1), Gate::Add(0, 1), Gate::Add(3, 2)];
    matching_is_a_bijection((2, 1), &pair, &[Out { seat: 2, wire: 4 }, Out { seat: 1, wire: 4 }], 0b10, 3);
    let three = [Gate::Input(3), Gate::Input(1), Gate::Add(0, 1)];
    matching_is_a_bijection((3, 2), &three, &[Out { seat: 3, wire: 2 }], 0b011, 3);
}
