//! The matching over every setting of the others' coins of a tiny plan.

use super::common::{direct, matched};
use reference::plan::Plan;
use reference::random::Random;
use reference::run::ideal;
use std::collections::HashSet;

/// For so many pairs of lists that agree for the set, over every setting of the others' coins, with any coins of the members': the matched runs'
/// views are equal, the members' coins stay, and each setting is given once.
pub fn bijection(random: &mut Random, file: &[u8], set: u16, pairs: usize) {
    let plan = Plan::read(file).unwrap();
    let (p, seats) = (plan.field.p(), plan.coin_seats());
    let member = |seat: u16| set >> (seat - 1) & 1 == 1;
    let others: Vec<usize> = (0..seats.len()).filter(|&place| !member(seats[place])).collect();
    for _ in 0..pairs {
        let (first, second) = agreeing(random, &plan, member);
        let mut coins = random.elements(seats.len(), p);
        others.iter().for_each(|&place| coins[place] = 0);
        let mut given = HashSet::new();
        loop {
            let other = matched(file, set, &first, &second, &coins);
            assert_eq!(direct(file, set, &first, &coins), direct(file, set, &second, &other));
            assert!((0..seats.len()).all(|place| !member(seats[place]) || coins[place] == other[place]));
            assert!(given.insert(other), "a setting is given twice");
            let Some(digit) = others.iter().rposition(|&place| coins[place] < p - 1) else { break };
            coins[others[digit]] += 1;
            others[digit + 1..].iter().for_each(|&place| coins[place] = 0);
        }
        assert_eq!(given.len(), (p as usize).pow(others.len() as u32));
    }
}

/// Two lists of figures that differ, though not at the members' figures and outs.
fn agreeing(random: &mut Random, plan: &Plan, member: impl Fn(u16) -> bool) -> (Vec<u32>, Vec<u32>) {
    let p = plan.field.p();
    loop {
        let first: Vec<u32> = plan.figures.iter().map(|_| random.below(p as usize) as u32).collect();
        let any = |(seat, &x)| if member(seat) { x } else { random.below(p as usize) as u32 };
        let second: Vec<u32> = plan.figure_seats().zip(&first).map(any).collect();
        let (granted, asked) = (ideal(plan, &first), ideal(plan, &second));
        if first != second && plan.outs.iter().all(|out| !member(out.seat) || granted[out.wire] == asked[out.wire]) {
            return (first, second);
        }
    }
}
