//! Counting the views: the worked rows, the limits, every setting by the seats' own calls, and what two lists of figures and sets of t and of
//! fewer members show.

use reference::count::{count, count_size};
use reference::field::MOST;
use reference::plan::{bytes, file, numbers, plan_file, Gate, Out, Plan, Refusal};
use reference::random::{self, Random};
use reference::run::{ideal, own, run_by_calls, view};
use std::collections::BTreeMap;

fn refused<T>(number: u8, place: usize) -> Result<T, Refusal> {
    Err(Refusal { number, place })
}

/// The rows of a plan that passes, without those left over.
fn rows(file: &[u8], set: u16, figures: &[u32], coins: &[u32]) -> Vec<(Vec<u32>, u32)> {
    let mut list = vec![7; count_size(file, set).unwrap()];
    count(file, set, &bytes(figures), &bytes(coins), &mut list).unwrap();
    let width = Plan::read(file).unwrap().view(set).unwrap() + 1;
    let numbers = numbers(&list, 4);
    let all = numbers.chunks_exact(width).map(|row| (row[..width - 1].to_vec(), row[width - 1]));
    let (reached, left): (Vec<_>, Vec<_>) = all.partition(|row| row.1 > 0);
    assert!(left.iter().all(|(view, _)| view.iter().all(|&x| x == 0)));
    assert!(numbers[reached.len() * width..].iter().all(|&x| x == 0), "rows left over stand last");
    reached
}

/// Inputs of seats 1 to n and their total, for seat 1.
fn total(version: u8, n: u8, t: u8, p: u32) -> Vec<u8> {
    let mut gates: Vec<Gate> = (1..=u16::from(n)).map(Gate::Input).collect();
    for seat in 1..usize::from(n) {
        gates.push(Gate::Add(if seat == 1 { 0 } else { gates.len() - 1 }, seat));
    }
    let points: Vec<u32> = (1..=u32::from(n)).collect();
    file(version, (n, t, p), &gates, &[Out { seat: 1, wire: gates.len() - 1 }], &points)
}

/// So many inputs of seat 1 of 2, which has a coin for each.
fn inputs(version: u8, p: u32, inputs: usize) -> Vec<u8> {
    file(version, (2, 1, p), &vec![Gate::Input(1); inputs], &[Out { seat: 1, wire: 0 }], &[1, 2])
}

#[test]
fn the_worked_rows() {
    for version in 1..=3 {
        let file = total(version, 2, 1, 3);
        assert_eq!(count_size(&file, 2), Ok(4 * 5 * 3));
        let worked = [(vec![2, 1, 0, 1], 1), (vec![2, 1, 1, 1], 1), (vec![2, 1, 2, 1], 1)];
        assert_eq!(rows(&file, 2, &[1, 2], &[1]), worked);
        assert_eq!(rows(&file, 2, &[0, 2], &[1]), worked);
    }
}

#[test]
fn as_many_settings_as_there_may_be() {
    for (version, p, coins, settings) in
        [(1, 65521, 1, 65521), (1, 251, 2, 63001), (1, 3, 10, 59049), (2, 3, 10, 59049), (3, 65521, 1, 65521)]
    {
        let file = inputs(version, p, coins);
        // seat 2 sees a piece of each input
        assert_eq!(count_size(&file, 2), Ok(4 * (coins + 1) * settings));
        let found = rows(&file, 2, &vec![p - 1; coins], &[]);
        assert_eq!(found.len(), settings);
        assert!(found.iter().all(|row| row.1 == 1) && found.is_sorted());
    }
    for (version, p, coins) in [(1, 257, 2), (3, 65537, 1), (1, 65521, 2), (1, 3, 11), (3, MOST, 3), (1, 3, 1024)] {
        let file = inputs(version, p, coins);
        assert_eq!(count_size(&file, 2), refused(30, 0));
        assert_eq!(count(&file, 2, &bytes(&vec![0; coins]), &[], &mut []), refused(30, 0));
        // the member's own coins are given
        assert_eq!(count_size(&file, 1), Ok(4 * (Plan::read(&file).unwrap().view(1).unwrap() + 1)));
    }
}

#[test]
fn the_empty_set_and_no_threshold() {
    let file = total(1, 2, 1, 3);
    assert_eq!(count_size(&file, 0), Ok(4 * 9));
    assert_eq!(rows(&file, 0, &[1, 2], &[]), [(vec![], 9)]);
    let gates = [Gate::Input(1), Gate::Input(2), Gate::Multiply(0, 1)];
    for p in [5, 65521] {
        let file = plan_file(3, 0, p, &gates, &[Out { seat: 1, wire: 2 }]);
        assert_eq!(count_size(&file, 0), Ok(4));
        assert_eq!(rows(&file, 0, &[1, 2], &[]), [(vec![], 1)]);
        assert_eq!(count_size(&file, 1), refused(9, 0));
    }
}

#[test]
fn the_order_of_refusals() {
    let file = inputs(1, 257, 2);
    let call = |set, figures: &[u32], coins: &[u32], room| {
        count(&file, set, &bytes(figures), &bytes(coins), &mut vec![0; room])
    };
    assert_eq!(call(3, &[257], &[257], 1), refused(9, 0));
    assert_eq!(call(2, &[257], &[257], 1), refused(10, 0));
    assert_eq!(call(2, &[0, 257], &[257], 1), refused(11, 1));
    assert_eq!(call(2, &[0, 0], &[257], 1), refused(12, 0));
    assert_eq!(call(1, &[0, 0], &[0, 257], 1), refused(13, 1));
    assert_eq!(call(2, &[0, 0], &[], 1), refused(30, 0));
    assert_eq!(call(1, &[0, 0], &[0, 0], 1), refused(19, 0));
    assert_eq!(count_size(&file, 3), refused(9, 0));
    assert_eq!(count(&file[..32], 2, &[], &[], &mut []), refused(6, 0));
}

/// A random tiny plan with a set, figures and the members' coins.
fn tiny(random: &mut Random) -> (Vec<u8>, u16, Vec<u32>, Vec<u32>) {
    let (file, set) = random::tiny_plan(random, 700);
    let plan = Plan::read(&file).unwrap();
    let (p, coins) = (plan.field.p(), members(&plan, set).iter().map(|&seat| plan.coins_of(seat)).sum());
    (file, set, random.elements(plan.figures.len(), p), random.elements(coins, p))
}

fn members(plan: &Plan, set: u16) -> Vec<u16> {
    plan.members(set).unwrap()
}

/// How many of the others' dealings there are, from the gates.
fn other_dealings(plan: &Plan, set: u16) -> u32 {
    let other = |seat: u16| u32::from(set >> (seat - 1) & 1 == 0);
    let dealings = |gate: &Gate| match *gate {
        Gate::Input(seat) => other(seat),
        Gate::Multiply(..) => (1..=2 * plan.t as u16 + 1).map(other).sum(),
        _ => 0,
    };
    plan.gates.iter().map(dealings).sum()
}

#[test]
fn every_setting_by_the_seats_calls() {
    let mut random = Random(13);
    for _ in 0..60 {
        let (file, set, figures, coins) = tiny(&mut random);
        let plan = Plan::read(&file).unwrap();
        let (p, seats, members) = (plan.field.p(), plan.coin_seats(), members(&plan, set));
        let mut counts: BTreeMap<Vec<u32>, u32> = BTreeMap::new();
        let mut others = vec![0; seats.iter().filter(|seat| !members.contains(seat)).count()];
        loop {
            let (mut given, mut free) = (coins.iter(), others.iter());
            let next = |seat| if members.contains(seat) { *given.next().unwrap() } else { *free.next().unwrap() };
            let all: Vec<u32> = seats.iter().map(next).collect();
            let run = run_by_calls(&file, &figures, &all, |_| ()).unwrap();
            *counts.entry(view(&plan, &members, &figures, &all, &run)).or_default() += 1;
            let Some(place) = others.iter().rposition(|&coin| coin < p - 1) else { break };
            others[place] += 1;
            others[place + 1..].fill(0);
        }
        assert_eq!(rows(&file, set, &figures, &coins), counts.into_iter().collect::<Vec<_>>());
    }
}

#[test]
fn what_the_counts_show() {
    let mut random = Random(26);
    let (mut full, mut several, mut same) = (0, 0, 0);
    for _ in 0..1500 {
        let (file, set, figures, coins) = tiny(&mut random);
        let plan = Plan::read(&file).unwrap();
        let first = rows(&file, set, &figures, &coins);
        let settings = plan.field.p().pow(plan.t as u32 * other_dealings(&plan, set));
        assert_eq!(first.iter().map(|row| row.1).sum::<u32>(), settings, "the counts add up to the settings");
        assert!(first.is_sorted());
        if set.count_ones() as usize == plan.t {
            assert_eq!(first.len() as u32, settings, "for exactly t members no view has two settings");
            full += 1;
        }
        several += usize::from(first.iter().any(|row| row.1 > 1));
        let second = random.elements(figures.len(), plan.field.p());
        let member = |seat: u16| set >> (seat - 1) & 1 == 1;
        let second: Vec<u32> = (plan.figure_seats().zip(&figures).zip(&second))
            .map(|((seat, &first), &second)| if member(seat) { first } else { second })
            .collect();
        let (granted, asked) = (ideal(&plan, &figures), ideal(&plan, &second));
        if plan.outs.iter().all(|out| !member(out.seat) || granted[out.wire] == asked[out.wire]) {
            assert_eq!(rows(&file, set, &second, &coins), first, "the same views, each as often");
            same += usize::from(second != figures);
        }
    }
    assert!(full >= 300 && several >= 300 && same >= 300, "{full} {several} {same}");
}

#[test]
fn the_members_coins_stand_in_the_whole_lists_order() {
    // seats 1 and 2 of 5 deal in turn; a view has each seat's coins apart
    let gates = [Gate::Input(2), Gate::Input(1), Gate::Input(2)];
    let file = plan_file(5, 2, 7, &gates, &[Out { seat: 5, wire: 0 }]);
    let found = rows(&file, 3, &[0, 0, 0], &[1, 2, 3, 4, 5, 6]);
    assert_eq!(found.len(), 1);
    assert_eq!((&found[0].0[..3], &found[0].0[6..12]), (&[0, 3, 4][..], &[0, 0, 1, 2, 5, 6][..]));
    let plan = Plan::read(&file).unwrap();
    assert_eq!(own(&[1, 2, 3, 4, 5, 6], plan.coin_seats(), 1), [3, 4]);
}
