//! Work done before the shift: plans that prepare triples, gates that spend them, and the matching over both runs.

use reference::count::{count, count_size};
use reference::library::REFERENCE;
use reference::matching::{matching, matching_prepared, triples_of};
use reference::plan::{bytes, bytes_of, file, numbers, plan_check, plan_file, Gate, List, Out, Plan, Refusal, Round};
use reference::program::program;
use reference::random::{self, Random};
use reference::record::{read_seat, record, record_size};
use reference::run::{bench, granted, ideal, run_by_calls, run_spending, seen_spending, shares, shares_spending, view};
use reference::seat::seat_call;
use std::collections::HashSet;

const FIGURES: [u32; 2] = [4, 5];
const COINS: [u32; 2] = [2, 3];
const DRAWS: [u32; 6] = [1, 2, 3, 4, 5, 6];
const EARLY: [u32; 9] = [1, 2, 3, 4, 5, 6, 7, 8, 9];
const TRIPLES: [u32; 9] = [1, 8, 8, 7, 1, 3, 2, 5, 9];

/// Plan K with its product by a triple, and the plan that prepares it.
fn k() -> Vec<u8> {
    let gates = [Gate::Input(1), Gate::Input(2), Gate::Spend(0, 1), Gate::Add(2, 0)];
    plan_file(3, 1, 11, &gates, &[Out { seat: 3, wire: 3 }])
}

fn preparing() -> Vec<u8> {
    plan_file(3, 1, 11, &[Gate::Random, Gate::Random, Gate::Multiply(0, 1)], &[])
}

fn refused<T>(number: u8, place: usize) -> Result<T, Refusal> {
    Err(Refusal { number, place })
}

/// The set's view and the elements sent, or the refusal; the triples are zeroed where nothing is refused, and else kept.
fn bench_view(
    file: &[u8],
    set: u16,
    figures: &[u32],
    coins: &[u32],
    triples: &[u32],
) -> Result<(Vec<u32>, usize), Refusal> {
    let length = Plan::read(file)?.view(set)?;
    let (mut view, mut left) = (vec![0; 4 * length], bytes(triples));
    let sent = bench(file, set, &bytes(figures), &bytes(coins), &mut left, &mut view);
    assert_eq!(left, if sent.is_ok() { vec![0; left.len()] } else { bytes(triples) });
    Ok((List::new(&view, length, 0)?.to_vec(), sent?))
}

#[test]
fn the_worked_run() {
    let (plan, first) = (Plan::read(&k()).unwrap(), Plan::read(&preparing()).unwrap());
    assert_eq!(triples_of(&first, &shares(&first, &DRAWS, &EARLY, |_| ())), TRIPLES);
    let mut calls = 0;
    run_by_calls(&preparing(), &DRAWS, &EARLY, |_| calls += 1).unwrap();
    assert_eq!(calls, 3 * 6);
    let mut openings = Vec::new();
    let wires = shares_spending(&plan, &FIGURES, &COINS, &TRIPLES, |grid| {
        openings = grid.iter().map(|row| row[0]).collect();
    });
    assert_eq!(openings, [5, 0, 1, 10, 8, 9]);
    let rows: Vec<&[u32]> = wires.iter().map(|wire| &wire[..3]).collect();
    assert_eq!(rows[2..], [[0, 2, 4], [6, 10, 3]]);
    let run = run_spending(&k(), &FIGURES, &COINS, &TRIPLES, |_| ()).unwrap();
    assert_eq!((run.results, run.sent), (vec![vec![], vec![], vec![2]], 27));
    let text = "plan 3 1 11 4 1\nview 3\nround 0 10 3\nround 1 5 0 1 10 8 9\nround 2 6 10 3\nout 0 3 2\nsent 27\n";
    let two = |list: &[u32]| bytes_of(list, 2);
    let input =
        |triples: &[u32]| [&two(&[45])[..], &k(), &two(&[4]), &two(&FIGURES), &two(&COINS), &two(triples)].concat();
    assert_eq!(program(&input(&TRIPLES)), text);
    assert_eq!(program(&input(&TRIPLES[..8])), "refused 29 0\n");
    assert_eq!(program(&input(&[1, 8, 8, 7, 1, 3, 2, 11])), "refused 13 7\n");
    assert_eq!(program(&input(&[1, 8, 8, 7, 1, 3, 2, 5, 10])), "refused 20 3\n");
}

/// In a preparing plan's finished state the numbers after the first are the seat's triples.
#[test]
fn the_finished_state() {
    let mut last: Vec<u32> = Vec::new();
    run_by_calls(&preparing(), &DRAWS, &EARLY, |step| {
        if step.call == 5 {
            let mut state = step.state.clone();
            seat_call(&preparing(), step.seat, &step.figures, &step.coins, &mut [], &mut state, &step.mail, &mut [])
                .unwrap();
            last.extend(&numbers(&state, 4)[1..]);
        }
    })
    .unwrap();
    assert_eq!(last, TRIPLES);
}

#[test]
fn the_worked_matching() {
    let coins = [&DRAWS[..], &EARLY, &COINS].concat();
    let mut matched = [0; 68];
    let lists = [bytes(&FIGURES), bytes(&[1, 1])];
    matching_prepared(&preparing(), &k(), 4, &lists[0], &lists[1], &bytes(&coins), &mut matched).unwrap();
    let given = numbers(&matched, 4);
    assert_eq!(given, [9, 2, 3, 0, 5, 6, 2, 2, 3, 9, 5, 6, 9, 0, 9, 3, 8]);
    assert_eq!(matching(&k(), 4, &lists[0], &lists[1], &bytes(&COINS), &mut [0; 8]), refused(29, 0));
    assert_eq!(views(&preparing(), &k(), 4, &FIGURES, &coins), views(&preparing(), &k(), 4, &[1, 1], &given));
    let mut wrong = TRIPLES;
    wrong[8] = 10;
    assert_eq!(bench_view(&k(), 4, &FIGURES, &COINS, &wrong), refused(20, 3));
    assert_eq!(bench_view(&k(), 0, &FIGURES, &COINS, &wrong), refused(20, 3));
}

/// A set's views of both runs, from the coin list of the joint matching.
fn views(preparing: &[u8], file: &[u8], set: u16, figures: &[u32], coins: &[u32]) -> [Vec<u32>; 2] {
    let [first, plan] = [preparing, file].map(|file| Plan::read(file).unwrap());
    let (draws, rest) = coins.split_at(first.figures.len());
    let (early, coins) = rest.split_at(first.coins());
    let triples = triples_of(&first, &shares(&first, draws, early, |_| ()));
    let members = plan.members(set).unwrap();
    let main = seen_spending(&plan, &members, figures, coins, &triples).expect("triples of a preparing run");
    [bench_view(preparing, set, draws, early, &[]).unwrap().0, main]
}

#[test]
fn plans_and_sizes() {
    for version in 1..=4 {
        let gates = [Gate::Input(1), Gate::Spend(0, 0)];
        let whole = file(version, (3, 1, 11), &gates, &[], &[1, 2, 3]);
        assert_eq!(plan_check(&whole), Ok(()));
        let wide = file(version, (4, 2, 11), &gates, &[], &[1, 2, 3, 4]);
        assert_eq!(plan_check(&wide), refused(25, 0));
    }
    let spends = |count: usize| [vec![Gate::Input(1)], vec![Gate::Spend(0, 0); count], vec![Gate::Add(9, 9)]].concat();
    assert_eq!(plan_check(&plan_file(3, 1, 11, &spends(341), &[])), Ok(()));
    assert_eq!(plan_check(&plan_file(3, 1, 11, &spends(342), &[])), refused(7, 342));
    assert_eq!(plan_check(&plan_file(3, 1, 11, &[Gate::Spend(0, 0)], &[])), refused(7, 0));
    assert_eq!(plan_check(&plan_file(3, 1, 11, &[Gate::Input(1), Gate::Spend(0, 1)], &[])), refused(7, 1));
    let plan = Plan::read(&k()).unwrap();
    assert_eq!((plan.sent(), plan.last_call(), plan.triples(), plan.coins()), (27, 3, 9, 2));
    assert_eq!(plan.rounds, [Round::Opening(2)]);
    assert_eq!((REFERENCE.seat_size)(&k(), 3, 0, 5) >> 8, 12);
    assert_eq!((REFERENCE.run_size)(&k(), 0, 3) >> 8, 36);
    assert_eq!((REFERENCE.run_size)(&preparing(), 0, 3) >> 8, 0);
    let size = |seat, call, what| (REFERENCE.seat_size)(&k(), seat, call, what) >> 8;
    assert_eq!([0, 1, 2, 3].map(|call| size(1, call, 4)), [12, 24, 4, 0]);
    assert_eq!([0, 1, 2, 3].map(|call| size(3, call, 3)), [0, 8, 24, 12]);
    assert_eq!(reference::charge::elements(&plan), [10, 10, 7]);
    assert_eq!(count_size(&k(), 4), refused(30, 0));
    assert_eq!(count(&k(), 4, &bytes(&FIGURES), &[], &mut []), refused(30, 0));
}

#[test]
fn states_and_spent_triples() {
    let mut steps = Vec::new();
    run_spending(&k(), &FIGURES, &COINS, &TRIPLES, |step| steps.push(step.clone())).unwrap();
    let third: Vec<_> = steps.iter().filter(|step| step.seat == 3).collect();
    let states: Vec<Vec<u32>> = third.iter().map(|step| numbers(&step.state, 4)).collect();
    assert_eq!(states, [vec![0; 5], vec![1, 0, 0, 0, 0], vec![2, 10, 3, 0, 0], vec![3, 10, 3, 4, 3]]);
    let triples: Vec<Vec<u32>> = third.iter().map(|step| numbers(&step.triples, 4)).collect();
    assert_eq!(triples, [[2, 5, 9], [2, 5, 9], [2, 5, 9], [0, 0, 0]]);
    // 13 before 29, also where the count is wrong; 29 before 14; a refused call keeps them
    let call = |triples: &[u8], state: usize| {
        let mut left = triples.to_vec();
        let answer = seat_call(&k(), 3, &[], &[], &mut left, &mut vec![0; state], &[], &mut []);
        assert!(answer.is_err() || left == triples);
        answer
    };
    assert_eq!(call(&bytes(&[2, 11]), 3), refused(13, 1));
    assert_eq!(call(&bytes(&[2, 5, 9, 12]), 3), refused(13, 3));
    assert_eq!(call(&bytes(&[2, 5]), 3), refused(29, 0));
    assert_eq!(call(&[&bytes(&[2, 5, 9])[..], &[0]].concat(), 3), refused(29, 0));
    assert_eq!(call(&bytes(&[2, 5, 9]), 3), refused(14, 0));
    assert_eq!(call(&bytes(&[2, 5, 9]), 20), Ok(()));
    let plain = plan_file(1, 0, 2, &[Gate::Input(1)], &[]);
    assert_eq!(bench(&plain, 0, &bytes(&[1]), &[], &mut [0; 4], &mut []), refused(29, 0));
    assert_eq!(bench(&plain, 0, &bytes(&[1]), &[], &mut [2, 0, 0, 0], &mut []), refused(13, 0));
    assert_eq!(bench(&plain, 0, &bytes(&[1]), &[], &mut [], &mut []), Ok(1));
}

/// A random plan that spends triples, its preparing plan, and the lists of both runs.
struct Worlds {
    file: Vec<u8>,
    preparing: Vec<u8>,
    plan: Plan,
    first: Plan,
    figures: Vec<u32>,
    coins: Vec<u32>,
    draws: Vec<u32>,
    early: Vec<u32>,
    triples: Vec<u32>,
}

fn worlds(random: &mut Random, most: usize) -> Worlds {
    let file = random::spending_plan(random, most);
    let plan = Plan::read(&file).unwrap();
    let preparing = random::preparing_plan(random, &plan);
    let first = Plan::read(&preparing).unwrap();
    let p = plan.field.p();
    let [figures, coins] = [plan.figures.len(), plan.coins()].map(|count| random.elements(count, p));
    let [draws, early] = [first.figures.len(), first.coins()].map(|count| random.elements(count, p));
    let triples = triples_of(&first, &shares(&first, &draws, &early, |_| ()));
    Worlds { file, preparing, plan, first, figures, coins, draws, early, triples }
}

#[test]
fn calls_equal_the_direct_bench_and_the_plans_arithmetic() {
    let mut random = Random(11);
    for round in 0..500 {
        let w = worlds(&mut random, if round % 20 == 0 { 50 } else { 14 });
        let run = run_spending(&w.file, &w.figures, &w.coins, &w.triples, |_| ()).unwrap();
        assert_eq!(run.results, granted(&w.plan, &w.figures));
        let set = random::set(&mut random, w.plan.n, w.plan.t);
        let seen = view(&w.plan, &w.plan.members(set).unwrap(), &w.figures, &w.coins, &run);
        assert_eq!(bench_view(&w.file, set, &w.figures, &w.coins, &w.triples), Ok((seen, run.sent)));
        assert_eq!(run.sent, w.plan.sent());
        let mut stored = vec![0; record_size(&w.file).unwrap()];
        let mut left = bytes(&w.triples);
        record(&w.file, &bytes(&w.figures), &bytes(&w.coins), &mut left, &mut stored).unwrap();
        assert!(left.iter().all(|&byte| byte == 0));
        let seat = random.range(1, usize::from(w.plan.n)) as u16;
        let mut body = vec![0; 4 * w.plan.view_of(seat)];
        read_seat(&w.file, &stored, seat, &mut body).unwrap();
        assert_eq!(numbers(&body, 4), view(&w.plan, &[seat], &w.figures, &w.coins, &run));
    }
}

/// Triples of no preparing run: the bench has the calls' shares, and is refused at the first out in plan order.
#[test]
fn other_triples() {
    let mut random = Random(20);
    let (mut broken, mut kept) = (0, 0);
    for _ in 0..400 {
        let mut w = worlds(&mut random, 8);
        let p = w.plan.field.p();
        let at = random.below(w.triples.len());
        w.triples[at] = random.element(p);
        let wires = shares_spending(&w.plan, &w.figures, &w.coins, &w.triples, |_| ());
        let basis = &w.plan.points[..w.plan.t + 1];
        let off = |shares: &[u32]| {
            (0..usize::from(w.plan.n)).find(|&i| {
                w.plan.field.dot(0, &w.plan.field.weights(basis, w.plan.points[i]), &shares[..basis.len()]) != shares[i]
            })
        };
        let first = w.plan.outs.iter().find_map(|out| off(&wires[out.wire]));
        let got = bench_view(&w.file, 0, &w.figures, &w.coins, &w.triples);
        match first {
            Some(seat) => assert_eq!(got, refused(20, seat + 1)),
            None => assert_eq!(got, Ok((vec![], w.plan.sent()))),
        }
        broken += usize::from(first.is_some());
        kept += usize::from(first.is_none());
        // some seat's last call is refused just where an out breaks
        let run = run_spending(&w.file, &w.figures, &w.coins, &w.triples, |_| ());
        assert_eq!(run.is_err(), first.is_some());
    }
    assert!(broken > 50 && kept > 50, "{broken} {kept}");
}

#[test]
fn matched_runs_give_the_same_views() {
    let mut random = Random(16);
    let mut changed = 0;
    while changed < 300 {
        let w = worlds(&mut random, 10);
        let p = w.plan.field.p();
        let set = random::set(&mut random, w.plan.n, w.plan.t);
        let members = w.plan.members(set).unwrap();
        let second: Vec<u32> = (w.plan.figure_seats().zip(&w.figures))
            .map(|(seat, &x)| if members.contains(&seat) { x } else { random.element(p) })
            .collect();
        let (granted, asked) = (ideal(&w.plan, &w.figures), ideal(&w.plan, &second));
        if w.plan.outs.iter().any(|out| members.contains(&out.seat) && granted[out.wire] != asked[out.wire]) {
            continue;
        }
        let coins = [&w.draws[..], &w.early, &w.coins].concat();
        let join = |first: &[u32], second: &[u32], coins: &[u32]| {
            let mut matched = vec![0; 4 * coins.len()];
            let (first, second) = (bytes(first), bytes(second));
            matching_prepared(&w.preparing, &w.file, set, &first, &second, &bytes(coins), &mut matched).unwrap();
            numbers(&matched, 4)
        };
        let given = join(&w.figures, &second, &coins);
        let seen = views(&w.preparing, &w.file, set, &w.figures, &coins);
        assert_eq!(seen, views(&w.preparing, &w.file, set, &second, &given));
        assert_eq!(join(&second, &w.figures, &given), coins);
        // the draws and coins of members stay
        let owners = [w.first.figure_seats().collect(), w.first.coin_seats(), w.plan.coin_seats()].concat();
        assert!(owners.iter().zip(coins.iter().zip(&given)).all(|(seat, (a, b))| !members.contains(seat) || a == b));
        changed += usize::from(given != coins);
    }
}

/// Over every setting of the others' draws and coins of a tiny pair of plans.
#[test]
fn the_joint_matching_is_a_bijection() {
    let gates = [Gate::Input(1), Gate::Spend(0, 0)];
    let mut random = Random(7);
    for (p, n) in [(2, 1), (3, 2)] {
        // t = 0: draws alone are the preparing run's coins
        let file = plan_file(n, 0, p, &gates, &[]);
        let plan = Plan::read(&file).unwrap();
        let preparing = random::preparing_plan(&mut random, &plan);
        joint(&preparing, &file, 0, [&[0], &[1]]);
    }
    let file = plan_file(3, 1, 5, &gates, &[Out { seat: 2, wire: 1 }]);
    let first = plan_file(3, 1, 5, &[Gate::Random, Gate::Random, Gate::Multiply(0, 1)], &[]);
    joint(&first, &file, 0b100, [&[2], &[3]]);
}

fn joint(preparing: &[u8], file: &[u8], set: u16, lists: [&[u32]; 2]) {
    let [first, plan] = [preparing, file].map(|file| Plan::read(file).unwrap());
    let (p, member) = (plan.field.p(), |seat: &u16| set >> (seat - 1) & 1 == 1);
    let owners = [first.figure_seats().collect(), first.coin_seats(), plan.coin_seats()].concat();
    let places: Vec<usize> = (0..owners.len()).filter(|&place| !member(&owners[place])).collect();
    let settings = (p as usize).pow(places.len() as u32);
    let step = (settings / 20_000).max(1);
    let mut given = HashSet::new();
    let mut coins = vec![1; owners.len()];
    for setting in (0..settings).step_by(step) {
        let mut rest = setting;
        for &place in &places {
            coins[place] = (rest % p as usize) as u32;
            rest /= p as usize;
        }
        let mut matched = vec![0; 4 * coins.len()];
        let figures = lists.map(bytes);
        matching_prepared(preparing, file, set, &figures[0], &figures[1], &bytes(&coins), &mut matched).unwrap();
        let other = numbers(&matched, 4);
        assert_eq!(views(preparing, file, set, lists[0], &coins), views(preparing, file, set, lists[1], &other));
        assert!(owners.iter().zip(coins.iter().zip(&other)).all(|(seat, (a, b))| !member(seat) || a == b));
        assert!(given.insert(other), "given twice");
    }
}

#[test]
fn the_joint_matchings_refusals() {
    let coins = [&DRAWS[..], &EARLY, &COINS].concat();
    let join = |preparing: &[u8], file: &[u8], set: u16, second: &[u32], coins: &[u32], room: usize| {
        matching_prepared(preparing, file, set, &bytes(&FIGURES), &bytes(second), &bytes(coins), &mut vec![7; room])
    };
    let (p, m) = (preparing(), k());
    let whole = |p: &[u8], m: &[u8]| join(p, m, 4, &[1, 1], &coins, 68);
    assert_eq!(whole(&p, &m), Ok(()));
    // each number is tried on the preparing plan, then on the main one
    let change = |file: &[u8], at: usize, byte: u8| {
        let mut file = file.to_vec();
        file[at] = byte;
        file
    };
    assert_eq!(whole(&change(&p, 18, 9), &change(&m, 4, 9)), refused(2, 0));
    assert_eq!(whole(&change(&p, 24, 9), &change(&m, 18, 9)), refused(7, 1));
    assert_eq!(whole(&p, &change(&m, 30, 9)), refused(7, 2));
    assert_eq!(whole(&change(&p, 6, 3), &change(&m, 8, 9)), refused(4, 0));
    assert_eq!(join(&p, &m, 3, &[1], &[], 0), refused(9, 0));
    assert_eq!(join(&p, &m, 8, &[1], &[], 0), refused(9, 0));
    assert_eq!(join(&p, &m, 4, &[1], &[], 0), refused(10, 0));
    assert_eq!(join(&p, &m, 4, &[1, 11], &[], 0), refused(11, 1));
    assert_eq!(join(&p, &m, 4, &[1, 1], &coins[1..], 0), refused(12, 0));
    let with = |place: usize, x: u32| {
        let mut coins = coins.clone();
        coins[place] = x;
        coins
    };
    assert_eq!(join(&p, &m, 4, &[1, 1], &with(0, 11), 0), refused(13, 0));
    assert_eq!(join(&p, &m, 4, &[1, 1], &with(16, 11), 0), refused(13, 16));
    // the preparing part against its own p
    let other = change(&p, 8, 7);
    assert_eq!(join(&other, &m, 4, &[1, 1], &coins, 68), refused(13, 12));
    let mut small = coins.clone();
    small.iter_mut().for_each(|x| *x = (*x).min(6));
    assert_eq!(join(&other, &m, 4, &[1, 1], &small, 68), refused(29, 0));
    assert_eq!(join(&p, &m, 4, &[1, 1], &coins, 67), refused(19, 0));
    assert_eq!(join(&p, &m, 1, &[1, 1], &coins, 68), refused(21, 0));
    assert_eq!(join(&p, &m, 4, &[1, 2], &coins, 68), refused(22, 0));
    for gates in [
        vec![Gate::Random, Gate::Random, Gate::Multiply(1, 0)],
        vec![Gate::Random, Gate::Random, Gate::Multiply(0, 0)],
        vec![Gate::Random, Gate::Random, Gate::Add(0, 1)],
        vec![Gate::Random, Gate::Random, Gate::Multiply(0, 1), Gate::Add(0, 0)],
    ] {
        let other = plan_file(3, 1, 11, &gates, &[]);
        let plan = Plan::read(&other).unwrap();
        let coins = vec![0; plan.figures.len() + plan.coins() + 2];
        assert_eq!(join(&other, &m, 4, &[1, 1], &coins, 4 * coins.len()), refused(29, 0));
    }
    let gates = [Gate::Random, Gate::Random, Gate::Multiply(0, 1)];
    let outs = plan_file(3, 1, 11, &gates, &[Out { seat: 1, wire: 0 }]);
    assert_eq!(join(&outs, &m, 4, &[1, 1], &coins, 68), refused(29, 0));
    let points = file(2, (3, 1, 11), &gates, &[], &[1, 3, 2]);
    assert_eq!(join(&points, &m, 4, &[1, 1], &coins, 68), refused(29, 0));
    for version in 1..=3 {
        let same = file(version, (3, 1, 11), &gates, &[], &[1, 2, 3]);
        assert_eq!(join(&same, &m, 4, &[1, 1], &coins, 68), Ok(()));
    }
    // version 4 takes other coins
    let fourth = file(4, (3, 1, 11), &gates, &[], &[1, 2, 3]);
    assert_eq!(join(&fourth, &m, 4, &[1, 1], &coins, 68), refused(12, 0));
    let more = [&coins[..], &[0; 6]].concat();
    assert_eq!(join(&fourth, &m, 4, &[1, 1], &more, 4 * more.len()), Ok(()));
    // a main plan without such a gate
    let plain = plan_file(3, 1, 11, &[Gate::Input(1), Gate::Input(2)], &[]);
    assert_eq!(join(&p, &plain, 4, &[4, 5], &coins, 68), refused(29, 0));
}
