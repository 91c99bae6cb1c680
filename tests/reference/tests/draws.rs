//! Random wires: the worked run, draws among the figures, their place in calls, and the matching over every setting.

mod common;
#[path = "common/tiny.rs"]
mod tiny;
#[path = "common/whole.rs"]
mod whole;

use reference::count::{count, count_size};
use reference::field::MOST;
use reference::library::REFERENCE;
use reference::plan::{bytes, bytes_of, file, plan_check, plan_file, Gate, Out, Plan, Refusal, Round};
use reference::program::program;
use reference::random::{self, Random};
use reference::run::{ideal, run_by_calls, shares};
use reference::seat::seat_call;
use whole::{calls_equal_the_bench, matched_shows_the_same};

const FIGURES: [u32; 4] = [4, 1, 2, 3];
const COINS: [u32; 7] = [2, 3, 4, 5, 1, 5, 7];

fn spot_gates() -> [Gate; 4] {
    [Gate::Input(1), Gate::Random, Gate::Multiply(0, 1), Gate::Add(2, 0)]
}

/// Plan K with a random wire for seat 2's input.
fn spot() -> Vec<u8> {
    plan_file(3, 1, 11, &spot_gates(), &[Out { seat: 3, wire: 3 }])
}

fn refused<T>(number: u8, place: usize) -> Result<T, Refusal> {
    Err(Refusal { number, place })
}

#[test]
fn the_worked_run() {
    let plan = Plan::read(&spot()).unwrap();
    assert_eq!(ideal(&plan, &FIGURES), [4, 6, 2, 6]);
    let run = run_by_calls(&spot(), &FIGURES, &COINS, |_| ()).unwrap();
    assert_eq!((run.results, run.sent), (vec![vec![], vec![], vec![6]], 24));
    // by hand: wire 0 is 4 + 2X; the draws 1 + 3X, 2 + 4X and 3 + 5X, so wire 1 is 6 + 12X; the products 6·7, 8·8 and
    // 10·9 are 9, 9 and 2, dealt with 1, 5 and 7, and weighted by 3, 8 and 1
    let wires = shares(&plan, &FIGURES, &COINS, |_| ());
    let rows: Vec<&[u32]> = wires.iter().map(|wire| &wire[..3]).collect();
    assert_eq!(rows, [[6, 8, 10], [7, 8, 9], [8, 3, 9], [3, 0, 8]]);
    let text =
        "plan 3 1 11 4 1\nview 3 3 5 7\nround 0 10\nround 1 10 3 7\nround 2 1 2 1\nround 3 3 0 8\nout 0 3 6\nsent 24\n";
    let two = |list: &[u32]| bytes_of(list, 2);
    let input = [&two(&[45])[..], &spot(), &two(&[4]), &two(&FIGURES), &two(&COINS)].concat();
    assert_eq!(program(&input), text);
}

#[test]
fn the_kinds_rule() {
    assert_eq!(plan_check(&spot()), Ok(()));
    for version in 1..=3 {
        let whole = file(version, (3, 1, 11), &spot_gates(), &[Out { seat: 3, wire: 3 }], &[1, 2, 3]);
        assert_eq!(plan_check(&whole), Ok(()), "version {version}");
        let (head, gate) = [(18, 6), (20, 6), (32, 10)][version as usize - 1];
        for at in 1..gate {
            let mut wrong = whole.clone();
            wrong[head + gate + at] = 1;
            assert_eq!(plan_check(&wrong), refused(7, 1), "version {version}, byte {at} of the gate");
        }
    }
    // no majority is needed where nothing multiplies
    let free = |n, t, gates: &[Gate]| plan_check(&plan_file(n, t, 17, gates, &[Out { seat: 1, wire: 0 }]));
    assert_eq!(free(15, 14, &[Gate::Random]), Ok(()));
    assert_eq!(free(2, 1, &[Gate::Random, Gate::Add(0, 0)]), Ok(()));
    assert_eq!(free(2, 1, &[Gate::Random, Gate::Multiply(0, 0)]), refused(25, 0));
}

#[test]
fn lists_and_sizes() {
    let plan = Plan::read(&spot()).unwrap();
    assert_eq!((plan.last_call(), plan.sent()), (4, 24));
    assert_eq!(plan.rounds, [Round::Draw(1), Round::Product(2)]);
    assert_eq!(plan.figure_seats().collect::<Vec<_>>(), [1, 1, 2, 3]);
    assert_eq!(plan.coin_seats(), [1, 1, 2, 3, 1, 2, 3]);
    assert_eq!([1, 2, 3].map(|seat| plan.figures_of(seat)), [2, 1, 1]);
    assert_eq!([1, 2, 3].map(|seat| plan.coins_of(seat)), [3, 2, 2]);
    let size = |seat, call, what| (REFERENCE.seat_size)(&spot(), seat, call, what) >> 8;
    assert_eq!([0, 1, 2, 3, 4, 5].map(|call| size(1, call, 4)), [12, 12, 12, 4, 0, 0]);
    assert_eq!([0, 1, 2, 3, 4, 5].map(|call| size(2, call, 4)), [0, 12, 12, 4, 0, 0]);
    assert_eq!([0, 1, 2, 3, 4, 5].map(|call| size(3, call, 3)), [0, 4, 12, 12, 12, 0]);
    assert_eq!([0, 1, 2].map(|what| (REFERENCE.run_size)(&spot(), 4, what) >> 8), [16, 28, 4 * 14]);
    assert_eq!((REFERENCE.record_size)(&spot()) >> 8, 24 + 4 * (2 + 3 + 7 + 1 + 2 + 7 + 1 + 2 + 7 + 3 + 1));
}

/// Inputs that stand after random wires are dealt in round 0; a seat's figures and coins stand by gate.
#[test]
fn inputs_after_random_wires() {
    let gates = [Gate::Random, Gate::Input(2), Gate::Random, Gate::Input(2), Gate::Add(0, 3), Gate::Add(4, 2)];
    let file = plan_file(2, 1, 11, &gates, &[Out { seat: 1, wire: 5 }]);
    let plan = Plan::read(&file).unwrap();
    assert_eq!(plan.figure_seats().collect::<Vec<_>>(), [1, 2, 2, 1, 2, 2]);
    let (figures, coins) = ([1, 2, 3, 4, 5, 6], [7, 8, 9, 10, 0, 1]);
    let mut calls = Vec::new();
    let run = run_by_calls(&file, &figures, &coins, |step| {
        if step.seat == 2 {
            calls.push((step.figures.clone(), step.coins.clone(), step.written.clone()));
        }
    });
    assert!(calls.iter().all(|call| (&call.0, &call.1) == (&bytes(&[2, 3, 5, 6]), &bytes(&[8, 9, 0, 1]))));
    let written: Vec<Vec<u8>> = calls.into_iter().map(|call| call.2).collect();
    // 3 + 9X and 6 + X; 2 + 8X; 5
    assert_eq!(written[..3], [bytes(&[1, 7, 10, 8]), bytes(&[10, 7]), bytes(&[5, 5])]);
    assert_eq!(run.unwrap().results, [vec![(1 + 2 + 4 + 5 + 6) % 11], vec![]]);
}

#[test]
fn states_and_call_numbers() {
    let mut states = Vec::new();
    run_by_calls(&spot(), &FIGURES, &COINS, |step| {
        if step.seat == 3 {
            states.push(step.state.clone());
        }
    })
    .unwrap();
    let expected = [[0, 0, 0, 0, 0], [1, 0, 0, 0, 0], [2, 10, 0, 0, 0], [3, 10, 9, 0, 0], [4, 10, 9, 9, 8]];
    assert_eq!(states, expected.map(|state| bytes(&state)));
    let call = |first: u32| {
        let mut state = bytes(&[first, 0, 0, 0, 0]);
        seat_call(&spot(), 3, &bytes(&[3]), &bytes(&[5, 7]), &mut [], &mut state, &[], &mut [])
    };
    assert_eq!([4, 5, 6].map(call), [refused(17, 0), refused(16, 0), refused(15, 0)]);
}

#[test]
fn calls_equal_the_direct_bench_and_the_plans_arithmetic() {
    let mut random = Random(10);
    for round in 0..800 {
        let file = random::drawn_plan(&mut random, if round % 20 == 0 { 60 } else { 16 });
        calls_equal_the_bench(&mut random, &file);
    }
}

#[test]
fn matched_runs_give_the_same_view() {
    let mut random = Random(16);
    let mut changed = 0;
    while changed < 400 {
        let file = random::drawn_plan(&mut random, 14);
        changed += usize::from(matched_shows_the_same(&mut random, &file) == Some(true));
    }
}

/// A member's own draw is held equal, like its other figures; the others' are not.
#[test]
fn whose_draws_are_held() {
    let call = |second: &[u32]| {
        let mut matched = [0; 28];
        let lists = [&FIGURES, second].map(bytes);
        reference::matching::matching(&spot(), 4, &lists[0], &lists[1], &bytes(&COINS), &mut matched)
    };
    // the draws' sum counts
    assert_eq!(call(&[4, 2, 1, 3]), Ok(()));
    assert_eq!(call(&[4, 1, 1, 4]), refused(21, 3));
    assert_eq!(call(&[4, 2, 2, 3]), refused(22, 0));
    assert_eq!(call(&[5, 1, 2, 3]), refused(22, 0));
    assert_eq!(call(&[4, 1, 2]), refused(10, 0));
    assert_eq!(call(&[4, 1, 2, 11]), refused(11, 3));
}

#[test]
fn views_with_draws_are_not_counted() {
    for (gates, refusal) in [(vec![Gate::Input(1)], None), (vec![Gate::Input(1), Gate::Random], Some(30))] {
        let file = plan_file(2, 1, 3, &gates, &[Out { seat: 1, wire: 0 }]);
        let size = count_size(&file, 2);
        assert_eq!(size.err().map(|refusal| refusal.number), refusal);
        assert_eq!(count_size(&file, 3), refused(9, 0));
    }
    // 30 is told whatever the members' coins leave, after 13 and before 19
    let file = plan_file(1, 0, 2, &[Gate::Random], &[Out { seat: 1, wire: 0 }]);
    assert_eq!(count_size(&file, 0), refused(30, 0));
    assert_eq!(count(&file, 0, &bytes(&[1]), &[], &mut [0; 3]), refused(30, 0));
    assert_eq!(count(&file, 0, &bytes(&[1]), &bytes(&[1]), &mut [0; 3]), refused(12, 0));
    assert_eq!(count(&file, 0, &bytes(&[2]), &[], &mut [0; 3]), refused(11, 0));
}

#[test]
fn matching_is_a_bijection_on_tiny_plans() {
    let mut random = Random(6);
    for points in [[1, 2, 3], [4, 2, 1]] {
        for seat in 1..=3 {
            let mut on = |gates: &[Gate], wire| {
                let file = file(2, (3, 1, 5), gates, &[Out { seat, wire }], &points);
                tiny::bijection(&mut random, &file, 1 << (seat - 1), 4);
            };
            on(&[Gate::Random], 0);
            on(&[Gate::Random, Gate::Input(1), Gate::Add(0, 1)], 2);
            on(&[Gate::Input(2), Gate::Random, Gate::Scale(1, 3)], 2);
            on(&[Gate::Random, Gate::Multiply(0, 0)], 1);
        }
    }
    // without a majority, up to two members
    for (set, seat) in [(0b011, 3), (0b101, 2), (0b110, 1), (0b001, 1)] {
        let file = plan_file(3, 2, 5, &[Gate::Random, Gate::Offset(0, 3)], &[Out { seat, wire: 1 }]);
        tiny::bijection(&mut random, &file, set, 2);
    }
}

#[test]
fn at_the_ends() {
    let wires = vec![Gate::Random; 1024];
    let file = file(3, (15, 14, MOST), &wires, &[Out { seat: 15, wire: 1023 }], &(1..=15).collect::<Vec<u32>>());
    let plan = Plan::read(&file).unwrap();
    assert_eq!((plan.figures.len(), plan.coins(), plan.last_call()), (15_360, 215_040, 1026));
    assert_eq!((plan.figures_of(9), plan.coins_of(9)), (1024, 14_336));
    assert_eq!(plan.sent(), 15 * (1024 * 15 + 1));
    let (figures, coins) = (vec![MOST - 1; 15_360], vec![MOST - 1; 215_040]);
    let wires = shares(&plan, &figures, &coins, |_| ());
    assert_eq!(plan.field.dot(0, &plan.field.weights(&plan.points, 0), &wires[1023]), MOST - 15);
}

/// How many of the comparison's plans have what a random wire may meet.
#[test]
fn the_generator_meets_them() {
    let mut random = Random(20_270_110);
    let mut met = [0; 10];
    for round in 0..4000 {
        let file = random::drawn_plan(&mut random, [2, 3, 5, 8, 12][round % 5]);
        let plan = Plan::read(&file).unwrap();
        let is = |wire: usize| plan.gates[wire] == Gate::Random;
        let first = plan.gates.iter().position(|gate| *gate == Gate::Random).expect("a random wire");
        let n = usize::from(plan.n);
        let facts = [
            plan.gates.iter().all(|gate| *gate == Gate::Random),
            plan.inputs.iter().any(|input| input.0 > first),
            plan.rounds.windows(3).any(|three| matches!(three, [Round::Product(_), Round::Draw(_), Round::Product(_)])),
            plan.outs.iter().any(|out| is(out.wire)),
            plan.gates.iter().any(|gate| matches!(*gate, Gate::Scale(a, _) if is(a))),
            plan.gates.iter().any(|gate| matches!(*gate, Gate::Offset(a, _) if is(a))),
            plan.gates.iter().any(|gate| matches!(*gate, Gate::Multiply(a, b) if is(a) || is(b))),
            plan.t + 1 == n && n > 1,
            2 * plan.t >= n,
            !plan.points.iter().copied().eq(1..=u32::from(plan.n)),
        ];
        met.iter_mut().zip(facts).for_each(|(met, fact)| *met += usize::from(fact));
    }
    assert!(met.iter().all(|&met| met >= 80), "{met:?}");
}
