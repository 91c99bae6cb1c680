//! Plans of version 4: products masked by dealings of 0 and cut off by the matrix, in three rounds.

mod common;
#[path = "common/tiny.rs"]
mod tiny;
#[path = "common/whole.rs"]
mod whole;

use common::{direct, matched};
use reference::convert::convert_file;
use reference::count::{count, count_size};
use reference::field::{Field, MOST};
use reference::library::REFERENCE;
use reference::plan::{bytes, bytes_of, file, numbers, plan_check, Gate, Out, Plan, Refusal, Round};
use reference::program::program;
use reference::random::{self, Random};
use reference::run::{ideal, run_by_calls, shares, Seats};
use reference::seat::seat_call;
use whole::{calls_equal_the_bench, matched_shows_the_same};

const FIGURES: [u32; 2] = [4, 5];
const COINS: [u32; 11] = [2, 3, 1, 2, 3, 4, 5, 6, 7, 8, 9];

fn k_gates() -> [Gate; 4] {
    [Gate::Input(1), Gate::Input(2), Gate::Multiply(0, 1), Gate::Add(2, 0)]
}

/// Plan K in a version.
fn k(version: u8) -> Vec<u8> {
    file(version, (3, 1, 11), &k_gates(), &[Out { seat: 3, wire: 3 }], &[1, 2, 3])
}

fn refused<T>(number: u8, place: usize) -> Result<T, Refusal> {
    Err(Refusal { number, place })
}

/// The bench program's input, with numbers of four bytes.
fn input(file: &[u8], set: u16, list: &[u32]) -> Vec<u8> {
    let two = |x: u32| bytes_of(&[x], 2);
    [&two(file.len() as u32)[..], file, &two(u32::from(set)), &bytes(list)].concat()
}

#[test]
fn the_matrix() {
    let plan = Plan::read(&k(4)).unwrap();
    assert_eq!(plan.matrix(), [[6, 1, 5], [9, 5, 9], [1, 9, 2]]);
    // any polynomial of less degree than there are points, without what is above t
    let mut random = Random(1988);
    for round in 0..400 {
        let p = [17, 101, 65521, MOST][round % 4];
        let field = Field::new(p).unwrap();
        let n = random.range(1, 15) as u16;
        let t = random.below(usize::from(n));
        let points = random::points(&mut random, n, p);
        let all: Vec<u32> = (0..n).map(|_| random.element(p)).collect();
        let value = |of: &[u32], x: u32| of.iter().rev().fold(0, |sum, &c| field.add(field.mul(sum, x), c));
        let values: Vec<u32> = points.iter().map(|&x| value(&all, x)).collect();
        let cut: Vec<u32> = points.iter().map(|&x| value(&all[..=t], x)).collect();
        let matrix = field.cut_off(&points, t);
        assert_eq!(matrix.iter().map(|row| field.dot(0, row, &values)).collect::<Vec<u32>>(), cut);
        for (i, of) in field.basis(&points).iter().enumerate() {
            assert!((0..points.len()).all(|j| value(of, points[j]) == u32::from(i == j)));
        }
    }
}

#[test]
fn the_worked_run() {
    let plan = Plan::read(&k(4)).unwrap();
    let mut grids: Vec<Vec<Vec<u32>>> = Vec::new();
    let wires = shares(&plan, &FIGURES, &COINS, |grid| {
        grids.push(grid.iter().map(|row| row[..3].to_vec()).collect());
    });
    // zeros X + 2X², 4X + 5X², 7X + 8X²; so products 4, 0, 8 are masked as 9, 7 and 3, and dealt with 3, 6 and 9
    assert_eq!(grids[0], [[3, 10, 10], [9, 6, 2], [4, 2, 5]]);
    assert_eq!(grids[1], [[1, 4, 7], [2, 8, 3], [1, 10, 8]]);
    let rows: Vec<&[u32]> = wires.iter().map(|wire| &wire[..3]).collect();
    assert_eq!(rows[2..], [[10, 0, 1], [5, 8, 0]]);
    let run = run_by_calls(&k(4), &FIGURES, &COINS, |_| ()).unwrap();
    assert_eq!((run.results, run.sent), (vec![vec![], vec![], vec![2]], 36));
    assert_eq!(grids.len(), 3);
    for (round, grid) in (1..).zip(&grids) {
        let columns: Vec<Vec<u32>> = (0..3).map(|i| grid.iter().map(|row| row[i]).collect()).collect();
        assert_eq!(run.mail[round], columns);
    }
    let text =
        "plan 3 1 11 4 1\nview 3 7 8 9\nround 0 10 3\nround 1 10 2 5\nround 2 7 3 8\nround 3 10 8 6\nround 4 5 8 0\n\
                out 0 3 2\nsent 36\n";
    assert_eq!(program(&input(&k(4), 4, &[&FIGURES[..], &COINS].concat())), text);
}

#[test]
fn the_worked_matching() {
    let seen = [7, 8, 9, 10, 3, 10, 2, 5, 7, 3, 8, 10, 8, 6, 5, 8, 0, 2];
    assert_eq!(direct(&k(4), 4, &FIGURES, &COINS), (seen.to_vec(), 36));
    let given = matched(&k(4), 4, &FIGURES, &[1, 1], &COINS);
    assert_eq!(given, [3, 8, 0, 6, 6, 4, 5, 2, 7, 8, 9]);
    assert_eq!(direct(&k(4), 4, &[1, 1], &given), (seen.to_vec(), 36));
}

/// The wire's polynomial is that of the product and all zeros without its coefficients above t.
#[test]
fn the_masked_polynomial_is_cut_off() {
    let mut random = Random(3);
    for _ in 0..200 {
        let (n, t, p) = random::size(&mut random);
        let gates = [Gate::Input(1), Gate::Input(n), Gate::Multiply(0, 1)];
        let points = random::points(&mut random, n, p);
        let file = file(4, (n as u8, t as u8, p), &gates, &[Out { seat: 1, wire: 2 }], &points);
        let plan = Plan::read(&file).unwrap();
        let (figures, coins) = (random.elements(2, p), random.elements(plan.coins(), p));
        let dealt = |k: usize| [&figures[k..=k], &coins[k * t..(k + 1) * t]].concat();
        let mut whole = vec![0; 2 * t + 1];
        for (i, a) in dealt(0).into_iter().enumerate() {
            for (j, b) in dealt(1).into_iter().enumerate() {
                whole[i + j] = plan.field.add(whole[i + j], plan.field.mul(a, b));
            }
        }
        for seat in 0..usize::from(n) {
            let zeros = &coins[2 * t + seat * 3 * t..][..2 * t];
            whole[1..].iter_mut().zip(zeros).for_each(|(sum, &c)| *sum = plan.field.add(*sum, c));
        }
        // each seat's share of the wire is interpolated at 0 from parts, so the dealings' own coins cancel
        let wires = shares(&plan, &figures, &coins, |_| ());
        for (seat, &x) in plan.points.iter().enumerate() {
            let value = whole[..=t].iter().rev().fold(0, |sum, &c| plan.field.add(plan.field.mul(sum, x), c));
            assert_eq!(wires[2][seat], value);
        }
    }
}

#[test]
fn the_file() {
    assert_eq!(plan_check(&k(4)), Ok(()));
    assert_eq!((k(4).len(), &k(4)[5..]), (k(3).len(), &k(3)[5..]));
    for version in [0, 5, 6, 132, 255] {
        let mut other = k(4);
        other[4] = version;
        assert_eq!(plan_check(&other), refused(2, 0));
    }
    for length in 0..k(4).len() {
        assert_eq!(plan_check(&k(4)[..length]), refused(if length < 18 { 1 } else { 6 }, 0));
    }
    assert_eq!(convert_file(&k(4)), refused(2, 0));
    let check = |n, t, gates: &[Gate]| {
        let points: Vec<u32> = (1..=u32::from(n)).collect();
        plan_check(&file(4, (n, t, 17), gates, &[Out { seat: 1, wire: 0 }], &points))
    };
    assert_eq!(check(4, 2, &[Gate::Input(1), Gate::Multiply(0, 0)]), refused(25, 0));
    assert_eq!(check(15, 7, &[Gate::Input(1), Gate::Multiply(0, 0)]), Ok(()));
    assert_eq!(check(15, 14, &[Gate::Input(1), Gate::Random]), Ok(()));
}

#[test]
fn lists_and_sizes() {
    let plan = Plan::read(&k(4)).unwrap();
    assert_eq!((plan.last_call(), plan.sent(), plan.coins()), (5, 36, 11));
    assert_eq!(plan.rounds, [Round::Zero(2), Round::Masked(2), Round::Truncated(2)]);
    assert_eq!(plan.coin_seats(), [1, 2, 1, 1, 1, 2, 2, 2, 3, 3, 3]);
    let size = |seat, call, what| (REFERENCE.seat_size)(&k(4), seat, call, what) >> 8;
    assert_eq!([1, 2, 3].map(|seat| size(seat, 0, 1)), [16, 16, 12]);
    assert_eq!([0, 1, 2, 3, 4, 5, 6].map(|call| size(1, call, 4)), [12, 12, 12, 12, 4, 0, 0]);
    assert_eq!([0, 1, 2, 3, 4, 5, 6].map(|call| size(3, call, 3)), [0, 8, 12, 12, 12, 12, 0]);
    assert_eq!([0, 1, 2].map(|what| (REFERENCE.run_size)(&k(4), 4, what) >> 8), [8, 44, 72]);
    // seats above 2t+1 deal, too
    let wide = file(4, (5, 1, 11), &k_gates(), &[Out { seat: 3, wire: 3 }], &[1, 2, 3, 4, 5]);
    let plan = Plan::read(&wide).unwrap();
    assert_eq!((plan.coins(), plan.sent(), plan.coins_of(5)), (2 + 15, 5 * (2 + 15 + 1), 3));
    assert_eq!(reference::charge::elements(&plan), [21, 21, 16, 16, 16]);
    assert_eq!(reference::charge::elements(&Plan::read(&k(4)).unwrap()), [13, 13, 10]);
}

/// The calls in the middle of a multiply leave the wire's number as it is.
#[test]
fn states_and_call_numbers() {
    let (mut states, mut odd) = (Vec::new(), Vec::new());
    run_by_calls(&k(4), &FIGURES, &COINS, |step| {
        if step.seat == 3 {
            states.push(numbers(&step.state, 4));
            // a wire not learnt yet that is lent as 7
            let mut state = step.state.clone();
            if (2..5).contains(&step.call) {
                state[4 * 3..4 * 4].copy_from_slice(&bytes(&[7]));
                let mut out = vec![0; step.written.len()];
                seat_call(&k(4), 3, &step.figures, &step.coins, &mut [], &mut state, &step.mail, &mut out).unwrap();
                assert_eq!(out, if step.call == 4 { bytes(&[0]) } else { step.written.clone() });
                odd.push(numbers(&state, 4));
            }
        }
    })
    .unwrap();
    let expected = [[0; 5], [1, 0, 0, 0, 0], [2, 10, 3, 0, 0], [3, 10, 3, 0, 0], [4, 10, 3, 0, 0], [5, 10, 3, 1, 0]];
    assert_eq!(states, expected);
    assert_eq!(odd, [[3, 10, 3, 7, 0], [4, 10, 3, 7, 0], [5, 10, 3, 1, 0]]);
    let call = |first: u32| {
        let mut state = bytes(&[first, 0, 0, 0, 0]);
        seat_call(&k(4), 3, &[], &bytes(&[7, 8, 9]), &mut [], &mut state, &[], &mut [])
    };
    assert_eq!([5, 6, 7].map(call), [refused(17, 0), refused(16, 0), refused(15, 0)]);
}

/// The third round's parts are not checked: the seat takes those of seats 1 to t+1.
#[test]
fn the_third_rounds_mail_is_not_checked() {
    let mut state = bytes(&[4, 10, 3, 0, 0]);
    let mut out = [0; 4];
    let mail = bytes(&[10, 8, 9]);
    seat_call(&k(4), 3, &[], &bytes(&[7, 8, 9]), &mut [], &mut state, &mail, &mut out).unwrap();
    assert_eq!(numbers(&state, 4), [5, 10, 3, 1, 0]);
}

#[test]
fn calls_equal_the_direct_bench_and_the_plans_arithmetic() {
    let mut random = Random(10);
    for round in 0..800 {
        let file = random::plan_1988(&mut random, if round % 20 == 0 { 60 } else { 14 });
        calls_equal_the_bench(&mut random, &file);
    }
}

/// Both rules give equal results, and where nothing is multiplied version 4 is version 3 to the letter.
#[test]
fn against_version_3() {
    let mut random = Random(34);
    let mut same = 0;
    for _ in 0..400 {
        let fourth = random::plan_1988(&mut random, 20);
        let mut third = fourth.clone();
        third[4] = 3;
        let (fourth_plan, third_plan) = (Plan::read(&fourth).unwrap(), Plan::read(&third).unwrap());
        let p = fourth_plan.field.p();
        let figures = random.elements(fourth_plan.figures.len(), p);
        let coins = [&fourth_plan, &third_plan].map(|plan| random.elements(plan.coins(), p));
        let fourth_run = run_by_calls(&fourth, &figures, &coins[0], |_| ()).unwrap();
        let third_run = run_by_calls(&third, &figures, &coins[1], |_| ()).unwrap();
        assert_eq!(fourth_run.results, third_run.results);
        if fourth_plan.multiplies == 0 {
            same += 1;
            assert_eq!(run_by_calls(&third, &figures, &coins[0], |_| ()).unwrap(), fourth_run);
        }
    }
    assert!(same > 50);
}

#[test]
fn matched_runs_give_the_same_view() {
    let mut random = Random(16);
    let mut changed = 0;
    while changed < 500 {
        let file = random::plan_1988(&mut random, 14);
        let moved = matched_shows_the_same(&mut random, &file) == Some(true);
        changed += usize::from(moved && Plan::read(&file).unwrap().multiplies > 0);
    }
}

/// Of all zeros only the lowest non-member's move, by the change of the products but for its value times δ.
#[test]
fn which_zeros_move() {
    let mut random = Random(88);
    for _ in 0..200 {
        let (n, t, p) = random::size(&mut random);
        let gates = [Gate::Input(1), Gate::Input(n), Gate::Multiply(0, 1), Gate::Multiply(2, 0)];
        let points = random::points(&mut random, n, p);
        let set = random::set(&mut random, n, t);
        let member = |seat: u16| set >> (seat - 1) & 1 == 1;
        let lowest = (1..=n).find(|&seat| !member(seat)).unwrap();
        let file = file(4, (n as u8, t as u8, p), &gates, &[Out { seat: lowest, wire: 3 }], &points);
        let plan = Plan::read(&file).unwrap();
        let (first, coins) = (random.elements(2, p), random.elements(plan.coins(), p));
        let any = |(&x, seat): (&u32, u16)| if member(seat) { x } else { random.element(p) };
        let second: Vec<u32> = first.iter().zip([1, n]).map(any).collect();
        let given = matched(&file, set, &first, &second, &coins);
        let wires = [(&first, &coins), (&second, &given)].map(|(figures, coins)| shares(&plan, figures, coins, |_| ()));
        let field = plan.field;
        let delta =
            field.delta(&plan.members(set).unwrap().iter().map(|&seat| plan.point(seat)).collect::<Vec<_>>(), t);
        for (k, (a, b)) in [(0, (0, 1)), (1, (2, 0))] {
            let products =
                |run: usize| -> Seats { std::array::from_fn(|i| field.mul(wires[run][a][i], wires[run][b][i])) };
            let (before, after) = (products(0), products(1));
            for seat in 1..=n {
                let start = 2 * t + (k * usize::from(n) + usize::from(seat) - 1) * 3 * t;
                let moved: Vec<u32> = (start..start + 2 * t).map(|i| field.sub(given[i], coins[i])).collect();
                if seat != lowest {
                    assert!(moved.iter().all(|&x| x == 0));
                    continue;
                }
                // the products' change, and what the zeros change, is the value's change times δ
                let value = |x: u32| moved.iter().rev().fold(0, |sum, &c| field.mul(field.add(sum, c), x));
                let d: Vec<u32> = (0..usize::from(n)).map(|i| field.sub(after[i], before[i])).collect();
                let at_0 = field.dot(0, &field.weights(&plan.points[..2 * t + 1], 0), &d[..2 * t + 1]);
                for (i, &x) in plan.points.iter().enumerate() {
                    let of_delta = delta.iter().rev().fold(0, |sum, &c| field.add(field.mul(sum, x), c));
                    assert_eq!(field.add(d[i], value(x)), field.mul(at_0, of_delta));
                }
            }
        }
    }
}

#[test]
fn matching_is_a_bijection_on_tiny_plans() {
    let mut random = Random(5);
    let points = [[1, 2, 3], [4, 2, 1]];
    for member in [1, 3] {
        // the square of another seat's figure: of x and of −x it is the same
        let square = [Gate::Input(member % 3 + 1), Gate::Multiply(0, 0)];
        let file = file(4, (3, 1, 5), &square, &[Out { seat: member, wire: 1 }], &points[usize::from(member) % 2]);
        tiny::bijection(&mut random, &file, 1 << (member - 1), 1);
    }
    // over 2 with t = 0 there are no coins to move
    let file = file(4, (1, 0, 2), &[Gate::Input(1), Gate::Multiply(0, 0)], &[Out { seat: 1, wire: 1 }], &[1]);
    assert_eq!(direct(&file, 0, &[1], &[]), (vec![], 1 + 3 + 1));
}

/// The square of a seat's own figure, for its own set: 15,625 settings of the others' coins.
fn square_of(seat: u16) -> (Vec<u8>, u16) {
    let gates = [Gate::Input(seat), Gate::Multiply(0, 0)];
    (file(4, (3, 1, 5), &gates, &[Out { seat: 1, wire: 1 }], &[4, 1, 3]), 1 << (seat - 1))
}

/// Views are counted, though one may have several settings.
#[test]
fn views_are_counted() {
    let mut random = Random(26);
    let (mut several, mut same) = (0, 0);
    for round in 0..150 {
        let (file, set) = match round {
            0..3 => square_of(round + 1),
            _ => random::tiny_plan_1988(&mut random, 3200),
        };
        let plan = Plan::read(&file).unwrap();
        let p = plan.field.p();
        let members = plan.members(set).unwrap();
        let coins: usize = members.iter().map(|&seat| plan.coins_of(seat)).sum();
        let (figures, coins) = (random.elements(plan.figures.len(), p), random.elements(coins, p));
        let rows = |figures: &[u32]| {
            let mut list = vec![7; count_size(&file, set).unwrap()];
            count(&file, set, &bytes(figures), &bytes(&coins), &mut list).unwrap();
            numbers(&list, 4)
        };
        let width = plan.view(set).unwrap() + 1;
        let first = rows(&figures);
        let counts: Vec<u32> = first.chunks_exact(width).map(|row| row[width - 1]).collect();
        assert_eq!(counts.iter().sum::<u32>(), random::settings(4, (plan.n, plan.t, p), set, &plan.gates));
        assert_eq!(counts.len() as u32, random::settings(4, (plan.n, plan.t, p), set, &plan.gates));
        several += usize::from(members.len() == plan.t && counts[0] > 1);
        let second: Vec<u32> = (plan.figure_seats().zip(&figures))
            .map(|(seat, &x)| if members.contains(&seat) { x } else { random.element(p) })
            .collect();
        let (granted, asked) = (ideal(&plan, &figures), ideal(&plan, &second));
        if plan.outs.iter().all(|out| !members.contains(&out.seat) || granted[out.wire] == asked[out.wire]) {
            assert!(rows(&second) == first, "the same views, each as often");
            same += usize::from(second != figures);
        }
    }
    assert!(several == 3 && same > 20, "{several} {same}");
}

#[test]
fn the_programs_width() {
    let whole = input(&k(4), 4, &[&FIGURES[..], &COINS].concat());
    for left_over in 1..4 {
        assert_eq!(program(&whole[..whole.len() - left_over]), "refused 1 0\n");
    }
    assert_eq!(program(&whole[..whole.len() - 4]), "refused 12 0\n");
    assert_eq!(program(&whole[..2 + k(4).len() + 2 + 4]), "refused 10 0\n");
    // a refused plan's numbers are as wide as its byte 4 says
    let mut wrong = k(4);
    wrong[5] = 0;
    assert_eq!(program(&input(&wrong, 4, &[1])), "refused 3 0\n");
    assert_eq!(program(&input(&wrong, 4, &[1])[..2 + wrong.len() + 2 + 2]), "refused 1 0\n");
}

#[test]
fn at_the_ends() {
    let gates: Vec<Gate> = [Gate::Input(1)].into_iter().chain((0..1023).map(|g| Gate::Multiply(g, g))).collect();
    let points: Vec<u32> = (1..=15).collect();
    let file = file(4, (15, 7, MOST), &gates, &[Out { seat: 15, wire: 1023 }], &points);
    let plan = Plan::read(&file).unwrap();
    assert_eq!((plan.last_call(), plan.coins(), plan.coins_of(9)), (3071, 7 + 1023 * 315, 1023 * 21));
    assert_eq!(plan.sent(), 15 * (1 + 1023 * 45 + 1));
    let (figures, coins) = ([MOST - 1], vec![MOST - 1; plan.coins()]);
    let wires = shares(&plan, &figures, &coins, |_| ());
    assert_eq!(plan.field.dot(0, &plan.field.weights(&plan.points[..8], 0), &wires[1023][..8]), 1);
}

/// How many of the comparison's plans have what a product may meet.
#[test]
fn the_generator_meets_them() {
    let mut random = Random(20_270_107);
    let mut met = [0; 9];
    for round in 0..3000 {
        let file = random::plan_1988(&mut random, [2, 3, 5, 8, 12][round % 5]);
        let plan = Plan::read(&file).unwrap();
        let n = usize::from(plan.n);
        let product = plan.multiplies > 0 && plan.t > 0;
        let facts = [
            product,
            product && plan.multiplies > 2,
            product && n > 2 * plan.t + 1,
            product && plan.draws() > 0,
            product && plan.outs.iter().any(|out| matches!(plan.gates[out.wire], Gate::Multiply(..))),
            product && plan.gates.iter().any(|gate| matches!(*gate, Gate::Multiply(a, b) if a == b)),
            plan.multiplies > 0 && plan.t == 0,
            2 * plan.t >= n,
            product && !plan.points.iter().copied().eq(1..=u32::from(plan.n)),
        ];
        met.iter_mut().zip(facts).for_each(|(met, fact)| *met += usize::from(fact));
    }
    assert!(met.iter().all(|&met| met >= 80), "{met:?}");
}
