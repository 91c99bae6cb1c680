//! Plans of version 2, whose seats have points of the plants' choosing.

use reference::field::Field;
use reference::library::REFERENCE;
use reference::matching::matching;
use reference::plan::{bytes, bytes_of, file, number, plan_check, Gate, List, Out, Plan, Refusal};
use reference::program::program;
use reference::random::{self, with_points, Random};
use reference::run::{bench, ideal, run_by_calls, shares};

const POINTS: [u32; 3] = [7, 40, 3];
const FIGURES: [u32; 2] = [4, 5];
const COINS: [u32; 5] = [2, 3, 1, 5, 7];

/// Plan K over 101 with these points.
fn k(points: &[u32]) -> Vec<u8> {
    let gates = [Gate::Input(1), Gate::Input(2), Gate::Multiply(0, 1), Gate::Add(2, 0)];
    file(if points.is_empty() { 1 } else { 2 }, (3, 1, 101), &gates, &[Out { seat: 3, wire: 3 }], points)
}

fn two(list: &[u32]) -> Vec<u8> {
    bytes_of(list, 2)
}

fn refused<T>(number: u8) -> Result<T, Refusal> {
    Err(Refusal { number, place: 0 })
}

fn view(file: &[u8], set: u16, figures: &[u32], coins: &[u32]) -> (Vec<u32>, usize) {
    let length = Plan::read(file).unwrap().view(set).unwrap();
    let mut seen = vec![0; 4 * length];
    let sent = bench(file, set, &bytes(figures), &bytes(coins), &mut [], &mut seen).unwrap();
    (List::new(&seen, length, 0).unwrap().to_vec(), sent)
}

fn input(file: &[u8], set: u16, figures: &[u32], coins: &[u32]) -> Vec<u8> {
    [&two(&[file.len() as u32])[..], file, &two(&[u32::from(set)]), &two(figures), &two(coins)].concat()
}

#[test]
fn the_layout() {
    let plan = k(&POINTS);
    assert_eq!(plan.len(), 20 + 24 + 3 + 6);
    assert_eq!([8, 10, 12, 14, 16, 18].map(|i| number(&plan, i)), [101, 20, 4, 44, 1, 47]);
    assert_eq!(plan[4..8], [2, 3, 1, 0]);
    assert_eq!(plan[47..], two(&POINTS));
    assert_eq!(Plan::read(&plan).unwrap().points, POINTS);
    assert_eq!(Plan::read(&k(&[])).unwrap().points, [1, 2, 3]);
}

#[test]
fn site_codes() {
    let plan = Plan::read(&k(&POINTS)).unwrap();
    let shares = shares(&plan, &FIGURES, &COINS, |grid| {
        let rows: Vec<&[u32]> = grid.iter().map(|row| &row[..3]).collect();
        assert_eq!(rows, [[71, 3, 67], [31, 95, 11], [88, 16, 60]]);
    });
    let rows: Vec<&[u32]> = shares.iter().map(|wire| &wire[..3]).collect();
    assert_eq!(rows, [[18, 84, 10], [26, 24, 14], [99, 53, 25], [16, 36, 35]]);
    assert_eq!(plan.product_weights(), [45, 36, 21]);
    assert_eq!(run_by_calls(&k(&POINTS), &FIGURES, &COINS, |_| ()).unwrap().results, [vec![], vec![], vec![24]]);
    let text = "plan 3 1 101 4 1\nview 3 7\nround 0 10 14\nround 1 67 11 60\nround 2 16 36 35\nout 0 3 24\nsent 18\n";
    assert_eq!(program(&input(&k(&POINTS), 4, &FIGURES, &COINS)), text);
}

#[test]
fn the_matching_by_points() {
    assert_eq!(Field::new(101).unwrap().delta(&[3], 1), [1, 67]);
    let mut matched = [0; 20];
    matching(&k(&POINTS), 4, &bytes(&FIGURES), &bytes(&[8, 2]), &bytes(&COINS), &mut matched).unwrap();
    assert_eq!(matched.to_vec(), bytes(&[68, 4, 64, 17, 7]));
    assert_eq!(view(&k(&POINTS), 4, &FIGURES, &COINS), view(&k(&POINTS), 4, &[8, 2], &[68, 4, 64, 17, 7]));
}

#[test]
fn wrong_points() {
    assert_eq!(plan_check(&k(&[100, 1, 50])), Ok(()));
    for points in [[0, 1, 2], [7, 0, 3], [7, 40, 0], [101, 1, 2], [1, 2, 102], [1, 65535, 2]] {
        assert_eq!(plan_check(&k(&points)), refused(26));
    }
    for points in [[7, 7, 3], [7, 3, 3], [7, 3, 7]] {
        assert_eq!(plan_check(&k(&points)), refused(26));
    }
    let wide = |points: &[u32]| {
        file(2, (2, 1, 11), &[Gate::Input(1), Gate::Multiply(0, 0)], &[Out { seat: 1, wire: 1 }], points)
    };
    assert_eq!(plan_check(&wide(&[3, 3])), refused(25));
}

#[test]
fn wrong_layouts() {
    let plan = k(&POINTS);
    for length in 0..plan.len() {
        assert_eq!(plan_check(&plan[..length]), refused(if length < 18 { 1 } else { 6 }));
    }
    for length in [18, 19] {
        for (i, byte, number) in [(4, 0, 2), (4, 5, 2), (5, 0, 3), (6, 3, 4), (8, 100, 5), (7, 1, 6)] {
            let mut short = plan[..length].to_vec();
            short[i] = byte;
            assert_eq!(plan_check(&short), refused(number));
        }
    }
    let other_version = |plan: &[u8], version| [&plan[..4], &[version], &plan[5..]].concat();
    assert_eq!(plan_check(&other_version(&plan, 1)), refused(6));
    assert_eq!(plan_check(&other_version(&k(&[]), 2)), refused(6));
    let mut wrong = plan.clone();
    wrong[18] += 1;
    assert_eq!(plan_check(&wrong), refused(6));
    assert_eq!(plan_check(&[&plan[..], &[0, 0]].concat()), refused(6));
}

/// Every answer and every written byte of a version 2 plan with points 1 to n are those of the version 1 plan.
#[test]
fn points_1_to_n_are_version_1() {
    let mut random = Random(4);
    for round in 0..300 {
        let first = if round < 200 { random::plan(&mut random, 25) } else { random::wide_plan(&mut random, 25) };
        let plan = Plan::read(&first).unwrap();
        let points: Vec<u32> = (1..=u32::from(plan.n)).collect();
        let second = with_points(2, &first, &points);
        assert_eq!((first[4], second[4]), (1, 2));
        let figures = random.elements(plan.figures.len(), plan.field.p());
        let coins = random.elements(plan.coins(), plan.field.p());
        let set = random::set(&mut random, plan.n, plan.t);
        let run = |file: &[u8]| {
            let mut steps = Vec::new();
            let run = run_by_calls(file, &figures, &coins, |step| steps.push(format!("{step:?}"))).unwrap();
            (run, steps)
        };
        assert_eq!(run(&first), run(&second));
        assert_eq!(view(&first, set, &figures, &coins), view(&second, set, &figures, &coins));
        // members' figures kept, so that only their results may differ
        let others: Vec<u32> = (plan.figure_seats().zip(&figures))
            .map(|(seat, &x)| if set >> (seat - 1) & 1 == 1 { x } else { random.element(plan.field.p()) })
            .collect();
        let matched = |file: &[u8]| {
            let mut given = vec![7; 4 * coins.len()];
            let answer = (REFERENCE.matching)(file, set, &bytes(&figures), &bytes(&others), &bytes(&coins), &mut given);
            (answer, given)
        };
        assert_eq!(matched(&first), matched(&second));
        assert_eq!(program(&input(&first, set, &figures, &coins)), program(&input(&second, set, &figures, &coins)));
        for what in 0..3 {
            assert_eq!((REFERENCE.run_size)(&first, set, what), (REFERENCE.run_size)(&second, set, what));
        }
    }
}

#[test]
fn matched_runs_with_points_give_the_same_view() {
    let mut random = Random(6);
    let mut changed = 0;
    while changed < 200 {
        let file = random::pointed_plan(&mut random, 16);
        let plan = Plan::read(&file).unwrap();
        let p = plan.field.p();
        let set = random::set(&mut random, plan.n, plan.t);
        let members = plan.members(set).unwrap();
        let figures = random.elements(plan.figures.len(), p);
        let second: Vec<u32> = (plan.figure_seats().zip(&figures))
            .map(|(seat, &x)| if members.contains(&seat) { x } else { random.element(p) })
            .collect();
        let (granted, asked) = (ideal(&plan, &figures), ideal(&plan, &second));
        if plan.outs.iter().any(|out| members.contains(&out.seat) && granted[out.wire] != asked[out.wire]) {
            continue;
        }
        let coins = random.elements(plan.coins(), p);
        let mut given = vec![0; 4 * coins.len()];
        matching(&file, set, &bytes(&figures), &bytes(&second), &bytes(&coins), &mut given).unwrap();
        let given = List::new(&given, coins.len(), 0).unwrap().to_vec();
        assert_eq!(view(&file, set, &figures, &coins), view(&file, set, &second, &given));
        let run = run_by_calls(&file, &figures, &coins, |_| ()).unwrap();
        assert!((1..=plan.n).all(|seat| {
            run.results[usize::from(seat) - 1] == plan.outs_of(seat).map(|out| granted[out.wire]).collect::<Vec<u32>>()
        }));
        changed += usize::from(given != coins);
    }
}
