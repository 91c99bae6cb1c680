//! Sums worked by hand.

use reference::field::Field;
use reference::matching::matching;
use reference::plan::{bytes, bytes_of, plan_check, plan_file, Gate, List, Out, Plan, Refusal};
use reference::program::program;
use reference::run::{bench, ideal, run_by_calls, shares};
use reference::seat::seat_call;

const FIGURES: [u32; 2] = [4, 5];
const COINS: [u32; 5] = [2, 3, 1, 5, 7];

fn k_gates() -> Vec<Gate> {
    vec![Gate::Input(1), Gate::Input(2), Gate::Multiply(0, 1), Gate::Add(2, 0)]
}

fn sized(n: u8, t: u8, p: u32) -> Vec<u8> {
    plan_file(n, t, p, &k_gates(), &[Out { seat: 3, wire: 3 }])
}

fn k() -> Vec<u8> {
    sized(3, 1, 11)
}

fn refused<T>(number: u8, place: usize) -> Result<T, Refusal> {
    Err(Refusal { number, place })
}

/// The set's view on the bench, or the refusal.
fn bench_view(file: &[u8], set: u16, figures: &[u32], coins: &[u32]) -> Result<(Vec<u32>, usize), Refusal> {
    let length = Plan::read(file)?.view(set)?;
    let mut view = vec![0; 4 * length];
    let sent = bench(file, set, &bytes(figures), &bytes(coins), &mut [], &mut view)?;
    Ok((List::new(&view, length, 0)?.to_vec(), sent))
}

fn k_shares() -> Vec<Vec<u32>> {
    let plan = Plan::read(&k()).unwrap();
    shares(&plan, &FIGURES, &COINS, |_| ()).iter().map(|wire| wire[..3].to_vec()).collect()
}

#[test]
fn p1_shares_of_the_inputs() {
    assert_eq!(k_shares()[..2], [[6, 8, 10], [8, 0, 3]]);
}

#[test]
fn p2_weights_and_products() {
    let field = Field::new(11).unwrap();
    assert_eq!(field.weights(&[1, 2, 3], 0), [3, 8, 1]);
    let shares = k_shares();
    let products: Vec<u32> = (0..3).map(|i| field.mul(shares[0][i], shares[1][i])).collect();
    assert_eq!(products, [4, 0, 8]);
    assert_eq!(field.dot(0, &field.weights(&[1, 2, 3], 0), &products), 9);
}

#[test]
fn p3_product_sum_and_result() {
    assert_eq!(k_shares()[2..], [[4, 10, 5], [10, 7, 4]]);
    let run = run_by_calls(&k(), &FIGURES, &COINS, |_| ()).unwrap();
    assert_eq!(run.results, [vec![], vec![], vec![2]]);
    assert_eq!(ideal(&Plan::read(&k()).unwrap(), &FIGURES), [4, 5, 9, 2]);
    assert_eq!(run.sent, 18);
}

#[test]
fn p4_delta() {
    assert_eq!(Field::new(11).unwrap().delta(&[3], 1), [1, 7]);
    assert_eq!(Field::new(11).unwrap().delta(&[], 3), [1, 0, 0, 0]);
}

#[test]
fn p5_matching() {
    let mut matched = [0; 20];
    matching(&k(), 4, &bytes(&FIGURES), &bytes(&[1, 1]), &bytes(&COINS), &mut matched).unwrap();
    assert_eq!(matched.to_vec(), bytes(&[3, 8, 5, 2, 7]));
    let first = bench_view(&k(), 4, &FIGURES, &COINS).unwrap();
    assert_eq!(first.0, [7, 10, 3, 7, 4, 7, 10, 7, 4, 2]);
    assert_eq!(first, bench_view(&k(), 4, &[1, 1], &[3, 8, 5, 2, 7]).unwrap());
}

#[test]
fn p6_threshold() {
    assert_eq!(plan_check(&sized(2, 1, 11)), refused(8, 0));
    assert_eq!(plan_check(&sized(2, 2, 11)), refused(4, 0));
    assert_eq!(plan_check(&sized(3, 2, 11)), refused(25, 0));
    assert_eq!(plan_check(&plan_file(2, 1, 11, &k_gates(), &[Out { seat: 2, wire: 3 }])), refused(25, 0));
    assert_eq!(plan_check(&sized(15, 7, 17)), Ok(()));
    assert_eq!(plan_check(&sized(15, 8, 17)), refused(25, 0));
    assert_eq!(plan_check(&sized(15, 15, 17)), refused(4, 0));
}

#[test]
fn p7_primes() {
    assert_eq!(plan_check(&sized(3, 1, 3)), refused(5, 0));
    assert_eq!(plan_check(&sized(3, 1, 9)), refused(5, 0));
    assert_eq!(plan_check(&sized(3, 1, 65521)), Ok(()));
    assert_eq!(plan_check(&sized(3, 1, 65535)), refused(5, 0));
    let slow = |p: u32| p > 1 && (2..p).all(|d| !p.is_multiple_of(d));
    assert!((0..=65535).step_by(7).chain(0..500).all(|p| Field::new(p).is_some() == slow(p)));
}

#[test]
fn p8_figure_limits() {
    assert!(bench_view(&k(), 4, &[10, 5], &COINS).is_ok());
    assert_eq!(bench_view(&k(), 4, &[11, 5], &COINS), refused(11, 0));
}

#[test]
fn p9_one_seat() {
    let file = plan_file(1, 0, 2, &[Gate::Input(1)], &[Out { seat: 1, wire: 0 }]);
    assert_eq!(run_by_calls(&file, &[1], &[], |_| ()).unwrap().results, [[1]]);
    assert_eq!(bench_view(&file, 0, &[1], &[]), Ok((vec![], 2)));
}

#[test]
fn p10_set_too_large() {
    assert_eq!(bench_view(&k(), 0b11, &FIGURES, &COINS), refused(9, 0));
}

#[test]
fn gate_counts() {
    let gates = |count: usize| [vec![Gate::Input(1)], vec![Gate::Add(0, 0); count - 1]].concat();
    let out = [Out { seat: 1, wire: 0 }];
    assert_eq!(plan_check(&plan_file(1, 0, 2, &gates(1024), &out)), Ok(()));
    assert_eq!(plan_check(&plan_file(1, 0, 2, &gates(1025), &out)), refused(6, 0));
}

#[test]
fn gate_0_reads_nothing() {
    let file = plan_file(1, 0, 2, &[Gate::Add(0, 0)], &[Out { seat: 1, wire: 0 }]);
    assert_eq!(plan_check(&file), refused(7, 0));
}

#[test]
fn shares_off_the_polynomial() {
    let mut state = bytes(&[3, 10, 3, 5, 4]);
    let before = state.clone();
    let mut call = |mail: [u32; 3]| {
        let mut out = [9; 4];
        let result = seat_call(&k(), 3, &[], &bytes(&[7]), &mut [], &mut state, &bytes(&mail), &mut out);
        (result, state.clone(), out)
    };
    assert_eq!(call([10, 7, 5]), (refused(20, 3), before.clone(), [9; 4]));
    let mut after = before;
    after[0] = 4;
    assert_eq!(call([10, 7, 4]), (Ok(()), after.clone(), [2, 0, 0, 0]));
    assert_eq!(call([10, 7, 4]), (refused(16, 0), after, [9; 4]));
}

/// The bench program's input.
fn program_input(file: &[u8], set: u16, numbers: &[u32]) -> Vec<u8> {
    let two = |list: &[u32]| bytes_of(list, 2);
    [&two(&[file.len() as u32])[..], file, &two(&[u32::from(set)]), &two(numbers)].concat()
}

#[test]
fn program_of_k() {
    let input = program_input(&k(), 4, &[4, 5, 2, 3, 1, 5, 7]);
    let text = "plan 3 1 11 4 1\nview 3 7\nround 0 10 3\nround 1 7 4 7\nround 2 10 7 4\nout 0 3 2\nsent 18\n";
    assert_eq!(program(&input), text);
    assert_eq!(program(&program_input(&k(), 0, &[4, 5, 2, 3, 1, 5, 7])), "plan 3 1 11 4 1\nsent 18\n");
    let silent = "plan 3 1 11 4 1\nview 1 4 2 1\nround 0 6 8\nround 1 5 5 4\nround 2\nsent 18\n";
    assert_eq!(program(&program_input(&k(), 1, &[4, 5, 2, 3, 1, 5, 7])), silent);
}

#[test]
fn program_refusals() {
    let input = program_input(&k(), 4, &[4, 5, 2, 3, 1, 5, 7]);
    for length in 0..2 + k().len() + 2 {
        assert_eq!(program(&input[..length]), "refused 1 0\n");
    }
    assert_eq!(program(&input[..input.len() - 1]), "refused 1 0\n");
    assert_eq!(program(&input[..input.len() - 2]), "refused 12 0\n");
    assert_eq!(program(&program_input(&k(), 4, &[4])), "refused 10 0\n");
    assert_eq!(program(&program_input(&k(), 4, &[4, 11, 2, 3, 1, 5, 7])), "refused 11 1\n");
    assert_eq!(program(&program_input(&k(), 4, &[4, 5, 2, 3, 1, 11, 7])), "refused 13 3\n");
    assert_eq!(program(&program_input(&k(), 8, &[])), "refused 9 0\n");
    assert_eq!(program(&program_input(b"", 0, &[])), "refused 1 0\n");
    let even = plan_file(3, 1, 11, &k_gates(), &[Out { seat: 3, wire: 3 }; 2]);
    let padded = |length: usize| {
        let mut input = program_input(&even, 4, &[4, 5]);
        input.resize(length, 0);
        program(&input)
    };
    assert_eq!(padded(32_768), "refused 12 0\n");
    assert_eq!(padded(32_769), "refused 1 0\n");
    assert_eq!(padded(32_770), "refused 1 0\n");
}
