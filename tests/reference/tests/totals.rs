//! Plans that only add, with a threshold of half the seats or more: an example, and its ends.

mod common;

use common::{direct, matched};
use reference::field::Field;
use reference::import::import_file;
use reference::plan::{bytes_of, plan_check, plan_file, Gate, Out, Plan, Refusal};
use reference::program::program;
use reference::run::{run_by_calls, shares};
use reference::sheet::sheet_file;

const FIGURES: [u32; 4] = [2, 1, 1, 0];
/// The coefficients of 2, 1 + X², 1 + 2X and 3X + 2X² above the first.
const COINS: [u32; 8] = [0, 0, 0, 1, 2, 0, 3, 2];

/// An input of each seat, and their sum at the last wire, which every seat is given.
fn total(n: u16, t: u8, p: u32) -> Vec<u8> {
    let seats = usize::from(n);
    let mut gates: Vec<Gate> = (1..=n).map(Gate::Input).collect();
    gates.extend((1..seats).map(|seat| Gate::Add(if seat == 1 { 0 } else { seats + seat - 2 }, seat)));
    let outs: Vec<Out> = (1..=n).map(|seat| Out { seat, wire: gates.len() - 1 }).collect();
    plan_file(n as u8, t, p, &gates, &outs)
}

fn refused<T>(number: u8) -> Result<T, Refusal> {
    Err(Refusal { number, place: 0 })
}

#[test]
fn the_example_of_001() {
    let file = total(4, 2, 5);
    let plan = Plan::read(&file).unwrap();
    let shares = shares(&plan, &FIGURES, &COINS, |_| ());
    let rows: Vec<&[u32]> = shares.iter().map(|wire| &wire[..4]).collect();
    assert_eq!(rows[..4], [[2, 2, 2, 2], [2, 0, 0, 2], [3, 0, 2, 4], [0, 4, 2, 4]]);
    assert_eq!(rows[6], [2, 1, 1, 2]);
    let run = run_by_calls(&file, &FIGURES, &COINS, |_| ()).unwrap();
    assert_eq!(run.results, [[4]; 4]);
    assert_eq!(run.sent, 32);
}

#[test]
fn the_matchings_of_001() {
    let (file, set) = (total(4, 2, 5), 0b1001);
    assert_eq!(Field::new(5).unwrap().delta(&[1, 4], 2), [1, 0, 4]);
    let seen = direct(&file, set, &FIGURES, &COINS);
    for (figures, coins) in [([2, 0, 2, 0], [0, 0, 0, 2, 2, 4, 3, 2]), ([2, 2, 0, 0], [0, 0, 0, 0, 2, 1, 3, 2])] {
        assert_eq!(matched(&file, set, &FIGURES, &figures, &COINS), coins);
        assert_eq!(direct(&file, set, &figures, &coins), seen);
    }
}

#[test]
fn the_program_of_001() {
    let file = total(4, 2, 5);
    let two = |list: &[u32]| bytes_of(list, 2);
    let input = [&two(&[file.len() as u32])[..], &file, &two(&[0b1001]), &two(&FIGURES), &two(&COINS)].concat();
    let seats = "view 1 2 0 0\nround 0 2 2 3 0\nround 1 2 1 1 2\nview 4 0 3 2\nround 0 2 2 4 4\nround 1 2 1 1 2\n";
    assert_eq!(program(&input), format!("plan 4 2 5 7 4\n{seats}out 0 1 4\nout 3 4 4\nsent 32\n"));
}

#[test]
fn two_plants() {
    let file = total(2, 1, 65521);
    let run = run_by_calls(&file, &[65520, 5], &[65520, 7], |_| ()).unwrap();
    assert_eq!(run.results, [[4], [4]]);
    assert_eq!(matched(&file, 1, &[65520, 5], &[65520, 5], &[3, 7]), [3, 7]);
}

#[test]
fn fourteen_members() {
    let (file, set) = (total(15, 14, 17), (1 << 14) - 1);
    let plan = Plan::read(&file).unwrap();
    let figures: Vec<u32> = (0..15).collect();
    let coins: Vec<u32> = (0..plan.coins() as u32).map(|i| i * i % 17).collect();
    let run = run_by_calls(&file, &figures, &coins, |_| ()).unwrap();
    assert_eq!(run.results, [[105 % 17]; 15]);
    let silent = plan_file(15, 14, 17, &plan.gates, &[Out { seat: 15, wire: 28 }]);
    let mut second = figures.clone();
    second[14] = 3;
    let given = matched(&silent, set, &figures, &second, &coins);
    assert_eq!(given[..14 * 14], coins[..14 * 14]);
    assert_ne!(given, coins);
    assert_eq!(direct(&silent, set, &figures, &coins), direct(&silent, set, &second, &given));
}

#[test]
fn multiplies_need_the_majority() {
    for (n, t) in (1..=15).flat_map(|n| (0..=16).map(move |t| (n, t))) {
        let product = [Gate::Input(1), Gate::Multiply(0, 0)];
        let check = |gates| plan_check(&plan_file(n, t, 17, gates, &[Out { seat: 1, wire: 0 }]));
        assert_eq!(check(&product[..1]), if t < n { Ok(()) } else { refused(4) });
        assert_eq!(check(&product), if 2 * t < n { Ok(()) } else { refused(if t < n { 25 } else { 4 }) });
    }
    let late = plan_file(3, 2, 11, &[Gate::Input(1), Gate::Multiply(0, 0)], &[Out { seat: 4, wire: 0 }]);
    assert_eq!(plan_check(&late), refused(8));
}

#[test]
fn texts_for_two_plants() {
    assert!(sheet_file(b"a1 + b2", 2, 1, 11, 1).is_ok());
    assert_eq!(sheet_file(b"a1 * b2", 2, 1, 11, 1), refused(25));
    assert_eq!(sheet_file(b"a1 * b2", 2, 1, 11, 3), refused(8));
    assert_eq!(sheet_file(b"a1 * b2", 2, 2, 11, 3), refused(4));
    assert!(import_file(b"1 2\n1 1\n1 1\n1 1 0 1 INV", 2, 1, 11).is_ok());
    assert_eq!(import_file(b"1 2\n1 1\n1 1\n2 1 0 0 1 AND", 2, 1, 11), refused(25));
    assert_eq!(import_file(b"1 2\n1 1\n1 1\n2 1 0 0 1 XOR", 2, 1, 11), refused(25));
    assert_eq!(import_file(b"1 2\n1 1\n0\n2 1 0 0 1 AND", 2, 1, 11), refused(25));
}
