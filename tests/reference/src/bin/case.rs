//! Writes a random case for the host program: `case SEED FOLDER` fills FOLDER with `plan`, `figures-I` and `coins-I` for each seat I, and `draws-I` where
//! the plan has random wires, `results-I` with what the plan's own arithmetic grants it, and `bench-I` with the bench program's input for the set of
//! seat I alone.
//! `case K FOLDER` writes plan K with its figures and coins, `case long FOLDER` a plan of 15 seats, all of them dealers, with 120
//! multiplies in turn, `case wide FOLDER` one in which a seat's mail has many shares from one sender, `case late FOLDER` one with a seat that
//! deals nothing, `case large FOLDER` one of version 3 over the largest prime, and `case drawn FOLDER` one with random wires: seat 1 gets the first
//! of them, and seat 2 that and its own figure added. `case masked FOLDER` writes one of version 4 with 5 seats, products in turn and a random wire.
//! `case spending FOLDER` writes one with 5 seats and four products by triples, and `preparing`, the plan that prepares them.

use reference::field::MOST;
use reference::matching::triples_of;
use reference::plan::{bytes_of, file, plan_file, Gate, Layout, Out, Plan};
use reference::random::{plan, preparing_plan, Random};
use reference::run::{granted, own, shares};
use std::fs::write;

fn lines(list: &[u32]) -> String {
    list.iter().map(|x| format!("{x}\n")).collect()
}

/// 15 seats, each with a figure and an out; every multiply waits for the one before it.
fn long() -> Vec<u8> {
    let mut gates: Vec<Gate> = (1..=15).map(Gate::Input).collect();
    for k in 0..120 {
        gates.push(Gate::Multiply(gates.len() - 1, k % 15));
        gates.push(Gate::Add(gates.len() - 1, (7 * k) % 15));
    }
    let outs: Vec<Out> = (1..=15).map(|seat| Out { seat, wire: gates.len() - seat as usize }).collect();
    plan_file(15, 7, 65521, &gates, &outs)
}

/// 3 seats; seats 1 and 2 have 12 figures each, and seat 3 gets 8 outs.
fn wide() -> Vec<u8> {
    let mut gates: Vec<Gate> = (0..24).map(|k| Gate::Input(1 + k / 12)).collect();
    gates.extend((0..8).map(|k| Gate::Multiply(k, 12 + k)));
    let outs: Vec<Out> = (0..8).map(|k| Out { seat: 3, wire: 24 + k }).collect();
    plan_file(3, 1, 65521, &gates, &outs)
}

/// 4 seats, of which 3 deal; seat 4 has no figure, and an out.
fn late() -> Vec<u8> {
    let gates = [
        Gate::Input(1),
        Gate::Input(2),
        Gate::Multiply(0, 1),
        Gate::Multiply(2, 2),
        Gate::Multiply(3, 0),
        Gate::Add(4, 1),
    ];
    plan_file(4, 1, 65521, &gates, &[Out { seat: 1, wire: 5 }, Out { seat: 4, wire: 4 }])
}

/// 5 seats with points of their choosing: their total, its square, and that times 70,000 plus 2,000,000,000.
fn large() -> Vec<u8> {
    let mut gates: Vec<Gate> = (1..=5).map(Gate::Input).collect();
    gates.extend([Gate::Add(0, 1), Gate::Add(5, 2), Gate::Add(6, 3), Gate::Add(7, 4), Gate::Multiply(8, 8)]);
    gates.extend([Gate::Scale(9, 70_000), Gate::Offset(10, 2_000_000_000), Gate::Multiply(11, 8)]);
    let outs: Vec<Out> = (1..=5).map(|seat| Out { seat, wire: 7 + usize::from(seat) }).collect();
    file(3, (5, 2, MOST), &gates, &outs, &[MOST - 1, 70_000, 3, 1, 65_536])
}

/// 5 seats, random wires before, between and after products and figures.
fn drawn() -> Vec<u8> {
    let gates = [
        Gate::Random,
        Gate::Input(2),
        Gate::Add(0, 1),
        Gate::Random,
        Gate::Multiply(2, 3),
        Gate::Input(1),
        Gate::Random,
        Gate::Scale(6, 7),
        Gate::Add(4, 7),
        Gate::Add(8, 5),
    ];
    let outs = [(1, 0), (2, 2), (3, 9), (4, 6), (5, 4)].map(|(seat, wire)| Out { seat, wire });
    plan_file(5, 2, 65521, &gates, &outs)
}

/// 5 seats with points of their choosing; four products, of which the last two wait for a random wire.
fn masked() -> Vec<u8> {
    let mut gates: Vec<Gate> = (1..=5).map(Gate::Input).collect();
    gates.extend([Gate::Multiply(0, 1), Gate::Multiply(5, 5), Gate::Add(6, 2), Gate::Random]);
    gates.extend([Gate::Multiply(7, 8), Gate::Offset(9, MOST - 1), Gate::Multiply(10, 3), Gate::Scale(11, 3)]);
    let outs: Vec<Out> = (1..=5).map(|seat| Out { seat, wire: 13 - usize::from(seat) }).collect();
    file(4, (5, 2, MOST), &gates, &outs, &[5, 70_000, 3, 1, MOST - 1])
}

/// 5 seats with points of their choosing; four products by triples, one after another, and a product by dealings.
fn spending() -> Vec<u8> {
    let mut gates: Vec<Gate> = (1..=5).map(Gate::Input).collect();
    gates.extend([Gate::Spend(0, 1), Gate::Spend(5, 5), Gate::Add(6, 2), Gate::Multiply(7, 3)]);
    gates.extend([Gate::Spend(8, 7), Gate::Offset(9, MOST - 1), Gate::Spend(10, 4), Gate::Scale(11, 3)]);
    let outs: Vec<Out> = (1..=5).map(|seat| Out { seat, wire: 13 - usize::from(seat) }).collect();
    file(3, (5, 2, MOST), &gates, &outs, &[5, 70_000, 3, 1, MOST - 1])
}

fn main() {
    let args: Vec<String> = std::env::args().collect();
    let (seed, folder) = (&args[1], &args[2]);
    let mut random = Random(seed.parse().unwrap_or(0));
    let known = seed == "K";
    let file = match seed.as_str() {
        "K" => {
            let gates = [Gate::Input(1), Gate::Input(2), Gate::Multiply(0, 1), Gate::Add(2, 0)];
            plan_file(3, 1, 11, &gates, &[Out { seat: 3, wire: 3 }])
        }
        "long" => long(),
        "wide" => wide(),
        "late" => late(),
        "large" => large(),
        "drawn" => drawn(),
        "masked" => masked(),
        "spending" => spending(),
        _ => plan(&mut random, 24),
    };
    let plan = Plan::read(&file).expect("a plan that passes");
    let p = plan.field.p();
    let figures = if known { vec![4, 5] } else { random.elements(plan.figures.len(), p) };
    let coins = if known { vec![2, 3, 1, 5, 7] } else { random.elements(plan.coins(), p) };
    let results = granted(&plan, &figures);
    std::fs::create_dir_all(folder).expect("a folder");
    let mut triples = Vec::new();
    if !plan.spends.is_empty() {
        let preparing = preparing_plan(&mut random, &plan);
        write(format!("{folder}/preparing"), &preparing).expect("a file");
        let first = Plan::read(&preparing).expect("a plan that passes");
        let [draws, early] = [first.figures.len(), first.coins()].map(|count| random.elements(count, p));
        triples = triples_of(&first, &shares(&first, &draws, &early, |_| ()));
    }
    let two = |x: u32| bytes_of(&[x], 2);
    let width = Layout::of(plan.version).width;
    let numbers = [bytes_of(&figures, width), bytes_of(&coins, width), bytes_of(&triples, width)].concat();
    let drawn = |k: usize| plan.gates[plan.figures[k].0] == Gate::Random;
    let put = |name: &str, contents: &[u8]| write(format!("{folder}/{name}"), contents).expect("a file");
    put("plan", &file);
    for seat in 1..=plan.n {
        let input = [&two(file.len() as u32)[..], &file, &two(1 << (seat - 1)), &numbers].concat();
        let own_figures = |draws: bool| -> Vec<u32> {
            let mine = |&k: &usize| plan.figures[k].1 == seat && drawn(k) == draws;
            (0..figures.len()).filter(mine).map(|k| figures[k]).collect()
        };
        put(&format!("figures-{seat}"), lines(&own_figures(false)).as_bytes());
        if plan.draws() > 0 {
            put(&format!("draws-{seat}"), lines(&own_figures(true)).as_bytes());
        }
        put(&format!("coins-{seat}"), lines(&own(&coins, plan.coin_seats(), seat)).as_bytes());
        put(&format!("results-{seat}"), lines(&results[usize::from(seat) - 1]).as_bytes());
        put(&format!("bench-{seat}"), &input);
    }
}
