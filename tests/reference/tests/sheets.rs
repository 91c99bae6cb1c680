//! Compiled sheets: the worked example, the grouping, the rules, and plans against the formulas' own values.

use reference::formulas::Formula;
use reference::plan::{plan_file, Gate, Out, Plan, Refusal};
use reference::random::{self, Random};
use reference::run::ideal;
use reference::sheet::{formula_value, sheet_file, Sheet};

const EXAMPLE: &str = "2*a1 + a1*(b2 - 3)";

/// The gates of a sheet of three seats modulo 11, whose result goes to seat 3.
fn gates(text: &str) -> Vec<Gate> {
    let plan = Plan::read(&sheet_file(text.as_bytes(), 3, 1, 11, 3).expect("a sheet")).expect("a plan that passes");
    assert_eq!(plan.outs, [Out { seat: 3, wire: plan.gates.len() - 1 }]);
    plan.gates
}

#[test]
fn the_worked_example() {
    let gates = [
        Gate::Input(1),
        Gate::Input(2),
        Gate::Scale(0, 0),
        Gate::Offset(2, 2),
        Gate::Multiply(3, 0),
        Gate::Scale(0, 0),
        Gate::Offset(5, 3),
        Gate::Scale(6, 10),
        Gate::Add(1, 7),
        Gate::Multiply(0, 8),
        Gate::Add(4, 9),
    ];
    let file = plan_file(3, 1, 11, &gates, &[Out { seat: 1, wire: 10 }]);
    assert_eq!(sheet_file(EXAMPLE.as_bytes(), 3, 1, 11, 1), Ok(file));
}

#[test]
fn equal_ones_group_to_the_left() {
    let inputs = [Gate::Input(1); 3];
    let differences = [Gate::Scale(1, 10), Gate::Add(0, 3), Gate::Scale(2, 10), Gate::Add(4, 5)];
    assert_eq!(gates("a1 - b1 - c1"), [&inputs[..], &differences].concat());
    let products = [Gate::Multiply(0, 1), Gate::Multiply(3, 2)];
    assert_eq!(gates("a1*b1*c1"), [&inputs[..], &products].concat());
    let right = [Gate::Scale(2, 10), Gate::Add(1, 3), Gate::Scale(4, 10), Gate::Add(0, 5)];
    assert_eq!(gates("a1 - (b1 - c1)"), [&inputs[..], &right].concat());
    let ranks = [Gate::Multiply(1, 2), Gate::Add(0, 3)];
    assert_eq!(gates("a1 + b1*c1"), [&inputs[..], &ranks].concat());
    assert_eq!(gates("( (a1) )"), [Gate::Input(1)]);
}

#[test]
fn sheets_that_break_the_rules() {
    let deep = |depth| format!("{}a1{}", "(".repeat(depth), ")".repeat(depth));
    assert!(sheet_file(deep(16).as_bytes(), 3, 1, 11, 1).is_ok());
    let operands = "|  |1|2*3|01*a1|a1+00|a1+11|a01|a0|a4|A1|a|a1b|2 3|a1 b2|a 1|a1 2";
    let others = "()|a1+()|(a1|a1)|-a1|(-a1)|a1*-1|a1+|+a1|a1++b2|a1\n|a1\t|a1/2";
    for text in operands.split('|').chain(others.split('|')).map(String::from).chain([deep(17)]) {
        assert_eq!(sheet_file(text.as_bytes(), 3, 1, 11, 1), Err(Refusal { number: 27, place: 0 }), "{text:?}");
    }
}

#[test]
fn values_from_the_text() {
    let figure = |(letter, seat): (u8, u64)| u64::from(letter - b'a') * 20 + seat;
    let (a1, b2, p) = (1i64, 22i64, 65521);
    for (text, value) in [
        (EXAMPLE, 2 * a1 + a1 * (b2 - 3)),
        ("b2 - a1 - 5", b2 - a1 - 5),
        ("b2-(a1-5)", b2 - (a1 - 5)),
        ("a1 - b2*b2 + 7*(3 - b2)", a1 - b2 * b2 + 7 * (3 - b2)),
        (" 0 * b2 ", 0),
        ("((b2)) * (a1 + 65520)", b2 * (a1 + 65520)),
    ] {
        assert_eq!(formula_value(text.as_bytes(), &figure, p), value.rem_euclid(p as i64) as u64, "{text}");
    }
}

#[test]
fn plans_give_the_formulas_values() {
    let mut random = Random(5);
    for _ in 0..500 {
        let (n, t, p) = random::size(&mut random);
        let operands = random.range(1, 60);
        let text = Formula::new(&mut random, n, p, operands).bytes(&mut random, true);
        let names = Sheet::read(&text, u32::from(n), p).expect("a sheet").names;
        let file = sheet_file(&text, u32::from(n), t as u32, p, u32::from(n)).expect("a plan");
        let plan = Plan::read(&file).expect("a plan that passes");
        for _ in 0..10 {
            let figures = random.elements(names.len(), p);
            let figure = |name| u64::from(figures[names.iter().position(|&other| other == name).expect("a name")]);
            let value = formula_value(&text, &figure, u64::from(p));
            assert_eq!(u64::from(ideal(&plan, &figures)[plan.outs[0].wire]), value);
        }
    }
}
