//! Imported circuits: the worked example, and plans against the circuits' own bits.

use reference::import::{import_file, Circuit};
use reference::plan::{plan_file, Gate, Out, Plan};
use reference::random::Random;
use reference::run::ideal;
use reference::texts::Text;

const EXAMPLE: &[u8] = b"3 7\n2 2 2\n1 1\n\n2 1 0 2 4 XOR\n2 1 1 3 5 AND\n2 1 4 5 6 XOR\n";

#[test]
fn the_worked_example() {
    let gates = [
        Gate::Input(1),
        Gate::Input(1),
        Gate::Input(2),
        Gate::Input(2),
        Gate::Multiply(0, 2),
        Gate::Scale(4, 9),
        Gate::Add(0, 2),
        Gate::Add(6, 5),
        Gate::Multiply(1, 3),
        Gate::Multiply(7, 8),
        Gate::Scale(9, 9),
        Gate::Add(7, 8),
        Gate::Add(11, 10),
    ];
    assert_eq!(import_file(EXAMPLE, 3, 1, 11), Ok(plan_file(3, 1, 11, &gates, &[Out { seat: 1, wire: 12 }])));
    let circuit = Circuit::read(EXAMPLE).expect("a circuit");
    assert_eq!(circuit.bits(&[true, true, false, true]), [false]);
}

#[test]
fn plans_give_the_circuits_bits() {
    let mut random = Random(3);
    for round in 0..300 {
        let (n, p) = [(1, 2), (2, 3), (15, 17), (3, 65521)][round % 4];
        let (gates, outputs) = (random.range(1, 40), random.range(1, 20));
        let text = Text::new(&mut random, n, gates, 4, outputs).bytes(&mut random, true);
        let circuit = Circuit::read(&text).expect("a circuit");
        let file = import_file(&text, n as u32, (n as u32 - 1) / 2, p).expect("a plan");
        let plan = Plan::read(&file).expect("a plan that passes");
        for _ in 0..10 {
            let bits: Vec<bool> = (0..circuit.inputs.iter().sum()).map(|_| random.once_in(2)).collect();
            let values = ideal(&plan, &bits.iter().map(|&bit| u32::from(bit)).collect::<Vec<u32>>());
            let results: Vec<u32> = plan.outs.iter().map(|out| values[out.wire]).collect();
            assert_eq!(results, circuit.bits(&bits).into_iter().map(u32::from).collect::<Vec<u32>>());
        }
    }
}
