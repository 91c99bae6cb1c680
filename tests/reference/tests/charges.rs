//! The line charge: the worked bills, and that parts add up.

use reference::charge::{charge, elements, share};
use reference::plan::{plan_file, Gate, Out, Plan, Refusal};
use reference::random::{self, Random};

fn k(n: u8) -> Vec<u8> {
    let gates = [Gate::Input(1), Gate::Input(2), Gate::Multiply(0, 1), Gate::Add(2, 0)];
    plan_file(n, 1, 11, &gates, &[Out { seat: 3, wire: 3 }])
}

fn parts(file: &[u8], price: u32) -> (usize, Vec<u32>) {
    let mut parts = vec![0; 4 * usize::from(file[5])];
    let bill = charge(file, price, &mut parts).expect("no refusal");
    (bill, parts.chunks_exact(4).map(|four| u32::from_le_bytes(four.try_into().unwrap())).collect())
}

#[test]
fn the_worked_bills() {
    assert_eq!(elements(&Plan::read(&k(3)).unwrap()), [7, 7, 4]);
    assert_eq!(parts(&k(3), 1_000_000), (18_000, vec![7000, 7000, 4000]));
    assert_eq!(parts(&k(3), 277), (5, vec![2, 2, 1]));
    assert_eq!(parts(&k(3), 278), (6, vec![3, 2, 1]));
    assert_eq!(parts(&k(3), 0), (0, vec![0, 0, 0]));
    assert_eq!(parts(&k(5), 500), (15, vec![6, 6, 3, 0, 0]));
    assert_eq!(charge(&k(3), 1_000_001, &mut []), Err(Refusal { number: 31, place: 0 }));
    assert_eq!(charge(&k(3), 1_000_000, &mut [0; 11]), Err(Refusal { number: 19, place: 0 }));
}

#[test]
fn the_parts_add_up() {
    let mut random = Random(14);
    for _ in 0..2000 {
        let file = random::plan(&mut random, 40);
        let plan = Plan::read(&file).unwrap();
        let elements = elements(&plan);
        assert_eq!(elements.iter().sum::<u64>(), plan.sent() as u64);
        let bill = random.below(5000) as u64;
        let parts = share(bill, &elements);
        assert_eq!(parts.iter().sum::<u64>(), bill);
        for (part, sent) in parts.iter().zip(&elements) {
            let floor = bill * sent / plan.sent() as u64;
            assert!(*part == floor || *part == floor + 1);
        }
    }
}
