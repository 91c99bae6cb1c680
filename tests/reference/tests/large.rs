//! Primes above 65,535: plans of version 3, the converter, and what import and sheets write.

use reference::convert::{convert, convert_file};
use reference::field::{Field, MOST};
use reference::import::import_file;
use reference::library::REFERENCE;
use reference::matching::matching;
use reference::plan::{bytes, bytes_of, file, long, number, plan_check, Gate, List, Out, Plan, Refusal};
use reference::primes::prime;
use reference::program::program;
use reference::random::{self, Random};
use reference::run::{bench, granted, ideal, run_by_calls, shares, view};
use reference::sheet::sheet_file;

const POINTS: [u32; 3] = [2_147_483_646, 70_000, 3];
const FIGURES: [u32; 2] = [123_456_789, 2_000_000_000];
const COINS: [u32; 5] = [2_147_483_646, 1_000_000_007, 3, 2_147_480_000, 70_001];

fn k_gates() -> [Gate; 4] {
    [Gate::Input(1), Gate::Input(2), Gate::Multiply(0, 1), Gate::Add(2, 0)]
}

/// Plan K in a version, over p, with points.
fn k(version: u8, p: u32, points: &[u32]) -> Vec<u8> {
    file(version, (3, 1, p), &k_gates(), &[Out { seat: 3, wire: 3 }], points)
}

fn refused<T>(number: u8) -> Result<T, Refusal> {
    Err(Refusal { number, place: 0 })
}

/// The bench program's input, with numbers of this width.
fn input(file: &[u8], set: u16, numbers: &[u32], width: usize) -> Vec<u8> {
    let two = |x: u32| bytes_of(&[x], 2);
    [&two(file.len() as u32)[..], file, &two(u32::from(set)), &bytes_of(numbers, width)].concat()
}

fn seen(file: &[u8], set: u16, figures: &[u32], coins: &[u32]) -> Vec<u32> {
    let length = Plan::read(file).unwrap().view(set).unwrap();
    let mut view = vec![0; 4 * length];
    bench(file, set, &bytes(figures), &bytes(coins), &mut [], &mut view).unwrap();
    List::new(&view, length, 0).unwrap().to_vec()
}

#[test]
fn the_layout() {
    let plan = k(3, MOST, &POINTS);
    assert_eq!(plan.len(), 32 + 40 + 3 + 12);
    assert_eq!([8, 12, 16, 20, 24, 28].map(|i| long(&plan, i)), [MOST, 32, 4, 72, 1, 75]);
    assert_eq!(plan[4..8], [3, 3, 1, 0]);
    assert_eq!(plan[52..62], [5, 0, 0, 0, 0, 0, 1, 0, 0, 0]);
    assert_eq!((plan[72], number(&plan, 73)), (3, 3));
    assert_eq!(plan[75..], bytes(&POINTS));
    assert_eq!(Plan::read(&plan).unwrap().points, POINTS);
    for length in 0..plan.len() {
        assert_eq!(plan_check(&plan[..length]), refused(if length < 18 { 1 } else { 6 }));
    }
    for (i, byte, refusal) in [(4, 5, 2), (5, 16, 3), (6, 3, 4), (11, 128, 5), (7, 1, 6), (14, 1, 6), (31, 1, 6)] {
        let mut wrong = plan.clone();
        wrong[i] = byte;
        assert_eq!(plan_check(&wrong), refused(refusal), "byte {i}");
        if i < 18 {
            assert_eq!(plan_check(&wrong[..18]), refused(refusal), "byte {i}");
        }
    }
}

#[test]
fn primes() {
    for (p, passes) in [
        (65_521, true),
        (65_537, true),
        (MOST, true),
        (2_147_483_629, true),
        (2_147_483_646, false),
        (2_147_483_649, false),
        (4_294_967_291, false),
        (46_337 * 46_337, false),
        (46_339 * 46_339, false),
    ] {
        assert_eq!(plan_check(&k(3, p, &[1, 2, 3])), if passes { Ok(()) } else { refused(5) }, "{p}");
    }
    // against strong tests, over stretches of the whole range
    for start in (0..MOST).step_by(40_000_003) {
        assert!((start..start + 60).filter(|&p| p <= MOST).all(|p| Field::new(p).is_some() == prime(p)));
    }
    assert!((MOST - 200..=MOST).all(|p| Field::new(p).is_some() == prime(p)));
}

#[test]
fn a_run_at_the_largest_prime() {
    let file = k(3, MOST, &POINTS);
    let plan = Plan::read(&file).unwrap();
    let wires = shares(&plan, &FIGURES, &COINS, |grid| {
        let rows: Vec<&[u32]> = grid.iter().map(|row| &row[..3]).collect();
        let expected = [
            [821_688_058, 821_898_061, 821_688_070],
            [375_403_359, 120_109_712, 375_388_771],
            [1_759_368_695, 217_057_755, 1_759_648_699],
        ];
        assert_eq!(rows, expected);
    });
    let rows: Vec<&[u32]> = wires.iter().map(|wire| &wire[..3]).collect();
    let expected = [
        [123_456_790, 123_386_789, 123_456_786],
        [999_999_993, 476_048_741, 705_032_727],
        [242_016_717, 951_536_760, 466_067_283],
        [365_473_507, 1_074_923_549, 589_524_069],
    ];
    assert_eq!(rows, expected);
    assert_eq!(plan.product_weights(), [218_917_492, 1_847_725_271, 80_840_885]);
    let run = run_by_calls(&file, &FIGURES, &COINS, |_| ()).unwrap();
    assert_eq!(run.results, [vec![], vec![], vec![1_495_227_971]]);
    assert_eq!(seen(&file, 4, &FIGURES, &COINS), view(&plan, &[3], &FIGURES, &COINS, &run));
}

#[test]
fn the_matching_at_the_largest_prime() {
    assert_eq!(Field::new(MOST).unwrap().delta(&[3], 1), [1, 715_827_882]);
    let (file, second) = (k(3, MOST, &POINTS), [1, 1_495_227_970]);
    let mut matched = [0; 20];
    matching(&file, 4, &bytes(&FIGURES), &bytes(&second), &bytes(&COINS), &mut matched).unwrap();
    let given = [756_980_144, 452_429_468, 1_473_368_514, 42_825_099, 70_001];
    assert_eq!(matched.to_vec(), bytes(&given));
    assert_eq!(seen(&file, 4, &FIGURES, &COINS), seen(&file, 4, &second, &given));
}

#[test]
fn the_programs_widths() {
    let numbers = [&FIGURES[..], &COINS].concat();
    let whole = input(&k(3, MOST, &POINTS), 4, &numbers, 4);
    let text = program(&whole);
    assert!(text.starts_with("plan 3 1 2147483647 4 1\nview 3 70001\nround 0 123456786 705032727\nround 1 821688070 "));
    assert!(text.ends_with("out 0 3 1495227971\nsent 18\n"));
    for left_over in 1..4 {
        assert_eq!(program(&whole[..whole.len() - left_over]), "refused 1 0\n");
    }
    assert_eq!(program(&whole[..whole.len() - 4]), "refused 12 0\n");
    // a refused plan's numbers are as wide as its byte 4 says
    let mut wrong = k(3, MOST, &POINTS);
    wrong[5] = 0;
    assert_eq!(program(&input(&wrong, 4, &[1], 4)), "refused 3 0\n");
    assert_eq!(program(&input(&wrong, 4, &[1], 2)), "refused 1 0\n");
    assert_eq!(program(&input(b"POOL\x04", 4, &[1], 2)), "refused 1 0\n");
    // version 1 and 2 keep two bytes, and small primes in version 3 have four
    let small = [4, 5, 2, 3, 1, 5, 7];
    let text = program(&input(&k(1, 11, &[]), 4, &small, 2));
    assert_eq!(program(&input(&k(2, 11, &[1, 2, 3]), 4, &small, 2)), text);
    assert_eq!(program(&input(&k(3, 11, &[1, 2, 3]), 4, &small, 4)), text);
}

#[test]
fn the_program_takes_1024_gates_in_version_3() {
    let gates = [vec![Gate::Input(1)], vec![Gate::Add(0, 0); 1023]].concat();
    let plan = file(3, (15, 14, MOST), &gates, &[Out { seat: 1, wire: 1023 }], &(1..=15).collect::<Vec<u32>>());
    let text = program(&input(&plan, 1, &[vec![MOST - 1], vec![7; 14]].concat(), 4));
    assert!(text.ends_with("out 0 1 2147483645\nsent 30\n"), "{text}");
}

#[test]
fn conversions_keep_everything() {
    let mut random = Random(66);
    for round in 0..300 {
        let plan = [random::plan, random::wide_plan, random::pointed_plan][round % 3];
        let stored = plan(&mut random, 25);
        let before = Plan::read(&stored).unwrap();
        let converted = convert_file(&stored).unwrap();
        let after = Plan::read(&converted).unwrap();
        assert_eq!(after, Plan { version: 3, ..before.clone() });
        let mut lent = vec![0; converted.len()];
        assert_eq!(convert(&stored, &mut lent), Ok(()));
        assert_eq!(lent, converted);
        assert_eq!(convert(&stored, &mut lent[1..]), refused(19));
        assert_eq!(convert_file(&converted), refused(2));
        let figures = random.elements(before.figures.len(), before.field.p());
        let coins = random.elements(before.coins(), before.field.p());
        let run = |file: &[u8]| {
            let mut steps = Vec::new();
            let run = run_by_calls(file, &figures, &coins, |step| steps.push(format!("{step:?}"))).unwrap();
            (run, steps)
        };
        assert_eq!(run(&stored), run(&converted));
        let set = random::set(&mut random, before.n, before.t);
        assert_eq!(seen(&stored, set, &figures, &coins), seen(&converted, set, &figures, &coins));
        let others: Vec<u32> = (before.figure_seats().zip(&figures))
            .map(|(seat, &x)| if set >> (seat - 1) & 1 == 1 { x } else { random.element(before.field.p()) })
            .collect();
        let matched = |file: &[u8]| {
            let mut given = vec![7; 4 * coins.len()];
            let answer = (REFERENCE.matching)(file, set, &bytes(&figures), &bytes(&others), &bytes(&coins), &mut given);
            (answer, given)
        };
        assert_eq!(matched(&stored), matched(&converted));
    }
    assert_eq!(convert_file(b"POOL"), refused(1));
    assert_eq!(convert_file(&k(3, MOST, &[0, 0, 0])), refused(2));
    assert_eq!(convert_file(&k(2, 11, &[1, 1, 2])), refused(26));
    assert_eq!(convert_file(&k(1, 12, &[])), refused(5));
}

#[test]
fn texts_over_large_primes() {
    let sheet = |text: &str, p| sheet_file(text.as_bytes(), 3, 1, p, 3);
    for (p, version) in [(65_521, 1), (65_537, 3), (MOST, 3)] {
        let plan = Plan::read(&sheet("a1 + b2*b2 - 7", p).unwrap()).unwrap();
        assert_eq!((plan.version, plan.field.p(), plan.points), (version, p, vec![1, 2, 3]));
        let plan = import_file(b"1 2\n1 1\n1 1\n1 1 0 1 INV", 3, 1, p).unwrap();
        assert_eq!(Plan::read(&plan).unwrap().gates[1..], [Gate::Scale(0, p - 1), Gate::Offset(1, 1)]);
        assert_eq!(plan[4], version);
    }
    for p in [2_147_483_646, 2_147_483_649, 4_294_967_291] {
        assert_eq!(sheet("a1", p), refused(5));
        assert_eq!(import_file(b"0 1\n1 1\n1 1", 3, 1, p), refused(5));
    }
    assert_eq!(sheet("a1 + 2147483647", MOST), refused(27));
    // money: totals above 65,521, added and multiplied
    let file = sheet("(a1 + b2 + c3)*3 - 100000", MOST).unwrap();
    let plan = Plan::read(&file).unwrap();
    let figures = [200_000_000, 70_000, 123_456_789];
    let coins = Random(9).elements(plan.coins(), MOST);
    let run = run_by_calls(&file, &figures, &coins, |_| ()).unwrap();
    assert_eq!(run.results[2], [323_526_789 * 3 - 100_000]);
    assert_eq!(ideal(&plan, &figures)[plan.outs[0].wire], 970_480_367);
}

#[test]
fn random_runs_of_version_3() {
    let mut random = Random(63);
    for _ in 0..150 {
        let file = random::large_plan(&mut random, 25);
        let plan = Plan::read(&file).unwrap();
        let figures = random.elements(plan.figures.len(), plan.field.p());
        let coins = random.elements(plan.coins(), plan.field.p());
        let run = run_by_calls(&file, &figures, &coins, |_| ()).unwrap();
        assert_eq!(run.results, granted(&plan, &figures));
        let set = random::set(&mut random, plan.n, plan.t);
        let members = plan.members(set).unwrap();
        assert_eq!(seen(&file, set, &figures, &coins), view(&plan, &members, &figures, &coins, &run));
        let second: Vec<u32> = (plan.figure_seats().zip(&figures))
            .map(|(seat, &x)| if members.contains(&seat) { x } else { random.element(plan.field.p()) })
            .collect();
        let mut given = vec![0; 4 * coins.len()];
        let answer = matching(&file, set, &bytes(&figures), &bytes(&second), &bytes(&coins), &mut given);
        if answer.is_ok() {
            let given = List::new(&given, coins.len(), 0).unwrap().to_vec();
            assert_eq!(seen(&file, set, &figures, &coins), seen(&file, set, &second, &given));
        }
    }
}
