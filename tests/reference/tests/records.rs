//! The run record: plan K's bytes, both readers against the run by calls, matched runs, and the ways a record is refused.

use reference::matching::matching;
use reference::plan::{bytes, file, numbers, Gate, Out, Plan, Refusal};
use reference::random::{self, Random};
use reference::record::{read_all, read_seat, record, record_size};
use reference::run::{bench, run_by_calls, view};

fn k(version: u8, seat: u16) -> Vec<u8> {
    let gates = [Gate::Input(1), Gate::Input(2), Gate::Multiply(0, 1), Gate::Add(2, 0)];
    file(version, (3, 1, 11), &gates, &[Out { seat, wire: 3 }], &[1, 2, 3])
}

fn refused<T>(number: u8) -> Result<T, Refusal> {
    Err(Refusal { number, place: 0 })
}

fn stored(file: &[u8], figures: &[u32], coins: &[u32]) -> Vec<u8> {
    let mut stored = vec![7; record_size(file).unwrap()];
    record(file, &bytes(figures), &bytes(coins), &mut [], &mut stored).unwrap();
    stored
}

/// What the plant's reader shows.
fn shown(file: &[u8], record: &[u8], seat: u16) -> Vec<u32> {
    let mut list = vec![7; 4 * Plan::read(file).unwrap().view_of(seat)];
    read_seat(file, record, seat, &mut list).unwrap();
    numbers(&list, 4)
}

/// K's run on figures 4, 5 and coins 2, 3, 1, 5, 7.
const K_RECORD: [u32; 32] = [
    24, 32, 56, 32, 88, 40, // contents
    4, 2, 1, 6, 8, 5, 5, 4, // seat 1: figure, coins, inputs, products
    5, 3, 5, 8, 0, 6, 10, 0, // seat 2
    7, 10, 3, 7, 4, 7, 10, 7, 4, 2, // seat 3: coin, inputs, products, outs, result
];

#[test]
fn the_record_of_plan_k() {
    for version in 1..=3 {
        let file = k(version, 3);
        let record = stored(&file, &[4, 5], &[2, 3, 1, 5, 7]);
        assert_eq!(numbers(&record, 4), K_RECORD);
        assert_eq!(shown(&file, &record, 1), K_RECORD[6..14]);
        assert_eq!(shown(&file, &record, 2), K_RECORD[14..22]);
        assert_eq!(shown(&file, &record, 3), K_RECORD[22..]);
        let mut all = [7; 104];
        read_all(&file, &record, &mut all).unwrap();
        assert_eq!(numbers(&all, 4), K_RECORD[6..]);
    }
}

/// K's record with other contents and so many bytes.
fn with_contents(contents: &[u32], length: usize) -> Vec<u8> {
    let mut record = bytes(&[contents, &K_RECORD[6..]].concat());
    record.resize(length, 9);
    record
}

#[test]
fn records_that_are_refused() {
    let file = k(1, 3);
    let near = u32::MAX;
    for (contents, length) in [
        ([24, 32, 56, 32, 88, 40], 127),              // a byte fewer
        ([24, 32, 56, 32, 88, 40], 129),              // a byte more
        ([24, 32, 56, 32, 88, 40], 23),               // no room for the contents
        ([24, 32, 56, 32, 88, 36], 124),              // ends early
        ([24, 32, 56, 32, 88, 44], 132),              // ends late
        ([24, 32, 60, 32, 92, 40], 132),              // a gap
        ([24, 32, 24, 32, 88, 40], 128),              // an overlap
        ([56, 32, 24, 32, 88, 40], 128),              // another order
        ([24, 33, 57, 31, 88, 40], 128),              // lengths wrong by 1
        ([24, 36, 60, 28, 88, 40], 128),              // and by 4
        ([0, 32, 32, 32, 64, 40], 128),               // offsets from the bodies' start
        ([24, 32, 56, 32, 88, 40 + 65_536], 128),     // a length with its third byte
        ([24, 32, 56 + 65_536, 32, 88, 40], 128),     // an offset with its third byte
        ([24, 32, near, 32, 88, 40], 128),            // near 2^32
        ([24, 32, 56, 32, near - 39, 40], 128),       // ends at 2^32
        ([24, near - 31, near - 7, 96, 88, 40], 128), // tiles modulo 2^32
    ] {
        let record = with_contents(&contents, length);
        for seat in [0, 1, 2, 3, 4, 257] {
            assert_eq!(read_seat(&file, &record, seat, &mut [7; 32]), refused(28), "{contents:?}");
        }
        assert_eq!(read_all(&file, &record, &mut [7; 104]), refused(28), "{contents:?}");
    }
    let record = with_contents(&K_RECORD[..6], 128);
    for seat in [0, 4, 16, 257, 65_535] {
        assert_eq!(read_seat(&file, &record, seat, &mut []), refused(9));
    }
    assert_eq!(read_seat(&file, &record, 3, &mut [7; 32]), refused(19));
    assert_eq!(read_all(&file, &record, &mut [7; 128]), refused(19));
    assert_eq!(read_all(&k(1, 1), &record, &mut [7; 104]), refused(28));
    assert_eq!(read_all(&file[..44], &record[1..], &mut []), refused(6));
}

#[test]
fn the_writer_is_refused() {
    let (file, coins) = (k(1, 3), bytes(&[2, 3, 1, 5, 7]));
    let write =
        |figures: &[u32], coins: &[u8], room: usize| record(&file, &bytes(figures), coins, &mut [], &mut vec![7; room]);
    assert_eq!(write(&[4, 5], &coins, 128), Ok(()));
    assert_eq!(write(&[4], &coins, 127), refused(10));
    assert_eq!(write(&[4, 11], &coins[1..], 127), Err(Refusal { number: 11, place: 1 }));
    assert_eq!(write(&[4, 5], &coins[1..], 127), refused(12));
    assert_eq!(write(&[4, 5], &bytes(&[2, 3, 1, 12, 7]), 127), Err(Refusal { number: 13, place: 3 }));
    assert_eq!(write(&[4, 5], &coins, 127), refused(19));
}

#[test]
fn readers_show_the_run() {
    let mut random = Random(8);
    for round in 0..300 {
        let plan = [random::plan, random::wide_plan, random::pointed_plan, random::large_plan][round % 4];
        let file = plan(&mut random, 25);
        let plan = Plan::read(&file).unwrap();
        let p = plan.field.p();
        let (figures, coins) = (random.elements(plan.figures.len(), p), random.elements(plan.coins(), p));
        let mut record = stored(&file, &figures, &coins);
        let run = run_by_calls(&file, &figures, &coins, |_| ()).unwrap();
        let mut all = Vec::new();
        for seat in 1..=plan.n {
            let body = shown(&file, &record, seat);
            assert_eq!(body, view(&plan, &[seat], &figures, &coins, &run));
            if plan.t > 0 {
                let mut seen = vec![7; 4 * body.len()];
                bench(&file, 1 << (seat - 1), &bytes(&figures), &bytes(&coins), &mut [], &mut seen).unwrap();
                assert_eq!(bytes(&body), seen);
            }
            all.extend(body);
        }
        let mut list = vec![7; 4 * all.len()];
        read_all(&file, &record, &mut list).unwrap();
        assert_eq!(numbers(&list, 4), all);
        // any numbers are shown as they are stored, and other bodies do not count
        let seat = random.range(1, usize::from(plan.n)) as u16;
        let (before, contents) = (shown(&file, &record, seat), 8 * usize::from(plan.n));
        let start = contents + 4 * (1..seat).map(|seat| plan.view_of(seat)).sum::<usize>();
        let own = start..start + 4 * before.len();
        (contents..record.len()).filter(|i| !own.contains(i)).for_each(|i| record[i] = 255);
        assert_eq!(shown(&file, &record, seat), before);
        record[own].fill(255);
        assert_eq!(shown(&file, &record, seat), vec![u32::MAX; before.len()]);
    }
}

#[test]
fn matched_runs_show_the_same() {
    let mut random = Random(88);
    let mut changed = 0;
    while changed < 200 {
        let file = random::plan(&mut random, 16);
        let plan = Plan::read(&file).unwrap();
        if plan.t == 0 {
            continue;
        }
        let p = plan.field.p();
        let seat = random.range(1, usize::from(plan.n)) as u16;
        let (first, coins) = (random.elements(plan.figures.len(), p), random.elements(plan.coins(), p));
        let second: Vec<u32> = (plan.figure_seats().zip(&first))
            .map(|(owner, &x)| if owner == seat { x } else { random.element(p) })
            .collect();
        let mut matched = vec![0; 4 * coins.len()];
        if matching(&file, 1 << (seat - 1), &bytes(&first), &bytes(&second), &bytes(&coins), &mut matched).is_err() {
            continue;
        }
        let records = [stored(&file, &first, &coins), stored(&file, &second, &numbers(&matched, 4))];
        assert_eq!(shown(&file, &records[0], seat), shown(&file, &records[1], seat));
        changed += usize::from(first != second);
    }
}
