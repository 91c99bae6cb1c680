//! Times the product's static library against the reference and against the calls in C (tests/speed), all in one process.
//!
//! For each work every candidate's bytes are compared with the library's; then all take turns, and each one's shortest
//! time counts. A line `speed NAME reference=R c=L` for each work ends it: the library's time over the reference's and over C's.
//! `speed WORD..` times the works alone whose names begin with one of the words.

use reference::count::count_size;
use reference::field::MOST;
use reference::import::made_file;
use reference::library::{Interface, LIBRARY, LINKED, REFERENCE};
use reference::limit::{Calls, Flint, LIMIT};
use reference::matching::triples_of;
use reference::plan::{bytes, plan_file, Gate, Out, Plan};
use reference::random::{preparing_plan, Random};
use reference::run::{run_spending, shares, Step};
use std::hint::black_box;
use std::process::exit;
use std::time::{Duration, Instant};

/// The largest prime of 16 bits.
const P: u32 = 65521;

/// How long the candidates of a work take turns, and how many turns they have at least.
const LONG: Duration = Duration::from_millis(1200);
const TURNS: usize = 5;

/// A candidate's work: it adds the time of each of its steps, always as many.
type Work<'a> = Box<dyn FnMut(&mut Vec<Duration>) + 'a>;

/// The candidates of a work; what is not there has no time.
struct Candidates<'a> {
    library: Work<'a>,
    reference: Work<'a>,
    c: Option<Work<'a>>,
    flint: Option<Work<'a>>,
}

/// A candidate's shortest times, step by step, added up.
fn shortest(work: &mut Work, best: &mut Vec<Duration>) {
    let mut times = Vec::with_capacity(best.len());
    work(&mut times);
    best.resize(times.len(), Duration::MAX);
    best.iter_mut().zip(times).for_each(|(best, time)| *best = time.min(*best));
}

/// This thread's processor time: other programs on the machine don't lengthen it.
fn processor() -> Duration {
    #[repr(C)]
    struct Time {
        seconds: i64,
        nanoseconds: i64,
    }
    extern "C" {
        fn clock_gettime(clock: i32, time: *mut Time) -> i32;
    }
    const THREAD: i32 = 3;
    let mut time = Time { seconds: 0, nanoseconds: 0 };
    assert_eq!(unsafe { clock_gettime(THREAD, &mut time) }, 0);
    Duration::new(time.seconds as u64, time.nanoseconds as u32)
}

/// Times one step.
fn timed(times: &mut Vec<Duration>, step: impl FnOnce()) {
    let start = processor();
    step();
    times.push(processor() - start);
}

/// Times one step of a few microseconds, by the clock, which is read faster.
fn timed_short(times: &mut Vec<Duration>, step: impl FnOnce()) {
    let start = Instant::now();
    step();
    times.push(start.elapsed());
}

/// A script's lines, and the words with which a work's name must begin to be timed; none for all.
struct Results {
    lines: Vec<String>,
    words: Vec<String>,
}

impl Results {
    fn wants(&self, name: &str) -> bool {
        self.words.is_empty() || self.words.iter().any(|word| name.starts_with(word))
    }

    /// All candidates in turn, and a line for a person.
    fn time(&mut self, name: &str, words: &str, candidates: Candidates) {
        let Candidates { library, reference, c, flint } = candidates;
        let mut works = [Some(library), Some(reference), c, flint];
        let mut best: [Vec<Duration>; 4] = Default::default();
        let start = Instant::now();
        let mut turns = 0;
        while turns < TURNS || start.elapsed() < LONG {
            for (work, best) in works.iter_mut().zip(&mut best) {
                if let Some(work) = work {
                    shortest(work, best);
                }
            }
            turns += 1;
        }
        let time = |k: usize| best[k].iter().sum::<Duration>();
        let ratio = |k: usize| time(0).as_secs_f64() / time(k).as_secs_f64();
        let mut line = format!("{words:<42} library {:>9.1?}", time(0));
        for (k, other) in [(1, "reference"), (2, "C"), (3, "FLINT, table only")] {
            if works[k].is_some() {
                line += &format!("   {other} {:>9.1?} {:>5.2}", time(k), ratio(k));
            }
        }
        println!("{line}");
        let c = if works[2].is_some() { format!("{:.2}", ratio(2)) } else { "-".into() };
        self.lines.push(format!("speed {name} reference={:.2} c={c}", ratio(1)));
    }
}

/// Ends the program where a candidate's answer or bytes are not the library's.
fn same<T: PartialEq>(name: &str, candidate: &str, library: &T, other: &T) {
    if library != other {
        println!("{name}: {candidate} answers or writes something else than the library");
        exit(1);
    }
}

const LIBRARY_CALLS: Calls = Calls::of(&LIBRARY);
const REFERENCE_CALLS: Calls = Calls::of(&REFERENCE);

/// Candidates that write one list: `call` makes the call and gives its answer; `c` has C's calls, if there are any. All answers and lists are compared
/// first.
fn writers<'a>(
    name: &str,
    len: usize,
    c: Option<Calls>,
    call: impl Fn(&Calls, &mut [u8]) -> u64 + Copy + 'a,
) -> Candidates<'a> {
    let made = |with: &Calls| {
        let mut list = vec![0xa5; len];
        (call(with, &mut list), list)
    };
    let library = made(&LIBRARY_CALLS);
    assert_eq!(library.0 & 255, 0, "{name} is refused");
    same(name, "the reference", &library, &made(&REFERENCE_CALLS));
    if let Some(c) = &c {
        same(name, "C", &library, &made(c));
    }
    let work = move |with: Calls| -> Work<'a> {
        let mut list = vec![0; len];
        Box::new(move |times| {
            timed(times, || {
                call(&with, &mut list);
            });
            black_box(&list);
        })
    };
    Candidates { library: work(LIBRARY_CALLS), reference: work(REFERENCE_CALLS), c: c.map(work), flint: None }
}

/// An input of each of n seats and then only multiplies; one out for each seat.
fn products(n: u16, t: u32, p: u32, multiplies: usize) -> Vec<u8> {
    let mut gates: Vec<Gate> = (1..=n).map(Gate::Input).collect();
    for k in 0..multiplies {
        let g = gates.len();
        gates.push(Gate::Multiply(g - 1, k % g));
    }
    let outs: Vec<Out> = (1..=n).map(|seat| Out { seat, wire: gates.len() - usize::from(seat) }).collect();
    made_file(u32::from(n), t, p, &gates, &outs).expect("a plan that passes")
}

/// The same plan in version 4, with points 1 to n.
fn masked(file: &[u8]) -> Vec<u8> {
    let plan = Plan::read(file).expect("a plan that passes");
    plan.file_of(4, &plan.outs, &plan.points)
}

/// The same plan with its products by triples.
fn spending(file: &[u8]) -> Vec<u8> {
    let mut plan = Plan::read(file).expect("a plan that passes");
    for gate in &mut plan.gates {
        if let Gate::Multiply(a, b) = *gate {
            *gate = Gate::Spend(a, b);
        }
    }
    plan.file(&plan.outs)
}

/// A plan with its figures, coins and triples, and the preparing run that makes these: its plan's file, its draws and its coins.
struct World {
    file: Vec<u8>,
    plan: Plan,
    figures: Vec<u32>,
    coins: Vec<u32>,
    triples: Vec<u32>,
    preparing: (Vec<u8>, Vec<u32>, Vec<u32>),
}

impl World {
    fn new(file: Vec<u8>) -> World {
        let plan = Plan::read(&file).expect("a plan that passes");
        let mut random = Random(3);
        let p = plan.field.p() as usize;
        let mut list = |count| (0..count).map(|_| random.below(p) as u32).collect();
        let (figures, coins) = (list(plan.figures.len()), list(plan.coins()));
        let (mut triples, mut preparing) = Default::default();
        if !plan.spends.is_empty() {
            let file = preparing_plan(&mut Random(4), &plan);
            let first = Plan::read(&file).expect("a plan that passes");
            let (draws, early): (Vec<u32>, Vec<u32>) = (list(first.figures.len()), list(first.coins()));
            triples = triples_of(&first, &shares(&first, &draws, &early, |_| ()));
            preparing = (file, draws, early);
        }
        World { file, plan, figures, coins, triples, preparing }
    }

    /// The bench with a set's view.
    fn bench(&self, results: &mut Results, name: &str, words: &str, set: u16) {
        if !results.wants(name) {
            return;
        }
        let (figures, coins) = (bytes(&self.figures), bytes(&self.coins));
        let len = 4 * self.plan.view(set).expect("a set that passes");
        let call = |with: &Calls, view: &mut [u8]| (with.bench)(&self.file, set, &figures, &coins, &mut [], view);
        let mut candidates = writers(name, len, LIMIT, call);
        if set == 0 {
            candidates.flint = self.flint(name);
        }
        results.time(name, words, candidates);
    }

    /// The bench with a set's view, of a plan that spends triples: each run on a copy of them. There is no C.
    fn bench_spending(&self, results: &mut Results, name: &str, words: &str, set: u16) {
        if !results.wants(name) {
            return;
        }
        let [figures, coins, triples] = [&self.figures, &self.coins, &self.triples].map(|list| bytes(list));
        let len = 4 * self.plan.view(set).expect("a set that passes");
        let call =
            |with: &Calls, view: &mut [u8]| (with.bench)(&self.file, set, &figures, &coins, &mut triples.clone(), view);
        results.time(name, words, writers(name, len, None, call));
    }

    /// FLINT's way to the table of shares.
    fn flint(&self, name: &str) -> Option<Work<'_>> {
        let flint = Flint::new(&self.plan, &self.figures, &self.coins)?;
        let last = *shares(&self.plan, &self.figures, &self.coins, |_| ()).last().expect("a wire");
        let last: Vec<u64> = last[..usize::from(self.plan.n)].iter().map(|&share| share.into()).collect();
        same(name, "FLINT", &last, &flint.last());
        Some(Box::new(move |times| {
            timed(times, || {
                black_box(flint.last());
            })
        }))
    }

    /// The run stored; there is no C.
    fn record(&self, results: &mut Results, name: &str, words: &str) {
        if !results.wants(name) {
            return;
        }
        let (figures, coins) = (bytes(&self.figures), bytes(&self.coins));
        let len = (REFERENCE.record_size)(&self.file) as usize >> 8;
        let mut records = [vec![0; len], vec![0; len]];
        (LIBRARY.record)(&self.file, &figures, &coins, &mut [], &mut records[0]);
        (REFERENCE.record)(&self.file, &figures, &coins, &mut [], &mut records[1]);
        same(name, "the reference", &records[0], &records[1]);
        let work = |with: fn(&[u8], &[u8], &[u8], &mut [u8], &mut [u8]) -> u64| -> Work {
            let (mut record, figures, coins) = (vec![0; len], &figures, &coins);
            Box::new(move |times| {
                timed(times, || {
                    with(&self.file, figures, coins, &mut [], &mut record);
                });
                black_box(&record);
            })
        };
        let candidates =
            Candidates { library: work(LIBRARY.record), reference: work(REFERENCE.record), c: None, flint: None };
        results.time(name, words, candidates);
    }

    /// Every call of seat 1, a step each. There is no C for plans that spend triples.
    fn seat(&self, results: &mut Results, name: &str, words: &str) {
        if !results.wants(name) {
            return;
        }
        let mut steps: Vec<Step> = Vec::new();
        let keep = |step: &Step| {
            if step.seat == 1 {
                steps.push(step.clone());
            }
        };
        run_spending(&self.file, &self.figures, &self.coins, &self.triples, keep).expect("a whole run");
        let steps = &steps;
        let limit = LIMIT.filter(|_| self.plan.spends.is_empty());
        let fresh = vec![0; 4 * (1 + self.plan.gates.len())];
        let own = &steps[0].triples;
        let run = |with: &Calls, lists: &mut [Vec<u8>; 2], outs: &mut [Vec<u8>], times: &mut Vec<Duration>| {
            let [triples, state] = lists;
            triples.copy_from_slice(own);
            state.copy_from_slice(&fresh);
            for (step, out) in steps.iter().zip(outs) {
                let Step { seat, figures, coins, mail, .. } = step;
                timed_short(times, || {
                    black_box((with.seat_call)(&self.file, *seat, figures, coins, triples, state, mail, out));
                });
            }
        };
        let lists =
            || ([own.clone(), fresh.clone()], steps.iter().map(|step| vec![0; step.written.len()]).collect::<Vec<_>>());
        let made = |with: &Calls| {
            let (mut lists, mut outs) = lists();
            run(with, &mut lists, &mut outs, &mut Vec::new());
            (lists, outs)
        };
        let library = made(&LIBRARY_CALLS);
        same(name, "the reference", &library, &made(&REFERENCE_CALLS));
        if let Some(c) = limit {
            same(name, "C", &library, &made(&c));
        }
        let run = &run;
        let work = |with: Calls| -> Work {
            let (mut lists, mut outs) = lists();
            Box::new(move |times| run(&with, &mut lists, &mut outs, times))
        };
        let candidates = Candidates {
            library: work(LIBRARY_CALLS),
            reference: work(REFERENCE_CALLS),
            c: limit.map(work),
            flint: None,
        };
        results.time(name, words, candidates);
    }

    /// The matching for the last t seats, whose outs stand nowhere in the changed plan.
    /// The plan with one out, to seat 1, and a second list of figures that agrees with the first at the last t seats'; and the set of these.
    fn pair(&self) -> (Vec<u8>, Vec<u8>, u16) {
        let Plan { n, t, field, .. } = self.plan;
        let others = usize::from(n) - t;
        let outs = [Out { seat: 1, wire: self.plan.gates.len() - 1 }];
        let changed = |(i, &x): (usize, &u32)| if i < others { field.p() - 1 - x } else { x };
        let second: Vec<u32> = self.figures.iter().enumerate().map(changed).collect();
        (self.plan.file(&outs), bytes(&second), ((1 << t) - 1) << others)
    }

    fn matching(&self, results: &mut Results, name: &str, words: &str) {
        if !results.wants(name) {
            return;
        }
        let (file, second, set) = self.pair();
        let (first, coins) = (bytes(&self.figures), bytes(&self.coins));
        let call = |with: &Calls, matched: &mut [u8]| (with.matching)(&file, set, &first, &second, &coins, matched);
        results.time(name, words, writers(name, coins.len(), LIMIT, call));
    }

    /// Both runs matched together, of a plan that spends triples; there is no C.
    fn matching_prepared(&self, results: &mut Results, name: &str, words: &str) {
        if !results.wants(name) {
            return;
        }
        let (file, second, set) = self.pair();
        let (preparing, draws, early) = &self.preparing;
        let (first, coins) = (bytes(&self.figures), bytes(&[&draws[..], early, &self.coins].concat()));
        let call = |with: &Interface, matched: &mut [u8]| {
            (with.matching_prepared)(preparing, &file, set, &first, &second, &coins, matched)
        };
        let mut lists = [vec![0xa5; coins.len()], vec![0xa5; coins.len()]];
        assert_eq!(call(&LIBRARY, &mut lists[0]), 0, "{name} is refused");
        assert_eq!(call(&REFERENCE, &mut lists[1]), 0, "{name} is refused");
        same(name, "the reference", &lists[0], &lists[1]);
        let work = |with: &'static Interface| -> Work {
            let mut list = vec![0; coins.len()];
            Box::new(move |times| {
                timed(times, || {
                    call(with, &mut list);
                });
                black_box(&list);
            })
        };
        let candidates = Candidates { library: work(&LIBRARY), reference: work(&REFERENCE), c: None, flint: None };
        results.time(name, words, candidates);
    }
}

/// The plan check, a hundred times a step.
fn check(results: &mut Results, name: &str, words: &str, file: &[u8]) {
    if !results.wants(name) {
        return;
    }
    let work = |with: Calls| -> Work {
        assert_eq!((with.plan_check)(file), 0);
        Box::new(move |times| {
            timed(times, || {
                (0..100).for_each(|_| {
                    black_box((with.plan_check)(black_box(file)));
                });
            });
            times[0] /= 100;
        })
    };
    let candidates =
        Candidates { library: work(LIBRARY_CALLS), reference: work(REFERENCE_CALLS), c: LIMIT.map(work), flint: None };
    results.time(name, words, candidates);
}

/// The views of a set counted.
fn count(results: &mut Results, name: &str, words: &str, file: &[u8], set: u16, figures: &[u32], coins: &[u32]) {
    if !results.wants(name) {
        return;
    }
    let (figures, coins) = (bytes(figures), bytes(coins));
    let len = count_size(file, set).expect("few settings");
    let call = |with: &Calls, rows: &mut [u8]| (with.count)(file, set, &figures, &coins, rows);
    results.time(name, words, writers(name, len, LIMIT, call));
}

fn counts(results: &mut Results) {
    let file = plan_file(2, 1, 3, &[Gate::Input(1); 10], &[Out { seat: 2, wire: 9 }]);
    count(results, "count", "count, 59,049 settings: ten coins over 3", &file, 2, &[1; 10], &[]);
    let file = plan_file(2, 1, P, &[Gate::Input(1)], &[Out { seat: 2, wire: 0 }]);
    count(results, "count-65521", "count, 65,521 settings: one coin", &file, 2, &[1], &[]);
    let gates = [Gate::Input(1), Gate::Input(2), Gate::Multiply(0, 1), Gate::Add(2, 0)];
    let file = plan_file(3, 1, 13, &gates, &[Out { seat: 3, wire: 3 }]);
    count(results, "count-product", "count, 28,561 settings: plan K over 13", &file, 4, &[4, 5], &[7]);
}

fn main() {
    println!("library: {}", if LINKED { "libpool.a" } else { "none linked, the reference stands in" });
    println!("after each other candidate's time: the library's time over it");
    let mut results = Results { lines: Vec::new(), words: std::env::args().skip(1).collect() };
    for (p, ending) in [(P, ""), (MOST, "-p31")] {
        println!("p = {p}, 1,000 multiplies:");
        for (n, t) in [(15, 7), (5, 2), (3, 1)] {
            let world = World::new(products(n, t, p, 1000));
            let name = |call: &str| format!("{call}-{n}-{t}{ending}");
            let words = |call: &str| format!("{call}, n={n} t={t}");
            world.bench(&mut results, &name("bench"), &words(&format!("bench with the view of {t}")), (1 << t) - 1);
            world.bench(&mut results, &(name("bench") + "-none"), &words("bench with no view"), 0);
            world.seat(&mut results, &name("seat"), &words("one seat's whole run"));
            world.matching(&mut results, &name("match"), &words("matching"));
            if n == 15 {
                world.record(&mut results, &name("record"), &words("record"));
                let file = products(n, t, p, 1009);
                check(&mut results, &name("check"), "plan check, 1,024 gates", &file);
            }
        }
    }
    println!("p = {P}, n=15 t=7, version 4, 1,000 multiplies:");
    let world = World::new(masked(&products(15, 7, P, 1000)));
    world.bench(&mut results, "bench-15-7-v4", "bench with the view of 7", 127);
    world.seat(&mut results, "seat-15-7-v4", "one seat's whole run");
    world.matching(&mut results, "match-15-7-v4", "matching");
    println!(
        "341 products, dealt anew and by triples: one seat's whole run, the bench, and both runs matched together:"
    );
    for (n, t) in [(15, 7), (5, 2), (3, 1)] {
        let file = products(n, t, P, 341);
        let name = |by: &str| format!("seat-{n}-{t}-{by}");
        let words = |by: &str| format!("341 {by}, n={n} t={t}");
        World::new(file.clone()).seat(&mut results, &name("products"), &words("multiplies"));
        let world = World::new(spending(&file));
        world.seat(&mut results, &name("triples"), &words("triples"));
        let set = (1 << t) - 1;
        world.bench_spending(
            &mut results,
            &format!("bench-{n}-{t}-triples"),
            &format!("bench, {}, a view of {t}", words("triples")),
            set,
        );
        let name = format!("match-{n}-{t}-prepared");
        world.matching_prepared(&mut results, &name, &format!("both runs matched, {}", words("triples")));
    }
    println!("counted views:");
    counts(&mut results);
    println!("p = {P}, n=15 t=7, the view of 7, by multiplies:");
    for multiplies in [125, 250, 500] {
        let world = World::new(products(15, 7, P, multiplies));
        world.bench(&mut results, &format!("bench-15-7-{multiplies}"), &format!("bench, {multiplies} multiplies"), 127);
    }
    results.lines.iter().for_each(|line| println!("{line}"));
}
