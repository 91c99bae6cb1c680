//! Compares the product's static library with the reference on random, extreme and damaged cases.
//!
//! Every case is one call over the C interface. The answer, every written buffer, the bytes around it and the
//! buffers that are only read must afterwards be as with the reference. Where a case is damaged on purpose, the
//! reference's own answer must be the earliest damage's refusal.

use reference::field::{Field, MOST};
use reference::formulas::{self, Formula};
use reference::library::{Interface, LIBRARY, LINKED, REFERENCE};
use reference::matching::triples_of;
use reference::plan::{bytes, bytes_of, file, long, plan_file, Gate, Layout, Out, Plan};
use reference::primes::prime;
use reference::program::program;
use reference::random::{self, Random};
use reference::run::{granted, ideal, run_spending, shares, Step};
use reference::sheet::{formula_value, Name, Sheet};
use reference::texts::{self, Text};
use std::fmt::Write as _;
use std::io::Write as _;
use std::process::{Command, ExitCode, Stdio};
use std::time::Instant;

/// One call over the C interface; a written buffer is given as it stands before the call.
#[derive(Clone, PartialEq)]
enum Case {
    Check {
        plan: Vec<u8>,
    },
    Call {
        plan: Vec<u8>,
        seat: u16,
        figures: Vec<u8>,
        coins: Vec<u8>,
        triples: Vec<u8>,
        state: Vec<u8>,
        mail: Vec<u8>,
        out: Vec<u8>,
    },
    Bench {
        plan: Vec<u8>,
        set: u16,
        figures: Vec<u8>,
        coins: Vec<u8>,
        triples: Vec<u8>,
        view: Vec<u8>,
    },
    Match {
        plan: Vec<u8>,
        set: u16,
        first: Vec<u8>,
        second: Vec<u8>,
        coins: Vec<u8>,
        matched: Vec<u8>,
    },
    Prepared {
        preparing: Vec<u8>,
        plan: Vec<u8>,
        set: u16,
        first: Vec<u8>,
        second: Vec<u8>,
        coins: Vec<u8>,
        matched: Vec<u8>,
    },
    SeatSize {
        plan: Vec<u8>,
        seat: u16,
        call: u16,
        what: u16,
    },
    RunSize {
        plan: Vec<u8>,
        set: u16,
        what: u16,
    },
    Import {
        text: Vec<u8>,
        sizes: [u32; 3],
        plan: Vec<u8>,
    },
    ImportSize {
        text: Vec<u8>,
        sizes: [u32; 3],
    },
    Sheet {
        text: Vec<u8>,
        sizes: [u32; 4],
        plan: Vec<u8>,
    },
    SheetSize {
        text: Vec<u8>,
        sizes: [u32; 4],
    },
    Charge {
        plan: Vec<u8>,
        price: u32,
        parts: Vec<u8>,
    },
    Convert {
        plan: Vec<u8>,
        out: Vec<u8>,
    },
    ConvertSize {
        plan: Vec<u8>,
    },
    Record {
        plan: Vec<u8>,
        figures: Vec<u8>,
        coins: Vec<u8>,
        triples: Vec<u8>,
        record: Vec<u8>,
    },
    RecordSize {
        plan: Vec<u8>,
    },
    ReadAll {
        plan: Vec<u8>,
        record: Vec<u8>,
        numbers: Vec<u8>,
    },
    ReadSeat {
        plan: Vec<u8>,
        record: Vec<u8>,
        seat: u16,
        numbers: Vec<u8>,
    },
    Count {
        plan: Vec<u8>,
        set: u16,
        figures: Vec<u8>,
        coins: Vec<u8>,
        rows: Vec<u8>,
    },
    CountSize {
        plan: Vec<u8>,
        set: u16,
    },
}

/// Kinds of calls; the refusals and none.
const KINDS: usize = 20;
const NUMBERS: usize = 32;

const NAMES: [&str; KINDS] = [
    "plan check",
    "seat call",
    "bench",
    "matching",
    "seat size",
    "run size",
    "import",
    "import size",
    "sheet",
    "sheet size",
    "charge",
    "convert",
    "conv. size",
    "record",
    "rec. size",
    "read all",
    "read seat",
    "count",
    "count size",
    "prepared",
];

const IMPORT: usize = 6;
const SHEET: usize = 8;
const CHARGE: usize = 10;
const CONVERT: usize = 11;
const RECORD: usize = 13;
const READ_ALL: usize = 15;
const READ_SEAT: usize = 16;
const COUNT: usize = 17;
const COUNT_SIZE: usize = 18;
const PREPARED: usize = 19;

/// How often a call must meet a refusal: kind of call, refusal, times.
const MET: [(usize, usize, usize); 41] = [
    (IMPORT, 23, 500),
    (IMPORT, 24, 500),
    (SHEET, 27, 500),
    (SHEET, 24, 500),
    (SHEET, 3, 50),
    (SHEET, 4, 50),
    (SHEET, 5, 50),
    (SHEET, 8, 50),
    (CHARGE, 31, 200),
    (IMPORT, 25, 200),
    (SHEET, 25, 200),
    (CHARGE, 25, 50),
    (CHARGE, 26, 50),
    (CONVERT, 0, 200),
    (CONVERT, 2, 200),
    (CONVERT, 26, 50),
    (RECORD, 0, 500),
    (RECORD, 10, 50),
    (RECORD, 11, 50),
    (RECORD, 12, 50),
    (RECORD, 13, 50),
    (RECORD, 19, 50),
    (READ_ALL, 0, 500),
    (READ_ALL, 19, 200),
    (READ_ALL, 28, 500),
    (READ_SEAT, 9, 200),
    (READ_SEAT, 19, 200),
    (READ_SEAT, 28, 500),
    (COUNT, 0, 5000),
    (COUNT, 9, 50),
    (COUNT, 10, 50),
    (COUNT, 11, 50),
    (COUNT, 12, 50),
    (COUNT, 13, 50),
    (COUNT, 19, 50),
    (COUNT, 30, 200),
    (COUNT_SIZE, 30, 200),
    (PREPARED, 0, 1000),
    (PREPARED, 29, 100),
    (1, 29, 200),
    (2, 29, 100),
];

/// How often all calls together must meet a refusal.
const MET_BY_ALL: [(usize, usize); 5] = [(4, 200), (25, 200), (26, 200), (28, 500), (30, 500)];

/// The refusals that cases are damaged for, in checking order.
const ORDER: [u8; 21] = [1, 2, 3, 4, 5, 6, 7, 8, 9, 10, 11, 12, 13, 14, 15, 16, 17, 18, 19, 20, 21];

/// The same with 25.
const WIDE_ORDER: [u8; 22] = [1, 2, 3, 4, 5, 6, 7, 8, 25, 9, 10, 11, 12, 13, 14, 15, 16, 17, 18, 19, 20, 21];

/// The same with 25 and 26.
const POINTED_ORDER: [u8; 23] = [1, 2, 3, 4, 5, 6, 7, 8, 25, 26, 9, 10, 11, 12, 13, 14, 15, 16, 17, 18, 19, 20, 21];

/// The same with 29.
const SPENT_ORDER: [u8; 24] = [1, 2, 3, 4, 5, 6, 7, 8, 25, 26, 9, 10, 11, 12, 13, 29, 14, 15, 16, 17, 18, 19, 20, 21];
const SPENT_RECORD_ORDER: [u8; 18] = [1, 2, 3, 4, 5, 6, 7, 8, 25, 26, 28, 9, 10, 11, 12, 13, 29, 19];

/// Those of the run record's calls.
const RECORD_ORDER: [u8; 17] = [1, 2, 3, 4, 5, 6, 7, 8, 25, 26, 28, 9, 10, 11, 12, 13, 19];

/// Those of the counted views, for sets with few settings; with too many, where 19 comes after 30.
const COUNT_ORDER: [u8; 16] = [1, 2, 3, 4, 5, 6, 7, 8, 25, 26, 9, 10, 11, 12, 13, 19];
const SETTINGS_ORDER: [u8; 15] = [1, 2, 3, 4, 5, 6, 7, 8, 25, 26, 9, 10, 11, 12, 13];

/// How many of them are a plan's.
fn of_plans(order: &[u8]) -> usize {
    order.iter().position(|&refusal| refusal == 9 || refusal == 28).expect("9 and 28 come after a plan's refusals")
}

/// A lent buffer between two odd stretches of guard bytes.
struct Lent(Vec<u8>);

impl Lent {
    const GUARD: [u8; 17] = [0xa5; 17];

    fn new(bytes: &[u8]) -> Lent {
        Lent([&Lent::GUARD, bytes, &Lent::GUARD].concat())
    }

    fn slice(&mut self) -> &mut [u8] {
        let end = self.0.len() - 17;
        &mut self.0[17..end]
    }
}

impl Case {
    fn kind(&self) -> usize {
        match self {
            Case::Check { .. } => 0,
            Case::Call { .. } => 1,
            Case::Bench { .. } => 2,
            Case::Match { .. } => 3,
            Case::SeatSize { .. } => 4,
            Case::RunSize { .. } => 5,
            Case::Import { .. } => IMPORT,
            Case::ImportSize { .. } => 7,
            Case::Sheet { .. } => SHEET,
            Case::SheetSize { .. } => 9,
            Case::Charge { .. } => CHARGE,
            Case::Convert { .. } => CONVERT,
            Case::ConvertSize { .. } => 12,
            Case::Record { .. } => RECORD,
            Case::RecordSize { .. } => 14,
            Case::ReadAll { .. } => READ_ALL,
            Case::ReadSeat { .. } => READ_SEAT,
            Case::Count { .. } => COUNT,
            Case::CountSize { .. } => COUNT_SIZE,
            Case::Prepared { .. } => PREPARED,
        }
    }

    fn plan(&mut self) -> &mut Vec<u8> {
        self.lent_plan().expect("a text is no plan")
    }

    fn lent_plan(&mut self) -> Option<&mut Vec<u8>> {
        match self {
            Case::Check { plan } | Case::Call { plan, .. } | Case::Bench { plan, .. } => Some(plan),
            Case::Match { plan, .. } | Case::SeatSize { plan, .. } | Case::RunSize { plan, .. } => Some(plan),
            Case::Prepared { plan, .. } => Some(plan),
            Case::Charge { plan, .. } | Case::Convert { plan, .. } | Case::ConvertSize { plan } => Some(plan),
            Case::Record { plan, .. } | Case::RecordSize { plan } => Some(plan),
            Case::ReadAll { plan, .. } | Case::ReadSeat { plan, .. } => Some(plan),
            Case::Count { plan, .. } | Case::CountSize { plan, .. } => Some(plan),
            Case::Import { .. } | Case::ImportSize { .. } | Case::Sheet { .. } | Case::SheetSize { .. } => None,
        }
    }

    /// Makes the call: the answer, and the written buffers with their guards.
    fn make(&self, with: &Interface) -> (u64, Vec<Vec<u8>>) {
        match self {
            Case::Check { plan } => ((with.plan_check)(plan), vec![]),
            Case::Call { plan, seat, figures, coins, triples, state, mail, out } => {
                let (mut triples, mut state, mut out) = (Lent::new(triples), Lent::new(state), Lent::new(out));
                let call = with.seat_call;
                let answer = call(plan, *seat, figures, coins, triples.slice(), state.slice(), mail, out.slice());
                (answer, vec![state.0, out.0, triples.0])
            }
            Case::Bench { plan, set, figures, coins, triples, view } => {
                let (mut triples, mut view) = (Lent::new(triples), Lent::new(view));
                let answer = (with.bench)(plan, *set, figures, coins, triples.slice(), view.slice());
                (answer, vec![view.0, triples.0])
            }
            Case::Prepared { preparing, plan, set, first, second, coins, matched } => {
                let mut matched = Lent::new(matched);
                let call = with.matching_prepared;
                (call(preparing, plan, *set, first, second, coins, matched.slice()), vec![matched.0])
            }
            Case::Match { plan, set, first, second, coins, matched } => {
                let mut matched = Lent::new(matched);
                ((with.matching)(plan, *set, first, second, coins, matched.slice()), vec![matched.0])
            }
            Case::SeatSize { plan, seat, call, what } => ((with.seat_size)(plan, *seat, *call, *what), vec![]),
            Case::RunSize { plan, set, what } => ((with.run_size)(plan, *set, *what), vec![]),
            Case::Import { text, sizes: [n, t, p], plan } => {
                let mut plan = Lent::new(plan);
                ((with.import)(text, *n, *t, *p, plan.slice()), vec![plan.0])
            }
            Case::ImportSize { text, sizes: [n, t, p] } => ((with.import_size)(text, *n, *t, *p), vec![]),
            Case::Sheet { text, sizes: [n, t, p, seat], plan } => {
                let mut plan = Lent::new(plan);
                ((with.sheet)(text, *n, *t, *p, *seat, plan.slice()), vec![plan.0])
            }
            Case::SheetSize { text, sizes: [n, t, p, seat] } => ((with.sheet_size)(text, *n, *t, *p, *seat), vec![]),
            Case::Charge { plan, price, parts } => {
                let mut parts = Lent::new(parts);
                ((with.charge)(plan, *price, parts.slice()), vec![parts.0])
            }
            Case::Convert { plan, out } => {
                let mut out = Lent::new(out);
                ((with.convert)(plan, out.slice()), vec![out.0])
            }
            Case::ConvertSize { plan } => ((with.convert_size)(plan), vec![]),
            Case::Record { plan, figures, coins, triples, record } => {
                let (mut triples, mut record) = (Lent::new(triples), Lent::new(record));
                let answer = (with.record)(plan, figures, coins, triples.slice(), record.slice());
                (answer, vec![record.0, triples.0])
            }
            Case::RecordSize { plan } => ((with.record_size)(plan), vec![]),
            Case::ReadAll { plan, record, numbers } => {
                let mut numbers = Lent::new(numbers);
                ((with.read_all)(plan, record, numbers.slice()), vec![numbers.0])
            }
            Case::ReadSeat { plan, record, seat, numbers } => {
                let mut numbers = Lent::new(numbers);
                ((with.read_seat)(plan, record, *seat, numbers.slice()), vec![numbers.0])
            }
            Case::Count { plan, set, figures, coins, rows } => {
                let mut rows = Lent::new(rows);
                ((with.count)(plan, *set, figures, coins, rows.slice()), vec![rows.0])
            }
            Case::CountSize { plan, set } => ((with.count_size)(plan, *set), vec![]),
        }
    }

    /// The case's inputs, in hex.
    fn text(&self) -> String {
        let mut text = NAMES[self.kind()].to_string();
        let mut list = |name: &str, bytes: &[u8]| write!(text, "\n  {name} {}", hex(bytes)).unwrap();
        let mut numbers = String::new();
        match self {
            Case::Check { plan } | Case::ConvertSize { plan } | Case::RecordSize { plan } => list("plan", plan),
            Case::Call { plan, seat, figures, coins, triples, state, mail, out } => {
                write!(numbers, "\n  seat {seat}").unwrap();
                let parts = [("plan", plan), ("figures", figures), ("coins", coins), ("state", state), ("mail", mail)];
                parts.iter().for_each(|(name, bytes)| list(name, bytes));
                list("triples", triples);
                list("out", out);
            }
            Case::Bench { plan, set, figures, coins, triples, view } => {
                write!(numbers, "\n  set {set}").unwrap();
                list("triples", triples);
                let parts = [("plan", plan), ("figures", figures), ("coins", coins), ("view", view)];
                parts.iter().for_each(|(name, bytes)| list(name, bytes));
            }
            Case::Match { plan, set, first, second, coins, matched } => {
                write!(numbers, "\n  set {set}").unwrap();
                let parts = [("plan", plan), ("first", first), ("second", second), ("coins", coins)];
                parts.iter().for_each(|(name, bytes)| list(name, bytes));
                list("matched", matched);
            }
            Case::SeatSize { plan, seat, call, what } => {
                write!(numbers, "\n  seat {seat} call {call} what {what}").unwrap();
                list("plan", plan);
            }
            Case::RunSize { plan, set, what } => {
                write!(numbers, "\n  set {set} what {what}").unwrap();
                list("plan", plan);
            }
            Case::Import { text, sizes, plan } => {
                write!(numbers, "\n  n, t, p {sizes:?} room {}", plan.len()).unwrap();
                list("text", text);
            }
            Case::ImportSize { text, sizes } => {
                write!(numbers, "\n  n, t, p {sizes:?}").unwrap();
                list("text", text);
            }
            Case::Sheet { text, sizes, plan } => {
                write!(numbers, "\n  n, t, p, seat {sizes:?} room {}", plan.len()).unwrap();
                list("text", text);
            }
            Case::SheetSize { text, sizes } => {
                write!(numbers, "\n  n, t, p, seat {sizes:?}").unwrap();
                list("text", text);
            }
            Case::Charge { plan, price, parts } => {
                write!(numbers, "\n  price {price} room {}", parts.len()).unwrap();
                list("plan", plan);
            }
            Case::Convert { plan, out } => {
                write!(numbers, "\n  room {}", out.len()).unwrap();
                list("plan", plan);
            }
            Case::Record { plan, figures, coins, triples, record } => {
                list("triples", triples);
                write!(numbers, "\n  room {}", record.len()).unwrap();
                [("plan", plan), ("figures", figures), ("coins", coins)]
                    .iter()
                    .for_each(|(name, bytes)| list(name, bytes));
            }
            Case::ReadAll { plan, record, numbers: room } => {
                write!(numbers, "\n  room {}", room.len()).unwrap();
                [("plan", plan), ("record", record)].iter().for_each(|(name, bytes)| list(name, bytes));
            }
            Case::ReadSeat { plan, record, seat, numbers: room } => {
                write!(numbers, "\n  seat {seat} room {}", room.len()).unwrap();
                [("plan", plan), ("record", record)].iter().for_each(|(name, bytes)| list(name, bytes));
            }
            Case::Count { plan, set, figures, coins, rows } => {
                write!(numbers, "\n  set {set} room {}", rows.len()).unwrap();
                [("plan", plan), ("figures", figures), ("coins", coins)]
                    .iter()
                    .for_each(|(name, bytes)| list(name, bytes));
            }
            Case::CountSize { plan, set } => {
                write!(numbers, "\n  set {set}").unwrap();
                list("plan", plan);
            }
            Case::Prepared { preparing, plan, set, first, second, coins, matched } => {
                write!(numbers, "\n  set {set} room {}", matched.len()).unwrap();
                let parts = [("preparing", preparing), ("plan", plan), ("first", first), ("second", second)];
                parts.iter().for_each(|(name, bytes)| list(name, bytes));
                list("coins", coins);
            }
        }
        text + &numbers
    }
}

fn hex(bytes: &[u8]) -> String {
    bytes.iter().fold(String::new(), |text, byte| text + &format!("{byte:02x}"))
}

/// What has been counted so far.
#[derive(Default)]
struct Tally {
    /// How often each part was worked.
    parts: [usize; PARTS.len()],
    /// Cases by kind of call and refusal; 0 is a call that went through.
    met: [[usize; NUMBERS]; KINDS],
    /// Matchings that changed a coin.
    moved: usize,
    /// Plans lent, and plans refused 6, by version.
    versions: [usize; 5],
    layouts: [usize; 5],
    /// Random plans that have a random wire, and random plans of version 4.
    drawn: usize,
    masked: usize,
    /// Random plans that spend triples.
    spending: usize,
    /// Plans whose runs under both multiply rules were compared.
    twins: usize,
    /// Runs of a sheet's plan whose result was compared with the formula's value.
    values: usize,
    /// Inputs of the bench program.
    inputs: usize,
    passed: usize,
    differences: usize,
}

impl Tally {
    /// Every counter, in a fixed order.
    fn counters(&mut self) -> Vec<&mut usize> {
        let lists = [&mut self.parts[..], self.met.as_flattened_mut(), &mut self.versions, &mut self.layouts];
        let plans = [&mut self.drawn, &mut self.masked, &mut self.spending, &mut self.twins];
        let single = [&mut self.moved, &mut self.values, &mut self.inputs, &mut self.passed, &mut self.differences];
        lists.into_iter().flatten().chain(plans).chain(single).collect()
    }

    /// The counters as text, a line each.
    fn text(&mut self) -> String {
        self.counters().iter().map(|counter| format!("{counter}\n")).collect()
    }

    /// Adds the counters of a text; false if it isn't one of counters.
    fn add(&mut self, text: &str) -> bool {
        let (counters, lines) = (self.counters(), text.lines().map(str::parse::<usize>).collect::<Result<Vec<_>, _>>());
        let Some(lines) = lines.ok().filter(|lines| lines.len() == counters.len()) else { return false };
        counters.into_iter().zip(lines).for_each(|(counter, line)| *counter += line);
        true
    }

    /// All cases.
    fn cases(&self) -> usize {
        self.met.iter().flatten().sum::<usize>() + self.inputs
    }

    /// Compares one case; `expected` is the refusal the case was damaged for.
    fn compare(&mut self, case: &Case, expected: Option<u8>) {
        let reference = case.make(&REFERENCE);
        let mut lent = case.clone();
        let library = lent.make(&LIBRARY);
        let refusal = (reference.0 & 255) as usize;
        self.met[case.kind()][refusal] += 1;
        if let Some(&mut version @ 1..=4) = lent.lent_plan().and_then(|plan| plan.get_mut(4)) {
            self.versions[usize::from(version)] += 1;
            self.layouts[usize::from(version)] += usize::from(refusal == 6);
        }
        if let Case::Match { coins, .. } | Case::Prepared { coins, .. } = case {
            self.moved += usize::from(refusal == 0 && reference.1[0] != Lent::new(coins).0);
        }
        let wrong = if expected.is_some_and(|number| usize::from(number) != refusal) {
            "the reference misses the expected refusal"
        } else if reference.0 != library.0 {
            "the answers differ"
        } else if reference.1 != library.1 {
            "the written buffers differ"
        } else if lent != *case {
            "a buffer that is only read was written"
        } else {
            self.passed += 1;
            return;
        };
        self.differences += 1;
        if self.differences <= 20 {
            println!("DIFFERENCE: {wrong}: {}", case.text());
            println!("  reference {} place or count {}, expected {expected:?}", reference.0 & 255, reference.0 >> 8);
            println!("  library   {} place or count {}", library.0 & 255, library.0 >> 8);
            for (reference, library) in reference.1.iter().zip(&library.1).filter(|(a, b)| a != b) {
                println!("  reference wrote {}\n  library wrote   {}", hex(reference), hex(library));
            }
        }
    }

    /// Compares the bench program's text on one input.
    fn compare_program(&mut self, input: &[u8]) {
        let path = std::env::var("POOL_PROGRAM").expect("POOL_PROGRAM: the path of the bench program");
        let (reference, product) = (program(input), product_text(&path, input));
        self.inputs += 1;
        if product.as_ref().is_ok_and(|text| text == reference.as_bytes()) {
            self.passed += 1;
            return;
        }
        self.differences += 1;
        if self.differences <= 20 {
            println!("DIFFERENCE: bench program\n  input {}\n  reference {reference:?}", hex(input));
            println!("  product   {:?}", product.map(|text| String::from_utf8_lossy(&text).into_owned()));
        }
    }
}

/// A plan that passes, with a list of figures and a setting of coins, and the refusals that its cases are damaged for.
#[derive(Clone)]
struct World {
    file: Vec<u8>,
    plan: Plan,
    figures: Vec<u32>,
    coins: Vec<u32>,
    triples: Vec<u32>,
    order: &'static [u8],
    /// The preparing run, where the plan spends triples: its plan's file, draws and coins.
    early: Option<(Vec<u8>, Vec<u32>, Vec<u32>)>,
}

impl World {
    fn new(random: &mut Random, file: Vec<u8>, order: &'static [u8]) -> World {
        let plan = Plan::read(&file).expect("the generator makes plans that pass");
        let p = plan.field.p();
        let figures = random.elements(plan.figures.len(), p);
        let coins = random.elements(plan.coins(), p);
        let mut world = World { file, plan, figures, coins, triples: Vec::new(), order, early: None };
        if !world.plan.spends.is_empty() {
            let preparing = random::preparing_plan(random, &world.plan);
            let first = Plan::read(&preparing).expect("a preparing plan passes");
            let (draws, early) = (random.elements(first.figures.len(), p), random.elements(first.coins(), p));
            world.triples = triples_of(&first, &shares(&first, &draws, &early, |_| ()));
            world.early = Some((preparing, draws, early));
        }
        world
    }

    fn bench(&self, random: &mut Random) -> Case {
        let set = random::set(random, self.plan.n, self.plan.t);
        Case::Bench {
            plan: self.file.clone(),
            set,
            figures: bytes(&self.figures),
            coins: bytes(&self.coins),
            triples: bytes(&self.triples),
            view: list(random, self.plan.view(set).expect("a set that passes")),
        }
    }

    fn call(&self, random: &mut Random, step: &Step) -> Case {
        Case::Call {
            plan: self.file.clone(),
            seat: step.seat,
            figures: step.figures.clone(),
            coins: step.coins.clone(),
            triples: step.triples.clone(),
            state: step.state.clone(),
            mail: step.mail.clone(),
            out: list(random, step.written.len() / 4),
        }
    }

    /// A matching of the world's figures with others: they agree at the members' figures, and at the members' outs
    /// too if `agree`, where outs of the plan are changed for it.
    fn matching(&self, random: &mut Random, agree: bool) -> Case {
        let plan = &self.plan;
        let p = plan.field.p();
        let set = random::set(random, plan.n, plan.t);
        let member = |seat: u16| set >> (seat - 1) & 1 == 1;
        let free: Vec<usize> = (plan.figure_seats().enumerate()).filter(|x| !member(x.1)).map(|x| x.0).collect();
        let mut second = self.figures.clone();
        if free.len() > 1 && random.once_in(2) {
            let (change, up, down) = (random.element(p), random.pick(&free), random.pick(&free));
            second[up] = plan.field.add(second[up], change);
            second[down] = plan.field.sub(second[down], change);
        } else {
            for i in free {
                if !random.once_in(3) {
                    second[i] = random.element(p);
                }
            }
        }
        let mut outs = plan.outs.clone();
        if agree {
            let (granted, asked) = (ideal(plan, &self.figures), ideal(plan, &second));
            let same: Vec<usize> = (0..granted.len()).filter(|&wire| granted[wire] == asked[wire]).collect();
            let others: Vec<u16> = (1..=plan.n).filter(|&seat| !member(seat)).collect();
            for out in &mut outs {
                if member(out.seat) && granted[out.wire] != asked[out.wire] {
                    if same.is_empty() || random.once_in(4) {
                        out.seat = random.pick(&others);
                    } else {
                        out.wire = random.pick(&same);
                    }
                }
            }
        }
        if let Some((preparing, draws, early)) = &self.early {
            let coins = [&draws[..], early, &self.coins].concat();
            return Case::Prepared {
                preparing: preparing.clone(),
                plan: plan.file(&outs),
                set,
                first: bytes(&self.figures),
                second: bytes(&second),
                matched: list(random, coins.len()),
                coins: bytes(&coins),
            };
        }
        Case::Match {
            plan: plan.file(&outs),
            set,
            first: bytes(&self.figures),
            second: bytes(&second),
            coins: bytes(&self.coins),
            matched: list(random, self.coins.len()),
        }
    }
}

/// What a buffer holds before it is written.
fn filler(random: &mut Random, length: usize) -> Vec<u8> {
    (0..length).map(|_| random.bits() as u8).collect()
}

/// What a list of so many numbers holds before it is written.
fn list(random: &mut Random, count: usize) -> Vec<u8> {
    (0..2 * count).flat_map(|_| (random.bits() as u16).to_le_bytes()).collect()
}

/// Another number of bytes: odd, one number of `width` bytes more or less, none, many.
fn wrong_length(random: &mut Random, list: &mut Vec<u8>, width: usize) {
    let before = list.len();
    while list.len() == before {
        let length = match random.below(6) {
            0 => before + 1,
            1 => before.saturating_sub(1),
            2 => before + width,
            3 => before.saturating_sub(width),
            4 => 0,
            _ => before + random.range(1, 40),
        };
        list.resize(length, 0);
    }
}

/// Puts a number that isn't below `p` into a list, sometimes two; false if the list is empty.
fn too_large(random: &mut Random, list: &mut [u8], p: u32) -> bool {
    if list.len() < 4 {
        return false;
    }
    for _ in 0..random.range(1, 2) {
        let i = 4 * random.below(list.len() / 4);
        let any = random.range(p as usize, u32::MAX as usize) as u32;
        put(list, i, random.pick(&[p, p + 1, u32::MAX, p | 0x8000_0000, p + 65536, any]));
    }
    true
}

fn put(list: &mut [u8], i: usize, x: u32) {
    put_of(list, i, x, 4);
}

/// Writes a number of `width` bytes.
fn put_of(bytes: &mut [u8], i: usize, x: u32, width: usize) {
    bytes[i..i + width].copy_from_slice(&x.to_le_bytes()[..width]);
}

/// Writes a plan's field k; field 0 is p.
fn put_field(file: &mut [u8], plan: &Plan, k: usize, x: u32) {
    let layout = Layout::of(plan.version);
    put_of(file, layout.place(k), x, layout.width);
}

/// Where the outs, and where the points begin.
fn ends(plan: &Plan) -> (usize, usize) {
    let layout = Layout::of(plan.version);
    let end = layout.head + layout.gate() * plan.gates.len();
    (end, end + 3 * plan.outs.len())
}

/// A number of 1 to 2,147,483,647 or more that is no plan's p.
fn no_prime(random: &mut Random) -> u32 {
    let squares = [2_147_117_569, 2_147_302_921, 4_294_836_225];
    let any = loop {
        let x = random.bits() as u32;
        if Field::new(x).is_none() {
            break x;
        }
    };
    let edges = [0, 65535, MOST - 1, MOST + 1, MOST + 2, 4_294_967_291, u32::MAX];
    match random.below(3) {
        0 => random.pick(&squares),
        1 => random.pick(&edges),
        _ => any,
    }
}

/// Damages a plan file so that it gets the refusal, 1 to 8, 25 or 26, if no earlier one; false if that can't be done to it.
fn damage_plan(random: &mut Random, file: &mut Vec<u8>, plan: &Plan, refusal: u8) -> bool {
    let [n, gates, outs] = [usize::from(plan.n), plan.gates.len(), plan.outs.len()].map(|x| x as u32);
    let (p, layout, (end, _)) = (plan.field.p(), Layout::of(plan.version), ends(plan));
    let most = if layout.width == 2 { 65535 } else { u32::MAX };
    match refusal {
        1 if random.once_in(2) => file.truncate(random.below(18)),
        1 => file[random.below(4)] ^= 1 << random.below(8),
        2 => file[4] = random.pick(&[0, 5, 6, 129, 255]),
        3 => file[5] = random.pick(&[0, 16, 17, 128, 255]),
        4 => file[6] = random.pick(&[n as u8 + 1, n as u8, 127, 128, 255]),
        5 if plan.version > 2 && random.once_in(2) => put_field(file, plan, 0, no_prime(random)),
        5 => {
            let composite = loop {
                let x = random.below(65536) as u32;
                if Field::new(x).is_none() {
                    break x;
                }
            };
            let small = random.below(n as usize + 1) as u32;
            let others = [0, 1, n, small, 9, 25, 49, 63001, 65025, 65535, composite, composite];
            put_field(file, plan, 0, random.pick(&others));
        }
        6 if layout.has_points() && random.once_in(3) => own_layout(random, file, plan),
        6 => wrong_layout(random, file, plan, most),
        7 => {
            let g = random.below(gates as usize);
            let gate = &mut file[layout.head + layout.gate() * g..][..layout.gate()];
            let (a, b) = (2, 2 + layout.width);
            let high = most / 2 + 1 + random.below(g + 1) as u32;
            let wire = random.pick(&[g as u32, g as u32 + 1, gates, high, most]);
            let constant = random.pick(&[p, p + 1, most]);
            let put = |gate: &mut [u8], i, x| put_of(gate, i, x, layout.width);
            match (random.below(4), plan.gates[g]) {
                (0, _) => gate[1] = random.range(1, 255) as u8,
                (1, _) => {
                    let other = random.pick(&[0, 6, 7, 129, 255]);
                    let wires = [a, b].map(|i| number_at(gate, i, layout.width) as usize);
                    if other == 6 && wires == [0, 0] {
                        put(gate, b, 1); // a random wire has neither a nor b
                    }
                    // a gate that spends a triple has two wires below its own
                    gate[0] = if other == 7 && wires.iter().all(|&wire| wire < g) { 8 } else { other };
                }
                (of, Gate::Random) => put(gate, if of == 2 { a } else { b }, random.pick(&[1, n, 256, most])),
                (2, Gate::Input(_)) => put(gate, b, random.pick(&[1, 256, most])),
                (3, Gate::Scale(..) | Gate::Offset(..)) => put(gate, b, constant),
                (3, Gate::Add(..) | Gate::Multiply(..) | Gate::Spend(..)) => put(gate, b, wire),
                (_, Gate::Input(_)) => put(gate, a, random.pick(&[0, n + 1, 16, (most >> 8) + 1 + n, most])),
                _ => put(gate, a, wire),
            }
        }
        8 if outs == 0 => return false,
        8 => {
            let out = &mut file[end + 3 * random.below(outs as usize)..];
            if random.once_in(2) {
                out[0] = random.pick(&[0, n as u8 + 1, 16, 128 + n as u8, 255]);
            } else {
                let high = 0x8000 | random.below(gates as usize) as u32;
                put_of(out, 1, random.pick(&[gates, gates + 1, 1024, high, 65535]), 2);
            }
        }
        25 => return too_few_seats(random, file, plan),
        26 => return wrong_point(random, file, plan),
        _ => unreachable!("a plan is refused by 1 to 8, 25 or 26"),
    }
    true
}

/// Breaks the layout in a way that every version has.
fn wrong_layout(random: &mut Random, file: &mut Vec<u8>, plan: &Plan, most: u32) {
    let layout = Layout::of(plan.version);
    let ((end, _), points) = (ends(plan), file.len() - ends(plan).1);
    let [head, end_at, gates, outs] = [layout.head, end, plan.gates.len(), plan.outs.len()].map(|x| x as u32);
    match random.below(10) {
        0 => file[7] = random.range(1, 255) as u8,
        1 => put_field(file, plan, 1, random.pick(&[0, head - 1, head + 1, head + 256, most])),
        2 => put_field(file, plan, 2, random.pick(&[0, 1025, gates + 1, gates - 1, most])),
        3 => put_field(file, plan, 3, random.pick(&[0, 18, end_at + 1, end_at - 1, end_at - 6])),
        4 => put_field(
            file,
            plan,
            4,
            random.pick(&[if outs == 0 { 66 } else { 0 }, 65, outs + 1, outs.wrapping_sub(1), most]),
        ),
        5 => {
            file.pop();
        }
        6 => file.truncate(random.range(18, file.len() - 1)),
        7 => file.extend(vec![0; random.range(1, 7)]),
        8 => {
            put_field(file, plan, 2, 0);
            put_field(file, plan, 3, head);
            move_points(file, plan, layout.head + 3 * plan.outs.len());
            file.drain(layout.head..end);
        }
        _ => {
            let outs = random.pick(&[66, 65]);
            put_field(file, plan, 4, outs);
            let first_point = end + 3 * outs as usize;
            move_points(file, plan, first_point);
            file.resize(first_point + points, 1);
        }
    }
}

/// Writes the points' offset, where the version has one.
fn move_points(file: &mut [u8], plan: &Plan, offset: usize) {
    if Layout::of(plan.version).has_points() {
        put_field(file, plan, 5, offset as u32);
    }
}

/// Breaks what only a layout with points has.
fn own_layout(random: &mut Random, file: &mut Vec<u8>, plan: &Plan) {
    let (layout, (end, first)) = (Layout::of(plan.version), ends(plan));
    let (offset, head) = (first as u32, layout.head as u32);
    match random.below(6) {
        0 => {
            let others = [0, 18, head, offset - 2, offset - 1, offset + 1, offset + 2, 65535];
            put_field(file, plan, 5, random.pick(&others));
        }
        1 => file.truncate(random.pick(&[18, 19, layout.head])),
        2 if plan.version == 2 => file[4] = 1,
        2 => {
            let fields = [(1, layout.head), (2, plan.gates.len()), (3, end), (4, plan.outs.len()), (5, first)];
            let (k, x) = random.pick(&fields);
            put_field(file, plan, k, x as u32 + random.pick(&[1 << 16, 1 << 24, 1 << 31]));
        }
        3 => file.truncate(random.range(first, file.len() - 1)),
        4 => file.extend(bytes_of(&[1], layout.width)),
        _ => {
            // bodies that stand where they would two bytes earlier
            for (k, x) in [(1, layout.head), (3, end), (5, first)] {
                put_field(file, plan, k, x as u32 - 2);
            }
        }
    }
}

/// A point that is 0, isn't below p or equals an earlier one; false in version 1.
fn wrong_point(random: &mut Random, file: &mut [u8], plan: &Plan) -> bool {
    let (layout, seats) = (Layout::of(plan.version), usize::from(plan.n));
    if !layout.has_points() {
        return false;
    }
    let (p, most) = (plan.field.p(), if layout.width == 2 { 65535 } else { u32::MAX });
    let seat = random.below(seats);
    let any = random.range(p as usize, most as usize) as u32;
    let other = random.below(seats);
    let point = match random.below(4) {
        0 => 0,
        1 => random.pick(&[p, any, most]),
        _ if other != seat => plan.points[other],
        _ => 0,
    };
    put_of(file, ends(plan).1 + layout.width * seat, point, layout.width);
    true
}

/// A multiply gate where 2t isn't below n: an add becomes one unless there is one, and t grows unless it is large; false
/// where there is neither gate, or one seat only.
fn too_few_seats(random: &mut Random, file: &mut [u8], plan: &Plan) -> bool {
    let seats = usize::from(plan.n);
    if plan.multiplies == 0 && plan.spends.is_empty() {
        let adds: Vec<usize> = (0..plan.gates.len()).filter(|&g| matches!(plan.gates[g], Gate::Add(..))).collect();
        if adds.is_empty() {
            return false;
        }
        let layout = Layout::of(plan.version);
        file[layout.head + layout.gate() * random.pick(&adds)] = 5;
    }
    if 2 * plan.t < seats && seats > 1 {
        file[6] = random.range(seats.div_ceil(2), seats - 1) as u8;
    }
    seats > 1
}

/// Another order of a product's factors, or points in another order: the same counts, but no preparing plan; false where
/// neither is there.
fn damage_preparing(random: &mut Random, file: &mut [u8]) -> bool {
    let Ok(plan) = Plan::read(file) else { return false };
    let layout = Layout::of(plan.version);
    if layout.has_points() && plan.n > 1 && random.once_in(2) {
        let first = ends(&plan).1;
        (0..layout.width).for_each(|i| file.swap(first + i, first + layout.width + i));
        return true;
    }
    let products: Vec<usize> = (0..plan.gates.len()).filter(|&g| matches!(plan.gates[g], Gate::Multiply(..))).collect();
    let gate = &mut file[layout.head + layout.gate() * random.pick(&products)..][..layout.gate()];
    (0..layout.width).for_each(|i| gate.swap(2 + i, 2 + layout.width + i));
    true
}

/// The number of so many bytes at `i`.
fn number_at(bytes: &[u8], i: usize, width: usize) -> u32 {
    bytes[i..i + width].iter().rev().fold(0, |x, &byte| x << 8 | u32::from(byte))
}

/// A set that names a seat above n or has over t members.
fn wrong_set(random: &mut Random, plan: &Plan) -> u16 {
    loop {
        let any = random.bits() as u16;
        let many = any & ((1u32 << plan.n) - 1) as u16;
        let set = random.pick(&[many, any, 1 << plan.n, 1 << 15, u16::MAX]);
        if plan.members(set).is_err() {
            return set;
        }
    }
}

/// Breaks a record's contents, or its length.
fn damage_record(random: &mut Random, record: &mut Vec<u8>, plan: &Plan) {
    let seats = usize::from(plan.n);
    let seat = random.below(seats);
    let step = random.pick(&[1, 1, 3, 4, 4, 8, 256, 65_536]);
    match random.below(10) {
        0 => wrong_length(random, record, 4),
        1 => record.truncate(random.below(8 * seats)),
        2 => record[random.below(8 * seats)] ^= 1 << random.below(8),
        3 => {
            let i = 4 * random.below(2 * seats);
            let x = long(record, i).wrapping_add(random.pick(&[1 << 16, 1 << 24, 1 << 31, u32::MAX, u32::MAX - 3]));
            put(record, i, x);
        }
        4 => put(record, 4 * random.below(2 * seats), u32::MAX - random.below(64) as u32),
        5 => longer_body(random, record, seat, seats, step),
        6 => shift(random, record, seat, seats, step),
        _ if seats == 1 => record[random.below(8)] ^= 1,
        7 => swapped_bodies(random, record, seats),
        8 => moved_border(random, record, seat.min(seats - 2), seats),
        _ => {
            // entries of two seats in each other's place
            let other = (seat + random.range(1, seats - 1)) % seats;
            (0..8).for_each(|i| record.swap(8 * seat + i, 8 * other + i));
        }
    }
}

/// Moves the offsets of the seats from this one on, counted from 0.
fn move_offsets(record: &mut [u8], from: usize, seats: usize, by: u32) {
    for seat in from..seats {
        let offset = long(record, 8 * seat).wrapping_add(by);
        put(record, 8 * seat, offset);
    }
}

/// A body longer or shorter than the plan has it, in a file that its contents tile; now and then in one that they don't.
fn longer_body(random: &mut Random, record: &mut Vec<u8>, seat: usize, seats: usize, step: usize) {
    let (offset, length) = (long(record, 8 * seat) as usize, long(record, 8 * seat + 4));
    let (end, fits) = (offset + length as usize, !random.once_in(4));
    let shorter = step <= length as usize && random.once_in(2);
    let by = if shorter { (step as u32).wrapping_neg() } else { step as u32 };
    put(record, 8 * seat + 4, length.wrapping_add(by));
    move_offsets(record, seat + 1, seats, by);
    if shorter && fits {
        record.drain(end - step..end);
    } else if fits {
        record.splice(end..end, vec![7; step]);
    }
}

/// A gap before a body, or an overlap with what stands before it.
fn shift(random: &mut Random, record: &mut Vec<u8>, seat: usize, seats: usize, step: usize) {
    let offset = long(record, 8 * seat) as usize;
    let overlap = random.once_in(2);
    let from = step.min(offset);
    move_offsets(
        record,
        seat,
        if random.once_in(4) { seat + 1 } else { seats },
        if overlap { (from as u32).wrapping_neg() } else { step as u32 },
    );
    if random.once_in(4) {
        return;
    }
    if overlap {
        record.truncate(record.len() - from.min(record.len() - 8 * seats));
    } else {
        record.splice(offset..offset, vec![7; step]);
    }
}

/// Bodies that stand in another order, to which the contents fit.
fn swapped_bodies(random: &mut Random, record: &mut [u8], seats: usize) {
    let mut order: Vec<usize> = (0..seats).collect();
    let first = random.below(seats - 1);
    order.swap(first, random.range(first + 1, seats - 1));
    let mut offset = 8 * seats;
    for seat in order {
        put(record, 8 * seat, offset as u32);
        offset += long(record, 8 * seat + 4) as usize;
    }
}

/// A border between two bodies in another place, which may be anywhere: the lengths then tile modulo 2^32.
fn moved_border(random: &mut Random, record: &mut [u8], seat: usize, seats: usize) {
    let (start, border) = (long(record, 8 * seat), long(record, 8 * (seat + 1)));
    let end = border + long(record, 8 * (seat + 1) + 4);
    let near = random.pick(&[1, 3, 4, 8, 65_536]);
    let any = random.bits() as u32;
    let moved = loop {
        let x = random.pick(&[
            border + near,
            border.wrapping_sub(near),
            start,
            end,
            u32::MAX - 7,
            8 * seats as u32,
            any,
            0,
        ]);
        if x != border {
            break x;
        }
    };
    put(record, 8 * seat + 4, moved.wrapping_sub(start));
    put(record, 8 * (seat + 1), moved);
    put(record, 8 * (seat + 1) + 4, end.wrapping_sub(moved));
}

/// Damages a case so that it gets the refusal, if no earlier one; false if that can't be done to this case.
fn damage(random: &mut Random, case: &mut Case, world: &Plan, refusal: u8) -> bool {
    if matches!(refusal, 1..=8 | 25 | 26) {
        return damage_plan(random, case.plan(), world, refusal);
    }
    let (p, last) = (world.field.p(), world.last_call() as u32);
    match (case, refusal) {
        (Case::ReadAll { record, .. } | Case::ReadSeat { record, .. }, 28) => damage_record(random, record, world),
        (Case::Call { seat, .. } | Case::SeatSize { seat, .. } | Case::ReadSeat { seat, .. }, 9) => {
            *seat = random.pick(&[0, world.n + 1, 16, 256 + *seat, u16::MAX]);
        }
        (Case::Bench { set, .. } | Case::Match { set, .. } | Case::RunSize { set, .. }, 9) => {
            *set = wrong_set(random, world);
        }
        (Case::Count { set, .. } | Case::CountSize { set, .. }, 9) => *set = wrong_set(random, world),
        (Case::Call { figures, .. } | Case::Bench { figures, .. } | Case::Record { figures, .. }, 10) => {
            wrong_length(random, figures, 4);
        }
        (Case::Count { figures, .. }, 10) => wrong_length(random, figures, 4),
        (Case::Match { first, second, .. }, 10) => {
            let list = if random.once_in(2) { first } else { second };
            wrong_length(random, list, 4);
        }
        (Case::Call { figures, .. } | Case::Bench { figures, .. } | Case::Record { figures, .. }, 11) => {
            return too_large(random, figures, p);
        }
        (Case::Count { figures, .. }, 11) => return too_large(random, figures, p),
        (Case::Match { first, second, .. }, 11) => {
            let both = random.once_in(3);
            if both || random.once_in(2) {
                too_large(random, first, p);
            } else {
                too_large(random, second, p);
            }
            if both {
                too_large(random, second, p);
            }
        }
        (Case::Call { coins, .. } | Case::Bench { coins, .. }, 12) => wrong_length(random, coins, 4),
        (Case::Match { coins, .. } | Case::Record { coins, .. }, 12) => wrong_length(random, coins, 4),
        (Case::Count { coins, .. }, 12) => wrong_length(random, coins, 4),
        (
            Case::Call { coins, triples, .. }
            | Case::Bench { coins, triples, .. }
            | Case::Record { coins, triples, .. },
            13,
        ) => {
            let list = if !triples.is_empty() && (coins.is_empty() || random.once_in(2)) { triples } else { coins };
            return too_large(random, list, p);
        }
        (Case::Call { triples, .. } | Case::Bench { triples, .. } | Case::Record { triples, .. }, 29) => {
            wrong_length(random, triples, 4);
        }
        (Case::Match { coins, .. } | Case::Prepared { coins, .. }, 13) => return too_large(random, coins, p),
        (Case::Prepared { preparing, .. }, 29) => return damage_preparing(random, preparing),
        (Case::Prepared { set, .. }, 9) => *set = wrong_set(random, world),
        (Case::Prepared { first, second, .. }, 10) => {
            let list = if random.once_in(2) { first } else { second };
            wrong_length(random, list, 4);
        }
        (Case::Prepared { first, second, .. }, 11) => {
            let list = if random.once_in(2) { first } else { second };
            return too_large(random, list, p);
        }
        (Case::Prepared { coins, .. }, 12) => wrong_length(random, coins, 4),
        (Case::Prepared { matched, .. }, 19) => wrong_length(random, matched, 4),
        (Case::Count { coins, .. }, 13) => return too_large(random, coins, p),
        (Case::Call { state, .. }, 14) => wrong_length(random, state, 4),
        (Case::Call { state, .. }, 15) => {
            if random.once_in(3) {
                let high = 65536 + last;
                put(state, 0, random.pick(&[last + 2, last + 3, last + 2 + 256, 0x8000_0000 | last, high, u32::MAX]));
            } else {
                return too_large(random, &mut state[4..], p);
            }
        }
        (Case::Call { state, .. }, 16) => put(state, 0, last + 1),
        (Case::Call { mail, .. }, 17) => wrong_length(random, mail, 4),
        (Case::Call { mail, .. }, 18) => return too_large(random, mail, p),
        (Case::Call { out, .. }, 19) => wrong_length(random, out, 4),
        (Case::Convert { out, .. }, 19) => wrong_length(random, out, 2),
        (Case::Bench { view, .. }, 19) => wrong_length(random, view, 4),
        (Case::Match { matched, .. }, 19) => wrong_length(random, matched, 4),
        (Case::Record { record, .. }, 19) => wrong_length(random, record, 4),
        (Case::Count { rows, .. }, 19) => wrong_length(random, rows, 4),
        (Case::ReadAll { numbers, .. } | Case::ReadSeat { numbers, .. }, 19) => wrong_length(random, numbers, 4),
        (Case::Call { state, mail, .. }, 20) => {
            if long(state, 0) != last || mail.is_empty() || world.t + 1 == usize::from(world.n) {
                return false;
            }
            let i = 4 * random.below(mail.len() / 4);
            let change = random.range(1, p as usize - 1) as u32;
            let x = world.field.add(long(mail, i), change);
            put(mail, i, x);
        }
        (Case::Match { set, second, .. } | Case::Prepared { set, second, .. }, 21) => {
            let member = |seat: u16| *set >> (seat - 1) & 1 == 1;
            let own: Vec<usize> = world.figure_seats().enumerate().filter(|x| member(x.1)).map(|x| x.0).collect();
            if own.is_empty() {
                return false;
            }
            let i = 4 * random.pick(&own);
            let change = random.range(1, p as usize - 1) as u32;
            let x = world.field.add(long(second, i), change);
            put(second, i, x);
        }
        _ => return false,
    }
    true
}

/// Compares the case damaged once and twice; the earlier damage wins.
fn damaged(random: &mut Random, tally: &mut Tally, case: &Case, plan: &Plan, order: &[u8], times: usize) {
    for _ in 0..times {
        let (low, high) = (random.pick(&[0, of_plans(order)]), order.len() - 1);
        let first = random.range(low, high);
        let second = if random.once_in(2) { first } else { random.range(low, high) };
        let mut damaged = case.clone();
        // The later refusal's damage first, so that the earlier one's stands.
        let mut wanted = vec![first.max(second), first.min(second)];
        wanted.dedup();
        wanted.retain(|&refusal| damage(random, &mut damaged, plan, order[refusal]));
        if let Some(&earliest) = wanted.last() {
            tally.compare(&damaged, Some(order[earliest]));
        }
    }
}

/// Compares a world's plan, and the plan with its bytes changed at random.
fn plans(random: &mut Random, tally: &mut Tally, world: &World) {
    let case = Case::Check { plan: world.file.clone() };
    tally.compare(&case, Some(0));
    for &refusal in &world.order[..of_plans(world.order)] {
        let mut file = world.file.clone();
        if damage_plan(random, &mut file, &world.plan, refusal) {
            tally.compare(&Case::Check { plan: file }, Some(refusal));
        }
    }
    damaged(random, tally, &case, &world.plan, world.order, 4);
    for _ in 0..6 {
        let mut plan = world.file.clone();
        for _ in 0..random.range(1, 3) {
            let end = if random.once_in(2) { 18 } else { plan.len() };
            let at = random.below(end);
            let any = random.bits() as u8;
            plan[at] = random.pick(&[0, 1, 2, 5, 15, 16, 17, 255, any, plan[at] ^ 1]);
        }
        tally.compare(&Case::Check { plan }, None);
    }
    let length = random.below(40);
    tally.compare(&Case::Check { plan: filler(random, length) }, None);
}

/// Compares a last call in which a share of a seat above t + 1 is wrong, in one of the caller's outs, and perhaps
/// others: of seats after that one, and any in later outs. The place must be that seat's number.
fn off_line(random: &mut Random, tally: &mut Tally, case: &Case, plan: &Plan) {
    let (seats, above) = (usize::from(plan.n), plan.t + 2);
    let mut off = case.clone();
    let Case::Call { mail, .. } = &mut off else { return };
    let own = mail.len() / 4 / seats;
    if own == 0 || above > seats {
        return;
    }
    let (out, seat) = (random.below(own), random.range(above, seats));
    for i in 0..own * seats {
        let (j, x) = (i % own, i / own + 1);
        let also = j == out && x > seat || j > out;
        if j == out && x == seat || also && random.once_in(2) {
            let change = random.range(1, plan.field.p() as usize - 1) as u32;
            let share = plan.field.add(long(mail, 4 * i), change);
            put(mail, 4 * i, share);
        }
    }
    tally.compare(&off, Some(20));
    let place = off.make(&REFERENCE).0 >> 8;
    if place != seat as u64 {
        tally.differences += 1;
        println!("DIFFERENCE: seat {seat} is off and {place} is told: {}", off.text());
    }
}

/// Compares seat calls: as they come in a run, damaged, and from states and mail that no run gives.
fn calls(random: &mut Random, tally: &mut Tally, world: &World, often: usize) {
    let (plan, p) = (&world.plan, world.plan.field.p());
    let mut steps = Vec::new();
    let last = plan.last_call();
    let all = last * usize::from(plan.n);
    run_spending(&world.file, &world.figures, &world.coins, &world.triples, |step| {
        let likely = step.call <= 1 || step.call + 1 >= last || all < often;
        if likely || random.below(all) < often {
            steps.push(step.clone());
        }
    })
    .expect("a whole run");
    for step in &steps {
        if steps.len() > 3 * often && random.below(steps.len()) > 3 * often {
            continue;
        }
        let case = world.call(random, step);
        tally.compare(&case, Some(0));
        damaged(random, tally, &case, plan, world.order, 1);
        if step.call == last {
            let mut off = case.clone();
            if damage(random, &mut off, plan, 20) {
                tally.compare(&off, Some(20));
            }
            off_line(&mut Random(random.0), tally, &case, plan);
        }
    }
    for _ in 0..often {
        // Wires not learnt yet, or lent as they please.
        let mut step = random_step(random, &steps);
        step.call = random.below(last + 2);
        let (seat, wires) = (step.seat, plan.gates.len());
        let shares = if random.once_in(4) { vec![0; wires] } else { random.elements(wires, p) };
        step.state = bytes(&[&[step.call as u32], &shares[..]].concat());
        if plan.triples_of() > 0 {
            step.triples = bytes(&random.elements(plan.triples_of(), p));
        }
        step.mail = bytes(&random.elements(if step.call > last { 0 } else { plan.mail(seat, step.call) }, p));
        step.written = vec![0; 4 * if step.call > last { 0 } else { plan.outgoing(seat, step.call) }];
        let case = world.call(random, &step);
        tally.compare(&case, (step.call > last).then_some(16));
        if step.call <= last {
            let mut wrong = case.clone();
            let refusal = random.range(9, 19) as u8;
            if damage(random, &mut wrong, plan, refusal) {
                tally.compare(&wrong, Some(refusal));
            }
        }
    }
}

fn random_step(random: &mut Random, steps: &[Step]) -> Step {
    steps[random.below(steps.len())].clone()
}

/// Compares benches, matchings and sizes.
fn runs(random: &mut Random, tally: &mut Tally, world: &World, often: usize) {
    let plan = &world.plan;
    for _ in 0..often {
        let case = world.bench(random);
        tally.compare(&case, Some(0));
        damaged(random, tally, &case, plan, world.order, 3);
        for agree in [true, false] {
            let case = world.matching(random, agree);
            tally.compare(&case, agree.then_some(0));
            if agree {
                let plan = Plan::read(case.clone().plan()).expect("changed outs pass");
                damaged(random, tally, &case, &plan, world.order, 3);
            } else {
                let mut case = case;
                if damage(random, &mut case, plan, 21) {
                    tally.compare(&case, Some(21));
                }
            }
        }
        let call = random.below(plan.last_call() + 1) as u16;
        let seat = random.range(1, usize::from(plan.n)) as u16;
        for what in [0, 1, 2, 3, 4, 5, u16::MAX] {
            let call = if what == 3 || what == 4 { call + 3 * u16::from(random.once_in(8)) } else { call };
            let case = Case::SeatSize { plan: world.file.clone(), seat, call, what };
            tally.compare(&case, Some(0));
            damaged(random, tally, &case, plan, world.order, 1);
        }
        let set = random::set(random, plan.n, plan.t);
        for what in [0, 1, 2, 3] {
            let case = Case::RunSize { plan: world.file.clone(), set, what };
            tally.compare(&case, Some(0));
            damaged(random, tally, &case, plan, world.order, 1);
        }
    }
}

/// Plans at the ends of the layout.
fn extremes(random: &mut Random) -> Vec<Vec<u8>> {
    let first = |n| Gate::Input(n);
    let mut files = vec![
        plan_file(1, 0, 2, &[first(1)], &[Out { seat: 1, wire: 0 }]),
        plan_file(1, 0, 65521, &[first(1)], &[Out { seat: 1, wire: 0 }; 64]),
        plan_file(15, 7, 17, &[first(15)], &[Out { seat: 15, wire: 0 }]),
        plan_file(2, 0, 3, &[first(2), Gate::Multiply(0, 0)], &[Out { seat: 1, wire: 1 }]),
        plan_file(
            3,
            1,
            5,
            &[first(3), Gate::Multiply(0, 0), first(1), Gate::Multiply(1, 2)],
            &[Out { seat: 2, wire: 3 }],
        ),
    ];
    for (n, t, p, gates, multiplies) in [
        (15, 7, 65521, 1024, 1023),
        (15, 7, 17, 1024, 500),
        (15, 0, 65519, 1024, 1023),
        (1, 0, 2, 1024, 1023),
        (9, 4, 11, 1024, 0),
        (14, 6, 32771, 1000, 100),
    ] {
        let gates = random::gates(random, n, p, gates, multiplies);
        let outs = random::outs(random, n, gates.len(), 64);
        files.push(plan_file(n as u8, t, p, &gates, &outs));
    }
    let squares = [vec![first(1)], (0..1023).map(|g| Gate::Multiply(g, g)).collect()].concat();
    files.push(plan_file(15, 7, 65521, &squares, &[Out { seat: 8, wire: 1023 }, Out { seat: 8, wire: 1023 }]));
    let inputs: Vec<Gate> = (0..1024).map(|g| Gate::Input(15 - g % 15)).collect();
    files.push(plan_file(15, 7, 65521, &inputs, &[Out { seat: 1, wire: 1023 }; 64]));
    files
}

/// Plans of too many or too few gates whose layout is else consistent.
fn layouts(tally: &mut Tally) {
    let out = [Out { seat: 1, wire: 0 }; 66];
    for (gates, outs) in [(1024, 64), (1025, 1), (0, 1), (1, 0), (1, 65), (1024, 65), (1025, 0), (10920, 1), (10923, 2)]
    {
        let gates: Vec<Gate> = (0..gates).map(|_| Gate::Input(1)).collect();
        let refusal = if (gates.len(), outs) == (1024, 64) || (gates.len(), outs) == (1, 0) { 0 } else { 6 };
        let plan = plan_file(3, 1, 11, &gates, &out[..outs]);
        tally.compare(&Case::Check { plan }, Some(refusal));
    }
    for p in 0..=65535 {
        if p % 16 == 1 || !(1000..=65000).contains(&p) {
            let plan = plan_file(5, 2, p, &[Gate::Input(1)], &out[..1]);
            let good = p > 5 && Field::new(p).is_some();
            tally.compare(&Case::Check { plan }, Some(if good { 0 } else { 5 }));
        }
    }
    for (n, t) in (0..=255).flat_map(|n| [0, 1, 7, 8, 127, 128, 129, 255].map(|t| (n, t))) {
        tally.compare(&Case::Check { plan: plan_file(n, t, 17, &[Gate::Input(1)], &out[..1]) }, None);
    }
}

/// Runs the product's bench program on an input.
fn product_text(path: &str, input: &[u8]) -> std::io::Result<Vec<u8>> {
    let mut child = Command::new(path).stdin(Stdio::piped()).stdout(Stdio::piped()).spawn()?;
    let mut stdin = child.stdin.take().expect("a piped standard input");
    // A program that refuses a long input needn't read it all.
    let _ = stdin.write_all(input);
    drop(stdin);
    Ok(child.wait_with_output()?.stdout)
}

/// Compares the product's bench program with the reference's on random inputs.
fn programs(random: &mut Random, tally: &mut Tally, times: usize, plan: fn(&mut Random, usize) -> Vec<u8>) {
    let mut inputs = vec![vec![], vec![0], vec![0; 2], vec![0; 4], vec![0; 32_768], vec![0; 32_769], vec![0; 32_770]];
    for _ in 0..times {
        let most = random.pick(&[30, 30, 200]);
        let file = plan(random, most);
        let world = World::new(random, file, &ORDER);
        let set = random::set(random, world.plan.n, world.plan.t);
        let width = Layout::of(world.plan.version).width;
        let (length, set) = (bytes_of(&[world.file.len() as u32], 2), bytes_of(&[u32::from(set)], 2));
        let mut input =
            [&length[..], &world.file, &set, &bytes_of(&world.figures, width), &bytes_of(&world.coins, width)].concat();
        input.extend(bytes_of(&world.triples, width));
        match random.below(4) {
            0 => wrong_length(random, &mut input, width),
            1 => {
                let at = random.below(input.len());
                let any = random.bits() as u8;
                input[at] = random.pick(&[0, 255, any]);
            }
            _ => {}
        }
        let size = if input.len() % 2 == 0 { 32_768 } else { 32_767 };
        match random.below(20) {
            0 => input.resize(size, 0),
            1 => input.resize(size + 2, 0),
            _ => {}
        }
        inputs.push(input);
    }
    inputs.iter().for_each(|input| tally.compare_program(input));
}

/// Inputs of refused plans and of every version, whole and cut: the version's byte says how wide their numbers are.
fn widths(tally: &mut Tally) {
    let gates = [Gate::Input(1), Gate::Input(2), Gate::Multiply(0, 1), Gate::Add(2, 0)];
    let numbers = [4, 5, 2, 3, 1, 5, 7];
    for layout in 1..=3 {
        let plan = file(layout, (3, 1, 11), &gates, &[Out { seat: 3, wire: 3 }], &[1, 2, 3]);
        for (version, width, cut) in [0, 1, 2, 3, 4, 5, 255]
            .into_iter()
            .flat_map(|v| [2, 4].into_iter().flat_map(move |w| (0..6).map(move |c| (v, w, c))))
        {
            let mut input =
                [&bytes_of(&[plan.len() as u32], 2)[..], &plan, &[4, 0], &bytes_of(&numbers, width)].concat();
            input[2 + 4] = version;
            input.truncate(input.len() - cut);
            tally.compare_program(&input);
        }
        for length in 0..plan.len() {
            let input = [&bytes_of(&[length as u32], 2)[..], &plan[..length], &[4, 0, 1, 0]].concat();
            tally.compare_program(&input);
        }
    }
}

/// One text made into a plan, in a buffer of its size, or of another; then its size. The case, where it has a plan.
fn made(
    random: &mut Random,
    tally: &mut Tally,
    size: Case,
    with_plan: impl Fn(Vec<u8>) -> Case,
    expected: Option<u8>,
) -> Option<Case> {
    let answer = size.make(&REFERENCE).0;
    let whole = answer & 255 == 0;
    let room = if whole { (answer >> 8) as usize } else { random.below(200) };
    let plan = filler(random, room);
    if random.once_in(20) {
        let mut other = plan.clone();
        wrong_length(random, &mut other, 2);
        tally.compare(&with_plan(other), if whole { Some(19) } else { expected });
    }
    let case = with_plan(plan);
    tally.compare(&case, expected);
    tally.compare(&size, expected);
    whole.then_some(case)
}

/// One circuit's text.
fn text(random: &mut Random, tally: &mut Tally, text: Vec<u8>, sizes: [u32; 3], expected: Option<u8>) {
    let size = Case::ImportSize { text: text.clone(), sizes };
    made(random, tally, size, |plan| Case::Import { text: text.clone(), sizes, plan }, expected);
}

/// A number that may be no plan's n, t, p or seat.
fn any_size(random: &mut Random) -> u32 {
    let any = random.bits() as u32;
    random.pick(&[0, 1, 2, 9, 15, 16, 17, 256, 257, 65521, 65535, 65536, 65537, 0x8000_0000, u32::MAX, any])
}

/// n, t and p for a text of so many input values: of a plan that passes, now and then of another.
fn text_sizes(random: &mut Random, values: usize) -> [u32; 3] {
    let (mut n, mut t, mut p) = random::size(random);
    while usize::from(n) < values {
        (n, t, p) = random::size(random);
    }
    let mut sizes = [u32::from(n), t as u32, p];
    if random.once_in(6) {
        let field = random.below(3);
        sizes[field] = any_size(random);
        if field == 0 && (sizes[0] as usize) < values {
            sizes[0] = 257;
        }
    }
    narrow(&mut sizes);
    sizes
}

/// A threshold of at least half the seats but below their number becomes one that is refused, and a prime above 65,535 the
/// even number after it: `wide_texts` and `large_texts` have such.
fn narrow(sizes: &mut [u32]) {
    let (n, t, p) = (sizes[0], sizes[1], sizes[2]);
    if n <= 15 && t < n && 2 * t >= n {
        sizes[1] += n;
    }
    if p > 65_535 && Field::new(p).is_some() {
        sizes[2] += 1;
    }
}

/// Circuits' texts: random ones, damaged ones, and those at the limits.
fn circuits(random: &mut Random, tally: &mut Tally) {
    for round in 0..6000 {
        let gates = match round % 12 {
            0 => 0,
            1 | 7 => random.range(200, 600),
            2 => random.range(20, 120),
            _ => random.range(1, 12),
        };
        let (xors, outputs) =
            (random.below(11), if random.once_in(6) { random.range(60, 70) } else { random.below(9) });
        let whole = Text::new(random, random_values(round), gates, xors, outputs);
        let sizes = text_sizes(random, whole.values());
        let loose = random.once_in(2);
        let bytes = whole.bytes(random, loose);
        text(random, tally, bytes.clone(), sizes, None);
        if whole.values() > 0 && random.once_in(4) {
            let few = [random.below(whole.values()) as u32, sizes[1], sizes[2]];
            text(random, tally, bytes.clone(), few, Some(23));
        }
        let mut broken = whole.clone();
        if broken.damage(random, round % texts::DAMAGES) {
            let bytes = broken.bytes(random, loose);
            text(random, tally, bytes, sizes, Some(23));
        }
        // any other byte, and any cut
        let mut other = bytes.clone();
        for _ in 0..random.range(1, 3) {
            let i = random.below(other.len());
            other[i] = if random.once_in(2) { random.pick(b"0129 \n\t\rXAI") } else { random.bits() as u8 };
        }
        text(random, tally, other, sizes, None);
        let cut = random.below(bytes.len());
        text(random, tally, bytes[..cut].to_vec(), sizes, None);
    }
    for gates in [1020, 1021, 1022, 1023, 1024, 1025, 4096] {
        text(random, tally, texts::chain(gates / 2 + 1), [3, 1, 11], None);
        text(random, tally, texts::straight(gates), [3, 1, 11], None);
    }
    for wires in [1, 2, 63, 64, 65, 66, 1024, 1025, 65535] {
        text(random, tally, texts::straight(wires), [1, 0, 2], None);
    }
    let long = texts::chain(65535);
    text(random, tally, long.clone(), [3, 1, 11], Some(24));
    for (damage, place) in [(&b"1 1 0 0 INV"[..], long.len()), (b"x", long.len() - 1), (b"X", long.len() - 4)] {
        let broken = [&long[..place], damage, &long[place..]].concat();
        text(random, tally, broken, [3, 1, 11], Some(23));
    }
    for filling in [b' ', b'\n', b'0', b'1', 0, 255] {
        text(random, tally, vec![filling; 2_000_000], [3, 1, 11], Some(23));
        text(random, tally, [&vec![filling; 1_000_000], &texts::straight(3)[..]].concat(), [3, 1, 11], None);
    }
}

/// At most so many input values.
fn random_values(round: usize) -> usize {
    [1, 2, 3, 15][round % 4]
}

/// One sheet; where it has a plan, by value too.
fn sheet(random: &mut Random, tally: &mut Tally, text: Vec<u8>, sizes: [u32; 4], expected: Option<u8>) {
    let size = Case::SheetSize { text: text.clone(), sizes };
    let case = made(random, tally, size, |plan| Case::Sheet { text: text.clone(), sizes, plan }, expected);
    if let Some(case) = case {
        by_value(random, tally, &case, &text, sizes);
    }
}

/// The library's plan on random figures: its own arithmetic gives the result's seat the formula's value.
fn by_value(random: &mut Random, tally: &mut Tally, case: &Case, text: &[u8], [n, _, p, seat]: [u32; 4]) {
    let written = case.make(&LIBRARY).1.remove(0);
    let plan = Plan::read(&written[17..written.len() - 17]);
    let names: Vec<Name> = Sheet::read(text, n, p).expect("a sheet").names;
    for _ in 0..2 {
        let figures = random.elements(names.len(), p);
        let figure = |name| u64::from(figures[names.iter().position(|&other| other == name).expect("a name")]);
        let value = formula_value(text, &figure, u64::from(p)) as u32;
        let right = plan.as_ref().is_ok_and(|plan| {
            let belongs = names.iter().map(|name| name.1 as u16).eq(plan.figure_seats());
            let out = plan.outs[0];
            let granted = plan.outs.len() == 1 && u32::from(out.seat) == seat;
            belongs && granted && ideal(plan, &figures)[out.wire] == value
        });
        tally.values += 1;
        if !right {
            tally.differences += 1;
            if tally.differences <= 20 {
                println!("DIFFERENCE: not the formula's value {value} on {figures:?}: {}", case.text());
            }
        }
    }
}

/// Formula sheets: random ones, damaged ones, and those at the limits.
fn sheets(random: &mut Random, tally: &mut Tally) {
    for round in 0..6000 {
        let operands = match round % 12 {
            0 => 1,
            1 | 7 => random.range(200, 900),
            2 => random.range(20, 120),
            _ => random.range(2, 12),
        };
        let (n, t, p) = random::size(random);
        let mut sizes = [u32::from(n), t as u32, p, random.range(1, usize::from(n)) as u32];
        let whole = Formula::new(random, n, p, operands);
        let loose = random.once_in(2);
        let bytes = whole.bytes(random, loose);
        sheet(random, tally, bytes.clone(), sizes, if operands < 200 { Some(0) } else { None });
        if random.once_in(3) {
            sizes[random.below(4)] = any_size(random);
            narrow(&mut sizes);
            sheet(random, tally, bytes.clone(), sizes, None);
        }
        let mut broken = whole.clone();
        if broken.damage(random, sizes[0], sizes[2], round % formulas::DAMAGES) {
            let bytes = broken.bytes(random, loose);
            sheet(random, tally, bytes, sizes, Some(27));
        }
        // any other byte, and any cut
        let mut other = bytes.clone();
        for _ in 0..random.range(1, 3) {
            let i = random.below(other.len());
            other[i] = if random.once_in(4) { random.bits() as u8 } else { random.pick(b"0129 +-*()abz") };
        }
        sheet(random, tally, other, sizes, None);
        let cut = random.below(bytes.len());
        sheet(random, tally, bytes[..cut].to_vec(), sizes, None);
    }
    sheet_limits(random, tally);
    sheet_lengths(random, tally);
}

/// Sheets of as many gates, names, seats, brackets and digits as there may be, and of more.
fn sheet_limits(random: &mut Random, tally: &mut Tally) {
    let sizes = [3, 1, 11, 2];
    // the most words that make 1,024 gates or fewer
    for (word, between, most) in [
        ("a1", "+", 1024),
        ("b2", " * ", 1024),
        ("c3", "-", 512),
        ("(a1*a1)", "+", 512),
        ("10*a3", "+", 256),
        ("a1*0", " - ", 205),
    ] {
        for times in most - 3..most + 4 {
            let expected = if times > most { 24 } else { 0 };
            sheet(random, tally, formulas::chain(word, between, times), sizes, Some(expected));
        }
    }
    for (letters, seats, n, expected) in [
        ("abcdefghijklmnopqrstuvwxyz", 15, 15, 0),
        ("abcdefghijklmnopqrstuvwxyz", 15, 14, 27),
        ("abcdefghijklmnopqrstuvwxyz", 19, 19, 3),
        ("abcdefghijklmnopqrstuvwxyz", 20, 20, 24),
        ("a", 512, 512, 3),
        ("a", 513, 513, 24),
        ("ab", 256, 257, 3),
        ("ab", 257, 257, 24),
        ("z", 20_000, u32::MAX, 24),
        ("z", 20_000, 19_999, 27),
    ] {
        sheet(random, tally, formulas::all_names(letters, seats), [n, 1, 17, 1], Some(expected));
    }
    for depth in 0..20 {
        let mut formula = Formula { words: vec!["2".into(), "*".into(), "a1".into(), "-".into(), "b2".into()] };
        formula.bracket(4, depth);
        formula.bracket(2, depth);
        let bytes = formula.bytes(random, depth % 2 == 1);
        sheet(random, tally, bytes, sizes, Some(if depth > 16 { 27 } else { 0 }));
    }
    for (text, sizes, expected) in [
        ("a4294967295", [u32::MAX, 0, 2, 1], 3),
        ("a4294967296", [u32::MAX, 0, 2, 1], 27),
        ("a1 + 4294967294", [3, 1, u32::MAX, 1], 5),
        ("a1 + 4294967295", [3, 1, u32::MAX, 1], 27),
        ("a1 + 18446744073709551616", [3, 1, 11, 1], 27),
        ("a18446744073709551617", [3, 1, 11, 1], 27),
        ("a1 + 65520", [3, 1, 65521, 3], 0),
        ("a1 + 65521", [3, 1, 65521, 3], 27),
        ("a1", [0, 0, 11, 1], 27),
        ("a1 + 0", [1, 0, 0, 1], 27),
        ("a1", [1, 0, 0, 1], 5),
        ("a1", [1, 0, 65535, 1], 5),
        ("a1", [3, 3, 11, 0], 4),
        ("a1", [3, 1, 9, 0], 5),
        ("a3", [3, 1, 11, 0], 8),
        ("a3", [3, 1, 11, 3], 0),
        ("a3", [3, 1, 11, 4], 8),
        ("a3", [3, 1, 11, 259], 8),
        ("a3", [3, 1, 11, u32::MAX], 8),
    ] {
        sheet(random, tally, text.into(), sizes, Some(expected));
    }
}

/// Long sheets: any byte over and over, and chains of which only the end breaks the rules.
fn sheet_lengths(random: &mut Random, tally: &mut Tally) {
    let sizes = [3, 1, 11, 2];
    for filling in *b" (0a)+-*1z\n\0\xff" {
        let long = vec![filling; 1_000_000];
        sheet(random, tally, long.clone(), sizes, Some(27));
        for (text, expected) in [([&long[..], b"a1"].concat(), 0), ([b"a1", &long[..]].concat(), 0)] {
            sheet(random, tally, text, sizes, Some(if filling == b' ' { expected } else { 27 }));
        }
    }
    let long = formulas::chain("a1", "+", 300_000);
    sheet(random, tally, long.clone(), sizes, Some(24));
    for end in ["+", "-b", "*(a1", ")", "+11", "+a4", "b1", " 1", "\n", "\0", "+()"] {
        sheet(random, tally, [&long, end.as_bytes()].concat(), sizes, Some(27));
    }
    sheet(random, tally, formulas::chain("(((((((((((((((( a1 ))))))))))))))))", "*", 30_000), sizes, Some(24));
}

/// Charges of a world's plan: prices within the limit and above it, buffers of other lengths, damaged plans.
fn charges(random: &mut Random, tally: &mut Tally, world: &World) {
    let room = 4 * usize::from(world.plan.n);
    let within = |random: &mut Random| {
        let small = random.below(3000) as u32;
        let any = random.below(1_000_001) as u32;
        random.pick(&[0, 1, 999, 1000, 1001, 999_999, 1_000_000, small, small, small, any, any])
    };
    let above = |random: &mut Random| {
        let any = random.range(1_000_001, u32::MAX as usize) as u32;
        random.pick(&[1_000_001, 1_000_002, 0x8000_0000, u32::MAX, any])
    };
    let case =
        |random: &mut Random, price| Case::Charge { plan: world.file.clone(), price, parts: filler(random, room) };
    for _ in 0..6 {
        let price = within(random);
        let case = case(random, price);
        tally.compare(&case, Some(0));
    }
    let dear = above(random);
    let dear = case(random, dear);
    tally.compare(&dear, Some(31));
    for mut case in [case(random, 1_000_000), dear] {
        let Case::Charge { parts, price, .. } = &mut case else { unreachable!("a charge") };
        let expected = if *price > 1_000_000 { 31 } else { 19 };
        wrong_length(random, parts, 2);
        tally.compare(&case, Some(expected));
        let refusal = world.order[random.below(of_plans(world.order))];
        if damage_plan(random, case.plan(), &world.plan, refusal) {
            tally.compare(&case, Some(refusal));
        }
    }
}

/// Plans at the ends of the wider class: t up to 14, no multiply gate.
fn wide_extremes(random: &mut Random) -> Vec<Vec<u8>> {
    let inputs = |n: u16, count: u16| -> Vec<Gate> { (0..count).map(|g| Gate::Input(n - g % n)).collect() };
    let mut files = vec![
        plan_file(2, 1, 3, &inputs(2, 1), &[Out { seat: 1, wire: 0 }]),
        plan_file(15, 14, 17, &inputs(15, 1), &[Out { seat: 15, wire: 0 }]),
        plan_file(15, 14, 65521, &inputs(15, 1024), &[Out { seat: 1, wire: 1023 }; 64]),
        plan_file(15, 14, 65521, &inputs(15, 30), &[Out { seat: 8, wire: 29 }]),
    ];
    for (n, p) in [(2, 3), (2, 65521), (4, 5), (15, 17), (15, 65521), (14, 32771)] {
        let seats = usize::from(n);
        for t in [seats.div_ceil(2), seats - 1] {
            let sum = |g: usize| Gate::Add(if g == 0 { 0 } else { seats + g - 1 }, g + 1);
            let gates = [inputs(n, n), (0..seats - 1).map(sum).collect()].concat();
            let outs: Vec<Out> = (1..=n).map(|seat| Out { seat, wire: gates.len() - 1 }).collect();
            files.push(plan_file(n as u8, t as u8, p, &gates, &outs));
            let gates = random::gates(random, n, p, 1024, 0);
            let outs = random::outs(random, n, gates.len(), 64);
            files.push(plan_file(n as u8, t as u8, p, &gates, &outs));
        }
    }
    files
}

/// Plans of the wider class, and plans that multiply and are brought out of their class.
fn wide_plans(random: &mut Random, tally: &mut Tally) {
    let files = wide_extremes(random).into_iter().map(|file| (file, 20));
    let files: Vec<_> = files
        .chain([[2, 5, 12, 30]; 60].concat().into_iter().map(|most| (random::wide_plan(random, most), 8)))
        .collect();
    for (file, often) in files {
        let world = World::new(random, file, &WIDE_ORDER);
        plans(random, tally, &world);
        calls(random, tally, &world, often);
        runs(random, tally, &world, 2);
        charges(random, tally, &world);
    }
    for most in [[5, 12, 30]; 60].concat() {
        let file = random::plan(random, most);
        let world = World::new(random, file, &WIDE_ORDER);
        plans(random, tally, &world);
        runs(random, tally, &world, 1);
        charges(random, tally, &world);
    }
}

/// A plan with points of its own: its check, its points, calls, runs and charge.
fn pointed_world(random: &mut Random, tally: &mut Tally, file: Vec<u8>, often: usize) -> World {
    let world = World::new(random, file, &POINTED_ORDER);
    plans(random, tally, &world);
    points(random, tally, &world);
    calls(random, tally, &world, often);
    runs(random, tally, &world, 2);
    charges(random, tally, &world);
    world
}

/// Plans of version 2: random ones, those at the ends, and points that are 1 to n.
fn pointed_plans(random: &mut Random, tally: &mut Tally) {
    let mut files = Vec::new();
    for file in extremes(random).into_iter().chain(wide_extremes(random)) {
        files.push((random::pointed(random, 2, &file), 8));
    }
    files.extend([2, 5, 8, 12, 20, 30].repeat(60).into_iter().map(|most| (random::pointed_plan(random, most), 8)));
    for (file, often) in files {
        pointed_world(random, tally, file, often);
    }
}

/// Checks of a plan with points: each way to break its layout or points, its version 1 twin, and any other points.
fn points(random: &mut Random, tally: &mut Tally, world: &World) {
    let (plan, layout) = (&world.plan, Layout::of(world.plan.version));
    let first = ends(plan).1;
    for _ in 0..4 {
        for refusal in [6, 26] {
            let mut file = world.file.clone();
            if refusal == 6 {
                own_layout(random, &mut file, plan);
            } else {
                wrong_point(random, &mut file, plan);
            }
            tally.compare(&Case::Check { plan: file }, Some(refusal));
        }
        let mut file = world.file.clone();
        for _ in 0..random.range(1, 3) {
            let at = random.range(first, file.len() - 1);
            file[at] = if random.once_in(3) { random.pick(&[0, 1, 255]) } else { random.bits() as u8 };
        }
        tally.compare(&Case::Check { plan: file }, None);
    }
    if plan.version == 2 {
        let mut twin = plan.file_of(1, &plan.outs, &[]);
        tally.compare(&Case::Check { plan: twin.clone() }, Some(0));
        twin[4] = 2;
        tally.compare(&Case::Check { plan: twin }, Some(6));
    }
    // short files: n, t and p are looked at before the layout
    for length in [18, 19, layout.head, layout.head + 1] {
        let mut file = world.file[..length].to_vec();
        tally.compare(&Case::Check { plan: file.clone() }, Some(6));
        let refusal = random.range(3, 5) as u8;
        damage_plan(random, &mut file, plan, refusal);
        tally.compare(&Case::Check { plan: file }, Some(refusal));
    }
}

/// A plan of this version with so many gates and multiplies, its points random or the largest.
fn of_size(random: &mut Random, version: u8, (n, t, p): (u16, u8, u32), gates: usize, multiplies: usize) -> Vec<u8> {
    let gates = random::gates(random, n, p, gates, multiplies);
    let outs = random::outs(random, n, gates.len(), 64);
    let points: Vec<u32> = if random.once_in(2) {
        (0..u32::from(n)).map(|seat| p - 1 - seat).collect()
    } else {
        random::points(random, n, p)
    };
    file(version, (n as u8, t, p), &gates, &outs, &points)
}

/// Plans of version 3 at the ends: the layout, the primes, and the most gates, outs and points.
fn large_extremes(random: &mut Random) -> Vec<Vec<u8>> {
    let mut files = Vec::new();
    for (n, t, p, gates, multiplies) in [
        (15, 7, MOST, 1024, 1023),
        (15, 14, MOST, 1024, 0),
        (15, 7, 2_147_483_629, 1024, 500),
        (15, 7, 65537, 1024, 200),
        (15, 7, 65521, 1024, 1023),
        (1, 0, MOST, 1024, 1023),
        (1, 0, 2, 1, 0),
        (15, 7, 17, 30, 20),
        (3, 1, MOST, 4, 2),
    ] {
        files.push(of_size(random, 3, (n, t, p), gates, multiplies));
    }
    files
}

/// Checks of version 3's layout and primes.
fn large_layouts(tally: &mut Tally) {
    let out = [Out { seat: 1, wire: 0 }; 66];
    for (gates, outs) in [(1024, 64), (1025, 1), (0, 1), (1, 0), (1, 65), (1024, 65), (65536 + 1, 1), (1, 65536 + 1)] {
        let (gates, outs) = (vec![Gate::Input(1); gates], out.repeat(outs / 66 + 1)[..outs].to_vec());
        let refusal = if [(1024, 64), (1, 0)].contains(&(gates.len(), outs.len())) { 0 } else { 6 };
        let plan = file(3, (3, 1, MOST), &gates, &outs, &[1, 2, 3]);
        tally.compare(&Case::Check { plan }, Some(refusal));
    }
    let around = |x: u32| x.saturating_sub(400)..=x.saturating_add(400);
    for p in [0, 65536, 1 << 24, 46337 * 46337, 1 << 30, MOST, MOST + 400, u32::MAX].into_iter().flat_map(around) {
        let plan = file(3, (1, 0, p), &[Gate::Input(1)], &out[..1], &[1]);
        tally.compare(&Case::Check { plan }, Some(if p <= MOST && prime(p) { 0 } else { 5 }));
    }
    for version in 0..=255 {
        let mut plan = file(3, (3, 1, MOST), &[Gate::Input(1)], &out[..1], &[1, 2, 3]);
        plan[4] = version;
        let expected = (version == 0 || version > 4).then_some(2);
        let converted = if matches!(version, 1 | 2) { None } else { Some(2) };
        tally.compare(&Case::Check { plan: plan.clone() }, expected);
        tally.compare(&Case::ConvertSize { plan: plan.clone() }, converted);
        tally.compare(&Case::Convert { plan, out: vec![7; 57] }, converted);
    }
}

/// Plans of version 3: random ones and those at the ends.
fn large_plans(random: &mut Random, tally: &mut Tally) {
    large_layouts(tally);
    let mut files: Vec<_> = large_extremes(random).into_iter().map(|file| (file, 8)).collect();
    files.extend([2, 5, 8, 12, 20, 30].repeat(50).into_iter().map(|most| (random::large_plan(random, most), 8)));
    for (file, often) in files {
        let world = pointed_world(random, tally, file, often);
        conversions(random, tally, &world);
    }
}

/// Conversions of a world's plan: refused 2 where it is of version 3 or 4.
fn conversions(random: &mut Random, tally: &mut Tally, world: &World) {
    let expected = if world.plan.version > 2 { 2 } else { 0 };
    let size = Case::ConvertSize { plan: world.file.clone() };
    let room = 32 + 10 * world.plan.gates.len() + 3 * world.plan.outs.len() + 4 * usize::from(world.plan.n);
    let whole = Case::Convert { plan: world.file.clone(), out: filler(random, room) };
    for case in [&size, &whole] {
        tally.compare(case, Some(expected));
        if expected == 0 {
            damaged(random, tally, case, &world.plan, world.order, 2);
        }
        for &refusal in &world.order[..of_plans(world.order)] {
            let mut case = case.clone();
            let first = refusal == 1 || expected == 0;
            if damage_plan(random, case.plan(), &world.plan, refusal) {
                tally.compare(&case, Some(if first { refusal } else { 2 }));
            }
        }
    }
    if expected == 0 {
        let mut short = whole;
        damage(random, &mut short, &world.plan, 19);
        tally.compare(&short, Some(19));
        let converted = conversion(&world.file);
        tally.compare(&Case::Check { plan: converted.clone() }, Some(0));
        // the converted plan: the same figures, coins, shares and results
        if let Ok(plan) = Plan::read(&converted) {
            runs(random, tally, &World { plan, file: converted, ..world.clone() }, 1);
        }
    }
}

/// The library's conversion of a plan that passes.
fn conversion(file: &[u8]) -> Vec<u8> {
    let size = (LIBRARY.convert_size)(file) >> 8;
    let mut converted = vec![0; size as usize];
    (LIBRARY.convert)(file, &mut converted);
    converted
}

/// The library's plan of a sheet, run on the bench and by seats.
fn money(random: &mut Random, tally: &mut Tally, text: &[u8], [n, t, p, seat]: [u32; 4]) {
    let mut file = vec![0; ((LIBRARY.sheet_size)(text, n, t, p, seat) >> 8) as usize];
    (LIBRARY.sheet)(text, n, t, p, seat, &mut file);
    if Plan::read(&file).is_ok() {
        let world = World::new(random, file, &POINTED_ORDER);
        calls(random, tally, &world, 4);
        runs(random, tally, &world, 1);
    }
}

/// Whether a circuit makes a plan without gates: it has neither a bit put in nor a gate.
fn gateless(text: &Text) -> bool {
    text.lines.len() == 3 && text.lines[1][1..].iter().all(|width| width == "0")
}

/// Circuits and sheets for primes above 65,535, and numbers that are none.
fn large_texts(random: &mut Random, tally: &mut Tally) {
    for round in 0..1500 {
        let wide = random.once_in(4);
        let (n, t, _) = if wide { random::wide_size(random) } else { random::size(random) };
        let (p, none) = (random::large_prime(random), no_prime(random));
        let (gates, outputs) = (random.below(8), random.below(5));
        let whole = Text::new(random, random_values(round).min(usize::from(n)), gates, round % 4, outputs);
        let multiplies = whole.lines[3..].iter().any(|line| line[line.len() - 1] != "INV");
        let expected = if gateless(&whole) { 6 } else { 25 * u8::from(multiplies && wide) };
        let bytes = whole.bytes(random, true);
        text(random, tally, bytes.clone(), [u32::from(n), t as u32, p], Some(expected));
        text(random, tally, bytes, [u32::from(n), t as u32, none], Some(5));

        let operands = random.range(1, 10);
        let whole = Formula::new(random, n, p, operands);
        let expected = if wide && whole.words.iter().any(|word| word == "*") { 25 } else { 0 };
        let bytes = whole.bytes(random, true);
        let seat = random.range(1, usize::from(n)) as u32;
        sheet(random, tally, bytes.clone(), [u32::from(n), t as u32, p, seat], Some(expected));
        sheet(random, tally, bytes.clone(), [u32::from(n), t as u32, none, seat], None);
        if expected == 0 && round % 5 == 0 {
            money(&mut Random(random.0), tally, &bytes, [u32::from(n), t as u32, p, seat]);
        }
        let mut broken = whole;
        if broken.damage(random, u32::from(n), p, round % formulas::DAMAGES) {
            let bytes = broken.bytes(random, false);
            sheet(random, tally, bytes, [u32::from(n), t as u32, p, seat], Some(27));
        }
    }
    for (p, expected) in [(65521, 0), (65535, 5), (65536, 5), (65537, 0), (MOST, 0), (2_147_483_629, 0), (MOST - 1, 5)]
        .into_iter()
        .chain([(MOST + 2, 5), (4_294_967_291, 5)])
    {
        sheet(random, tally, b"a1*70000 + b2*b2".to_vec(), [3, 1, p, 1], Some(if p > 70000 { expected } else { 27 }));
        sheet(random, tally, b"a1 + b2*b2".to_vec(), [3, 1, p, 1], Some(expected));
        text(random, tally, b"1 2\n1 1\n1 1\n2 1 0 0 1 XOR".to_vec(), [3, 1, p], Some(expected));
    }
}

/// Circuits and sheets for thresholds of at least half the seats: refused 25 where they multiply.
fn wide_texts(random: &mut Random, tally: &mut Tally) {
    for round in 0..1500 {
        let (n, t, p) = random::wide_size(random);
        let sizes = [u32::from(n), t as u32, p];
        let (gates, outputs) = (random.below(6), random.below(5));
        let whole = Text::new(random, random_values(round).min(usize::from(n)), gates, round % 4, outputs);
        let multiplies = whole.lines[3..].iter().any(|line| line[line.len() - 1] != "INV");
        let bytes = whole.bytes(random, true);
        let expected = if gateless(&whole) { 6 } else { 25 * u8::from(multiplies) };
        text(random, tally, bytes.clone(), sizes, Some(expected));
        text(random, tally, bytes, [sizes[0], sizes[0] + round as u32 % 3, sizes[2]], Some(4));

        let operands = random.range(1, 8);
        let whole = Formula::new(random, n, p, operands);
        let multiplies = whole.words.iter().any(|word| word == "*");
        let bytes = whole.bytes(random, true);
        let seat = random.range(1, usize::from(n)) as u32;
        let sized = |t, seat| [sizes[0], t, sizes[2], seat];
        sheet(random, tally, bytes.clone(), sized(sizes[1], seat), Some(if multiplies { 25 } else { 0 }));
        sheet(random, tally, bytes.clone(), sized(sizes[1], sizes[0] + seat), Some(8));
        sheet(random, tally, bytes, sized(sizes[0], seat), Some(4));
    }
}

/// Plans of version 1, circuits, and the bench program on such plans.
fn first_plans(tally: &mut Tally) {
    let mut random = Random(20_260_101);
    layouts(tally);
    for file in extremes(&mut random) {
        let world = World::new(&mut random, file, &ORDER);
        plans(&mut random, tally, &world);
        calls(&mut random, tally, &world, 20);
        runs(&mut random, tally, &world, 2);
    }
    for most in [[2, 5, 8, 12, 20, 30].as_slice(); 130].concat().into_iter().chain([300; 8]) {
        let file = random::plan(&mut random, most);
        let world = World::new(&mut random, file, &ORDER);
        plans(&mut random, tally, &world);
        calls(&mut random, tally, &world, 8);
        runs(&mut random, tally, &world, 2);
    }
    circuits(&mut random, tally);
    programs(&mut random, tally, 300, random::plan);
}

/// Charges of version 1 plans.
fn first_charges(tally: &mut Tally) {
    let mut random = Random(20_260_214);
    let files = extremes(&mut random);
    for most in [[2, 5, 12, 30].as_slice(); 200].concat() {
        let file = random::plan(&mut random, most);
        let world = World::new(&mut random, file, &ORDER);
        charges(&mut random, tally, &world);
    }
    for file in files {
        let world = World::new(&mut random, file, &ORDER);
        charges(&mut random, tally, &world);
    }
}

/// Conversions of plans of versions 1 and 2.
fn all_conversions(tally: &mut Tally) {
    let mut random = Random(20_260_608);
    for most in [2, 5, 12, 30].repeat(50) {
        for plan in [random::plan, random::wide_plan, random::pointed_plan] {
            let file = plan(&mut random, most);
            let world = World::new(&mut random, file, &POINTED_ORDER);
            conversions(&mut random, tally, &world);
        }
    }
}

/// Records of a world's run: the writer, and both readers on what it stores, on other numbers, and on other contents.
fn records(random: &mut Random, tally: &mut Tally, world: &World, often: usize) {
    let (plan, order) = (&world.plan, world.order);
    let size = (REFERENCE.record_size)(&world.file) >> 8;
    let whole = Case::Record {
        plan: world.file.clone(),
        figures: bytes(&world.figures),
        coins: bytes(&world.coins),
        triples: bytes(&world.triples),
        record: filler(random, size as usize),
    };
    let size = Case::RecordSize { plan: world.file.clone() };
    for (case, times) in [(&whole, often), (&size, 1)] {
        tally.compare(case, Some(0));
        damaged(random, tally, case, plan, order, times);
    }
    let written = whole.make(&REFERENCE).1.remove(0);
    let mut record = written[17..written.len() - 17].to_vec();
    readers(random, tally, world, &record, often);
    let contents = 8 * usize::from(plan.n);
    // other numbers, most of them not below p, are shown as they are stored
    let filled = filler(random, record.len() - contents);
    record[contents..].copy_from_slice(&filled);
    readers(random, tally, world, &record, 1);
    let filled = filler(random, contents);
    record[..contents].copy_from_slice(&filled);
    tally.compare(&read_all(random, world, &record), Some(28));
    other_outs(random, tally, world);
}

/// The bench's reader on a record.
fn read_all(random: &mut Random, world: &World, record: &[u8]) -> Case {
    let room = (1..=world.plan.n).map(|seat| 4 * world.plan.view_of(seat)).sum();
    Case::ReadAll { plan: world.file.clone(), record: record.to_vec(), numbers: filler(random, room) }
}

/// Both readers on a record that fits, and damaged.
fn readers(random: &mut Random, tally: &mut Tally, world: &World, record: &[u8], often: usize) {
    let n = usize::from(world.plan.n);
    let mut cases = vec![read_all(random, world, record)];
    for seat in [1, random.range(1, n), n] {
        let numbers = filler(random, 4 * world.plan.view_of(seat as u16));
        cases.push(Case::ReadSeat { plan: world.file.clone(), record: record.to_vec(), seat: seat as u16, numbers });
    }
    for case in cases {
        tally.compare(&case, Some(0));
        damaged(random, tally, &case, &world.plan, world.order, often);
        for refusal in [28, 9, 19].into_iter().chain([28].repeat(often)) {
            let mut broken = case.clone();
            if damage(random, &mut broken, &world.plan, refusal) {
                tally.compare(&broken, Some(refusal));
            }
        }
    }
}

/// The record of a plan that grants its outs to other seats, by the world's plan: 28 unless each seat has as many outs.
fn other_outs(random: &mut Random, tally: &mut Tally, world: &World) {
    let plan = &world.plan;
    let mut outs = plan.outs.clone();
    for out in &mut outs {
        if random.once_in(2) {
            out.seat = random.range(1, usize::from(plan.n)) as u16;
        }
    }
    let mut record = vec![0; ((REFERENCE.record_size)(&world.file) >> 8) as usize];
    let (figures, coins, mut triples) = (bytes(&world.figures), bytes(&world.coins), bytes(&world.triples));
    let stored = (REFERENCE.record)(&plan.file(&outs), &figures, &coins, &mut triples, &mut record);
    assert_eq!(stored, 0, "as many outs make a record of the same size");
    let granted = |outs: &[Out], seat| outs.iter().filter(|out| out.seat == seat).count();
    let same = (1..=plan.n).all(|seat| granted(&outs, seat) == granted(&plan.outs, seat));
    tally.compare(&read_all(random, world, &record), Some(if same { 0 } else { 28 }));
}

/// Records of plans of every version.
fn all_records(tally: &mut Tally) {
    let mut random = Random(20_261_117);
    for most in [2, 5, 12, 30].repeat(40) {
        for plan in [random::plan, random::wide_plan, random::pointed_plan, random::large_plan] {
            let file = plan(&mut random, most);
            let world = World::new(&mut random, file, &RECORD_ORDER);
            records(&mut random, tally, &world, 3);
        }
    }
    let files = [extremes(&mut random), wide_extremes(&mut random), large_extremes(&mut random)].concat();
    for file in files {
        let world = World::new(&mut random, file, &RECORD_ORDER);
        records(&mut random, tally, &world, 1);
    }
}

/// The views of a set counted: its rows and their size, whole, damaged, and for the set with bits that name no seat. With too many settings
/// these are refused whatever the rows' room.
fn counts(random: &mut Random, tally: &mut Tally, file: Vec<u8>, set: u16, often: usize) {
    let plan = Plan::read(&file).expect("a plan that passes");
    let (p, t) = (plan.field.p(), plan.t);
    let settings = random::settings(plan.version, (plan.n, t, p), set, &plan.gates);
    let few = settings <= 65_536 && !plan.gates.contains(&Gate::Random) && plan.spends.is_empty();
    let (order, expected): (&[u8], u8) = if few { (&COUNT_ORDER, 0) } else { (&SETTINGS_ORDER, 30) };
    let own = plan.coin_seats().iter().filter(|&&seat| set >> (seat - 1) & 1 == 1).count();
    let room =
        if few { 4 * settings as usize * (plan.view(set).expect("a set that passes") + 1) } else { random.below(99) };
    let (figures, coins) = (random.elements(plan.figures.len(), p), random.elements(own, p));
    let rows = filler(random, room);
    let size = Case::CountSize { plan: file.clone(), set };
    let whole = Case::Count { plan: file, set, figures: bytes(&figures), coins: bytes(&coins), rows };
    for case in [whole, size] {
        tally.compare(&case, Some(expected));
        damaged(random, tally, &case, &plan, order, often);
    }
}

/// Every plan of two inputs and at most one more gate over a small prime, with the last wire as its out for each seat, and with each set.
fn every_tiny_plan(random: &mut Random, tally: &mut Tally, (n, t, p): (u16, usize, u32)) {
    let inputs: Vec<Gate> = (1..=n).map(Gate::Input).collect();
    let mut last = vec![None];
    for (a, b) in [(0, 0), (0, 1), (1, 0), (1, 1)] {
        last.push(Some(Gate::Add(a, b)));
        last.extend((2 * t < usize::from(n)).then_some(Some(Gate::Multiply(a, b))));
    }
    last.extend((0..2 * p).map(|i| Some(Gate::Scale(i as usize % 2, i / 2))));
    last.extend((0..2 * p).map(|i| Some(Gate::Offset(i as usize % 2, i / 2))));
    let pairs = inputs.iter().flat_map(|&a| inputs.iter().map(move |&b| [a, b]));
    for (pair, last) in pairs.flat_map(|pair| last.iter().map(move |&last| (pair, last))) {
        let gates: Vec<Gate> = pair.into_iter().chain(last).collect();
        let sets = (0..1u16 << n).filter(|set| set.count_ones() as usize <= t);
        for (set, seat) in sets.flat_map(|set| (1..=n).map(move |seat| (set, seat))) {
            let outs = [Out { seat, wire: gates.len() - 1 }];
            let points = random::points(random, n, p);
            let version = random.range(1, 3) as u8;
            counts(random, tally, file(version, (n as u8, t as u8, p), &gates, &outs, &points), set, 0);
        }
    }
}

/// Counted views of tiny plans of every version, of those at the ends, and of plans with too many settings.
fn all_counts(tally: &mut Tally) {
    let mut random = Random(20_261_213);
    for (n, t, p) in [(1, 0, 2), (2, 1, 3), (3, 1, 5), (3, 2, 5)] {
        every_tiny_plan(&mut random, tally, (n, t, p));
    }
    for _ in 0..2500 {
        let (file, set) = random::tiny_plan(&mut random, 1000);
        counts(&mut random, tally, file, set, 4);
    }
    for most in [3000, 10_000, 65_536].repeat(4) {
        let (file, set) = random::tiny_plan(&mut random, most);
        counts(&mut random, tally, file, set, 2);
    }
    for (version, p, coins) in
        [(1, 65521, 1), (1, 251, 2), (2, 3, 10), (1, 257, 2), (3, 65537, 1), (3, 3, 11), (3, MOST, 3)]
    {
        let gates = vec![Gate::Input(1); coins];
        let plan = file(version, (2, 1, p), &gates, &[Out { seat: 2, wire: 0 }], &[1, 2]);
        for set in [0, 1, 2] {
            counts(&mut random, tally, plan.clone(), set, 2);
        }
    }
    for plan in [random::plan, random::wide_plan, random::pointed_plan, random::large_plan].repeat(150) {
        let file = plan(&mut random, 12);
        let Plan { n, t, .. } = Plan::read(&file).expect("a plan that passes");
        let set = random::set(&mut random, n, t);
        counts(&mut random, tally, file, set, 4);
    }
}

/// The refusals that a plan's cases, and its records', are damaged for.
fn orders(file: &[u8]) -> (&'static [u8], &'static [u8]) {
    if Plan::read(file).expect("a plan that passes").spends.is_empty() {
        (&POINTED_ORDER, &RECORD_ORDER)
    } else {
        (&SPENT_ORDER, &SPENT_RECORD_ORDER)
    }
}

/// A plan from every side: its check, points, calls, runs, charge, conversion, record and counted views.
fn whole_world(random: &mut Random, tally: &mut Tally, file: Vec<u8>, often: usize) {
    let (order, record_order) = orders(&file);
    let world = World::new(random, file, order);
    plans(random, tally, &world);
    if Layout::of(world.plan.version).has_points() {
        points(random, tally, &world);
    }
    calls(random, tally, &world, often);
    runs(random, tally, &world, 2);
    charges(random, tally, &world);
    conversions(random, tally, &world);
    records(random, tally, &World { order: record_order, ..world.clone() }, 1);
    let set = random::set(random, world.plan.n, world.plan.t);
    counts(random, tally, world.file, set, 2);
}

/// A plan in few cases: its check, a bench, a matching, two calls, sizes, a record, a charge, each as it is, and one of them damaged.
fn glance(random: &mut Random, tally: &mut Tally, file: Vec<u8>) {
    let order = orders(&file).0;
    let world = World::new(random, file, order);
    let (plan, file) = (&world.plan, &world.file);
    let mut steps = Vec::new();
    let all = usize::from(plan.n) * (plan.last_call() + 1);
    let (mut number, taken) = (0, [0; 2].map(|_| random.below(all)));
    run_spending(file, &world.figures, &world.coins, &world.triples, |step| {
        if taken.contains(&number) {
            steps.push(step.clone());
        }
        number += 1;
    })
    .expect("a whole run");
    let mut cases: Vec<Case> = steps.iter().map(|step| world.call(random, step)).collect();
    let (seat, call) = (random.range(1, usize::from(plan.n)) as u16, random.below(plan.last_call() + 2) as u16);
    let (what, set) = (random.below(5) as u16, random::set(random, plan.n, plan.t));
    let price = random.below(1_000_001) as u32;
    let room = (REFERENCE.record_size)(file) >> 8;
    cases.extend([
        Case::Check { plan: file.clone() },
        world.bench(random),
        world.matching(random, true),
        Case::SeatSize { plan: file.clone(), seat, call, what },
        Case::RunSize { plan: file.clone(), set, what: what % 3 },
        Case::RecordSize { plan: file.clone() },
        Case::Record {
            plan: file.clone(),
            figures: bytes(&world.figures),
            coins: bytes(&world.coins),
            triples: bytes(&world.triples),
            record: filler(random, room as usize),
        },
        Case::Charge { plan: file.clone(), price, parts: filler(random, 4 * usize::from(plan.n)) },
    ]);
    cases.iter().for_each(|case| tally.compare(case, Some(0)));
    let case = &cases[random.below(cases.len())];
    if !matches!(case, Case::Match { .. }) {
        damaged(random, tally, case, plan, world.order, 1);
    }
}

/// Plans at the ends that have random wires: the most of them, nothing else, no majority, the largest primes.
fn drawn_extremes(random: &mut Random) -> Vec<Vec<u8>> {
    let mut files = vec![
        plan_file(1, 0, 2, &[Gate::Random], &[Out { seat: 1, wire: 0 }]),
        plan_file(2, 1, 3, &[Gate::Random], &[Out { seat: 2, wire: 0 }; 64]),
        plan_file(15, 14, 17, &[Gate::Random, Gate::Random, Gate::Input(15)], &[Out { seat: 15, wire: 1 }]),
        plan_file(15, 7, 65521, &[Gate::Random; 1024], &[Out { seat: 8, wire: 1023 }; 64]),
    ];
    for (version, n, t, p, gates, multiplies) in [
        (1, 15, 7, 65521, 1024, 500),
        (2, 14, 13, 32771, 300, 0),
        (3, 15, 14, MOST, 1024, 0),
        (3, 15, 7, MOST, 300, 300),
        (3, 1, 0, MOST, 1024, 1023),
    ] {
        let gates = random::drawn_gates(random, n, p, gates, multiplies);
        let outs = random::outs(random, n, gates.len(), 64);
        let points = random::points(random, n, p);
        files.push(file(version, (n as u8, t, p), &gates, &outs, &points));
    }
    files
}

/// Plans of versions 1 to 3 with random wires.
fn drawn_plans(tally: &mut Tally) {
    let mut random = Random(20_270_110);
    for file in drawn_extremes(&mut random) {
        whole_world(&mut random, tally, file, 8);
    }
    for most in [1, 2, 5, 8, 12, 20].repeat(40) {
        let file = random::drawn_plan(&mut random, most);
        tally.drawn += 1;
        whole_world(&mut random, tally, file, 6);
    }
    for most in [2, 3, 5, 8, 12].repeat(2000) {
        let file = random::drawn_plan(&mut random, most);
        tally.drawn += 1;
        glance(&mut random, tally, file);
    }
    programs(&mut random, tally, 150, random::drawn_plan);
}

/// What a plan that spends triples has besides: the plain matching, damaged preparing plans, and triples of no preparing run.
fn spends(random: &mut Random, tally: &mut Tally, world: &World) {
    let Case::Prepared { plan, set, first, second, .. } = world.matching(random, false) else { return };
    let matched = list(random, world.coins.len());
    let (coins, lists) = (bytes(&world.coins), (first, second));
    tally.compare(&Case::Match { plan, set, first: lists.0, second: lists.1, coins, matched }, Some(29));
    let case = world.matching(random, true);
    let (early, _, _) = world.early.as_ref().expect("a preparing run");
    let preparing_plan = Plan::read(early).expect("a preparing plan passes");
    for _ in 0..2 {
        let mut damaged = case.clone();
        let Case::Prepared { preparing, plan, .. } = &mut damaged else { unreachable!("a joint matching") };
        let [first, second] = [0; 2].map(|_| random.below(of_plans(&POINTED_ORDER)));
        let early = damage_plan(random, preparing, &preparing_plan, POINTED_ORDER[first]);
        let late = random.once_in(2) && damage_plan(random, plan, &world.plan, POINTED_ORDER[second]);
        let wanted = match (early, late) {
            (true, true) => first.min(second),
            (true, false) => first,
            (false, true) => second,
            _ => continue,
        };
        tally.compare(&damaged, Some(POINTED_ORDER[wanted]));
    }
    let p = world.plan.field.p();
    let mut triples = world.triples.clone();
    let at = random.below(triples.len());
    triples[at] = random.element(p);
    for triples in [triples, random.elements(world.triples.len(), p)] {
        let others = World { triples, ..world.clone() };
        tally.compare(&others.bench(random), None);
        let room = (REFERENCE.record_size)(&world.file) >> 8;
        tally.compare(
            &Case::Record {
                plan: world.file.clone(),
                figures: bytes(&world.figures),
                coins: bytes(&world.coins),
                triples: bytes(&others.triples),
                record: filler(random, room as usize),
            },
            None,
        );
    }
}

/// Plans that spend triples, and the runs that prepare them.
fn spending_plans(tally: &mut Tally) {
    let mut random = Random(20_270_111);
    let spent =
        [vec![Gate::Input(15)], (0..341).map(|g| Gate::Spend(g, g / 2)).collect(), vec![Gate::Add(9, 9)]].concat();
    let points: Vec<u32> = (0..15).map(|seat| MOST - 1 - seat).collect();
    let largest = file(3, (15, 7, MOST), &spent, &[Out { seat: 8, wire: 341 }; 64], &points);
    let small = plan_file(1, 0, 2, &[Gate::Input(1), Gate::Spend(0, 0)], &[]);
    for file in [largest, small] {
        whole_world(&mut random, tally, file, 8);
    }
    for count in 340..=344 {
        let gates = [vec![Gate::Input(1)], vec![Gate::Spend(0, 0); count]].concat();
        let plan = plan_file(3, 1, 11, &gates, &[]);
        tally.compare(&Case::Check { plan }, Some(if count > 341 { 7 } else { 0 }));
    }
    for most in [2, 4, 6, 9, 14, 20].repeat(35) {
        let file = random::spending_plan(&mut random, most);
        tally.spending += 1;
        let world = World::new(&mut random, file.clone(), &SPENT_ORDER);
        spends(&mut random, tally, &world);
        whole_world(&mut random, tally, file, 6);
    }
    for most in [2, 3, 5, 8, 12].repeat(1000) {
        let file = random::spending_plan(&mut random, most);
        tally.spending += 1;
        let world = World::new(&mut random, file.clone(), &SPENT_ORDER);
        spends(&mut random, tally, &world);
        glance(&mut random, tally, file);
    }
    programs(&mut random, tally, 150, random::spending_plan);
}

/// Each seat's results in the library's record of a run.
fn results(file: &[u8], figures: &[u32], coins: &[u32]) -> Option<Vec<Vec<u32>>> {
    let plan = Plan::read(file).expect("a plan that passes");
    let mut record = vec![0; ((LIBRARY.record_size)(file) >> 8) as usize];
    let written = (LIBRARY.record)(file, &bytes(figures), &bytes(coins), &mut [], &mut record) == 0;
    written.then(|| {
        let mut end = 8 * usize::from(plan.n);
        let of = |seat: u16| {
            end += 4 * plan.view_of(seat);
            let count = plan.outs_of(seat).count();
            (0..count).map(|i| long(&record, end - 4 * (count - i))).collect()
        };
        (1..=plan.n).map(of).collect()
    })
}

/// The plan of a version 4 file under both multiply rules, on the same figures: the results are the plan's own arithmetic.
fn both_rules(random: &mut Random, tally: &mut Tally, file: &[u8]) {
    let mut third = file.to_vec();
    third[4] = 3;
    let plans = [file, &third].map(|file| Plan::read(file).expect("a plan that passes"));
    let p = plans[0].field.p();
    let figures = random.elements(plans[0].figures.len(), p);
    let wanted = granted(&plans[0], &figures);
    tally.twins += 1;
    for (file, plan) in [file, &third].into_iter().zip(&plans) {
        let coins = random.elements(plan.coins(), p);
        let got = results(file, &figures, &coins);
        if got.as_ref() != Some(&wanted) {
            tally.differences += 1;
            if tally.differences <= 20 {
                println!("DIFFERENCE: results {got:?}, not {wanted:?}, of the plan {}", hex(file));
                println!("  figures {figures:?}\n  coins {coins:?}");
            }
        }
    }
}

/// Plans of version 4 at the ends: the most products, the largest primes, random wires, no coins, no majority.
fn extremes_1988(random: &mut Random) -> Vec<Vec<u8>> {
    let square = |n: u16| [Gate::Input(n), Gate::Multiply(0, 0)];
    let first = |n: u32| (1..=n).collect::<Vec<u32>>();
    let mut files = vec![
        file(4, (1, 0, 2), &square(1), &[Out { seat: 1, wire: 1 }], &[1]),
        file(4, (3, 1, 5), &square(3), &[Out { seat: 2, wire: 1 }; 64], &[4, 2, 1]),
        file(4, (15, 7, 17), &square(8), &[Out { seat: 15, wire: 1 }], &first(15)),
        file(4, (15, 0, MOST), &square(8), &[Out { seat: 15, wire: 1 }], &first(15)),
        file(4, (15, 14, MOST), &[Gate::Random], &[Out { seat: 15, wire: 0 }], &first(15)),
    ];
    for (n, t, p, gates, multiplies) in [
        (15, 7, MOST, 1024, 1023),
        (15, 7, 65521, 200, 200),
        (15, 7, 17, 200, 200),
        (14, 6, 32771, 300, 100),
        (9, 4, 2_147_483_629, 100, 100),
        (15, 14, MOST, 1024, 0),
        (1, 0, MOST, 1024, 1023),
    ] {
        files.push(of_size(random, 4, (n, t, p), gates, multiplies));
    }
    files
}

/// Plans of version 4.
fn plans_1988(tally: &mut Tally) {
    let mut random = Random(20_270_107);
    for file in extremes_1988(&mut random) {
        both_rules(&mut random, tally, &file);
        whole_world(&mut random, tally, file, 8);
    }
    for most in [2, 4, 6, 9, 14, 20].repeat(35) {
        let file = random::plan_1988(&mut random, most);
        tally.masked += 1;
        both_rules(&mut random, tally, &file);
        whole_world(&mut random, tally, file, 6);
    }
    for most in [2, 3, 5, 8, 12].repeat(2000) {
        let file = random::plan_1988(&mut random, most);
        tally.masked += 1;
        both_rules(&mut random, tally, &file);
        glance(&mut random, tally, file);
    }
    programs(&mut random, tally, 150, random::plan_1988);
}

/// Counted views of tiny plans of version 4: a product takes three times as many coins, so few have one.
fn counts_1988(tally: &mut Tally) {
    let mut random = Random(20_270_113);
    for _ in 0..600 {
        let (file, set) = random::tiny_plan_1988(&mut random, 1000);
        counts(&mut random, tally, file, set, 2);
    }
    let gates = |seat| [Gate::Input(seat), Gate::Multiply(0, 0), Gate::Offset(1, 2)];
    for (seat, points) in [(1, [1, 2, 3]), (2, [4, 2, 1]), (3, [3, 1, 4])] {
        for set in [1 << (seat - 1), 0] {
            let plan = file(4, (3, 1, 5), &gates(seat), &[Out { seat: 1, wire: 2 }, Out { seat, wire: 1 }], &points);
            counts(&mut random, tally, plan, set, 2);
        }
    }
    for most in [3, 12].repeat(60) {
        let file = random::plan_1988(&mut random, most);
        let Plan { n, t, .. } = Plan::read(&file).expect("a plan that passes");
        let set = random::set(&mut random, n, t);
        counts(&mut random, tally, file, set, 3);
    }
}

/// The bench program on the other plans.
fn other_programs(tally: &mut Tally) {
    programs(&mut Random(20_260_305), tally, 100, random::wide_plan);
    programs(&mut Random(20_260_405), tally, 150, random::pointed_plan);
    programs(&mut Random(20_260_609), tally, 150, random::large_plan);
    widths(tally);
}

/// Streams of cases, each from its own seed.
type Part = &'static [fn(&mut Tally)];

/// The streams in parts; each may be worked in a process of its own.
const PARTS: [Part; 6] = [
    &[
        first_plans,
        |tally| sheets(&mut Random(20_260_205), tally),
        first_charges,
        |tally| wide_plans(&mut Random(20_260_303), tally),
        |tally| wide_texts(&mut Random(20_260_304), tally),
        |tally| pointed_plans(&mut Random(20_260_404), tally),
        all_conversions,
        all_records,
    ],
    &[
        |tally| large_plans(&mut Random(20_260_606), tally),
        |tally| large_texts(&mut Random(20_260_607), tally),
        other_programs,
    ],
    &[all_counts],
    &[drawn_plans],
    &[plans_1988, counts_1988],
    &[spending_plans],
];

/// Works a part, counted from 0.
fn work(tally: &mut Tally, part: usize) {
    let start = Instant::now();
    let before = tally.cases();
    PARTS[part].iter().for_each(|stream| stream(tally));
    tally.parts[part] += 1;
    println!("part {}: {} cases, {:.1?}", part + 1, tally.cases() - before, start.elapsed());
}

/// Prints how often each refusal was met; how many were met too seldom.
fn refusals(tally: &Tally) -> usize {
    println!("refusal  {}    all", NAMES.map(|name| format!("{name:>10}")).join(" "));
    let mut scarce = 0;
    for refusal in 0..NUMBERS {
        let row: Vec<usize> = tally.met.iter().map(|kind| kind[refusal]).collect();
        let all: usize = row.iter().sum();
        let row: Vec<String> = row.iter().map(|count| format!("{count:>10}")).collect();
        let few = (1..=22).contains(&refusal) && all < 50
            || MET.iter().any(|&(kind, number, times)| number == refusal && tally.met[kind][refusal] < times)
            || MET_BY_ALL.iter().any(|&(number, times)| number == refusal && all < times);
        if refusal > 22 && all == 0 && !few {
            continue; // a refusal of calls that are not there yet
        }
        scarce += usize::from(few);
        println!("{refusal:>7}  {} {all:>6}{}", row.join(" "), if few { "  TOO FEW" } else { "" });
    }
    scarce
}

/// Prints all that was counted; whether nothing differs and every part and enough cases of each sort are there.
fn report(tally: &Tally) -> bool {
    println!("library: {}", if LINKED { "libpool.a" } else { "none linked, the reference stands in" });
    let scarce = refusals(tally);
    println!("{} of the matchings changed a coin", tally.moved);
    for version in 1..=4 {
        println!("{} plans of version {version}, {} refused 6", tally.versions[version], tally.layouts[version]);
    }
    println!("{} random plans with random wires, {} of version 4", tally.drawn, tally.masked);
    println!("{} plans run under both multiply rules", tally.twins);
    println!("{} random plans that spend triples", tally.spending);
    let [texts, sheets, bills] = [IMPORT, SHEET, CHARGE].map(|kind| tally.met[kind].iter().sum::<usize>());
    let records = [RECORD, READ_ALL, READ_SEAT].map(|kind| tally.met[kind].iter().sum::<usize>());
    println!("{texts} texts imported or refused");
    println!("{sheets} sheets compiled or refused; {} runs of their plans compared with the formula", tally.values);
    println!("{bills} charges");
    println!("{} runs stored or refused; {} and {} reads of all and of a seat", records[0], records[1], records[2]);
    println!("{} lists of views counted", tally.met[COUNT][0]);
    println!("bench program: {} inputs", tally.inputs);
    println!("{} cases, {} passed, {} differ", tally.cases(), tally.passed, tally.differences);
    LINKED
        && tally.parts == [1; PARTS.len()]
        && tally.differences == 0
        && tally.passed == tally.cases()
        && scarce == 0
        && tally.cases() >= 100_000
        && tally.versions[1..].iter().all(|&lent| lent >= 10_000)
        && tally.layouts[1..].iter().all(|&refused| refused >= 200)
        && tally.drawn.min(tally.masked).min(tally.twins) >= 10_000
        && tally.spending >= 5_000
        && texts.min(sheets) >= 20_000
        && bills >= 5_000
        && records.iter().sum::<usize>() >= 10_000
}

/// `compare` works all parts, `compare part K FILE` part K alone and writes its counters to the file, `compare sum FILE..`
/// adds up such files; `compare parts` prints how many parts there are.
fn main() -> ExitCode {
    let arguments: Vec<String> = std::env::args().skip(1).collect();
    let mut tally = Tally::default();
    let right = match arguments.iter().map(String::as_str).collect::<Vec<_>>()[..] {
        [] => {
            (0..PARTS.len()).for_each(|part| work(&mut tally, part));
            report(&tally)
        }
        ["parts"] => {
            println!("{}", PARTS.len());
            true
        }
        ["part", part, path] => {
            let part: usize = part.parse().expect("a part's number");
            work(&mut tally, part - 1);
            std::fs::write(path, tally.text()).expect("the counters' file");
            tally.differences == 0
        }
        ["sum", ref paths @ ..] => {
            let add = |path: &&str| tally.add(&std::fs::read_to_string(path).unwrap_or_default());
            let whole = paths.iter().map(add).filter(|&added| added).count() == paths.len();
            report(&tally) && whole
        }
        _ => panic!("compare | compare parts | compare part K FILE | compare sum FILE.."),
    };
    if right {
        ExitCode::SUCCESS
    } else {
        ExitCode::FAILURE
    }
}
