//! The C interface: the product's library, and the reference in the same form.

use crate::charge::charge;
use crate::convert::{convert, convert_file};
use crate::count::{count, count_size};
use crate::import::{import, import_file};
use crate::matching::{matching, matching_prepared};
use crate::plan::{plan_check, refuse, Plan, Refusal};
use crate::record::{read_all, read_seat, record, record_size};
use crate::run::bench;
use crate::seat::seat_call;
use crate::sheet::{sheet, sheet_file};

/// The functions of the C interface over slices. An answer holds the refusal's number in bits 0 to 7, and above it
/// the place, the elements sent, the bill or a size in bytes.
#[allow(clippy::type_complexity)]
pub struct Interface {
    pub plan_check: fn(&[u8]) -> u64,
    pub seat_call: fn(&[u8], u16, &[u8], &[u8], &mut [u8], &mut [u8], &[u8], &mut [u8]) -> u64,
    pub bench: fn(&[u8], u16, &[u8], &[u8], &mut [u8], &mut [u8]) -> u64,
    pub matching: fn(&[u8], u16, &[u8], &[u8], &[u8], &mut [u8]) -> u64,
    pub matching_prepared: fn(&[u8], &[u8], u16, &[u8], &[u8], &[u8], &mut [u8]) -> u64,
    pub seat_size: fn(&[u8], u16, u16, u16) -> u64,
    pub run_size: fn(&[u8], u16, u16) -> u64,
    pub import: fn(&[u8], u32, u32, u32, &mut [u8]) -> u64,
    pub import_size: fn(&[u8], u32, u32, u32) -> u64,
    pub sheet: fn(&[u8], u32, u32, u32, u32, &mut [u8]) -> u64,
    pub sheet_size: fn(&[u8], u32, u32, u32, u32) -> u64,
    pub charge: fn(&[u8], u32, &mut [u8]) -> u64,
    pub convert: fn(&[u8], &mut [u8]) -> u64,
    pub convert_size: fn(&[u8]) -> u64,
    pub record: fn(&[u8], &[u8], &[u8], &mut [u8], &mut [u8]) -> u64,
    pub record_size: fn(&[u8]) -> u64,
    pub read_all: fn(&[u8], &[u8], &mut [u8]) -> u64,
    pub read_seat: fn(&[u8], &[u8], u16, &mut [u8]) -> u64,
    pub count: fn(&[u8], u16, &[u8], &[u8], &mut [u8]) -> u64,
    pub count_size: fn(&[u8], u16) -> u64,
}

/// An answer's 64 bits.
pub fn answer(result: Result<usize, Refusal>) -> u64 {
    match result {
        Ok(count) => (count as u64) << 8,
        Err(refusal) => (refusal.place as u64) << 8 | u64::from(refusal.number),
    }
}

/// The size in bytes of what a seat or its call takes or writes; 0 for an unknown call or thing.
fn seat_size(plan: &[u8], seat: u16, call: u16, what: u16) -> Result<usize, Refusal> {
    let plan = Plan::read(plan)?;
    plan.seat(seat)?;
    let call = usize::from(call);
    Ok(4 * match what {
        0 => plan.figures_of(seat),
        1 => plan.coins_of(seat),
        2 => 1 + plan.gates.len(),
        3 if call <= plan.last_call() => plan.mail(seat, call),
        4 if call <= plan.last_call() => plan.outgoing(seat, call),
        5 => plan.triples_of(),
        _ => 0,
    })
}

/// The size in bytes of all figures, all coins, the set's view or all triples; 0 for an unknown thing.
fn run_size(plan: &[u8], set: u16, what: u16) -> Result<usize, Refusal> {
    let plan = Plan::read(plan)?;
    let Ok(view) = plan.view(set) else { return refuse(9) };
    Ok(4 * match what {
        0 => plan.figures.len(),
        1 => plan.coins(),
        2 => view,
        3 => plan.triples(),
        _ => 0,
    })
}

/// The reference.
pub const REFERENCE: Interface = Interface {
    plan_check: |plan| answer(plan_check(plan).map(|_| 0)),
    seat_call: |plan, seat, figures, coins, triples, state, mail, out| {
        answer(seat_call(plan, seat, figures, coins, triples, state, mail, out).map(|_| 0))
    },
    bench: |plan, set, figures, coins, triples, view| answer(bench(plan, set, figures, coins, triples, view)),
    matching: |plan, set, first, second, coins, matched| {
        answer(matching(plan, set, first, second, coins, matched).map(|_| 0))
    },
    matching_prepared: |preparing, plan, set, first, second, coins, matched| {
        answer(matching_prepared(preparing, plan, set, first, second, coins, matched).map(|_| 0))
    },
    seat_size: |plan, seat, call, what| answer(seat_size(plan, seat, call, what)),
    run_size: |plan, set, what| answer(run_size(plan, set, what)),
    import: |text, n, t, p, plan| answer(import(text, n, t, p, plan).map(|_| 0)),
    import_size: |text, n, t, p| answer(import_file(text, n, t, p).map(|file| file.len())),
    sheet: |text, n, t, p, seat, plan| answer(sheet(text, n, t, p, seat, plan).map(|_| 0)),
    sheet_size: |text, n, t, p, seat| answer(sheet_file(text, n, t, p, seat).map(|file| file.len())),
    charge: |plan, price, parts| answer(charge(plan, price, parts)),
    convert: |plan, out| answer(convert(plan, out).map(|_| 0)),
    convert_size: |plan| answer(convert_file(plan).map(|file| file.len())),
    record: |plan, figures, coins, triples, stored| answer(record(plan, figures, coins, triples, stored).map(|_| 0)),
    record_size: |plan| answer(record_size(plan)),
    read_all: |plan, record, numbers| answer(read_all(plan, record, numbers).map(|_| 0)),
    read_seat: |plan, record, seat, numbers| answer(read_seat(plan, record, seat, numbers).map(|_| 0)),
    count: |plan, set, figures, coins, rows| answer(count(plan, set, figures, coins, rows).map(|_| 0)),
    count_size: |plan, set| answer(count_size(plan, set)),
};

/// The calls that are timed, linked under these names.
#[cfg(any(pool_lib, pool_limit))]
macro_rules! linked {
    ($check:literal, $seat:literal, $bench:literal, $matching:literal, $count:literal) => {{
        mod c {
            type Bytes = *const u8;
            extern "C" {
                #[link_name = $check]
                pub fn plan_check(plan: Bytes, plan_len: usize) -> u64;
                #[link_name = $seat]
                pub fn seat_call(
                    plan: Bytes,
                    plan_len: usize,
                    seat: u16,
                    figures: Bytes,
                    figures_len: usize,
                    coins: Bytes,
                    coins_len: usize,
                    triples: *mut u8,
                    triples_len: usize,
                    state: *mut u8,
                    state_len: usize,
                    mail: Bytes,
                    mail_len: usize,
                    out: *mut u8,
                    out_len: usize,
                ) -> u64;
                #[link_name = $bench]
                pub fn bench(
                    plan: Bytes,
                    plan_len: usize,
                    set: u16,
                    figures: Bytes,
                    figures_len: usize,
                    coins: Bytes,
                    coins_len: usize,
                    triples: *mut u8,
                    triples_len: usize,
                    view: *mut u8,
                    view_len: usize,
                ) -> u64;
                #[link_name = $matching]
                pub fn matching(
                    plan: Bytes,
                    plan_len: usize,
                    set: u16,
                    first: Bytes,
                    first_len: usize,
                    second: Bytes,
                    second_len: usize,
                    coins: Bytes,
                    coins_len: usize,
                    matched: *mut u8,
                    matched_len: usize,
                ) -> u64;
                #[link_name = $count]
                pub fn count(
                    plan: Bytes,
                    plan_len: usize,
                    set: u16,
                    figures: Bytes,
                    figures_len: usize,
                    coins: Bytes,
                    coins_len: usize,
                    rows: *mut u8,
                    rows_len: usize,
                ) -> u64;
            }
        }
        $crate::limit::Calls {
            plan_check: |plan| unsafe { c::plan_check(plan.as_ptr(), plan.len()) },
            seat_call: |plan, seat, figures, coins, triples, state, mail, out| unsafe {
                c::seat_call(
                    plan.as_ptr(),
                    plan.len(),
                    seat,
                    figures.as_ptr(),
                    figures.len(),
                    coins.as_ptr(),
                    coins.len(),
                    triples.as_mut_ptr(),
                    triples.len(),
                    state.as_mut_ptr(),
                    state.len(),
                    mail.as_ptr(),
                    mail.len(),
                    out.as_mut_ptr(),
                    out.len(),
                )
            },
            bench: |plan, set, figures, coins, triples, view| unsafe {
                c::bench(
                    plan.as_ptr(),
                    plan.len(),
                    set,
                    figures.as_ptr(),
                    figures.len(),
                    coins.as_ptr(),
                    coins.len(),
                    triples.as_mut_ptr(),
                    triples.len(),
                    view.as_mut_ptr(),
                    view.len(),
                )
            },
            matching: |plan, set, first, second, coins, matched| unsafe {
                c::matching(
                    plan.as_ptr(),
                    plan.len(),
                    set,
                    first.as_ptr(),
                    first.len(),
                    second.as_ptr(),
                    second.len(),
                    coins.as_ptr(),
                    coins.len(),
                    matched.as_mut_ptr(),
                    matched.len(),
                )
            },
            count: |plan, set, figures, coins, rows| unsafe {
                c::count(
                    plan.as_ptr(),
                    plan.len(),
                    set,
                    figures.as_ptr(),
                    figures.len(),
                    coins.as_ptr(),
                    coins.len(),
                    rows.as_mut_ptr(),
                    rows.len(),
                )
            },
        }
    }};
}
#[cfg(pool_limit)]
pub(crate) use linked;

#[cfg(pool_lib)]
const TIMED: crate::limit::Calls =
    linked!("pool_plan_check", "pool_seat_call", "pool_bench", "pool_match", "pool_count");

/// The product's static library.
#[cfg(pool_lib)]
pub const LIBRARY: Interface = {
    mod c {
        type Bytes = *const u8;
        extern "C" {
            pub fn pool_seat_size(plan: Bytes, plan_len: usize, seat: u16, call: u16, what: u16) -> u64;
            pub fn pool_run_size(plan: Bytes, plan_len: usize, set: u16, what: u16) -> u64;
            pub fn pool_match_prepared(
                preparing: Bytes,
                preparing_len: usize,
                plan: Bytes,
                plan_len: usize,
                set: u16,
                first: Bytes,
                first_len: usize,
                second: Bytes,
                second_len: usize,
                coins: Bytes,
                coins_len: usize,
                matched: *mut u8,
                matched_len: usize,
            ) -> u64;
            pub fn pool_import(
                text: Bytes,
                text_len: usize,
                n: u32,
                t: u32,
                p: u32,
                plan: *mut u8,
                plan_len: usize,
            ) -> u64;
            pub fn pool_import_size(text: Bytes, text_len: usize, n: u32, t: u32, p: u32) -> u64;
            pub fn pool_sheet(
                text: Bytes,
                text_len: usize,
                n: u32,
                t: u32,
                p: u32,
                seat: u32,
                plan: *mut u8,
                plan_len: usize,
            ) -> u64;
            pub fn pool_sheet_size(text: Bytes, text_len: usize, n: u32, t: u32, p: u32, seat: u32) -> u64;
            pub fn pool_charge(plan: Bytes, plan_len: usize, price: u32, parts: *mut u8, parts_len: usize) -> u64;
            pub fn pool_convert(plan: Bytes, plan_len: usize, out: *mut u8, out_len: usize) -> u64;
            pub fn pool_convert_size(plan: Bytes, plan_len: usize) -> u64;
            pub fn pool_record(
                plan: Bytes,
                plan_len: usize,
                figures: Bytes,
                figures_len: usize,
                coins: Bytes,
                coins_len: usize,
                triples: *mut u8,
                triples_len: usize,
                record: *mut u8,
                record_len: usize,
            ) -> u64;
            pub fn pool_record_size(plan: Bytes, plan_len: usize) -> u64;
            pub fn pool_record_read(
                plan: Bytes,
                plan_len: usize,
                record: Bytes,
                record_len: usize,
                numbers: *mut u8,
                numbers_len: usize,
            ) -> u64;
            pub fn pool_record_read_seat(
                plan: Bytes,
                plan_len: usize,
                record: Bytes,
                record_len: usize,
                seat: u16,
                numbers: *mut u8,
                numbers_len: usize,
            ) -> u64;
            pub fn pool_count_size(plan: Bytes, plan_len: usize, set: u16) -> u64;
        }
    }
    Interface {
        plan_check: TIMED.plan_check,
        seat_call: TIMED.seat_call,
        bench: TIMED.bench,
        matching: TIMED.matching,
        matching_prepared: |preparing, plan, set, first, second, coins, matched| unsafe {
            c::pool_match_prepared(
                preparing.as_ptr(),
                preparing.len(),
                plan.as_ptr(),
                plan.len(),
                set,
                first.as_ptr(),
                first.len(),
                second.as_ptr(),
                second.len(),
                coins.as_ptr(),
                coins.len(),
                matched.as_mut_ptr(),
                matched.len(),
            )
        },
        seat_size: |plan, seat, call, what| unsafe { c::pool_seat_size(plan.as_ptr(), plan.len(), seat, call, what) },
        run_size: |plan, set, what| unsafe { c::pool_run_size(plan.as_ptr(), plan.len(), set, what) },
        import: |text, n, t, p, plan| unsafe {
            c::pool_import(text.as_ptr(), text.len(), n, t, p, plan.as_mut_ptr(), plan.len())
        },
        import_size: |text, n, t, p| unsafe { c::pool_import_size(text.as_ptr(), text.len(), n, t, p) },
        sheet: |text, n, t, p, seat, plan| unsafe {
            c::pool_sheet(text.as_ptr(), text.len(), n, t, p, seat, plan.as_mut_ptr(), plan.len())
        },
        sheet_size: |text, n, t, p, seat| unsafe { c::pool_sheet_size(text.as_ptr(), text.len(), n, t, p, seat) },
        charge: |plan, price, parts| unsafe {
            c::pool_charge(plan.as_ptr(), plan.len(), price, parts.as_mut_ptr(), parts.len())
        },
        convert: |plan, out| unsafe { c::pool_convert(plan.as_ptr(), plan.len(), out.as_mut_ptr(), out.len()) },
        convert_size: |plan| unsafe { c::pool_convert_size(plan.as_ptr(), plan.len()) },
        record: |plan, figures, coins, triples, record| unsafe {
            c::pool_record(
                plan.as_ptr(),
                plan.len(),
                figures.as_ptr(),
                figures.len(),
                coins.as_ptr(),
                coins.len(),
                triples.as_mut_ptr(),
                triples.len(),
                record.as_mut_ptr(),
                record.len(),
            )
        },
        record_size: |plan| unsafe { c::pool_record_size(plan.as_ptr(), plan.len()) },
        read_all: |plan, record, numbers| unsafe {
            c::pool_record_read(
                plan.as_ptr(),
                plan.len(),
                record.as_ptr(),
                record.len(),
                numbers.as_mut_ptr(),
                numbers.len(),
            )
        },
        read_seat: |plan, record, seat, numbers| unsafe {
            c::pool_record_read_seat(
                plan.as_ptr(),
                plan.len(),
                record.as_ptr(),
                record.len(),
                seat,
                numbers.as_mut_ptr(),
                numbers.len(),
            )
        },
        count: TIMED.count,
        count_size: |plan, set| unsafe { c::pool_count_size(plan.as_ptr(), plan.len(), set) },
    }
};

/// Without `POOL_LIB_DIR` the reference stands in for the library.
#[cfg(not(pool_lib))]
pub const LIBRARY: Interface = REFERENCE;

/// Whether the product's library is linked.
pub const LINKED: bool = cfg!(pool_lib);
