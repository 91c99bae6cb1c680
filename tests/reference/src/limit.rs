//! The calls in C that the library is timed against (tests/speed), and FLINT's way to work a table of shares.

use crate::library::Interface;
#[cfg(pool_flint)]
use crate::plan::Gate;
use crate::plan::Plan;

/// The calls that are timed, over slices; their answers and bytes are as the library's where nothing is refused.
#[derive(Clone, Copy)]
#[allow(clippy::type_complexity)]
pub struct Calls {
    pub plan_check: fn(&[u8]) -> u64,
    pub seat_call: fn(&[u8], u16, &[u8], &[u8], &mut [u8], &mut [u8], &[u8], &mut [u8]) -> u64,
    pub bench: fn(&[u8], u16, &[u8], &[u8], &mut [u8], &mut [u8]) -> u64,
    pub matching: fn(&[u8], u16, &[u8], &[u8], &[u8], &mut [u8]) -> u64,
    pub count: fn(&[u8], u16, &[u8], &[u8], &mut [u8]) -> u64,
}

impl Calls {
    pub const fn of(with: &Interface) -> Calls {
        Calls {
            plan_check: with.plan_check,
            seat_call: with.seat_call,
            bench: with.bench,
            matching: with.matching,
            count: with.count,
        }
    }
}

/// The calls in C, if they are linked.
#[cfg(not(pool_limit))]
pub const LIMIT: Option<Calls> = None;

#[cfg(pool_limit)]
pub const LIMIT: Option<Calls> =
    Some(crate::library::linked!("limit_plan_check", "limit_seat_call", "limit_bench", "limit_match", "limit_count"));

/// A plan of inputs and multiplies with points 1 to n, with its figures and coins as FLINT takes them.
#[cfg_attr(not(pool_flint), allow(dead_code))]
pub struct Flint {
    n: u32,
    t: u32,
    p: u64,
    gates: Vec<[u32; 3]>,
    figures: Vec<u64>,
    coins: Vec<u64>,
}

impl Flint {
    /// None if FLINT is not linked.
    #[cfg(not(pool_flint))]
    pub fn new(_: &Plan, _: &[u32], _: &[u32]) -> Option<Flint> {
        None
    }

    #[cfg(not(pool_flint))]
    pub fn last(&self) -> Vec<u64> {
        unreachable!("FLINT is not linked")
    }

    #[cfg(pool_flint)]
    pub fn new(plan: &Plan, figures: &[u32], coins: &[u32]) -> Option<Flint> {
        let gate = |gate: &Gate| match *gate {
            Gate::Input(_) => [1, 0, 0],
            Gate::Multiply(a, b) => [5, a as u32, b as u32],
            _ => unreachable!("inputs and multiplies alone"),
        };
        let wide = |list: &[u32]| list.iter().map(|&x| u64::from(x)).collect();
        Some(Flint {
            n: u32::from(plan.n),
            t: plan.t as u32,
            p: u64::from(plan.field.p()),
            gates: plan.gates.iter().map(gate).collect(),
            figures: wide(figures),
            coins: wide(coins),
        })
    }

    /// Works the table; the last wire's shares.
    #[cfg(pool_flint)]
    pub fn last(&self) -> Vec<u64> {
        extern "C" {
            fn limit_flint(
                n: u32,
                t: u32,
                p: u64,
                gates: *const [u32; 3],
                count: usize,
                figures: *const u64,
                coins: *const u64,
                last: *mut u64,
            );
        }
        let mut last = vec![0; self.n as usize];
        let Flint { n, t, p, ref gates, ref figures, ref coins } = *self;
        unsafe {
            limit_flint(n, t, p, gates.as_ptr(), gates.len(), figures.as_ptr(), coins.as_ptr(), last.as_mut_ptr());
        }
        last
    }
}
