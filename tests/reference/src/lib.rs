//! The pooling seat, written a second time from the rules alone.
//!
//! A plan names `n` seats, a threshold `t` and a prime `p`, and a circuit of gates. Each seat works the gates on
//! Shamir shares; a product is dealt anew by seats 1 to 2t+1 to bring its degree back to `t`, which needs 2t < n. In
//! plans of version 4 all seats mask it with dealings of 0 and cut its polynomial off, as the original of 1988 does. A
//! plan without multiply gates needs only t < n.

pub mod charge;
pub mod convert;
pub mod count;
pub mod field;
pub mod formulas;
pub mod import;
pub mod library;
pub mod limit;
pub mod matching;
pub mod plan;
pub mod primes;
pub mod program;
pub mod random;
pub mod record;
pub mod run;
pub mod seat;
pub mod sheet;
pub mod texts;
