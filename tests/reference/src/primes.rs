//! Primes a second way, without division by candidates.

use crate::field::power;

/// Whether an odd `p` passes the strong test to a base that it doesn't divide.
fn strong(base: u32, p: u32) -> bool {
    let twos = (p - 1).trailing_zeros();
    let mut x = power(base, (p - 1) >> twos, p);
    if x == 1 {
        return true;
    }
    for _ in 0..twos {
        if x == p - 1 {
            return true;
        }
        x = power(x, 2, p);
    }
    false
}

/// Whether `p` is prime, by strong tests to bases 2, 3, 5 and 7: below 3,215,031,751 no other number passes these.
pub fn prime(p: u32) -> bool {
    const BASES: [u32; 4] = [2, 3, 5, 7];
    if BASES.iter().any(|&base| p % base == 0) {
        return BASES.contains(&p);
    }
    p > 1 && BASES.iter().all(|&base| strong(base, p))
}
