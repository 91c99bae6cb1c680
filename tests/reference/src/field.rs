//! Arithmetic modulo the plan's prime, and the sharing polynomials over it.

/// The field of numbers below a prime `p`.
#[derive(Clone, Copy, Debug, PartialEq, Eq)]
pub struct Field {
    p: u32,
    /// The largest multiple of `p` up to 2^63: sums of products are kept below it.
    limit: u64,
}

/// The largest `p`.
pub const MOST: u32 = 2_147_483_647;

/// `a` to the power `e`, modulo `p`.
pub fn power(a: u32, mut e: u32, p: u32) -> u32 {
    let p = u64::from(p);
    let (mut square, mut result) = (u64::from(a) % p, 1);
    while e > 0 {
        if e & 1 == 1 {
            result = result * square % p;
        }
        square = square * square % p;
        e >>= 1;
    }
    result as u32
}

/// The smallest divisor of `p` above 1 and below `p`.
fn divisor(p: u32) -> Option<u32> {
    (2..).take_while(|d| d * d <= p).find(|d| p % d == 0)
}

impl Field {
    /// The field modulo `p`, if `p` is prime and not above the limit.
    pub fn new(p: u32) -> Option<Field> {
        ((2..=MOST).contains(&p) && divisor(p).is_none())
            .then(|| Field { p, limit: (1 << 63) / u64::from(p) * u64::from(p) })
    }

    pub fn p(self) -> u32 {
        self.p
    }

    pub fn add(self, a: u32, b: u32) -> u32 {
        ((u64::from(a) + u64::from(b)) % u64::from(self.p)) as u32
    }

    pub fn sub(self, a: u32, b: u32) -> u32 {
        ((u64::from(a) + u64::from(self.p) - u64::from(b)) % u64::from(self.p)) as u32
    }

    pub fn mul(self, a: u32, b: u32) -> u32 {
        (u64::from(a) * u64::from(b) % u64::from(self.p)) as u32
    }

    /// The inverse of `a`, not 0, by Fermat.
    pub fn inverse(self, a: u32) -> u32 {
        power(a, self.p - 2, self.p)
    }

    /// Whether 15 products may pass 2^63.
    pub fn wide(self) -> bool {
        self.p > 65_535
    }

    /// A sum, below the limit if `WIDE`, with one more product.
    pub fn gather<const WIDE: bool>(self, sum: u64, x: u32, y: u32) -> u64 {
        let sum = sum + u64::from(x) * u64::from(y);
        if WIDE && sum >= self.limit {
            sum - self.limit
        } else {
            sum
        }
    }

    /// A sum modulo `p`.
    pub fn reduce(self, sum: u64) -> u32 {
        (sum % u64::from(self.p)) as u32
    }

    /// `first` plus the sum of products; the lists have at most 15 entries.
    pub fn dot(self, first: u32, xs: &[u32], ys: &[u32]) -> u32 {
        let (terms, first) = (xs.iter().zip(ys), u64::from(first));
        self.reduce(if self.wide() {
            terms.fold(first, |sum, (&x, &y)| self.gather::<true>(sum, x, y))
        } else {
            terms.fold(first, |sum, (&x, &y)| self.gather::<false>(sum, x, y))
        })
    }

    /// The interpolation weights at `x` of distinct points.
    pub fn weights(self, points: &[u32], x: u32) -> Vec<u32> {
        let weight = |&i: &u32| {
            let others = points.iter().filter(|&&j| j != i);
            let (above, below) = others
                .fold((1, 1), |(above, below), &j| (self.mul(above, self.sub(x, j)), self.mul(below, self.sub(i, j))));
            self.mul(above, self.inverse(below))
        };
        points.iter().map(weight).collect()
    }

    /// The basis polynomials of distinct points: row i has those coefficients, from that of X^0, of the polynomial
    /// that is 1 at point i and 0 at the others.
    pub fn basis(self, points: &[u32]) -> Vec<Vec<u32>> {
        let row = |&i: &u32| {
            let (mut row, mut below) = (vec![1], 1);
            for &j in points.iter().filter(|&&j| j != i) {
                // times X − j
                row.push(0);
                for k in (0..row.len()).rev() {
                    let shifted = if k == 0 { 0 } else { row[k - 1] };
                    row[k] = self.sub(shifted, self.mul(row[k], j));
                }
                below = self.mul(below, self.sub(i, j));
            }
            let inverse = self.inverse(below);
            row.into_iter().map(|c| self.mul(c, inverse)).collect()
        };
        points.iter().map(row).collect()
    }

    /// The matrix that takes the values at these points of a polynomial of less degree than there are points to those of
    /// the same polynomial without its coefficients above `X^t`.
    pub fn cut_off(self, points: &[u32], t: usize) -> Vec<Vec<u32>> {
        let basis = self.basis(points);
        let low = |x: u32, of: &[u32]| of[..=t].iter().rev().fold(0, |sum, &c| self.add(self.mul(sum, x), c));
        points.iter().map(|&x| basis.iter().map(|of| low(x, of)).collect()).collect()
    }

    /// `X^1 .. X^t` at `x`, by which a dealing's coins are weighted.
    pub fn powers(self, x: u32, t: usize) -> Vec<u32> {
        std::iter::successors(Some(x % self.p), |&w| Some(self.mul(w, x))).take(t).collect()
    }

    /// The coefficients of `X^0 .. X^t` in the product of `1 − X/c` over the members' points `c`.
    pub fn delta(self, points: &[u32], t: usize) -> Vec<u32> {
        let mut delta = vec![0; t + 1];
        delta[0] = 1;
        for &c in points {
            let slope = self.inverse(c);
            for j in (1..=t).rev() {
                delta[j] = self.sub(delta[j], self.mul(slope, delta[j - 1]));
            }
        }
        delta
    }
}
