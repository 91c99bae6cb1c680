//! The bench's run as it was worked before the grid's columns were summed where they are dealt: every dealing has eight coefficients, and the
//! grid of pieces goes by value from the function that deals it to the one that sums its columns. It takes a plan of inputs and multiplies that
//! passes, full lists of figures and coins, and a set of at most t seats, and checks nothing.

/// The bytes of a number in a list, as include/pool.h has them.
pub const NUMBER_BYTES: usize = (env!("NUMBER_BYTES").as_bytes()[0] - b'0') as usize;

/// What is worked out once for a plan.
struct Plan<'a> {
    bytes: &'a [u8],
    n: usize,
    t: usize,
    dealers: usize,
    gates: usize,
    outs: usize,
    p: u64,
    powers: [u64; 120],
    weights: [u64; 15],
    opening: [u64; 15],
}

/// Number i of a list.
fn number(list: &[u8], i: usize) -> u64 {
    let mut x = 0;
    for j in 0..NUMBER_BYTES {
        x += u64::from(list[NUMBER_BYTES * i + j]) << (8 * j);
    }
    x
}

/// A number of the plan file, which has two bytes.
fn field(plan: &[u8], at: usize) -> u64 {
    u64::from(plan[at]) + 256 * u64::from(plan[at + 1])
}

/// 2^36 / p, by which remainders are worked.
fn reciprocal(p: u64) -> u64 {
    68719476736 / p
}

/// The remainder of a sum of at most 16 products.
fn reduced(p: u64, m: u64, x: u64) -> u64 {
    let r = x - x * m / 68719476736 * p;
    if p <= r {
        r - p
    } else {
        r
    }
}

fn product(a: u64, b: u64) -> u64 {
    u64::from(a as u32) * u64::from(b as u32)
}

/// The inverse of a, not 0, by Fermat.
fn inverse(p: u64, a: u64) -> u64 {
    let bits = (0..16).rev().map(|i| p - 2 >> i & 1);
    bits.fold(1, |power, bit| power * power % p * if bit == 1 { a } else { 1 } % p)
}

/// The weights at 0 of points 1 to m.
fn weights(p: u64, m: usize) -> [u64; 15] {
    let points = 1..=m as u64;
    let mut weights = [0; 15];
    for (weight, x) in weights.iter_mut().zip(points.clone()) {
        let others = points.clone().filter(|&y| y != x);
        let (above, below) = others.fold((1, 1), |(a, b), y| (a * (p - y) % p, b * (p + x - y) % p));
        *weight = above * inverse(p, below) % p;
    }
    weights
}

impl Plan<'_> {
    fn new(bytes: &[u8]) -> Plan<'_> {
        let (n, t, p) = (usize::from(bytes[5]), usize::from(bytes[6]), field(bytes, 8));
        let mut powers = [0; 120];
        for (row, x) in powers.chunks_exact_mut(8).zip(1..=n as u64) {
            let mut power = 1;
            for entry in row {
                *entry = power;
                power = power * x % p;
            }
        }
        Plan {
            bytes,
            n,
            t,
            dealers: 2 * t + 1,
            gates: field(bytes, 12) as usize,
            outs: field(bytes, 16) as usize,
            p,
            powers,
            weights: weights(p, 2 * t + 1),
            opening: weights(p, t + 1),
        }
    }

    fn is_input(&self, g: usize) -> bool {
        self.bytes[18 + 6 * g] == 1
    }

    /// The gate's first or second number.
    fn operand(&self, g: usize, which: usize) -> usize {
        field(self.bytes, 20 + 6 * g + 2 * which) as usize
    }

    /// The coins that a gate takes.
    fn coins(&self, g: usize) -> usize {
        if self.is_input(g) {
            self.t
        } else {
            self.t * self.dealers
        }
    }

    fn out(&self, o: usize) -> (usize, usize) {
        let at = 18 + 6 * self.gates + 3 * o;
        (usize::from(self.bytes[at]), field(self.bytes, at + 1) as usize)
    }
}

fn coefficients(value: u64, coins: &[u8], at: usize, t: usize) -> [u64; 8] {
    let mut polynomial = [0; 8];
    polynomial[0] = value;
    for i in 0..t {
        polynomial[i + 1] = number(coins, at + i);
    }
    polynomial
}

fn dealing(plan: &Plan, polynomial: [u64; 8]) -> [u64; 15] {
    let m = reciprocal(plan.p);
    let mut row = [0; 15];
    for j in 0..plan.n {
        let powers = &plan.powers[8 * j..8 * j + 8];
        let mut sum = 0;
        for i in 0..8 {
            sum += product(powers[i], polynomial[i]);
        }
        row[j] = reduced(plan.p, m, sum);
    }
    row
}

fn products(plan: &Plan, a: usize, b: usize, table: &[u64]) -> [u64; 15] {
    let mut row = [0; 15];
    for j in 0..plan.dealers {
        row[j] = table[plan.n * a + j] * table[plan.n * b + j] % plan.p;
    }
    row
}

fn pieces(plan: &Plan, products: [u64; 15], coins: &[u8], at: usize) -> [[u64; 15]; 15] {
    let mut grid = [[0; 15]; 15];
    let mut place = at;
    for d in 0..plan.dealers {
        let polynomial = coefficients(products[d], coins, place, plan.t);
        grid[d] = dealing(plan, polynomial);
        place += plan.t;
    }
    grid
}

fn weigh(w: u64, row: [u64; 15], sums: &mut [u64]) {
    for j in 0..sums.len() {
        sums[j] += product(w, row[j]);
    }
}

fn reduce(plan: &Plan, grid: [[u64; 15]; 15]) -> [u64; 15] {
    let m = reciprocal(plan.p);
    let mut sums = [0; 15];
    for d in 0..plan.dealers {
        weigh(plan.weights[d], grid[d], &mut sums[..plan.n]);
    }
    for j in 0..plan.n {
        sums[j] = reduced(plan.p, m, sums[j]);
    }
    sums
}

fn gate_row(plan: &Plan, g: usize, x: u64, coins: &[u8], at: usize, table: &[u64]) -> [u64; 15] {
    if plan.is_input(g) {
        return dealing(plan, coefficients(x, coins, at, plan.t));
    }
    let products = products(plan, plan.operand(g, 0), plan.operand(g, 1), table);
    let grid = pieces(plan, products, coins, at);
    reduce(plan, grid)
}

fn fill(plan: &Plan, figures: &[u8], coins: &[u8], table: &mut [u64]) {
    let (mut at, mut next) = (0, 0);
    for g in 0..plan.gates {
        let x = if plan.is_input(g) { number(figures, next) } else { 0 };
        let row = gate_row(plan, g, x, coins, at, table);
        table[plan.n * g..][..plan.n].copy_from_slice(&row[..plan.n]);
        at += plan.coins(g);
        next += usize::from(plan.is_input(g));
    }
}

/// What is left of the view.
struct View<'a>(&'a mut [u8]);

impl View<'_> {
    fn put(&mut self, v: u64) {
        let (next, rest) = std::mem::take(&mut self.0).split_at_mut(NUMBER_BYTES);
        next.copy_from_slice(&v.to_le_bytes()[..NUMBER_BYTES]);
        self.0 = rest;
    }

    fn coins(&mut self, plan: &Plan, seat: usize, coins: &[u8]) {
        let mut at = 0;
        for g in 0..plan.gates {
            let own = if plan.is_input(g) { plan.operand(g, 0) == seat } else { seat <= plan.dealers };
            let from = if plan.is_input(g) { at } else { at + plan.t * (seat - 1) };
            if own {
                (from..from + plan.t).for_each(|i| self.put(number(coins, i)));
            }
            at += plan.coins(g);
        }
    }

    /// The pieces that a seat gets at a multiply gate, dealt again by the powers of its point.
    fn pieces(&mut self, plan: &Plan, seat: usize, g: usize, coins: &[u8], at: usize, table: &[u64]) {
        let m = reciprocal(plan.p);
        let powers = &plan.powers[8 * (seat - 1)..8 * seat];
        let (left, right) = (plan.n * plan.operand(g, 0), plan.n * plan.operand(g, 1));
        for d in 0..plan.dealers {
            let mut sum = reduced(plan.p, m, product(table[left + d], table[right + d]));
            for k in 0..plan.t {
                sum += product(powers[k + 1], number(coins, at + plan.t * d + k));
            }
            self.put(reduced(plan.p, m, sum));
        }
    }

    fn mail(&mut self, plan: &Plan, seat: usize, coins: &[u8], table: &[u64]) {
        for sender in 1..=plan.n {
            for g in (0..plan.gates).filter(|&g| plan.is_input(g) && plan.operand(g, 0) == sender) {
                self.put(table[plan.n * g + seat - 1]);
            }
        }
        let mut at = 0;
        for g in 0..plan.gates {
            if !plan.is_input(g) {
                self.pieces(plan, seat, g, coins, at, table);
            }
            at += plan.coins(g);
        }
        let outs = || (0..plan.outs).map(|o| plan.out(o)).filter(|out| out.0 == seat);
        for sender in 0..plan.n {
            outs().for_each(|out| self.put(table[plan.n * out.1 + sender]));
        }
        for (_, wire) in outs() {
            let shares = &table[plan.n * wire..][..plan.t + 1];
            self.put(shares.iter().zip(&plan.opening).map(|(&share, &w)| share * w).sum::<u64>() % plan.p);
        }
    }
}

/// Writes the set's view.
pub fn bench(bytes: &[u8], set: u16, figures: &[u8], coins: &[u8], view: &mut [u8]) {
    let plan = Plan::new(bytes);
    let mut table = [0; 15360];
    fill(&plan, figures, coins, &mut table);
    let mut view = View(view);
    for seat in (1..=plan.n).filter(|seat| set >> (seat - 1) & 1 == 1) {
        let inputs = (0..plan.gates).filter(|&g| plan.is_input(g)).enumerate();
        for (i, _) in inputs.filter(|&(_, g)| plan.operand(g, 0) == seat) {
            view.put(number(figures, i));
        }
        view.coins(&plan, seat, coins);
        view.mail(&plan, seat, coins, &table);
    }
}
