//! Random plans, figures and coins from a fixed seed.

use crate::plan::{file, plan_file, Gate, Out, Plan};

/// A small generator (splitmix64).
pub struct Random(pub u64);

impl Random {
    pub fn bits(&mut self) -> u64 {
        self.0 = self.0.wrapping_add(0x9e37_79b9_7f4a_7c15);
        let mut x = self.0;
        x = (x ^ x >> 30).wrapping_mul(0xbf58_476d_1ce4_e5b9);
        x = (x ^ x >> 27).wrapping_mul(0x94d0_49bb_1331_11eb);
        x ^ x >> 31
    }

    /// A number below `bound`.
    pub fn below(&mut self, bound: usize) -> usize {
        (self.bits() % bound as u64) as usize
    }

    /// A number from `low` to `high`.
    pub fn range(&mut self, low: usize, high: usize) -> usize {
        low + self.below(high - low + 1)
    }

    /// True once in `times`.
    pub fn once_in(&mut self, times: usize) -> bool {
        self.below(times) == 0
    }

    pub fn pick<T: Copy>(&mut self, from: &[T]) -> T {
        from[self.below(from.len())]
    }

    /// An element of the field modulo `p`, its ends often.
    pub fn element(&mut self, p: u32) -> u32 {
        match self.below(10) {
            0 => 0,
            1 => p - 1,
            2 => 1,
            _ => self.below(p as usize) as u32,
        }
    }

    /// A list of elements; once in ten, all of them are p − 1.
    pub fn elements(&mut self, count: usize, p: u32) -> Vec<u32> {
        if self.once_in(10) {
            return vec![p - 1; count];
        }
        (0..count).map(|_| self.element(p)).collect()
    }
}

/// Primes of all sizes, each the smallest or largest of a neighbourhood.
const PRIMES: [u32; 24] = [
    2, 3, 5, 7, 11, 13, 17, 19, 31, 37, 101, 127, 251, 257, 509, 1021, 4099, 8191, 16381, 32749, 32771, 65497, 65519,
    65521,
];

/// A plan's size: seats, threshold, prime.
pub fn size(random: &mut Random) -> (u16, usize, u32) {
    let n = match random.below(8) {
        0 => 1,
        1 => 15,
        2 | 3 => 3,
        _ => random.range(1, 15) as u16,
    };
    let most = (usize::from(n) - 1) / 2;
    let t = if random.once_in(3) { random.below(most + 1) } else { most };
    (n, t, prime(random, n))
}

/// A prime above n, often the smallest.
fn prime(random: &mut Random, n: u16) -> u32 {
    let primes: Vec<u32> = PRIMES.iter().copied().filter(|&p| p > u32::from(n)).collect();
    if random.once_in(3) {
        primes[0]
    } else {
        random.pick(&primes)
    }
}

/// The size of a plan whose threshold is at least half its seats.
pub fn wide_size(random: &mut Random) -> (u16, usize, u32) {
    let n = match random.below(6) {
        0 | 1 => 15,
        2 => 2,
        _ => random.range(2, 15) as u16,
    };
    let most = usize::from(n) - 1;
    let t = if random.once_in(2) { random.range(usize::from(n).div_ceil(2), most) } else { most };
    (n, t, prime(random, n))
}

/// The random gates of a plan: inputs anywhere, at most `gates` of them and `multiplies` multiplies.
pub fn gates(random: &mut Random, n: u16, p: u32, gates: usize, multiplies: usize) -> Vec<Gate> {
    let mut list: Vec<Gate> = Vec::with_capacity(gates);
    let mut left = multiplies;
    let inputs = random.range(2, 12);
    for g in 0..gates {
        let wire = |random: &mut Random| match random.below(4) {
            0 => g - 1,
            1 => random.below(g.min(4)),
            _ => random.below(g),
        };
        let kind = if g == 0 || random.once_in(inputs) { 1 } else { random.range(2, 5) };
        list.push(match kind {
            1 => Gate::Input(random.range(1, usize::from(n)) as u16),
            2 => Gate::Add(wire(random), wire(random)),
            3 => Gate::Scale(wire(random), random.element(p)),
            5 if left > 0 => {
                left -= 1;
                let a = wire(random);
                Gate::Multiply(a, if random.once_in(4) { a } else { wire(random) })
            }
            _ => Gate::Offset(wire(random), random.element(p)),
        });
    }
    list
}

/// Random outs, some of them twice.
pub fn outs(random: &mut Random, n: u16, gates: usize, count: usize) -> Vec<Out> {
    let mut list: Vec<Out> = Vec::with_capacity(count);
    for _ in 0..count {
        let seat = random.range(1, usize::from(n)) as u16;
        let wire = if random.once_in(3) { gates - 1 } else { random.below(gates) };
        let again = (!list.is_empty() && random.once_in(6)).then(|| random.pick(&list));
        list.push(again.unwrap_or(Out { seat, wire }));
    }
    list
}

/// A random plan file of at most `most` gates that passes.
pub fn plan(random: &mut Random, most: usize) -> Vec<u8> {
    let (n, t, p) = size(random);
    let count = random.range(1, most);
    let multiplies = if random.once_in(6) { 0 } else { count };
    with_gates(random, (n, t, p), count, multiplies)
}

/// A random plan file of at most `most` gates, none of them a multiply, for a threshold of at least half the seats.
pub fn wide_plan(random: &mut Random, most: usize) -> Vec<u8> {
    let size = wide_size(random);
    let count = random.range(1, most);
    with_gates(random, size, count, 0)
}

fn with_gates(random: &mut Random, (n, t, p): (u16, usize, u32), count: usize, multiplies: usize) -> Vec<u8> {
    let gates = gates(random, n, p, count, multiplies);
    let count = if random.once_in(12) { 64 } else { random.range(1, 6) };
    let outs = outs(random, n, gates.len(), count);
    plan_file(n as u8, t as u8, p, &gates, &outs)
}

/// Distinct points below p, not 0, of n seats: often 1 to n, in order or not.
pub fn points(random: &mut Random, n: u16, p: u32) -> Vec<u32> {
    let seats = usize::from(n);
    let mut points: Vec<u32> = Vec::with_capacity(seats);
    let most = if random.once_in(4) { u32::from(n) + 1 } else { p };
    while points.len() < seats {
        let point = random.element(most);
        if point != 0 && !points.contains(&point) {
            points.push(point);
        }
    }
    if random.once_in(5) {
        points = (1..=u32::from(n)).collect();
    }
    points
}

/// The plan of a file in another version, with these points.
pub fn with_points(version: u8, plan: &[u8], points: &[u32]) -> Vec<u8> {
    let plan = Plan::read(plan).expect("a plan that passes");
    plan.file_of(version, &plan.outs, points)
}

/// The plan of a file in another version, with random points.
pub fn pointed(random: &mut Random, version: u8, file: &[u8]) -> Vec<u8> {
    let plan = Plan::read(file).expect("a plan that passes");
    let points = points(random, plan.n, plan.field.p());
    with_points(version, file, &points)
}

/// A random plan file of version 2 of at most `most` gates that passes.
pub fn pointed_plan(random: &mut Random, most: usize) -> Vec<u8> {
    let file = if random.once_in(4) { wide_plan(random, most) } else { plan(random, most) };
    pointed(random, 2, &file)
}

/// Primes above 65,535, the smallest and the largest among them.
pub const LARGE_PRIMES: [u32; 14] = [
    65537,
    65539,
    99991,
    131071,
    1_000_003,
    8_388_593,
    16_777_213,
    16_777_259,
    536_870_909,
    1_073_741_789,
    1_073_741_827,
    2_147_483_587,
    2_147_483_629,
    2_147_483_647,
];

/// A prime above 65,535, often the largest.
pub fn large_prime(random: &mut Random) -> u32 {
    if random.once_in(3) {
        LARGE_PRIMES[LARGE_PRIMES.len() - 1]
    } else {
        random.pick(&LARGE_PRIMES)
    }
}

/// A random plan file of version 3 of at most `most` gates that passes.
pub fn large_plan(random: &mut Random, most: usize) -> Vec<u8> {
    let wide = random.once_in(4);
    let (n, t, small) = if wide { wide_size(random) } else { size(random) };
    let p = if random.once_in(4) { small } else { large_prime(random) };
    let count = random.range(1, most);
    let gates = gates(random, n, p, count, if wide { 0 } else { count });
    let count = if random.once_in(12) { 64 } else { random.range(1, 6) };
    let outs = outs(random, n, gates.len(), count);
    let points = points(random, n, p);
    file(3, (n as u8, t as u8, p), &gates, &outs, &points)
}

/// How many settings the coins of the seats outside a set have, at most `u32::MAX`: p for each coin.
pub fn settings(version: u8, (n, t, p): (u16, usize, u32), set: u16, gates: &[Gate]) -> u32 {
    let other = |seat: u16| u32::from(set >> (seat - 1) & 1 == 0);
    let dealings = |gate: &Gate| match *gate {
        Gate::Input(seat) => other(seat),
        Gate::Multiply(..) if version == 4 => 3 * (1..=n).map(other).sum::<u32>(),
        Gate::Multiply(..) => (1..=n.min(2 * t as u16 + 1)).map(other).sum(),
        _ => 0,
    };
    p.saturating_pow(t as u32 * gates.iter().map(dealings).sum::<u32>())
}

/// Gates with more than one and at most `most` settings for a set, once in eight with one; none if they are not found soon.
fn tiny_gates(
    random: &mut Random,
    version: u8,
    (n, t, p): (u16, usize, u32),
    set: u16,
    most: u32,
) -> Option<Vec<Gate>> {
    let least = if t == 0 || random.once_in(8) { 1 } else { 2 };
    let multiplies = if 2 * t < usize::from(n) { 2 } else { 0 };
    (0..20).find_map(|_| {
        let count = random.range(1, 6);
        let gates = gates(random, n, p, count, multiplies);
        (least..=most).contains(&settings(version, (n, t, p), set, &gates)).then_some(gates)
    })
}

/// A random plan file of any version with few gates, and a set for which there are at most `most` settings.
pub fn tiny_plan(random: &mut Random, most: u32) -> (Vec<u8>, u16) {
    loop {
        let n = if random.once_in(5) { random.range(1, 15) } else { random.range(2, 5) } as u16;
        let t = if random.once_in(12) { 0 } else { random.below(usize::from(n)) };
        let p = match random.below(6) {
            0 => prime(random, n),
            1 => large_prime(random),
            _ => PRIMES.iter().copied().find(|&p| p > u32::from(n)).expect("a prime above n"),
        };
        let members = if random.once_in(3) { t } else { random.below(t + 1) };
        let set = set(random, n, members);
        let Some(gates) = tiny_gates(random, 1, (n, t, p), set, most) else { continue };
        let version = if p > 65_535 { 3 } else { random.range(1, 3) as u8 };
        let count = random.range(1, 3);
        let outs = outs(random, n, gates.len(), count);
        let points = points(random, n, p);
        return (file(version, (n as u8, t as u8, p), &gates, &outs, &points), set);
    }
}

/// A set of at most `t` of the `n` seats.
pub fn set(random: &mut Random, n: u16, t: usize) -> u16 {
    let size = if random.once_in(3) { random.below(t + 1) } else { t };
    let mut set = 0u16;
    while set.count_ones() < size as u32 {
        set |= 1 << random.below(usize::from(n));
    }
    set
}

/// Random gates of which one at least is a random wire: those alone, or mixed with inputs and worked gates, often with multiplies.
pub fn drawn_gates(random: &mut Random, n: u16, p: u32, gates: usize, multiplies: usize) -> Vec<Gate> {
    let (alone, products) = (random.once_in(10), multiplies > 0 && random.once_in(2));
    let mut list = self::gates(random, n, p, gates, multiplies);
    let often = random.range(3, 8);
    for gate in &mut list {
        let input = matches!(gate, Gate::Input(_));
        match *gate {
            _ if alone || input && random.once_in(2) || random.once_in(often) => *gate = Gate::Random,
            Gate::Add(a, b) if products => *gate = Gate::Multiply(a, b),
            _ => {}
        }
    }
    if !list.contains(&Gate::Random) {
        list[0] = Gate::Random;
    }
    list
}

/// n, t, p and points of a plan of a version; t is often too large for multiply gates.
fn any_size(random: &mut Random, version: u8) -> (u16, usize, u32, Vec<u32>) {
    let (n, t, small) = if random.once_in(3) { wide_size(random) } else { size(random) };
    let p = if version > 2 && !random.once_in(4) { large_prime(random) } else { small };
    (n, t, p, points(random, n, p))
}

/// A random plan file of version 1, 2 or 3, of at most `most` gates, that passes and has a random wire.
pub fn drawn_plan(random: &mut Random, most: usize) -> Vec<u8> {
    let version = random.range(1, 3) as u8;
    let (n, t, p, points) = any_size(random, version);
    let count = random.range(1, most);
    let multiplies = if 2 * t < usize::from(n) { count } else { 0 };
    let gates = drawn_gates(random, n, p, count, multiplies);
    let count = if random.once_in(12) { 64 } else { random.range(1, 6) };
    let outs = outs(random, n, gates.len(), count);
    file(version, (n as u8, t as u8, p), &gates, &outs, &points)
}

/// A random plan file of version 4, of at most `most` gates, that passes: often with multiplies, now and then with random wires.
pub fn plan_1988(random: &mut Random, most: usize) -> Vec<u8> {
    let (n, t, p, points) = any_size(random, 4);
    let count = random.range(1, most);
    let multiplies = if 2 * t < usize::from(n) { count } else { 0 };
    let drawn = random.once_in(3);
    let make = if drawn { drawn_gates } else { gates };
    let mut gates = make(random, n, p, count, multiplies);
    if multiplies > 0 && !drawn && random.once_in(2) {
        for gate in &mut gates {
            if let Gate::Add(a, b) = *gate {
                *gate = Gate::Multiply(a, b);
            }
        }
    }
    let count = if random.once_in(12) { 64 } else { random.range(1, 6) };
    let outs = outs(random, n, gates.len(), count);
    file(4, (n as u8, t as u8, p), &gates, &outs, &points)
}

/// A random plan file of version 4 with few gates, and a set for which there are at most `most` settings.
pub fn tiny_plan_1988(random: &mut Random, most: u32) -> (Vec<u8>, u16) {
    loop {
        let n = random.range(1, 5) as u16;
        let t = random.below((usize::from(n)).div_ceil(2));
        let p = PRIMES.iter().copied().find(|&p| p > u32::from(n)).expect("a prime above n");
        let members = if random.once_in(3) { random.below(t + 1) } else { t };
        let set = set(random, n, members);
        let Some(gates) = tiny_gates(random, 4, (n, t, p), set, most) else { continue };
        let count = random.range(1, 3);
        let outs = outs(random, n, gates.len(), count);
        let points = points(random, n, p);
        return (file(4, (n as u8, t as u8, p), &gates, &outs, &points), set);
    }
}

/// Random gates of which one at least spends a triple, and at most `most` do.
pub fn spending_gates(random: &mut Random, n: u16, p: u32, gates: usize, most: usize) -> Vec<Gate> {
    let draws = random.once_in(3);
    let make = if draws { drawn_gates } else { self::gates };
    let mut list = make(random, n, p, gates.max(2), gates);
    let (often, mut left) = (random.range(1, 4), most);
    for g in (1..list.len()).rev() {
        let other = matches!(list[g], Gate::Input(_) | Gate::Random);
        if left > 0 && (left == most && g == 1 || !other && random.once_in(often)) {
            left -= 1;
            list[g] = Gate::Spend(random.below(g), random.below(g));
        }
    }
    list
}

/// A random plan file of any version, of at most `most` gates, that passes and spends triples; now and then without outs.
pub fn spending_plan(random: &mut Random, most: usize) -> Vec<u8> {
    let version = random.range(1, 4) as u8;
    let (n, t, small) = size(random);
    let p = if version > 2 && !random.once_in(4) { large_prime(random) } else { small };
    let count = random.range(2, most.max(2));
    let gates = spending_gates(random, n, p, count, 341);
    let count = if random.once_in(10) { 0 } else { random.range(1, 6) };
    let outs = outs(random, n, gates.len(), count);
    let points = points(random, n, p);
    file(version, (n as u8, t as u8, p), &gates, &outs, &points)
}

/// The plan file that prepares a plan's triples, in a version that can have its prime and points.
pub fn preparing_plan(random: &mut Random, plan: &Plan) -> Vec<u8> {
    let p = plan.field.p();
    let least = match (p > 65_535, plan.points.iter().copied().eq(1..=u32::from(plan.n))) {
        (true, _) => 3,
        (false, true) => 1,
        (false, false) => 2,
    };
    let version = random.range(least, 4) as u8;
    let gates = (0..plan.spends.len()).flat_map(|k| [Gate::Random, Gate::Random, Gate::Multiply(3 * k, 3 * k + 1)]);
    file(version, (plan.n as u8, plan.t as u8, p), &gates.collect::<Vec<Gate>>(), &[], &plan.points)
}
