//! The matching: coins under which a second list of figures gives a set the same view.

use crate::plan::{refuse, require, write, Gate, List, Plan, Refusal};
use crate::run::{ideal, spend, total, triple, work, Seats, Tables};

/// Writes all coins of the matched run of a plan that spends no triples.
pub fn matching(
    file: &[u8],
    set: u16,
    first: &[u8],
    second: &[u8],
    coins: &[u8],
    matched: &mut [u8],
) -> Result<(), Refusal> {
    let plan = Plan::read(file)?;
    let p = plan.field.p();
    let members = plan.members(set)?;
    let [first, second] = both_lists(&plan, [first, second])?;
    let coins = List::new(coins, plan.coins(), 12)?.below(p, 13)?.to_vec();
    require(plan.spends.is_empty(), 29, 0)?;
    require(matched.len() == 4 * coins.len(), 19, 0)?;
    agree(&plan, &members, &first, &second)?;
    write(&matched_coins(&plan, &members, [&first, &second], coins, [&[], &[]]).0, matched);
    Ok(())
}

/// Both lists of figures: 10 where one has another count, then 11.
fn both_lists(plan: &Plan, lists: [&[u8]; 2]) -> Result<[Vec<u32>; 2], Refusal> {
    let [first, second] = lists.map(|list| List::new(list, plan.figures.len(), 10));
    let (first, second, p) = (first?, second?, plan.field.p());
    Ok([first.below(p, 11)?.to_vec(), second.below(p, 11)?.to_vec()])
}

/// The checks of the two lists: 21 where they differ at a member's figure, 22 where their values do at a member's out.
fn agree(plan: &Plan, members: &[u16], first: &[u32], second: &[u32]) -> Result<(), Refusal> {
    let differs = plan.figure_seats().enumerate().find(|&(i, seat)| members.contains(&seat) && first[i] != second[i]);
    require(differs.is_none(), 21, differs.map_or(0, |(i, _)| i))?;
    let (granted, asked) = (ideal(plan, first), ideal(plan, second));
    let differs = plan.outs.iter().position(|out| members.contains(&out.seat) && granted[out.wire] != asked[out.wire]);
    require(differs.is_none(), 22, differs.unwrap_or(0))
}

/// Where a plan's refusal stands in checking order.
fn rank(refusal: &Refusal) -> usize {
    [1, 2, 3, 4, 5, 6, 7, 8, 25, 26].iter().position(|&number| number == refusal.number).expect("a plan's refusal")
}

/// Both plans; of their refusals the earlier in checking order, the preparing plan's where both get the same.
fn both_plans(preparing: &[u8], file: &[u8]) -> Result<[Plan; 2], Refusal> {
    match (Plan::read(preparing), Plan::read(file)) {
        (Ok(preparing), Ok(plan)) => Ok([preparing, plan]),
        (Err(first), Err(second)) => Err(if rank(&second) < rank(&first) { second } else { first }),
        (Err(refusal), _) | (_, Err(refusal)) => Err(refusal),
    }
}

/// Whether a plan prepares another's triples: its n, t, p and points, two random wires and their product for each, no outs.
fn prepares(preparing: &Plan, plan: &Plan) -> bool {
    let sizes = |plan: &Plan| (plan.n, plan.t, plan.field, plan.points.clone());
    let gates = (0..plan.spends.len()).flat_map(|k| [Gate::Random, Gate::Random, Gate::Multiply(3 * k, 3 * k + 1)]);
    !plan.spends.is_empty()
        && sizes(preparing) == sizes(plan)
        && preparing.outs.is_empty()
        && gates.eq(preparing.gates.iter().copied())
}

/// All triples of a preparing run, seat by seat.
pub fn triples_of(preparing: &Plan, shares: &[Seats]) -> Vec<u32> {
    (0..usize::from(preparing.n)).flat_map(|seat| shares.iter().map(move |wire| wire[seat])).collect()
}

/// Writes the preparing plan's figures and coins, then the plan's coins, of the matched runs.
pub fn matching_prepared(
    preparing: &[u8],
    file: &[u8],
    set: u16,
    first: &[u8],
    second: &[u8],
    coins: &[u8],
    matched: &mut [u8],
) -> Result<(), Refusal> {
    let [preparing, plan] = both_plans(preparing, file)?;
    let p = plan.field.p();
    preparing.members(set)?;
    let members = plan.members(set)?;
    let [first, second] = both_lists(&plan, [first, second])?;
    let (draws, early) = (preparing.figures.len(), preparing.figures.len() + preparing.coins());
    let coins = List::new(coins, early + plan.coins(), 12)?.to_vec();
    let limit = |place: usize| if place < early { preparing.field.p() } else { p };
    if let Some(place) = (0..coins.len()).find(|&place| coins[place] >= limit(place)) {
        return Err(Refusal { number: 13, place });
    }
    if !prepares(&preparing, &plan) {
        return refuse(29);
    }
    require(matched.len() == 4 * coins.len(), 19, 0)?;
    agree(&plan, &members, &first, &second)?;

    let (u, v) = (ideal(&plan, &first), ideal(&plan, &second));
    let lowest = lowest_other(&plan, &members);
    let mut moved = coins[..draws].to_vec();
    for (k, &(_, x, y)) in plan.spends.iter().enumerate() {
        for (gate, wire) in [(2 * k, x), (2 * k + 1, y)] {
            let draw = &mut moved[gate * usize::from(plan.n) + usize::from(lowest) - 1];
            *draw = plan.field.add(*draw, plan.field.sub(v[wire], u[wire]));
        }
    }
    let lists: [&[u32]; 2] = [&coins[..draws], &moved];
    let (given, runs) = matched_coins(&preparing, &members, lists, coins[draws..early].to_vec(), [&[], &[]]);
    let triples = runs.map(|shares| triples_of(&preparing, &shares));
    let triples: [&[u32]; 2] = [&triples[0], &triples[1]];
    let (main, _) = matched_coins(&plan, &members, [&first, &second], coins[early..].to_vec(), triples);
    write(&[moved, given, main].concat(), matched);
    Ok(())
}

fn lowest_other(plan: &Plan, members: &[u16]) -> u16 {
    (1..=plan.n).find(|seat| !members.contains(seat)).expect("a set has at most t seats")
}

/// Both runs, stepped side by side: the first with the coins taken, the matched one with those given.
struct Runs<'a> {
    plan: &'a Plan,
    members: &'a [u16],
    tables: Tables,
    /// The members' polynomial that is 1 at 0: its coefficients from that of X^0.
    delta: Vec<u32>,
    /// Version 4: the basis polynomials of the seats' points.
    basis: Vec<Vec<u32>>,
    coins: Vec<u32>,
    place: usize,
    shares: [Vec<Seats>; 2],
}

/// Moves each dealing by a non-member by its change times δ, and in version 4 the lowest one's zeros besides. Each run has
/// triples of its own. The coins given, and both runs' shares.
fn matched_coins(
    plan: &Plan,
    members: &[u16],
    figures: [&[u32]; 2],
    coins: Vec<u32>,
    triples: [&[u32]; 2],
) -> (Vec<u32>, [Vec<Seats>; 2]) {
    let points: Vec<u32> = members.iter().map(|&seat| plan.point(seat)).collect();
    let cuts_off = plan.cuts_off() && plan.multiplies > 0;
    let mut runs = Runs {
        plan,
        members,
        tables: Tables::new(plan),
        delta: plan.field.delta(&points, plan.t),
        basis: if cuts_off { plan.field.basis(&plan.points) } else { Vec::new() },
        coins,
        place: 0,
        shares: Default::default(),
    };
    let (mut next, mut spent) = (0, 0);
    let mut figure = || {
        next += 1;
        figures.map(|list| list[next - 1])
    };
    for &gate in &plan.gates {
        let made = match gate {
            Gate::Input(seat) => runs.deal_both(seat, figure()),
            Gate::Random => {
                let mut grids = [[[0; 15]; 15]; 2];
                for seat in 0..usize::from(plan.n) {
                    [grids[0][seat], grids[1][seat]] = runs.deal_both(seat as u16 + 1, figure());
                }
                grids.map(|grid| total(plan, &grid[..usize::from(plan.n)]))
            }
            Gate::Multiply(a, b) if plan.cuts_off() => runs.cut_off(a, b),
            Gate::Multiply(a, b) => runs.reduce(a, b),
            Gate::Spend(a, b) => {
                spent += 1;
                [0, 1].map(|run: usize| {
                    let (wires, triple) = (&runs.shares[run], triple(plan, triples[run], spent - 1));
                    spend(plan, &wires[a], &wires[b], &triple).0
                })
            }
            _ => [0, 1].map(|run: usize| work(plan, gate, &runs.shares[run])),
        };
        for (run, wire) in runs.shares.iter_mut().zip(made) {
            run.push(wire);
        }
    }
    (runs.coins, runs.shares)
}

impl Runs<'_> {
    /// The next dealing, of these values in the two runs.
    fn deal_both(&mut self, dealer: u16, values: [u32; 2]) -> [Seats; 2] {
        let field = self.plan.field;
        let own = &mut self.coins[self.place..self.place + self.plan.t];
        self.place += self.plan.t;
        let before = self.tables.deal(self.plan, values[0], own);
        if !self.members.contains(&dealer) {
            let change = field.sub(values[1], values[0]);
            for (coin, &coefficient) in own.iter_mut().zip(&self.delta[1..]) {
                *coin = field.add(*coin, field.mul(change, coefficient));
            }
        }
        [before, self.tables.deal(self.plan, values[1], own)]
    }

    /// Each seat's own product in the two runs.
    fn products(&self, a: usize, b: usize) -> [Seats; 2] {
        let product = |wires: &Vec<Seats>| std::array::from_fn(|i| self.plan.field.mul(wires[a][i], wires[b][i]));
        [product(&self.shares[0]), product(&self.shares[1])]
    }

    fn reduce(&mut self, a: usize, b: usize) -> [Seats; 2] {
        let (products, dealers) = (self.products(a, b), usize::from(self.plan.dealers()));
        let mut grids = [[[0; 15]; 15]; 2];
        for dealer in 0..dealers {
            [grids[0][dealer], grids[1][dealer]] =
                self.deal_both(dealer as u16 + 1, [products[0][dealer], products[1][dealer]]);
        }
        grids.map(|grid| self.tables.reduce(self.plan, &grid[..dealers]))
    }

    /// The coefficients, from that of X^0, of the polynomial through the products' changes at all points.
    fn change(&self, products: &[Seats; 2]) -> Vec<u32> {
        let field = self.plan.field;
        let mut change = vec![0; self.basis.len()];
        for (seat, basis) in self.basis.iter().enumerate() {
            let d = field.sub(products[1][seat], products[0][seat]);
            change.iter_mut().zip(basis).for_each(|(sum, &c)| *sum = field.add(*sum, field.mul(d, c)));
        }
        change
    }

    /// Version 4. The lowest non-member's zeros take up the products' change but for its value times δ, which the masked
    /// products' dealings then move by.
    fn cut_off(&mut self, a: usize, b: usize) -> [Seats; 2] {
        let (plan, field, seats) = (self.plan, self.plan.field, usize::from(self.plan.n));
        let (start, two) = (self.place, 2 * plan.t);
        let products = self.products(a, b);
        let change = self.change(&products);
        let lowest = lowest_other(plan, self.members);
        let mut masked = products;
        for seat in 0..seats {
            let own = &mut self.coins[start + seat * 3 * plan.t..][..two];
            let before = self.tables.deal(plan, 0, own);
            if seat + 1 == usize::from(lowest) {
                for (j, coin) in (1..).zip(own.iter_mut()) {
                    let kept = field.mul(change[0], self.delta.get(j).copied().unwrap_or(0));
                    *coin = field.add(*coin, field.sub(kept, change[j]));
                }
            }
            let after = self.tables.deal(plan, 0, own);
            for (run, zeros) in masked.iter_mut().zip([before, after]) {
                run.iter_mut().zip(zeros).for_each(|(x, zero)| *x = field.add(*x, zero));
            }
        }
        let mut grids = [[[0; 15]; 15]; 2];
        for seat in 0..seats {
            self.place = start + seat * 3 * plan.t + two;
            [grids[0][seat], grids[1][seat]] = self.deal_both(seat as u16 + 1, [masked[0][seat], masked[1][seat]]);
        }
        grids.map(|grid| self.tables.reduce(plan, &self.tables.cut_off(plan, &grid[..seats])[..seats]))
    }
}
