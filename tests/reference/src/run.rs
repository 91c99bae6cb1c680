//! The whole run: by the seats' calls, and directly wire by wire; the plan's own arithmetic; the set's view.

use crate::plan::{bytes, long, numbers, require, write, Gate, List, Plan, Refusal};
use crate::seat::{by_triple, seat_call};

/// The wires' values: the plan's own arithmetic, without shares.
pub fn ideal(plan: &Plan, figures: &[u32]) -> Vec<u32> {
    let mut values: Vec<u32> = Vec::with_capacity(plan.gates.len());
    let (mut figures, n) = (figures.iter(), usize::from(plan.n));
    for gate in &plan.gates {
        values.push(match *gate {
            Gate::Input(_) => *figures.next().expect("one figure per input gate"),
            Gate::Random => figures.by_ref().take(n).fold(0, |sum, &draw| plan.field.add(sum, draw)),
            Gate::Add(a, b) => plan.field.add(values[a], values[b]),
            Gate::Scale(a, c) => plan.field.mul(values[a], c),
            Gate::Offset(a, c) => plan.field.add(values[a], c),
            Gate::Multiply(a, b) | Gate::Spend(a, b) => plan.field.mul(values[a], values[b]),
        });
    }
    values
}

/// Each seat's results by that arithmetic.
pub fn granted(plan: &Plan, figures: &[u32]) -> Vec<Vec<u32>> {
    let values = ideal(plan, figures);
    (1..=plan.n).map(|seat| plan.outs_of(seat).map(|out| values[out.wire]).collect()).collect()
}

/// Those entries of a list that are the seat's own.
pub fn own(list: &[u32], seats: impl IntoIterator<Item = u16>, seat: u16) -> Vec<u32> {
    list.iter().zip(seats).filter(|(_, owner)| *owner == seat).map(|(&x, _)| x).collect()
}

/// What a seat's call takes and, after it, what it wrote.
#[derive(Clone, Debug)]
pub struct Step {
    pub seat: u16,
    pub call: usize,
    pub figures: Vec<u8>,
    pub coins: Vec<u8>,
    pub triples: Vec<u8>,
    pub state: Vec<u8>,
    pub mail: Vec<u8>,
    pub written: Vec<u8>,
}

/// A run's mail, by round and seat, its results by seat, and the count of elements sent.
#[derive(Clone, Debug, Default, PartialEq, Eq)]
pub struct Run {
    pub mail: Vec<Vec<Vec<u32>>>,
    pub results: Vec<Vec<u32>>,
    pub sent: usize,
}

/// The run by every seat's calls, of a plan that spends no triples.
pub fn run_by_calls(file: &[u8], figures: &[u32], coins: &[u32], watch: impl FnMut(&Step)) -> Result<Run, Refusal> {
    run_spending(file, figures, coins, &[], watch)
}

/// The run by every seat's calls, with the mail carried over; `watch` sees each call with the state and the triples before
/// it. The triples stand seat by seat.
pub fn run_spending(
    file: &[u8],
    figures: &[u32],
    coins: &[u32],
    triples: &[u32],
    mut watch: impl FnMut(&Step),
) -> Result<Run, Refusal> {
    let plan = Plan::read(file)?;
    let mut steps: Vec<Step> = (1..=plan.n)
        .map(|seat| Step {
            seat,
            call: 0,
            figures: bytes(&own(figures, plan.figure_seats(), seat)),
            coins: bytes(&own(coins, plan.coin_seats(), seat)),
            triples: bytes(triples.chunks(plan.triples_of().max(1)).nth(usize::from(seat) - 1).unwrap_or(&[])),
            state: vec![0; 4 * (1 + plan.gates.len())],
            mail: Vec::new(),
            written: Vec::new(),
        })
        .collect();
    let mut run = Run::default();
    for call in 0..=plan.last_call() {
        let mut carried = vec![Vec::new(); usize::from(plan.n)];
        for step in &mut steps {
            step.call = call;
            step.written = vec![0; 4 * plan.outgoing(step.seat, call)];
            let (mut state, mut left) = (step.state.clone(), step.triples.clone());
            let Step { seat, figures, coins, mail, written, .. } = step;
            seat_call(file, *seat, figures, coins, &mut left, &mut state, mail, written)?;
            watch(step);
            step.state = state;
            step.triples = left;
            let mut rest = step.written.chunks_exact(4).map(|four| long(four, 0));
            if call == plan.last_call() {
                run.results.push(rest.collect());
                continue;
            }
            for receiver in 1..=plan.n {
                carried[usize::from(receiver) - 1].extend(rest.by_ref().take(plan.parcel(step.seat, receiver, call)));
            }
        }
        if call < plan.last_call() {
            for (step, mail) in steps.iter_mut().zip(&carried) {
                step.mail = bytes(mail);
                run.sent += mail.len();
            }
            run.mail.push(carried);
        }
    }
    Ok(run)
}

/// The members' view of a run: for each its figures, its coins, each round's mail, its results.
pub fn view(plan: &Plan, members: &[u16], figures: &[u32], coins: &[u32], run: &Run) -> Vec<u32> {
    let mut view = Vec::new();
    for &seat in members {
        view.extend(own(figures, plan.figure_seats(), seat));
        view.extend(own(coins, plan.coin_seats(), seat));
        for round in &run.mail {
            view.extend(&round[usize::from(seat) - 1]);
        }
        view.extend(&run.results[usize::from(seat) - 1]);
    }
    view
}

/// One number for each seat, seat 1 first.
pub type Seats = [u32; 15];

/// The tables of a plan's dealings and products; the matrix in version 4 alone.
pub struct Tables {
    powers: Vec<Vec<u32>>,
    weights: Vec<u32>,
    matrix: Vec<Vec<u32>>,
}

impl Tables {
    pub fn new(plan: &Plan) -> Tables {
        let cuts_off = plan.cuts_off() && plan.multiplies > 0;
        let most = if cuts_off { 2 * plan.t } else { plan.t };
        Tables {
            powers: plan.points.iter().map(|&point| plan.field.powers(point, most)).collect(),
            weights: if cuts_off { plan.opening_weights() } else { plan.product_weights() },
            matrix: if cuts_off { plan.matrix() } else { Vec::new() },
        }
    }

    /// A dealing of as many coins as there are: each seat's piece.
    pub fn deal(&self, plan: &Plan, value: u32, coins: &[u32]) -> Seats {
        let mut pieces = [0; 15];
        for (piece, powers) in pieces.iter_mut().zip(&self.powers) {
            *piece = plan.field.dot(value, coins, powers);
        }
        pieces
    }

    /// Version 4: from the grid of the masked products' pieces, one row a dealer, that of the truncated shares' parts, one
    /// row a sender. `reduce` interpolates these.
    pub fn cut_off(&self, plan: &Plan, grid: &[Seats]) -> [Seats; 15] {
        let mut parts = [[0; 15]; 15];
        for (sender, row) in parts[..grid.len()].iter_mut().enumerate() {
            let mut pieces = [0; 15];
            pieces.iter_mut().zip(grid).for_each(|(piece, dealt)| *piece = dealt[sender]);
            for (part, weights) in row.iter_mut().zip(&self.matrix) {
                *part = plan.field.dot(0, weights, &pieces);
            }
        }
        parts
    }

    /// The shares of a multiply's wire, from its grid of pieces, one row a dealer or sender.
    pub fn reduce(&self, plan: &Plan, grid: &[Seats]) -> Seats {
        let sums = if plan.field.wide() { self.sums::<true>(plan, grid) } else { self.sums::<false>(plan, grid) };
        sums.map(|sum| plan.field.reduce(sum))
    }

    fn sums<const WIDE: bool>(&self, plan: &Plan, grid: &[Seats]) -> [u64; 15] {
        let mut sums = [0; 15];
        for (row, &weight) in grid.iter().zip(&self.weights) {
            for (sum, &piece) in sums.iter_mut().zip(row) {
                *sum = plan.field.gather::<WIDE>(*sum, weight, piece);
            }
        }
        sums
    }
}

/// Works an add, scale or offset on every seat's shares.
pub fn work(plan: &Plan, gate: Gate, shares: &[Seats]) -> Seats {
    let field = plan.field;
    match gate {
        Gate::Add(a, b) => std::array::from_fn(|i| field.add(shares[a][i], shares[b][i])),
        Gate::Scale(a, c) => shares[a].map(|share| field.mul(share, c)),
        Gate::Offset(a, c) => shares[a].map(|share| field.add(share, c)),
        Gate::Input(_) | Gate::Multiply(..) | Gate::Random | Gate::Spend(..) => unreachable!("dealt, not worked"),
    }
}

/// The sum of what each seat received.
pub fn total(plan: &Plan, grid: &[Seats]) -> Seats {
    std::array::from_fn(|i| grid.iter().fold(0, |sum, row| plan.field.add(sum, row[i])))
}

/// The direct run of a plan that spends no triples.
pub fn shares(plan: &Plan, figures: &[u32], coins: &[u32], seen: impl FnMut(&[Seats])) -> Vec<Seats> {
    shares_spending(plan, figures, coins, &[], seen)
}

/// The numbers of triple k, one row each, from the list of all.
pub fn triple(plan: &Plan, triples: &[u32], k: usize) -> [Seats; 3] {
    let mut rows = [[0; 15]; 3];
    for (seat, own) in triples.chunks(plan.triples_of()).enumerate() {
        (0..3).for_each(|i| rows[i][seat] = own[3 * k + i]);
    }
    rows
}

/// A product's row by a triple, and both openings' rows.
pub fn spend(plan: &Plan, x: &Seats, y: &Seats, triple: &[Seats; 3]) -> (Seats, [Seats; 2]) {
    let less = |wire: &Seats, by: &Seats| std::array::from_fn(|i| plan.field.sub(wire[i], by[i]));
    let sent: [Seats; 2] = [less(x, &triple[0]), less(y, &triple[1])];
    let opened = [0, 1].map(|i: usize| plan.field.dot(0, &plan.opening_weights(), &sent[i][..plan.t + 1]));
    let share = |i: usize| by_triple(plan, [x[i], y[i]], &[triple[0][i], triple[1][i], triple[2][i]], opened);
    (std::array::from_fn(share), sent)
}

/// The direct run: every wire's shares, and each round's grid, a row for each number that is sent, handed to `seen`.
pub fn shares_spending(
    plan: &Plan,
    figures: &[u32],
    coins: &[u32],
    triples: &[u32],
    mut seen: impl FnMut(&[Seats]),
) -> Vec<Seats> {
    let tables = Tables::new(plan);
    let mut shares: Vec<Seats> = Vec::with_capacity(plan.gates.len());
    let (mut figures, mut coins) = (figures.iter(), coins);
    let mut take = |count: usize| {
        let (taken, rest) = coins.split_at(count);
        coins = rest;
        taken
    };
    let (mut grid, mut spent) = ([[0; 15]; 15], 0);
    for &gate in &plan.gates {
        shares.push(match gate {
            Gate::Input(_) => tables.deal(plan, *figures.next().expect("one figure per input gate"), take(plan.t)),
            Gate::Multiply(a, b) if plan.cuts_off() => {
                let seats = usize::from(plan.n);
                let mut masked: Seats = std::array::from_fn(|i| plan.field.mul(shares[a][i], shares[b][i]));
                let own: Vec<&[u32]> = (0..seats).map(|_| take(3 * plan.t)).collect();
                for (row, coins) in grid.iter_mut().zip(&own) {
                    *row = tables.deal(plan, 0, &coins[..2 * plan.t]);
                }
                seen(&grid[..seats]);
                let zeros = total(plan, &grid[..seats]);
                masked.iter_mut().zip(zeros).for_each(|(x, zero)| *x = plan.field.add(*x, zero));
                for ((row, coins), &x) in grid.iter_mut().zip(&own).zip(&masked) {
                    *row = tables.deal(plan, x, &coins[2 * plan.t..]);
                }
                seen(&grid[..seats]);
                let parts = tables.cut_off(plan, &grid[..seats]);
                seen(&parts[..seats]);
                tables.reduce(plan, &parts[..seats])
            }
            Gate::Multiply(a, b) => {
                let grid = &mut grid[..usize::from(plan.dealers())];
                for (dealer, row) in grid.iter_mut().enumerate() {
                    *row = tables.deal(plan, plan.field.mul(shares[a][dealer], shares[b][dealer]), take(plan.t));
                }
                seen(grid);
                tables.reduce(plan, grid)
            }
            Gate::Random => {
                let grid = &mut grid[..usize::from(plan.n)];
                for row in grid.iter_mut() {
                    *row = tables.deal(plan, *figures.next().expect("a draw of each seat"), take(plan.t));
                }
                seen(grid);
                total(plan, grid)
            }
            Gate::Spend(a, b) => {
                let (made, sent) = spend(plan, &shares[a], &shares[b], &triple(plan, triples, spent));
                spent += 1;
                // every seat gets both numbers of each sender
                let sent = (0..usize::from(plan.n)).flat_map(|sender| [[sent[0][sender]; 15], [sent[1][sender]; 15]]);
                seen(&sent.collect::<Vec<Seats>>());
                made
            }
            _ => work(plan, gate, &shares),
        });
    }
    shares
}

/// What seats hold and receive in the direct run of a plan that spends no triples.
pub fn seen(plan: &Plan, seats: &[u16], figures: &[u32], coins: &[u32]) -> Vec<u32> {
    seen_spending(plan, seats, figures, coins, &[]).expect("shares on one polynomial")
}

/// What seats hold and receive in the direct run: for each its figures, its coins, each round's mail, its results; 20 for
/// the first out whose shares do not lie on one polynomial.
pub fn seen_spending(
    plan: &Plan,
    seats: &[u16],
    figures: &[u32],
    coins: &[u32],
    triples: &[u32],
) -> Result<Vec<u32>, Refusal> {
    let mut columns = vec![Vec::new(); seats.len()];
    let shares = shares_spending(plan, figures, coins, triples, |grid| {
        for (column, &seat) in columns.iter_mut().zip(seats) {
            column.extend(grid.iter().map(|row| row[usize::from(seat) - 1]));
        }
    });
    if !plan.spends.is_empty() {
        check_outs(plan, &shares)?;
    }
    let coin_seats = if seats.is_empty() { Vec::new() } else { plan.coin_seats() };
    let weights = plan.field.weights(&plan.points[..plan.t + 1], 0);
    let mut seen = Vec::with_capacity(seats.iter().map(|&seat| plan.view_of(seat)).sum());
    for (&seat, column) in seats.iter().zip(&columns) {
        seen.extend(own(figures, plan.figure_seats(), seat));
        seen.extend(own(coins, coin_seats.iter().copied(), seat));
        for sender in 1..=plan.n {
            let dealt = plan.inputs.iter().filter(|input| input.1 == sender);
            seen.extend(dealt.map(|input| shares[input.0][usize::from(seat) - 1]));
        }
        seen.extend(column);
        for sender in 1..=usize::from(plan.n) {
            seen.extend(plan.outs_of(seat).map(|out| shares[out.wire][sender - 1]));
        }
        seen.extend(plan.outs_of(seat).map(|out| plan.field.dot(0, &weights, &shares[out.wire][..plan.t + 1])));
    }
    Ok(seen)
}

/// 20 at the first seat that is off the polynomial through seats 1 to t + 1, for the first out in plan order that breaks.
fn check_outs(plan: &Plan, shares: &[Seats]) -> Result<(), Refusal> {
    let (basis, n) = (plan.t + 1, usize::from(plan.n));
    let weights: Vec<Vec<u32>> = plan.points.iter().map(|&x| plan.field.weights(&plan.points[..basis], x)).collect();
    for out in &plan.outs {
        let shares = &shares[out.wire];
        let off = (0..n).find(|&i| plan.field.dot(0, &weights[i], &shares[..basis]) != shares[i]);
        require(off.is_none(), 20, off.map_or(0, |i| i + 1))?;
    }
    Ok(())
}

/// The direct bench: writes the set's view, zeroes the triples and gives the count of elements sent.
pub fn bench(
    file: &[u8],
    set: u16,
    figures: &[u8],
    coins: &[u8],
    triples: &mut [u8],
    view: &mut [u8],
) -> Result<usize, Refusal> {
    let plan = Plan::read(file)?;
    let members = plan.members(set)?;
    let figures = List::new(figures, plan.figures.len(), 10)?.below(plan.field.p(), 11)?.to_vec();
    let coins = List::new(coins, plan.coins(), 12)?.below(plan.field.p(), 13)?.to_vec();
    plan.check_triples(triples, plan.triples())?;
    require(view.len() == 4 * plan.view(set)?, 19, 0)?;
    write(&seen_spending(&plan, &members, &figures, &coins, &numbers(triples, 4))?, view);
    triples.fill(0);
    Ok(plan.sent())
}
