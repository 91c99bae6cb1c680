//! One seat's call.

use crate::plan::{long, numbers, refuse, require, write, Gate, List, Plan, Refusal, Round};

/// Makes the seat's next call: takes its figures, coins, triples, state and mail, rewrites its state, zeroes a triple that
/// is spent, and writes its outgoing elements or, in the last call, its results. A refused call writes nowhere.
#[allow(clippy::too_many_arguments)]
pub fn seat_call(
    plan: &[u8],
    seat: u16,
    figures: &[u8],
    coins: &[u8],
    triples: &mut [u8],
    state: &mut [u8],
    mail: &[u8],
    out: &mut [u8],
) -> Result<(), Refusal> {
    let plan = Plan::read(plan)?;
    let p = plan.field.p();
    plan.seat(seat)?;
    let figures = List::new(figures, plan.figures_of(seat), 10)?.below(p, 11)?;
    let coins = List::new(coins, plan.coins_of(seat), 12)?.below(p, 13)?;
    plan.check_triples(triples, plan.triples_of())?;
    List::new(state, 1 + plan.gates.len(), 14)?;
    let call = long(state, 0) as usize;
    let shares = List::new(&state[4..], plan.gates.len(), 14)?;
    require(call <= plan.last_call() + 1 && shares.iter().all(|share| share < p), 15, 0)?;
    if call > plan.last_call() {
        return refuse(16);
    }
    let mail = List::new(mail, plan.mail(seat, call), 17)?.below(p, 18)?.to_vec();
    require(out.len() == 4 * plan.outgoing(seat, call), 19, 0)?;

    let (mut shares, mut left) = (shares.to_vec(), numbers(triples, 4));
    let written = if call == 0 {
        deal_inputs(&plan, seat, figures, coins)
    } else if call == plan.last_call() {
        results(&plan, seat, &mail)?
    } else {
        learn(&plan, call, &mail, &mut shares, &mut left);
        work(&plan, call, &mut shares);
        match plan.rounds.get(call - 1) {
            Some(&Round::Opening(g)) => open(&plan, g, &shares, &left),
            Some(&round) => send(&plan, seat, round, &shares, figures, coins, &mail),
            None => (1..=plan.n).flat_map(|receiver| plan.outs_of(receiver)).map(|out| shares[out.wire]).collect(),
        }
    };
    state[..4].copy_from_slice(&(call as u32 + 1).to_le_bytes());
    write(&shares, &mut state[4..]);
    write(&left, triples);
    write(&written, out);
    Ok(())
}

/// The receiver's piece of a dealing: the value at its point of s + c1·X + .. + ct·X^t.
fn piece(plan: &Plan, value: u32, coins: &[u32], receiver: u16) -> u32 {
    let x = plan.point(receiver);
    plan.field.add(value, coins.iter().rfold(0, |sum, &c| plan.field.mul(plan.field.add(sum, c), x)))
}

/// The seat's own coins at a gate.
fn own_coins(plan: &Plan, seat: u16, gate: usize, coins: List) -> Vec<u32> {
    let before = (0..gate).map(|earlier| plan.coins_at(earlier, seat)).sum();
    coins.iter().skip(before).take(plan.coins_at(gate, seat)).collect()
}

/// The seat's own figure at a gate.
fn own_figure(plan: &Plan, seat: u16, gate: usize, figures: List) -> u32 {
    let before = plan.figures.iter().filter(|figure| figure.1 == seat && figure.0 < gate).count();
    figures.iter().nth(before).expect("a figure of the seat's own")
}

/// Call 0: the pieces of the seat's own inputs, by receiver, then by gate.
fn deal_inputs(plan: &Plan, seat: u16, figures: List, coins: List) -> Vec<u32> {
    let own = plan.inputs.iter().filter(|input| input.1 == seat);
    let dealt: Vec<_> =
        own.map(|&(gate, _)| (own_figure(plan, seat, gate, figures), own_coins(plan, seat, gate, coins))).collect();
    (1..=plan.n).flat_map(|receiver| dealt.iter().map(move |(s, coins)| piece(plan, *s, coins, receiver))).collect()
}

/// A gate's round: the pieces of what the seat deals in it, if it deals; in a product's third round of version 4 the
/// seat's part of each seat's share.
fn send(plan: &Plan, seat: u16, round: Round, shares: &[u32], figures: List, coins: List, mail: &[u32]) -> Vec<u32> {
    let (field, gate) = (plan.field, round.gate());
    let product = || match plan.gates[gate] {
        Gate::Multiply(a, b) => field.mul(shares[a], shares[b]),
        _ => unreachable!("a round of products"),
    };
    let coins = || own_coins(plan, seat, gate, coins);
    let deal = |value: u32, coins: &[u32]| (1..=plan.n).map(|receiver| piece(plan, value, coins, receiver)).collect();
    match round {
        _ if !plan.sends(seat, round) => Vec::new(),
        Round::Draw(_) => deal(own_figure(plan, seat, gate, figures), &coins()),
        Round::Product(_) => deal(product(), &coins()),
        Round::Zero(_) => deal(0, &coins()[..2 * plan.t]),
        Round::Masked(_) => {
            let masked = mail.iter().fold(product(), |sum, &zero| field.add(sum, zero));
            deal(masked, &coins()[2 * plan.t..])
        }
        Round::Truncated(_) => plan.matrix().iter().map(|row| field.dot(0, row, mail)).collect(),
        Round::Opening(_) => unreachable!("opened, not dealt"),
    }
}

/// Where the triple of a gate stands, and the gate's factors.
fn spend(plan: &Plan, gate: usize) -> (usize, usize, usize) {
    let k = plan.spends.iter().position(|spend| spend.0 == gate).expect("a gate that spends a triple");
    (3 * k, plan.spends[k].1, plan.spends[k].2)
}

/// To every seat the same: the shares of the factors less those of the triple's first two numbers.
fn open(plan: &Plan, gate: usize, shares: &[u32], triples: &[u32]) -> Vec<u32> {
    let (at, x, y) = spend(plan, gate);
    let opened = [plan.field.sub(shares[x], triples[at]), plan.field.sub(shares[y], triples[at + 1])];
    opened.repeat(usize::from(plan.n))
}

/// A seat's share of the product of x and y by a triple, and both openings.
pub fn by_triple(plan: &Plan, [x, y]: [u32; 2], triple: &[u32], [d, e]: [u32; 2]) -> u32 {
    let field = plan.field;
    let sum = field.add(triple[2], field.add(field.mul(e, x), field.mul(d, y)));
    field.sub(sum, field.mul(d, e))
}

/// Call 1 learns the input wires, each later one the wire of the round before it, if that is its gate's last.
fn learn(plan: &Plan, call: usize, mail: &[u32], shares: &mut [u32], triples: &mut [u32]) {
    if call == 1 {
        let by_sender = (1..=plan.n).flat_map(|sender| plan.inputs.iter().filter(move |input| input.1 == sender));
        for (&(wire, _), &piece) in by_sender.zip(mail) {
            shares[wire] = piece;
        }
        return;
    }
    match plan.rounds[call - 2] {
        Round::Product(g) => shares[g] = plan.field.dot(0, &plan.product_weights(), mail),
        Round::Draw(g) => shares[g] = mail.iter().fold(0, |sum, &piece| plan.field.add(sum, piece)),
        Round::Zero(_) | Round::Masked(_) => {}
        Round::Truncated(g) => shares[g] = plan.field.dot(0, &plan.opening_weights(), &mail[..plan.t + 1]),
        Round::Opening(g) => {
            let (at, x, y) = spend(plan, g);
            let opened = [0, 1].map(|first: usize| {
                let sent: Vec<u32> = mail.iter().copied().skip(first).step_by(2).take(plan.t + 1).collect();
                plan.field.dot(0, &plan.opening_weights(), &sent)
            });
            shares[g] = by_triple(plan, [shares[x], shares[y]], &triples[at..at + 3], opened);
            triples[at..at + 3].fill(0);
        }
    }
}

/// Works each add, scale and offset from the gate just learnt to the next that has a round.
fn work(plan: &Plan, call: usize, shares: &mut [u32]) {
    let before = call.checked_sub(2).map(|round| plan.rounds[round]);
    let start = before.map_or(0, |round| round.gate() + usize::from(round.last()));
    let end = plan.rounds.get(call - 1).map_or(plan.gates.len(), |round| round.gate());
    for wire in start..end {
        match plan.gates[wire] {
            Gate::Add(a, b) => shares[wire] = plan.field.add(shares[a], shares[b]),
            Gate::Scale(a, c) => shares[wire] = plan.field.mul(shares[a], c),
            Gate::Offset(a, c) => shares[wire] = plan.field.add(shares[a], c),
            Gate::Input(_) | Gate::Multiply(..) | Gate::Random | Gate::Spend(..) => {}
        }
    }
}

/// The last call: each own out's value from its n shares, which must lie on one polynomial of degree t; else the place
/// is the first seat that is not on the one through seats 1 to t + 1.
fn results(plan: &Plan, seat: u16, mail: &[u32]) -> Result<Vec<u32>, Refusal> {
    let own = plan.outs_of(seat).count();
    let basis = plan.t + 1;
    // at 0, then at each seat's point
    let places = std::iter::once(&0).chain(&plan.points);
    let weights: Vec<Vec<u32>> = places.map(|&x| plan.field.weights(&plan.points[..basis], x)).collect();
    let mut results = Vec::with_capacity(own);
    for out in 0..own {
        let shares: Vec<u32> = mail.iter().copied().skip(out).step_by(own).collect();
        let at = |seat: usize| plan.field.dot(0, &weights[seat], &shares[..basis]);
        if let Some(off) = (1..=usize::from(plan.n)).find(|&seat| at(seat) != shares[seat - 1]) {
            return Err(Refusal { number: 20, place: off });
        }
        results.push(at(0));
    }
    Ok(results)
}
