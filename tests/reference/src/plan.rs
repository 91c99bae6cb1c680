//! The plan file, its checks, and the counts that follow from it.

use crate::field::Field;

/// A refusal, by its number, with its place.
#[derive(Clone, Copy, Debug, PartialEq, Eq)]
pub struct Refusal {
    pub number: u8,
    pub place: usize,
}

/// A refusal at place 0.
pub fn refuse<T>(number: u8) -> Result<T, Refusal> {
    Err(Refusal { number, place: 0 })
}

/// Goes on if `holds`, and refuses at `place` otherwise.
pub fn require(holds: bool, number: u8, place: usize) -> Result<(), Refusal> {
    if holds {
        Ok(())
    } else {
        Err(Refusal { number, place })
    }
}

/// A gate; gate g makes wire g. Seats count from 1, wires from 0.
#[derive(Clone, Copy, Debug, PartialEq, Eq)]
pub enum Gate {
    Input(u16),
    Add(usize, usize),
    Scale(usize, u32),
    Offset(usize, u32),
    Multiply(usize, usize),
    /// A sum of draws, one of each seat.
    Random,
    /// A product by the next triple.
    Spend(usize, usize),
}

/// The most gates that spend a triple.
pub const MOST_SPENDS: usize = 341;

/// What a round between the inputs' and the outs' carries, with the gate that it is for.
#[derive(Clone, Copy, Debug, PartialEq, Eq)]
pub enum Round {
    /// The pieces of a product, of each dealer.
    Product(usize),
    /// The pieces of a draw, of each seat.
    Draw(usize),
    /// Version 4: the pieces of a zero, of each seat; those of its masked product; and its part of each seat's share of
    /// the polynomial that is cut off.
    Zero(usize),
    Masked(usize),
    Truncated(usize),
    /// Each seat's shares of the two factors less the triple's first two numbers.
    Opening(usize),
}

impl Round {
    pub fn gate(self) -> usize {
        match self {
            Round::Product(g) | Round::Draw(g) | Round::Zero(g) | Round::Masked(g) => g,
            Round::Truncated(g) | Round::Opening(g) => g,
        }
    }

    /// Whether its mail gives the gate's wire.
    pub fn last(self) -> bool {
        !matches!(self, Round::Zero(_) | Round::Masked(_))
    }
}

/// A wire whose value a seat is given.
#[derive(Clone, Copy, Debug, PartialEq, Eq)]
pub struct Out {
    pub seat: u16,
    pub wire: usize,
}

/// A plan that passes.
#[derive(Clone, Debug, PartialEq, Eq)]
pub struct Plan {
    pub version: u8,
    pub n: u16,
    pub t: usize,
    pub field: Field,
    /// Each seat's point, seat 1 first.
    pub points: Vec<u32>,
    pub gates: Vec<Gate>,
    pub outs: Vec<Out>,
    /// The input gates in gate order: wire and seat.
    pub inputs: Vec<(usize, u16)>,
    /// The figures in list order, inputs and draws: wire and seat.
    pub figures: Vec<(usize, u16)>,
    /// The rounds 1 and on, up to the outs' round.
    pub rounds: Vec<Round>,
    /// How many gates multiply by dealings.
    pub multiplies: usize,
    /// The gates that spend a triple, in gate order: wire and its two factors.
    pub spends: Vec<(usize, usize, usize)>,
}

/// The two-byte number at `i`, low byte first.
pub fn number(bytes: &[u8], i: usize) -> u16 {
    u16::from_le_bytes([bytes[i], bytes[i + 1]])
}

/// The number of `width` bytes, two or four, at `i`.
fn number_of(bytes: &[u8], i: usize, width: usize) -> u32 {
    if width == 2 {
        u32::from(number(bytes, i))
    } else {
        u32::from_le_bytes([bytes[i], bytes[i + 1], bytes[i + 2], bytes[i + 3]])
    }
}

/// The four-byte number at `i`, low byte first.
pub fn long(bytes: &[u8], i: usize) -> u32 {
    number_of(bytes, i, 4)
}

/// A version's layout: the bytes of a number, and where the bodies begin. p stands at byte 8, and after it the gates'
/// offset, G, the outs' offset, O and, but for version 1, the points' offset.
#[derive(Clone, Copy, Debug, PartialEq, Eq)]
pub struct Layout {
    pub width: usize,
    pub head: usize,
}

impl Layout {
    pub fn of(version: u8) -> Layout {
        match version {
            1 => Layout { width: 2, head: 18 },
            2 => Layout { width: 2, head: 20 },
            _ => Layout { width: 4, head: 32 },
        }
    }

    /// Where field k stands; field 0 is p.
    pub fn place(self, k: usize) -> usize {
        8 + k * self.width
    }

    /// The bytes of a gate.
    pub fn gate(self) -> usize {
        2 + 2 * self.width
    }

    /// Whether there is a body of points.
    pub fn has_points(self) -> bool {
        self.head == self.place(6)
    }

    fn field(self, bytes: &[u8], k: usize) -> usize {
        number_of(bytes, self.place(k), self.width) as usize
    }

    /// Where the gates, the outs and the points begin: refusal 6 unless all of it is in its place.
    fn bodies(self, bytes: &[u8]) -> Result<[usize; 3], Refusal> {
        require(bytes.len() >= self.head, 6, 0)?;
        let [first_gate, gates, first_out, outs] = [1, 2, 3, 4].map(|k| self.field(bytes, k));
        require((1..=1024).contains(&gates) && outs <= 64, 6, 0)?;
        require(bytes[7] == 0 && first_gate == self.head && first_out == self.head + self.gate() * gates, 6, 0)?;
        let first_point = first_out + 3 * outs;
        let points = if self.has_points() { self.width * usize::from(bytes[5]) } else { 0 };
        require(!self.has_points() || self.field(bytes, 5) == first_point, 6, 0)?;
        require(bytes.len() == first_point + points, 6, 0)?;
        Ok([first_gate, first_out, first_point])
    }
}

/// A gate's bytes, `W` a number, unless the gate at `g` breaks its kind's rule.
fn gate<const W: usize>(bytes: &[u8], g: usize, n: u16, p: u32) -> Option<Gate> {
    let (a, b) = (number_of(bytes, 2, W), number_of(bytes, 2 + W, W));
    let (wire_a, wire_b) = (a as usize, b as usize);
    match (bytes[0], bytes[1]) {
        (1, 0) if (1..=u32::from(n)).contains(&a) && b == 0 => Some(Gate::Input(a as u16)),
        (2, 0) if wire_a < g && wire_b < g => Some(Gate::Add(wire_a, wire_b)),
        (3, 0) if wire_a < g && b < p => Some(Gate::Scale(wire_a, b)),
        (4, 0) if wire_a < g && b < p => Some(Gate::Offset(wire_a, b)),
        (5, 0) if wire_a < g && wire_b < g => Some(Gate::Multiply(wire_a, wire_b)),
        (6, 0) if a == 0 && b == 0 => Some(Gate::Random),
        (7, 0) if wire_a < g && wire_b < g => Some(Gate::Spend(wire_a, wire_b)),
        _ => None,
    }
}

/// Reads the gates, handing each to `take`: whether one of them multiplies or spends a triple, or the first that breaks its
/// kind's rule or spends one triple too many.
fn gates<const W: usize>(bytes: &[u8], n: u16, p: u32, mut take: impl FnMut(Gate)) -> Result<bool, Refusal> {
    let (mut multiplies, mut spends) = (false, 0);
    for (g, bytes) in bytes.chunks_exact(2 + 2 * W).enumerate() {
        let Some(gate) = gate::<W>(bytes, g, n, p) else { return Err(Refusal { number: 7, place: g }) };
        multiplies |= matches!(gate, Gate::Multiply(..) | Gate::Spend(..));
        spends += usize::from(matches!(gate, Gate::Spend(..)));
        require(spends <= MOST_SPENDS, 7, g)?;
        take(gate);
    }
    Ok(multiplies)
}

/// An out's three bytes, unless its seat or wire isn't in the plan.
fn out(bytes: &[u8], gates: usize, n: u16) -> Option<Out> {
    let out = Out { seat: u16::from(bytes[0]), wire: usize::from(number(bytes, 1)) };
    ((1..=n).contains(&out.seat) && out.wire < gates).then_some(out)
}

/// The seats' points, 1 to n where there is no body of them, unless one is 0, isn't below p or equals an earlier one.
fn points(bytes: &[u8], n: u16, p: u32, width: usize) -> Option<Vec<u32>> {
    if bytes.is_empty() {
        return Some((1..=u32::from(n)).collect());
    }
    let mut points = Vec::with_capacity(15);
    for number in bytes.chunks_exact(width) {
        let point = number_of(number, 0, width);
        if point == 0 || point >= p || points.contains(&point) {
            return None;
        }
        points.push(point);
    }
    Some(points)
}

/// A plan's n, t, field and points.
type Sizes = (u16, usize, Field, Vec<u32>);

/// The plan check, refusals 1 to 8, 25 and 26; it hands every gate and out it has read to `take`.
fn check(bytes: &[u8], mut take: impl FnMut(Result<Gate, Out>)) -> Result<Sizes, Refusal> {
    require(bytes.len() >= 18 && &bytes[..4] == b"POOL", 1, 0)?;
    require((1..=4).contains(&bytes[4]), 2, 0)?;
    let layout = Layout::of(bytes[4]);
    let (n, t) = (u16::from(bytes[5]), usize::from(bytes[6]));
    require((1..=15).contains(&n), 3, 0)?;
    require(t < usize::from(n), 4, 0)?;
    let p = number_of(bytes, layout.place(0), layout.width);
    let Some(field) = Field::new(p).filter(|_| p > u32::from(n)) else { return refuse(5) };
    let [first_gate, first_out, first_point] = layout.bodies(bytes)?;
    let body = &bytes[first_gate..first_out];
    let multiplies = if layout.width == 2 {
        gates::<2>(body, n, p, |gate| take(Ok(gate)))?
    } else {
        gates::<4>(body, n, p, |gate| take(Ok(gate)))?
    };
    for (o, three) in bytes[first_out..first_point].chunks_exact(3).enumerate() {
        let Some(out) = out(three, body.len() / layout.gate(), n) else { return Err(Refusal { number: 8, place: o }) };
        take(Err(out));
    }
    require(!multiplies || 2 * t < usize::from(n), 25, 0)?;
    let Some(points) = points(&bytes[first_point..], n, p, layout.width) else { return refuse(26) };
    Ok((n, t, field, points))
}

/// Whether a plan passes.
pub fn plan_check(bytes: &[u8]) -> Result<(), Refusal> {
    check(bytes, |_| ()).map(|_| ())
}

impl Plan {
    /// The plan of a file, or its refusal, 1 to 8, 25 or 26.
    pub fn read(bytes: &[u8]) -> Result<Plan, Refusal> {
        let (mut gates, mut outs) = (Vec::with_capacity(bytes.len() / 6), Vec::new());
        let (n, t, field, points) = check(bytes, |item| match item {
            Ok(gate) => gates.push(gate),
            Err(out) => outs.push(out),
        })?;
        let (mut inputs, mut figures, mut rounds, mut spends) = (Vec::new(), Vec::new(), Vec::new(), Vec::new());
        for (wire, gate) in gates.iter().enumerate() {
            match *gate {
                Gate::Input(seat) => {
                    inputs.push((wire, seat));
                    figures.push((wire, seat));
                }
                Gate::Multiply(..) if bytes[4] == 4 => {
                    rounds.extend([Round::Zero(wire), Round::Masked(wire), Round::Truncated(wire)]);
                }
                Gate::Multiply(..) => rounds.push(Round::Product(wire)),
                Gate::Random => {
                    rounds.push(Round::Draw(wire));
                    figures.extend((1..=n).map(|seat| (wire, seat)));
                }
                Gate::Spend(a, b) => {
                    rounds.push(Round::Opening(wire));
                    spends.push((wire, a, b));
                }
                _ => {}
            }
        }
        let multiplies = gates.iter().filter(|gate| matches!(gate, Gate::Multiply(..))).count();
        Ok(Plan { version: bytes[4], n, t, field, points, gates, outs, inputs, figures, rounds, multiplies, spends })
    }

    /// The plan's file with these outs instead of its own.
    pub fn file(&self, outs: &[Out]) -> Vec<u8> {
        self.file_of(self.version, outs, &self.points)
    }

    /// The plan's file in a version that holds it, with these outs and points.
    pub fn file_of(&self, version: u8, outs: &[Out], points: &[u32]) -> Vec<u8> {
        file(version, (self.n as u8, self.t as u8, self.field.p()), &self.gates, outs, points)
    }

    /// The seat's point.
    pub fn point(&self, seat: u16) -> u32 {
        self.points[usize::from(seat) - 1]
    }

    /// Version 4: the matrix by which the pieces of the masked products are weighted, one row a seat.
    pub fn matrix(&self) -> Vec<Vec<u32>> {
        self.field.cut_off(&self.points, self.t)
    }

    /// The weights at 0 of seats 1 to t+1.
    pub fn opening_weights(&self) -> Vec<u32> {
        self.field.weights(&self.points[..self.t + 1], 0)
    }

    /// The weights at 0 by which each seat sums the dealers' pieces.
    pub fn product_weights(&self) -> Vec<u32> {
        self.field.weights(&self.points[..usize::from(self.dealers())], 0)
    }

    /// Whether products are masked and cut off.
    pub fn cuts_off(&self) -> bool {
        self.version == 4
    }

    /// The number of seats that deal products: 2t+1, in version 4 all, or none where nothing is multiplied.
    pub fn dealers(&self) -> u16 {
        match self.multiplies {
            0 => 0,
            _ if self.cuts_off() => self.n,
            _ => 2 * self.t as u16 + 1,
        }
    }

    /// How many rounds a product takes, and how many coins of each of its dealers.
    fn product_rounds(&self) -> usize {
        if self.cuts_off() {
            3
        } else {
            1
        }
    }

    fn product_coins(&self) -> usize {
        self.t * self.product_rounds()
    }

    /// How many elements each seat receives for products.
    fn product_mail(&self) -> usize {
        self.multiplies * self.product_rounds() * usize::from(self.dealers())
    }

    /// The number of a seat's last call: two more than there are rounds for gates.
    pub fn last_call(&self) -> usize {
        self.rounds.len() + 2
    }

    /// Whether the seat sends in a gate's round.
    pub fn sends(&self, seat: u16, round: Round) -> bool {
        match round {
            Round::Product(_) => seat <= self.dealers(),
            _ => true,
        }
    }

    /// How many random wires there are.
    pub fn draws(&self) -> usize {
        self.gates.iter().filter(|&&gate| gate == Gate::Random).count()
    }

    /// How many coins the seat takes at a gate.
    pub fn coins_at(&self, gate: usize, seat: u16) -> usize {
        match self.gates[gate] {
            Gate::Input(owner) if owner == seat => self.t,
            Gate::Multiply(..) if seat <= self.dealers() => self.product_coins(),
            Gate::Random => self.t,
            _ => 0,
        }
    }

    /// The count of a seat's own triples' numbers.
    pub fn triples_of(&self) -> usize {
        3 * self.spends.len()
    }

    /// The count of all triples' numbers.
    pub fn triples(&self) -> usize {
        self.triples_of() * usize::from(self.n)
    }

    /// Checks lent triples, so many numbers: 13 at one that isn't below p, then 29 where there is another count.
    pub fn check_triples(&self, bytes: &[u8], count: usize) -> Result<(), Refusal> {
        List(&bytes[..bytes.len() / 4 * 4]).below(self.field.p(), 13)?;
        require(bytes.len() == 4 * count, 29, 0)
    }

    /// The count of the seat's own inputs.
    pub fn inputs_of(&self, seat: u16) -> usize {
        self.inputs.iter().filter(|input| input.1 == seat).count()
    }

    /// The count of the seat's own figures.
    pub fn figures_of(&self, seat: u16) -> usize {
        self.figure_seats().filter(|&owner| owner == seat).count()
    }

    /// The count of the seat's own coins.
    pub fn coins_of(&self, seat: u16) -> usize {
        (0..self.gates.len()).map(|gate| self.coins_at(gate, seat)).sum()
    }

    /// The count of the whole setting of coins.
    pub fn coins(&self) -> usize {
        self.t * self.figures.len() + self.multiplies * usize::from(self.dealers()) * self.product_coins()
    }

    /// The seat's own outs, in plan order.
    pub fn outs_of(&self, seat: u16) -> impl Iterator<Item = Out> + '_ {
        self.outs.iter().copied().filter(move |out| out.seat == seat)
    }

    /// How many elements the sender's call numbered `round` sends to the receiver.
    pub fn parcel(&self, sender: u16, receiver: u16, round: usize) -> usize {
        if round == 0 {
            self.inputs_of(sender)
        } else if let Some(&round) = self.rounds.get(round - 1) {
            usize::from(self.sends(sender, round)) * if matches!(round, Round::Opening(_)) { 2 } else { 1 }
        } else if round + 1 == self.last_call() {
            self.outs_of(receiver).count()
        } else {
            0
        }
    }

    /// The length of the mail that the seat's call takes.
    pub fn mail(&self, seat: u16, call: usize) -> usize {
        match call.checked_sub(1) {
            Some(round) => (1..=self.n).map(|sender| self.parcel(sender, seat, round)).sum(),
            None => 0,
        }
    }

    /// The length of what the seat's call writes: outgoing, or its results in the last call.
    pub fn outgoing(&self, seat: u16, call: usize) -> usize {
        if call == self.last_call() {
            self.outs_of(seat).count()
        } else {
            (1..=self.n).map(|receiver| self.parcel(seat, receiver, call)).sum()
        }
    }

    /// n·(inputs + M·(2t+1) + R·n + S·2n + O), with R the random wires and S the triples spent; in version 4 3n stands
    /// for 2t+1.
    pub fn sent(&self) -> usize {
        let n = usize::from(self.n);
        n * (self.inputs.len() + self.product_mail() + (self.draws() + 2 * self.spends.len()) * n + self.outs.len())
    }

    /// The seat, unless it isn't 1 to n.
    pub fn seat(&self, seat: u16) -> Result<u16, Refusal> {
        require((1..=self.n).contains(&seat), 9, 0).map(|_| seat)
    }

    /// The members of a set, unless it names a seat above n or has over t.
    pub fn members(&self, set: u16) -> Result<Vec<u16>, Refusal> {
        let members: Vec<u16> = (1..=16).filter(|seat| set >> (seat - 1) & 1 == 1).collect();
        require(members.iter().all(|&seat| seat <= self.n) && members.len() <= self.t, 9, 0)?;
        Ok(members)
    }

    /// The length of what the seat alone holds and receives.
    pub fn view_of(&self, seat: u16) -> usize {
        let n = usize::from(self.n);
        let held = self.figures_of(seat) + self.coins_of(seat);
        let opened = (self.draws() + 2 * self.spends.len()) * n;
        held + self.inputs.len() + self.product_mail() + opened + (n + 1) * self.outs_of(seat).count()
    }

    /// The length of the set's view.
    pub fn view(&self, set: u16) -> Result<usize, Refusal> {
        Ok(self.members(set)?.into_iter().map(|seat| self.view_of(seat)).sum())
    }

    /// The seat whose figure each entry is, in list order.
    pub fn figure_seats(&self) -> impl Iterator<Item = u16> + '_ {
        self.figures.iter().map(|figure| figure.1)
    }

    /// The seat whose coin each entry is, in list order.
    pub fn coin_seats(&self) -> Vec<u16> {
        let mut seats = Vec::with_capacity(self.coins());
        for gate in 0..self.gates.len() {
            seats.extend((1..=self.n).flat_map(|seat| std::iter::repeat_n(seat, self.coins_at(gate, seat))));
        }
        seats
    }
}

/// A list of numbers lent as bytes, four each.
#[derive(Clone, Copy)]
pub struct List<'a>(&'a [u8]);

impl<'a> List<'a> {
    /// The list, unless it hasn't `count` numbers.
    pub fn new(bytes: &'a [u8], count: usize, refusal: u8) -> Result<List<'a>, Refusal> {
        require(bytes.len() == 4 * count, refusal, 0).map(|_| List(bytes))
    }

    /// The list, unless a number isn't below `p`.
    pub fn below(self, p: u32, refusal: u8) -> Result<List<'a>, Refusal> {
        match self.iter().position(|x| x >= p) {
            Some(place) => Err(Refusal { number: refusal, place }),
            None => Ok(self),
        }
    }

    pub fn iter(self) -> impl Iterator<Item = u32> + 'a {
        self.0.chunks_exact(4).map(|four| long(four, 0))
    }

    pub fn to_vec(self) -> Vec<u32> {
        self.iter().collect()
    }
}

/// The numbers of bytes, `width` each.
pub fn numbers(bytes: &[u8], width: usize) -> Vec<u32> {
    bytes.chunks_exact(width).map(|number| number_of(number, 0, width)).collect()
}

/// The bytes of a list, four a number.
pub fn bytes(list: &[u32]) -> Vec<u8> {
    bytes_of(list, 4)
}

/// The bytes of a list, `width` a number.
pub fn bytes_of(list: &[u32], width: usize) -> Vec<u8> {
    list.iter().flat_map(|x| x.to_le_bytes().into_iter().take(width)).collect()
}

/// Writes a list over bytes of its length.
pub fn write(list: &[u32], bytes: &mut [u8]) {
    for (four, x) in bytes.chunks_exact_mut(4).zip(list) {
        four.copy_from_slice(&x.to_le_bytes());
    }
}

/// A plan file of version 1, written as it is asked for and not checked.
pub fn plan_file(n: u8, t: u8, p: u32, gates: &[Gate], outs: &[Out]) -> Vec<u8> {
    file(1, (n, t, p), gates, outs, &[])
}

/// A plan file, written as it is asked for and not checked; version 1 has no points.
pub fn file(version: u8, (n, t, p): (u8, u8, u32), gates: &[Gate], outs: &[Out], points: &[u32]) -> Vec<u8> {
    let layout = Layout::of(version);
    let put = |file: &mut Vec<u8>, list: &[u32]| file.extend(bytes_of(list, layout.width));
    let first_out = layout.head + layout.gate() * gates.len();
    let first_point = first_out + 3 * outs.len();
    let mut file = b"POOL".to_vec();
    file.extend([version, n, t, 0]);
    put(&mut file, &[p]);
    put(&mut file, &[layout.head, gates.len(), first_out, outs.len()].map(|x| x as u32));
    if layout.has_points() {
        put(&mut file, &[first_point as u32]);
    }
    for gate in gates {
        let (kind, a, b) = match *gate {
            Gate::Input(seat) => (1, u32::from(seat), 0),
            Gate::Add(a, b) => (2, a as u32, b as u32),
            Gate::Scale(a, c) => (3, a as u32, c),
            Gate::Offset(a, c) => (4, a as u32, c),
            Gate::Multiply(a, b) => (5, a as u32, b as u32),
            Gate::Random => (6, 0, 0),
            Gate::Spend(a, b) => (7, a as u32, b as u32),
        };
        file.extend([kind, 0]);
        put(&mut file, &[a, b]);
    }
    for out in outs {
        file.push(out.seat as u8);
        file.extend((out.wire as u16).to_le_bytes());
    }
    if layout.has_points() {
        put(&mut file, points);
    }
    file
}
