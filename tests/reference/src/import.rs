//! Circuits in Bristol Fashion, imported into plans.

use crate::field::Field;
use crate::plan::{file, plan_check, refuse, require, Gate, Out, Refusal};

/// What a gate of a circuit does with the wires it reads.
#[derive(Clone, Copy, Debug, PartialEq, Eq)]
pub enum Operation {
    Xor(usize, usize),
    And(usize, usize),
    Inv(usize),
}

/// A circuit of which each gate reads set wires and sets a new one.
#[derive(Clone, Debug, PartialEq, Eq)]
pub struct Circuit {
    pub wires: usize,
    /// The wires of each input value, and of each output value.
    pub inputs: Vec<usize>,
    pub outputs: Vec<usize>,
    /// Each gate with the wire that it sets.
    pub gates: Vec<(Operation, usize)>,
}

/// A field as a number: decimal, at most 65,535, without leading zeros.
fn number(field: &[u8]) -> Option<usize> {
    let plain = field.iter().all(u8::is_ascii_digit) && (field == b"0" || !field.starts_with(b"0"));
    if !plain || field.is_empty() || field.len() > 5 {
        return None;
    }
    let value = std::str::from_utf8(field).ok()?.parse::<usize>().ok()?;
    (value <= 65_535).then_some(value)
}

/// A line of numbers only.
fn numbers(line: &[&[u8]]) -> Option<Vec<usize>> {
    line.iter().map(|field| number(field)).collect()
}

/// A line that says how many numbers follow, then these.
fn counted(line: &[&[u8]]) -> Option<Vec<usize>> {
    let (count, rest) = line.split_first()?;
    (number(count)? == rest.len()).then(|| numbers(rest))?
}

/// A gate's line: the counts of wires read and set, these wires, the operation.
fn gate(line: &[&[u8]]) -> Option<(Operation, usize)> {
    let (operation, rest) = line.split_last()?;
    match (*operation, numbers(rest)?.as_slice()) {
        (b"XOR", &[2, 1, a, b, c]) => Some((Operation::Xor(a, b), c)),
        (b"AND", &[2, 1, a, b, c]) => Some((Operation::And(a, b), c)),
        (b"INV", &[1, 1, a, c]) => Some((Operation::Inv(a), c)),
        _ => None,
    }
}

impl Circuit {
    /// The circuit of a text, unless it breaks the format or the rules of its wires.
    pub fn read(text: &[u8]) -> Option<Circuit> {
        let fields = |line: &'_ [u8]| -> Vec<(usize, usize)> {
            let mut found = Vec::new();
            let mut start = 0;
            for end in (0..=line.len()).filter(|&i| i == line.len() || line[i] == b' ') {
                if end > start {
                    found.push((start, end));
                }
                start = end + 1;
            }
            found
        };
        let mut lines = Vec::new();
        for line in text.split(|&byte| byte == b'\n') {
            let places = fields(line);
            if !places.is_empty() {
                lines.push(places.into_iter().map(|(from, to)| &line[from..to]).collect::<Vec<&[u8]>>());
            }
        }
        let [first, inputs, outputs, rest @ ..] = lines.as_slice() else { return None };
        let &[gates, wires] = numbers(first)?.as_slice() else { return None };
        let (inputs, outputs) = (counted(inputs)?, counted(outputs)?);
        if rest.len() != gates {
            return None;
        }
        let gates = rest.iter().map(|line| gate(line)).collect::<Option<Vec<_>>>()?;
        let circuit = Circuit { wires, inputs, outputs, gates };
        circuit.wires_ok().then_some(circuit)
    }

    fn wires_ok(&self) -> bool {
        let (inputs, outputs): (usize, usize) = (self.inputs.iter().sum(), self.outputs.iter().sum());
        if inputs > self.wires || outputs > self.wires {
            return false;
        }
        let mut set: Vec<bool> = (0..self.wires).map(|wire| wire < inputs).collect();
        let is_set = |set: &[bool], wire: usize| set.get(wire) == Some(&true);
        for &(operation, target) in &self.gates {
            let reads = match operation {
                Operation::Xor(a, b) | Operation::And(a, b) => is_set(&set, a) && is_set(&set, b),
                Operation::Inv(a) => is_set(&set, a),
            };
            if !reads || set.get(target) != Some(&false) {
                return false;
            }
            set[target] = true;
        }
        set.into_iter().all(|wire| wire)
    }

    /// The plan's gates, by their count.
    fn size(&self) -> usize {
        let of = |operation: &Operation| match operation {
            Operation::Xor(..) => 4,
            Operation::And(..) => 1,
            Operation::Inv(_) => 2,
        };
        self.inputs.iter().sum::<usize>() + self.gates.iter().map(|(operation, _)| of(operation)).sum::<usize>()
    }

    /// The plan's gates and outs, modulo a prime.
    fn plan(&self, p: u32) -> (Vec<Gate>, Vec<Out>) {
        let mut gates = Vec::new();
        for (value, &width) in self.inputs.iter().enumerate() {
            gates.extend(vec![Gate::Input(value as u16 + 1); width]);
        }
        // the plan's wire of each wire
        let mut place: Vec<usize> = (0..self.wires).collect();
        for &(operation, target) in &self.gates {
            match operation {
                Operation::Xor(a, b) => {
                    let (a, b, product) = (place[a], place[b], gates.len());
                    gates.push(Gate::Multiply(a, b));
                    gates.push(Gate::Scale(product, p - 2));
                    gates.push(Gate::Add(a, b));
                    gates.push(Gate::Add(product + 2, product + 1));
                }
                Operation::And(a, b) => gates.push(Gate::Multiply(place[a], place[b])),
                Operation::Inv(a) => {
                    gates.push(Gate::Scale(place[a], p - 1));
                    gates.push(Gate::Offset(gates.len() - 1, 1));
                }
            }
            place[target] = gates.len() - 1;
        }
        let count: usize = self.outputs.iter().sum();
        let outs = place[self.wires - count..].iter().map(|&wire| Out { seat: 1, wire }).collect();
        (gates, outs)
    }

    /// The output bits of a list of input bits.
    pub fn bits(&self, inputs: &[bool]) -> Vec<bool> {
        let mut wires = inputs.to_vec();
        wires.resize(self.wires, false);
        for &(operation, target) in &self.gates {
            wires[target] = match operation {
                Operation::Xor(a, b) => wires[a] ^ wires[b],
                Operation::And(a, b) => wires[a] & wires[b],
                Operation::Inv(a) => !wires[a],
            };
        }
        wires.split_off(self.wires - self.outputs.iter().sum::<usize>())
    }
}

/// The refusals of a plan's n, t and p, 3 to 5, where these are given beside a text.
pub fn plan_sizes(n: u32, t: u32, p: u32) -> Result<(), Refusal> {
    require((1..=15).contains(&n), 3, 0)?;
    require(t < n, 4, 0)?;
    require(Field::new(p).is_some() && p > n, 5, 0)
}

/// The file of a made plan that passes: of version 1, or of version 3 with points 1 to n where p is above 65,535.
pub fn made_file(n: u32, t: u32, p: u32, gates: &[Gate], outs: &[Out]) -> Result<Vec<u8>, Refusal> {
    let points: Vec<u32> = (1..=n).collect();
    let file = file(if p > 65_535 { 3 } else { 1 }, (n as u8, t as u8, p), gates, outs, &points);
    plan_check(&file)?;
    Ok(file)
}

/// The plan's file, or the refusal: 23, 24, then those of any plan.
pub fn import_file(text: &[u8], n: u32, t: u32, p: u32) -> Result<Vec<u8>, Refusal> {
    let Some(circuit) = Circuit::read(text).filter(|circuit| circuit.inputs.len() <= n as usize) else {
        return refuse(23);
    };
    require(circuit.size() <= 1024 && circuit.outputs.iter().sum::<usize>() <= 64, 24, 0)?;
    plan_sizes(n, t, p)?;
    let (gates, outs) = circuit.plan(p);
    made_file(n, t, p, &gates, &outs)
}

/// Imports a circuit into a lent buffer.
pub fn import(text: &[u8], n: u32, t: u32, p: u32, plan: &mut [u8]) -> Result<(), Refusal> {
    let file = import_file(text, n, t, p)?;
    require(plan.len() == file.len(), 19, 0)?;
    plan.copy_from_slice(&file);
    Ok(())
}
