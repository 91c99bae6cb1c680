//! Random texts of circuits in Bristol Fashion: whole, damaged, extreme.

use crate::random::Random;

/// A text by its lines and fields, before it is written out.
#[derive(Clone, Debug)]
pub struct Text {
    pub lines: Vec<Vec<String>>,
}

/// The ways to break a text that is whole: each is refused 23.
pub const DAMAGES: usize = 16;

impl Text {
    /// The text of a circuit of at most `values` input values and so many gates, as many of them XOR as `xors` in 10.
    pub fn new(random: &mut Random, values: usize, gates: usize, xors: usize, outputs: usize) -> Text {
        let mut inputs: Vec<usize> =
            (0..random.range(usize::from(gates > 0), values)).map(|_| random.below(5)).collect();
        if gates > 0 && inputs.iter().sum::<usize>() == 0 {
            *inputs.last_mut().expect("a value") = random.range(1, 4);
        }
        let first: usize = inputs.iter().sum();
        let wires = first + gates;
        // gates may set the wires that are left in any order
        let mut targets: Vec<usize> = (first..wires).collect();
        if random.once_in(2) {
            for i in (1..targets.len()).rev() {
                targets.swap(i, random.below(i + 1));
            }
        }
        let mut set: Vec<usize> = (0..first).collect();
        let mut body = Vec::new();
        for target in targets {
            let wire =
                |random: &mut Random| if random.once_in(3) { set[set.len() - 1] } else { set[random.below(set.len())] };
            let (a, b) = (wire(random), wire(random));
            body.push(if random.below(10) < xors {
                format!("2 1 {a} {b} {target} XOR")
            } else if random.once_in(2) {
                format!("2 1 {a} {b} {target} AND")
            } else {
                format!("1 1 {a} {target} INV")
            });
            set.push(target);
        }
        let mut left = outputs.min(wires);
        let mut widths = Vec::new();
        while left > 0 {
            let width = random.range(1, left);
            widths.push(width);
            left -= width;
        }
        if random.once_in(4) {
            widths.insert(random.below(widths.len() + 1), 0);
        }
        let line = |list: &[usize]| [list.len()].iter().chain(list).map(ToString::to_string).collect::<Vec<String>>();
        let mut lines = vec![vec![gates.to_string(), wires.to_string()], line(&inputs), line(&widths)];
        lines.extend(body.iter().map(|line| line.split(' ').map(String::from).collect()));
        Text { lines }
    }

    /// The input values.
    pub fn values(&self) -> usize {
        self.lines[1].len() - 1
    }

    /// The bytes: one blank between fields and a line feed after each line, or, if `loose`, more of both, and none at the end.
    pub fn bytes(&self, random: &mut Random, loose: bool) -> Vec<u8> {
        let mut text = Vec::new();
        let gap = |random: &mut Random| if loose && random.once_in(4) { random.below(4) } else { 0 };
        for line in &self.lines {
            for _ in 0..gap(random) {
                text.extend(if random.once_in(2) { "\n" } else { "  \n" }.bytes());
            }
            text.extend(vec![b' '; gap(random)]);
            for (i, field) in line.iter().enumerate() {
                text.extend(vec![b' '; gap(random) + usize::from(i > 0)]);
                text.extend(field.bytes());
            }
            text.extend(vec![b' '; gap(random)]);
            text.push(b'\n');
        }
        if loose && random.once_in(2) {
            text.pop();
        }
        text
    }

    /// A gate's line, if there is one.
    fn gate(&self, random: &mut Random) -> Option<usize> {
        (self.lines.len() > 3).then(|| random.range(3, self.lines.len() - 1))
    }

    fn number(&mut self, line: usize, field: usize, change: impl Fn(usize) -> usize) {
        let value: usize = self.lines[line][field].parse().expect("a number");
        self.lines[line][field] = change(value).to_string();
    }

    /// Breaks the text in one way; false where this text has nothing to break so.
    pub fn damage(&mut self, random: &mut Random, way: usize) -> bool {
        let line = random.below(self.lines.len());
        let numbers = self.lines[line].len() - usize::from(line > 2);
        let field = random.below(numbers);
        let wires: usize = self.lines[0][1].parse().expect("a number");
        let gate = self.gate(random);
        match way {
            0 => self.lines[line][field].insert(0, '0'),
            1 => {
                self.lines[line][field] =
                    random.pick(&["65536", "65537", "99999", "100000", "4294967296", "18446744073709551616"]).into()
            }
            2 => {
                let last = self.lines[line].len() - 1;
                if last == 0 {
                    return false;
                }
                let next = self.lines[line].remove(last);
                self.lines[line][last - 1].push_str(&format!("\t{next}"));
            }
            3 => self.lines[line].push(random.pick(&["\r", "\t", "x", "0"]).into()),
            4 => {
                // of a line of values the last, since without its count the rest may be such a line too
                let last = self.lines[line].len() - 1;
                if last == 0 {
                    return false;
                }
                let gone = if line == 1 || line == 2 { last } else { random.below(last + 1) };
                self.lines[line].remove(gone);
            }
            5 => {
                let places = self.lines[line].len();
                let place = random.range(1, places);
                self.lines[line].insert(place, random.pick(&["1", "XOR", "#", "-"]).into());
            }
            6 => self.lines[line][field] = random.pick(&["-1", "+1", "1.", "0x1", "1e1", "one", "\u{0}", "XOR"]).into(),
            7 => {
                let Some(gate) = gate else { return false };
                let last = self.lines[gate].len() - 1;
                self.lines[gate][last] = random
                    .pick(&["OR", "NOT", "EQ", "EQW", "MAND", "xor", "And", "XORX", "XO", "INV1", "X\u{0}R"])
                    .into();
            }
            8 => {
                // another operation that exists, for another count of wires
                let Some(gate) = gate else { return false };
                let last = self.lines[gate].len() - 1;
                self.lines[gate][last] = if last == 4 { "XOR" } else { "INV" }.into();
            }
            9 => {
                let Some(gate) = gate else { return false };
                let field = random.range(2, self.lines[gate].len() - 2);
                self.number(gate, field, |value| wires.max(value) + (value % 3));
            }
            10 => {
                // a wire set twice, and another not at all
                let Some(gate) = gate else { return false };
                let field = self.lines[gate].len() - 2;
                self.number(gate, field, |value| if value > 0 { value - 1 } else { value + 1 });
            }
            11 => self.number(0, 1, |value| value + 1),
            12 => {
                let change = random.once_in(2);
                self.number(0, 0, |value| if change || value == 0 { value + 1 } else { value - 1 });
            }
            13 => {
                let Some(gate) = gate else { return false };
                self.lines.remove(gate);
            }
            14 => {
                let Some(gate) = gate else { return false };
                let again = self.lines[gate].clone();
                self.lines.push(again);
            }
            _ => {
                // a gate reads the wire that it sets
                let Some(gate) = gate else { return false };
                let target = self.lines[gate][self.lines[gate].len() - 2].clone();
                self.lines[gate][2] = target;
            }
        }
        true
    }
}

/// A chain of INV over so many wires.
pub fn chain(wires: usize) -> Vec<u8> {
    let mut text = format!("{} {wires}\n1 1\n1 1\n", wires - 1);
    for wire in 1..wires {
        text.push_str(&format!("1 1 {} {wire} INV\n", wire - 1));
    }
    text.into_bytes()
}

/// Inputs that are the outputs: so many wires, no gate.
pub fn straight(wires: usize) -> Vec<u8> {
    format!("0 {wires}\n1 {wires}\n1 {wires}\n").into_bytes()
}
