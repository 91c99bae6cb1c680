//! Formula sheets compiled into plans by two stacks: operators that wait, and wires.

use crate::import::{made_file, plan_sizes};
use crate::plan::{refuse, require, Gate, Out, Refusal};

/// The depth that brackets may be nested to.
pub const DEPTH: usize = 16;

/// A name: its letter and its seat.
pub type Name = (u8, u64);

#[derive(Clone, Copy, Debug, PartialEq, Eq)]
enum Token {
    Name(Name),
    Number(u64),
    Operator(u8),
    Open,
    Close,
}

/// A step of a formula that stands in the order of its gates: an operator stands after its two sides.
#[derive(Clone, Copy, Debug, PartialEq, Eq)]
enum Step {
    /// An input, by its place among the names.
    Name(usize),
    Number(u64),
    Operator(u8),
}

/// A sheet that keeps the rules.
#[derive(Clone, Debug, PartialEq, Eq)]
pub struct Sheet {
    /// The names in order of first use.
    pub names: Vec<Name>,
    steps: Vec<Step>,
}

/// The decimal number that the text begins with, and the rest; none without a digit or with a leading zero.
fn digits(text: &[u8]) -> Option<(u64, &[u8])> {
    let (digits, rest) = text.split_at(text.iter().take_while(|byte| byte.is_ascii_digit()).count());
    if digits.is_empty() || (digits.len() > 1 && digits[0] == b'0') {
        return None;
    }
    let value =
        digits.iter().fold(0u64, |value, digit| value.saturating_mul(10).saturating_add(u64::from(digit - b'0')));
    Some((value, rest))
}

fn tokens(mut text: &[u8]) -> Option<Vec<Token>> {
    let mut found = Vec::new();
    while let Some((&first, rest)) = text.split_first() {
        let (token, rest) = match first {
            b' ' => {
                text = rest;
                continue;
            }
            b'+' | b'-' | b'*' => (Token::Operator(first), rest),
            b'(' => (Token::Open, rest),
            b')' => (Token::Close, rest),
            b'a'..=b'z' => digits(rest).map(|(seat, rest)| (Token::Name((first, seat)), rest))?,
            _ => digits(text).map(|(value, rest)| (Token::Number(value), rest))?,
        };
        found.push(token);
        text = rest;
    }
    Some(found)
}

fn rank(operator: u8) -> usize {
    usize::from(operator == b'*')
}

impl Sheet {
    /// The sheet of a text, unless it breaks the rules.
    pub fn read(text: &[u8], n: u32, p: u32) -> Option<Sheet> {
        let (mut names, mut places) = (Vec::new(), std::collections::HashMap::new());
        let mut steps = Vec::new();
        // operators and open brackets that wait
        let mut waiting: Vec<Token> = Vec::new();
        let (mut depth, mut operand_next) = (0, true);
        for token in tokens(text)? {
            match token {
                Token::Name(name) if operand_next && (1..=u64::from(n)).contains(&name.1) => {
                    let place = *places.entry(name).or_insert(names.len());
                    if place == names.len() {
                        names.push(name);
                    }
                    steps.push(Step::Name(place));
                }
                Token::Number(value) if operand_next && value < u64::from(p) => steps.push(Step::Number(value)),
                Token::Open if operand_next && depth < DEPTH => {
                    depth += 1;
                    waiting.push(token);
                    continue;
                }
                Token::Operator(operator) if !operand_next => {
                    while let Some(&Token::Operator(before)) = waiting.last() {
                        if rank(before) < rank(operator) {
                            break;
                        }
                        waiting.pop();
                        steps.push(Step::Operator(before));
                    }
                    waiting.push(token);
                    operand_next = true;
                    continue;
                }
                Token::Close if !operand_next && depth > 0 => {
                    depth -= 1;
                    while let Some(Token::Operator(before)) = waiting.pop() {
                        steps.push(Step::Operator(before));
                    }
                }
                _ => return None,
            }
            operand_next = false;
        }
        while let Some(Token::Operator(before)) = waiting.pop() {
            steps.push(Step::Operator(before));
        }
        (!operand_next && depth == 0 && !names.is_empty()).then_some(Sheet { names, steps })
    }

    /// The plan's gates, by their count.
    fn size(&self) -> usize {
        let of = |step: &Step| match step {
            Step::Name(_) => 0,
            Step::Number(_) | Step::Operator(b'-') => 2,
            Step::Operator(_) => 1,
        };
        self.names.len() + self.steps.iter().map(of).sum::<usize>()
    }

    /// The plan's gates and the result's wire, modulo a prime.
    fn gates(&self, p: u32) -> (Vec<Gate>, usize) {
        let mut gates: Vec<Gate> = self.names.iter().map(|name| Gate::Input(name.1 as u16)).collect();
        let mut wires: Vec<usize> = Vec::new();
        for &step in &self.steps {
            let wire = match step {
                Step::Name(place) => place,
                Step::Number(value) => {
                    gates.push(Gate::Scale(0, 0));
                    gates.push(Gate::Offset(gates.len() - 1, value as u32));
                    gates.len() - 1
                }
                Step::Operator(operator) => {
                    let (right, left) = (wires.pop().expect("a right side"), wires.pop().expect("a left side"));
                    match operator {
                        b'*' => gates.push(Gate::Multiply(left, right)),
                        b'+' => gates.push(Gate::Add(left, right)),
                        _ => {
                            gates.push(Gate::Scale(right, p - 1));
                            gates.push(Gate::Add(left, gates.len() - 1));
                        }
                    }
                    gates.len() - 1
                }
            };
            wires.push(wire);
        }
        (gates, wires.pop().expect("a result"))
    }
}

/// Parts a text at the bytes of `at` outside brackets: each part with the byte before it, the first with the first of `at`.
fn parts<'a>(text: &'a [u8], at: &[u8]) -> Vec<(u8, &'a [u8])> {
    let (mut found, mut depth, mut start, mut before) = (Vec::new(), 0, 0, at[0]);
    for (i, byte) in text.iter().enumerate() {
        match byte {
            b'(' => depth += 1,
            b')' => depth -= 1,
            _ if depth == 0 && at.contains(byte) => {
                found.push((before, &text[start..i]));
                (start, before) = (i + 1, *byte);
            }
            _ => {}
        }
    }
    found.push((before, &text[start..]));
    found
}

/// A formula's own value modulo p, straight from the text of a sheet that keeps the rules: terms, factors, brackets.
pub fn formula_value(text: &[u8], figure: &dyn Fn(Name) -> u64, p: u64) -> u64 {
    parts(text, b"+-").into_iter().fold(0, |sum, (sign, term)| {
        let product = parts(term, b"*").into_iter().fold(1, |product, (_, factor)| {
            let factor = factor.trim_ascii();
            product
                * match factor[0] {
                    b'(' => formula_value(&factor[1..factor.len() - 1], figure, p),
                    letter @ b'a'..=b'z' => figure((letter, digits(&factor[1..]).expect("a seat").0)),
                    _ => digits(factor).expect("a number").0,
                }
                % p
        });
        (if sign == b'-' { sum + p - product % p } else { sum + product }) % p
    })
}

/// The plan's file, or the refusal: 27, 24, then those of any plan.
pub fn sheet_file(text: &[u8], n: u32, t: u32, p: u32, seat: u32) -> Result<Vec<u8>, Refusal> {
    let Some(sheet) = Sheet::read(text, n, p) else { return refuse(27) };
    require(sheet.size() <= 1024, 24, 0)?;
    plan_sizes(n, t, p)?;
    require((1..=n).contains(&seat), 8, 0)?;
    let (gates, wire) = sheet.gates(p);
    made_file(n, t, p, &gates, &[Out { seat: seat as u16, wire }])
}

/// Compiles a sheet into a lent buffer.
pub fn sheet(text: &[u8], n: u32, t: u32, p: u32, seat: u32, plan: &mut [u8]) -> Result<(), Refusal> {
    let file = sheet_file(text, n, t, p, seat)?;
    require(plan.len() == file.len(), 19, 0)?;
    plan.copy_from_slice(&file);
    Ok(())
}
