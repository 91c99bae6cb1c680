//! Random formula sheets: whole, damaged, extreme.

use crate::random::Random;
use crate::sheet::DEPTH;

/// A sheet by its words (names, numbers, operators and brackets), before it is written out.
#[derive(Clone, Debug)]
pub struct Formula {
    pub words: Vec<String>,
}

/// The ways to break a sheet that is whole: each is refused 27.
pub const DAMAGES: usize = 18;

fn name(random: &mut Random, n: u16) -> String {
    let letters = random.pick(&[1, 2, 4, 26]);
    format!("{}{}", char::from(b'a' + random.below(letters) as u8), random.range(1, usize::from(n)))
}

/// Words of a formula of so many names and numbers, in brackets of this depth.
fn grow(random: &mut Random, words: &mut Vec<String>, n: u16, p: u32, operands: usize, depth: usize) {
    let (mut left, operators) = (operands, random.pick(&["+-*", "+-*", "+*", "-*", "+-"]));
    while left > 0 {
        if left < operands {
            words.push(char::from(random.pick(operators.as_bytes())).into());
        }
        let inside = random.range(1, left.min(12));
        if depth < DEPTH && random.once_in(5) {
            words.push("(".into());
            grow(random, words, n, p, inside, depth + 1);
            words.push(")".into());
            left -= inside;
        } else {
            words.push(if random.once_in(3) { random.element(p).to_string() } else { name(random, n) });
            left -= 1;
        }
    }
}

fn is_name(word: &str) -> bool {
    word.starts_with(|first: char| first.is_ascii_lowercase())
}

fn is_operand(word: &str) -> bool {
    word.ends_with(|last: char| last.is_ascii_digit())
}

fn is_operator(word: &str) -> bool {
    ["+", "-", "*"].contains(&word)
}

impl Formula {
    /// A formula of so many names and numbers, a name among them.
    pub fn new(random: &mut Random, n: u16, p: u32, operands: usize) -> Formula {
        let mut formula = Formula { words: Vec::new() };
        grow(random, &mut formula.words, n, p, operands, 0);
        if !formula.words.iter().any(|word| is_name(word)) {
            let place = formula.place(random, is_operand).expect("an operand");
            formula.words[place] = name(random, n);
        }
        formula
    }

    /// The bytes: no blanks, or, if `loose`, some between words.
    pub fn bytes(&self, random: &mut Random, loose: bool) -> Vec<u8> {
        let mut text = Vec::new();
        let mut gap = |text: &mut Vec<u8>| {
            if loose && !random.once_in(3) {
                text.extend(vec![b' '; random.range(1, 3)]);
            }
        };
        for word in &self.words {
            gap(&mut text);
            text.extend(word.bytes());
        }
        gap(&mut text);
        text
    }

    /// The place of a word of this kind, if there is one.
    fn place(&self, random: &mut Random, kind: impl Fn(&str) -> bool) -> Option<usize> {
        let places: Vec<usize> = (0..self.words.len()).filter(|&i| kind(&self.words[i])).collect();
        (!places.is_empty()).then(|| random.pick(&places))
    }

    /// Puts words around one, so many times.
    pub fn bracket(&mut self, place: usize, times: usize) {
        let inside = [vec!["(".into(); times], vec![self.words[place].clone()], vec![")".into(); times]].concat();
        self.words.splice(place..=place, inside);
    }

    /// Breaks the sheet in one way; false where it has nothing to break so.
    pub fn damage(&mut self, random: &mut Random, n: u32, p: u32, way: usize) -> bool {
        let operand = self.place(random, is_operand).expect("a name");
        let (n, p) = (u128::from(n), u128::from(p));
        let any_operator = random.pick(&["+", "-", "*"]);
        match way {
            0 => {
                let at = usize::from(is_name(&self.words[operand]));
                self.words[operand].insert(at, '0');
            }
            1 => {
                let large = [p, p + 1, p + 256, p + 65536, p + (1 << 32), p + (1 << 64), 10 * p + 9, u128::MAX];
                self.words[operand] = random.pick(&large).to_string();
            }
            2 => {
                let large = [0, n + 1, n + 256, n + 65536, n + (1 << 32), (1 << 32) + 1, (1 << 64) + 1, u128::MAX];
                self.words[operand] = format!("a{}", random.pick(&large));
            }
            3 => {
                let Some(place) = self.place(random, is_name) else { return false };
                let letter = random.pick(&["A", "Z", "aa", "`", "{", "_a", "\u{e4}"]);
                self.words[place].replace_range(..1, letter);
            }
            4 => {
                let Some(place) = self.place(random, is_name) else { return false };
                self.words[place].truncate(1);
            }
            5 => {
                // a blank inside
                let word = &mut self.words[operand];
                if word.len() < 2 {
                    return false;
                }
                word.insert(random.range(1, word.len() - 1), ' ');
            }
            6 => {
                let Some(place) = self.place(random, is_operator) else { return false };
                self.words[place] = " ".into();
            }
            7 => self.words.insert(operand, any_operator.into()),
            8 => self.words.push(any_operator.into()),
            9 => self.words.insert(operand, "(".into()),
            10 => self.words.insert(operand + 1, ")".into()),
            11 => self.words[operand] = random.pick(&["()", "( )", "(())", ""]).into(),
            12 => {
                for word in self.words.iter_mut().filter(|word| is_name(word)) {
                    *word = "0".into();
                }
            }
            13 => {
                let place = random.below(self.words.len() + 1);
                let others =
                    ["\t", "\n", "\r", "/", "^", ".", ",", "_", "=", "\u{0}", "\u{7f}", "\u{a0}", "[", "&", "#"];
                self.words.insert(place, random.pick(&others).into());
            }
            14 => self.bracket(operand, DEPTH + 1),
            15 => self.words[operand].push_str(random.pick(&["b", "b1", "x", "A", " 0", "(1)", ".0", "e1"])),
            16 => {
                let Some(place) = self.place(random, is_operator) else { return false };
                self.words[place] = random.pick(&["**", "--", "+-", "*-", "+ +", "(", ")", ")(", "/", "="]).into();
            }
            _ => self.words.insert(0, any_operator.into()),
        }
        true
    }
}

/// A word so many times, with others between them.
pub fn chain(word: &str, between: &str, times: usize) -> Vec<u8> {
    vec![word; times].join(between).into_bytes()
}

/// The sum of the letters' names of seats 1 to `seats`.
pub fn all_names(letters: &str, seats: usize) -> Vec<u8> {
    let names = |letter| (1..=seats).map(move |seat| format!("{letter}{seat}"));
    letters.chars().flat_map(names).collect::<Vec<String>>().join("+").into_bytes()
}
