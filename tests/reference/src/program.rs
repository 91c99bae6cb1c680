//! The bench program's text.

use crate::plan::{bytes, number, numbers, refuse, Layout, List, Plan, Refusal};
use crate::run::{own, run_spending, seen_spending};
use std::fmt::Write;

/// What the bench program prints for its standard input.
pub fn program(input: &[u8]) -> String {
    lines(input).unwrap_or_else(|refusal| format!("refused {} {}\n", refusal.number, refusal.place))
}

/// A line: a word and numbers.
fn line(text: &mut String, word: &str, numbers: impl IntoIterator<Item = u32>) {
    text.push_str(word);
    for x in numbers {
        write!(text, " {x}").expect("a string takes all text");
    }
    text.push('\n');
}

fn lines(input: &[u8]) -> Result<String, Refusal> {
    if input.len() > 32_768 || input.len() < 2 {
        return refuse(1);
    }
    let end = 2 + usize::from(number(input, 0));
    if input.len() < end + 2 {
        return refuse(1);
    }
    let (file, set, rest) = (&input[2..end], number(input, end), &input[end + 2..]);
    let width = if matches!(file.get(4), Some(3 | 4)) { Layout::of(3).width } else { 2 };
    if rest.len() % width != 0 {
        return refuse(1);
    }
    let numbers = bytes(&numbers(rest, width));
    let plan = Plan::read(file)?;
    let p = plan.field.p();
    let members = plan.members(set)?;
    let (figures, coins) = numbers.split_at(numbers.len().min(4 * plan.figures.len()));
    let figures = List::new(figures, plan.figures.len(), 10)?.below(p, 11)?.to_vec();
    // what is past the full count of coins is triples
    let full = if plan.spends.is_empty() { coins.len() } else { coins.len().min(4 * plan.coins()) };
    let (coins, triples) = coins.split_at(full);
    let coins = List::new(coins, plan.coins(), 12)?.below(p, 13)?.to_vec();
    plan.check_triples(triples, plan.triples())?;
    let triples = List::new(triples, plan.triples(), 29)?.to_vec();
    seen_spending(&plan, &[], &figures, &coins, &triples)?;
    let run = run_spending(file, &figures, &coins, &triples, |_| ())?;

    let mut text = String::new();
    line(&mut text, "plan", [u32::from(plan.n), plan.t as u32, p, plan.gates.len() as u32, plan.outs.len() as u32]);
    for &seat in &members {
        let mut view = vec![u32::from(seat)];
        view.extend(own(&figures, plan.figure_seats(), seat));
        view.extend(own(&coins, plan.coin_seats(), seat));
        line(&mut text, "view", view);
        for (k, mail) in run.mail.iter().enumerate() {
            let mail = &mail[usize::from(seat) - 1];
            line(&mut text, "round", std::iter::once(k as u32).chain(mail.iter().copied()));
        }
    }
    let mut results: Vec<_> = run.results.iter().map(|results| results.iter()).collect();
    for (o, out) in plan.outs.iter().enumerate() {
        let value = *results[usize::from(out.seat) - 1].next().expect("one result per out");
        if members.contains(&out.seat) {
            line(&mut text, "out", [o as u32, u32::from(out.seat), value]);
        }
    }
    writeln!(text, "sent {}", run.sent).expect("a string takes all text");
    Ok(text)
}
