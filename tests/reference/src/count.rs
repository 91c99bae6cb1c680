//! Counting the views.

use crate::plan::{require, write, List, Plan, Refusal};
use crate::run::seen;
use std::collections::BTreeMap;

/// The most settings whose views are counted.
const MOST: u64 = 65_536;

/// The places of the members' coins in the whole list, and those of the others'.
fn places(plan: &Plan, members: &[u16]) -> (Vec<usize>, Vec<usize>) {
    let seats = plan.coin_seats();
    (0..seats.len()).partition(|&place| members.contains(&seats[place]))
}

/// How many settings so many coins of the others have: 30 unless they are few, no wire is random and no triple is spent.
fn settings(plan: &Plan, coins: usize) -> Result<usize, Refusal> {
    require(plan.draws() == 0 && plan.spends.is_empty(), 30, 0)?;
    let mut settings = 1;
    for _ in 0..coins {
        settings *= u64::from(plan.field.p());
        require(settings <= MOST, 30, 0)?;
    }
    Ok(settings as usize)
}

/// The size in bytes of a set's rows, one a setting: a view and its count.
pub fn count_size(file: &[u8], set: u16) -> Result<usize, Refusal> {
    let plan = Plan::read(file)?;
    let (_, others) = places(&plan, &plan.members(set)?);
    Ok(4 * (plan.view(set)? + 1) * settings(&plan, others.len())?)
}

/// Writes each view that a setting of the others' coins leads to, ascending, with the count of these settings.
pub fn count(file: &[u8], set: u16, figures: &[u8], coins: &[u8], rows: &mut [u8]) -> Result<(), Refusal> {
    let plan = Plan::read(file)?;
    let p = plan.field.p();
    let members = plan.members(set)?;
    let (own, others) = places(&plan, &members);
    let figures = List::new(figures, plan.figures.len(), 10)?.below(p, 11)?.to_vec();
    let coins = List::new(coins, own.len(), 12)?.below(p, 13)?;
    let settings = settings(&plan, others.len())?;
    require(rows.len() == count_size(file, set)?, 19, 0)?;
    let mut all = vec![0; plan.coins()];
    own.iter().zip(coins.iter()).for_each(|(&place, coin)| all[place] = coin);
    let mut views: BTreeMap<Vec<u32>, u32> = BTreeMap::new();
    for setting in 0..settings {
        let mut left = setting;
        for &place in &others {
            all[place] = (left % p as usize) as u32;
            left /= p as usize;
        }
        *views.entry(seen(&plan, &members, &figures, &all)).or_default() += 1;
    }
    let mut numbers: Vec<u32> = views.into_iter().flat_map(|(view, count)| [view, vec![count]].concat()).collect();
    numbers.resize(rows.len() / 4, 0);
    write(&numbers, rows);
    Ok(())
}
