//! Making plans to compare answers on: random ones, damaged ones and edge cases on purpose.

mod build;
mod chained;
mod damaged;
mod dice;
mod fields;
mod limits;
mod load;
mod random;
mod ranges;
mod spoilt;
mod write;

use crate::many::write_plan;
use dice::Dice;
use std::io::{self, Write};

/// A kind of plan: a name for what is special about it, and how one is drawn.
pub struct Kind(&'static str, fn(&mut Dice) -> Vec<u8>);

/// The kinds by group; making cycles through the groups and, more slowly, through each group's
/// kinds.
const GROUPS: [&[Kind]; 10] = [
    &random::KINDS,
    &damaged::KINDS,
    &fields::KINDS,
    &ranges::KINDS,
    &spoilt::KINDS,
    &random::KINDS,
    &damaged::KINDS,
    &load::KINDS,
    &limits::KINDS,
    &chained::KINDS,
];

/// Writes the plans 0 to `count` - 1 of a seed, each after its length.
pub fn make(seed: u64, count: u64, output: &mut impl Write) -> io::Result<()> {
    for number in 0..count {
        write_plan(output, &plan(seed, number))?;
    }
    Ok(())
}

/// The plan with that number of a seed.
pub fn plan(seed: u64, number: u64) -> Vec<u8> {
    let Kind(_, draw) = kind(number);
    draw(&mut Dice::new(seed, number))
}

/// The name of the kind of the plan with that number.
pub fn name(number: u64) -> &'static str {
    let Kind(name, _) = kind(number);
    name
}

/// The names of all kinds, group by group.
pub fn names() -> impl Iterator<Item = &'static str> {
    let kinds = GROUPS.iter().flat_map(|group| group.iter());
    kinds.map(|Kind(name, _)| *name)
}

/// The kind of the plan with that number.
fn kind(number: u64) -> &'static Kind {
    let groups = GROUPS.len() as u64;
    let group = GROUPS[(number % groups) as usize];
    &group[(number / groups % group.len() as u64) as usize]
}
