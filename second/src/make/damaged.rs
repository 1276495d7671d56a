//! Damaged plans, each from a well-formed one.

use super::dice::Dice;
use super::random;
use super::write::write;
use super::Kind;

/// The kinds of damage.
pub const KINDS: [Kind; 5] = [
    Kind("damaged: a byte changed", change),
    Kind("damaged: a byte dropped", drop_one),
    Kind("damaged: a byte doubled", double),
    Kind("damaged: cut", cut),
    Kind("damaged: bytes appended", append),
];

/// The bytes of a well-formed plan, small more often than not.
fn whole(dice: &mut Dice) -> Vec<u8> {
    let size = dice.pick(&[random::TINY, random::SMALL, random::SMALL, random::MIDDLE]);
    write(&random::draw(dice, size))
}

/// A plan with one byte changed.
fn change(dice: &mut Dice) -> Vec<u8> {
    let mut plan = whole(dice);
    let place = dice.below(plan.len());
    plan[place] ^= dice.between(1, 255) as u8;
    plan
}

/// A plan with one byte dropped.
fn drop_one(dice: &mut Dice) -> Vec<u8> {
    let mut plan = whole(dice);
    plan.remove(dice.below(plan.len()));
    plan
}

/// A plan with one byte doubled.
fn double(dice: &mut Dice) -> Vec<u8> {
    let mut plan = whole(dice);
    let place = dice.below(plan.len());
    plan.insert(place, plan[place]);
    plan
}

/// A plan cut anywhere.
fn cut(dice: &mut Dice) -> Vec<u8> {
    let mut plan = whole(dice);
    plan.truncate(dice.below(plan.len()));
    plan
}

/// A plan with a few bytes appended.
fn append(dice: &mut Dice) -> Vec<u8> {
    let mut plan = whole(dice);
    for _ in 0..dice.between(1, 30) {
        plan.push(dice.between(0, 255) as u8);
    }
    plan
}
