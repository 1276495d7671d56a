//! Refusals 1 to 6 at their first and last possible places.

use super::build::{fed, full, pathless};
use super::dice::Dice;
use super::write::write;
use super::Kind;

/// The kinds of plans refused while or just after they are read.
pub const KINDS: [Kind; 15] = [
    Kind("1: 4,097 bytes", |dice| padded(dice, 4_097)),
    Kind("2: no byte", |_| Vec::new()),
    Kind("2: first header cut", |dice| cut(dice, 2)),
    Kind("2: first value cut", |dice| cut(dice, 6)),
    Kind("2: last header cut", |dice| cut(dice, LAST_FIELD + 2)),
    Kind("2: last value cut", |dice| cut(dice, LENGTH - 1)),
    Kind("3: first tag", |dice| changed(dice, 0)),
    Kind("3: last tag", |dice| changed(dice, LAST_FIELD)),
    Kind("4: first length", |dice| changed(dice, 1)),
    Kind("4: last length", |dice| changed(dice, LAST_FIELD + 1)),
    Kind("5: first value", |dice| changed(dice, 3)),
    Kind("5: last value", last_value),
    Kind("6: after the shortest plan", after_shortest),
    Kind("6: after the longest plan", |dice| padded(dice, LENGTH + 1)),
    Kind("6: 4,096 bytes", |dice| padded(dice, 4_096)),
];

/// The length of a longest plan: the head, 16 controllers, 64 outside tasks and 32 paths.
const LENGTH: usize = 7 + 16 * 5 + 64 * 21 + 32 * 23;

/// The place of the last field of a longest plan.
const LAST_FIELD: usize = LENGTH - 23;

/// A longest plan; its fields are in order although its paths follow no chain.
fn longest(dice: &mut Dice) -> Vec<u8> {
    let mut plan = full(dice);
    for path in &mut plan.paths {
        path.tasks = (0..16).map(|_| dice.below(64)).collect();
    }
    write(&plan)
}

/// A longest plan with random bytes after it up to that length.
fn padded(dice: &mut Dice, length: usize) -> Vec<u8> {
    let mut plan = longest(dice);
    plan.resize_with(length, || dice.between(0, 255) as u8);
    plan
}

/// A longest plan cut to that length.
fn cut(dice: &mut Dice, length: usize) -> Vec<u8> {
    let mut plan = longest(dice);
    plan.truncate(length);
    plan
}

/// A longest plan with the byte at that place changed.
fn changed(dice: &mut Dice, place: usize) -> Vec<u8> {
    let mut plan = longest(dice);
    plan[place] ^= dice.between(1, 255) as u8;
    plan
}

/// A longest plan whose last path ends with a task that the head does not count.
fn last_value(dice: &mut Dice) -> Vec<u8> {
    let mut plan = longest(dice);
    plan[LENGTH - 1] = dice.between(64, 255) as u8;
    plan
}

/// A shortest plan, of one task that feeds itself, with a byte after it.
fn after_shortest(dice: &mut Dice) -> Vec<u8> {
    let mut plan = write(&pathless(1, vec![fed((0, 0), 1, 0)]));
    plan.push(dice.between(0, 255) as u8);
    plan
}
