//! Refusals 7 to 13 at their first and last possible places.

use super::build::full;
use super::dice::Dice;
use super::write::write;
use super::Kind;
use crate::plan::{Plan, Source};
use crate::stream::Stream;

/// The kinds of plans refused once they are read.
pub const KINDS: [Kind; 14] = [
    Kind("7: task 1", |dice| spoilt(dice, share_a_seat, 1)),
    Kind("7: task 63", |dice| spoilt(dice, share_a_seat, 63)),
    Kind("8: task 0", |dice| spoilt(dice, feed_itself, 0)),
    Kind("8: task 63", |dice| spoilt(dice, feed_itself, 63)),
    Kind("9: path 0", |dice| spoilt(dice, break_path, 0)),
    Kind("9: path 31", |dice| spoilt(dice, break_path, 31)),
    Kind("10: controller 0", |dice| spoilt(dice, crowd, 0)),
    Kind("10: controller 15", |dice| spoilt(dice, crowd, 15)),
    Kind("12: controller 0", |dice| spoilt(dice, overload, 0)),
    Kind("12: controller 15", |dice| spoilt(dice, overload, 15)),
    Kind("13: task 0", |dice| spoilt(dice, burst, 0)),
    Kind("13: task 63", |dice| spoilt(dice, burst, 63)),
    Kind("7 to 13: none", |dice| write(&full(dice))),
    Kind("7 to 13: several", several),
];

/// A way to spoil a full plan so that a refusal with that place is due.
type Spoil = fn(&mut Plan, usize);

/// A full plan spoilt at that place.
fn spoilt(dice: &mut Dice, spoil: Spoil, place: usize) -> Vec<u8> {
    let mut plan = full(dice);
    spoil(&mut plan, place);
    write(&plan)
}

/// A full plan spoilt in several ways at random places.
fn several(dice: &mut Dice) -> Vec<u8> {
    let ways: [(Spoil, usize); 6] = [
        (crowd, dice.below(16)),
        (overload, dice.below(16)),
        (burst, dice.below(64)),
        (break_path, dice.below(32)),
        (feed_itself, dice.below(64)),
        (share_a_seat, 1 + dice.below(63)),
    ];
    let mut plan = full(dice);
    for (spoil, place) in ways {
        if dice.chance(40) {
            spoil(&mut plan, place);
        }
    }
    write(&plan)
}

/// Refusal 7: puts a task on the seat of the one before it.
fn share_a_seat(plan: &mut Plan, task: usize) {
    plan.tasks[task].controller = plan.tasks[task - 1].controller;
    plan.tasks[task].priority = plan.tasks[task - 1].priority;
}

/// Refusal 8: makes a task its own feeder.
fn feed_itself(plan: &mut Plan, task: usize) {
    plan.tasks[task].source = Source::Feeder(task);
}

/// Refusal 9: leads a path over two tasks of which the first does not feed the second.
fn break_path(plan: &mut Plan, path: usize) {
    plan.paths[path].tasks = vec![0, 1];
}

/// Refusal 10: puts 17 tasks on a controller and the others on the others.
fn crowd(plan: &mut Plan, controller: usize) {
    for (number, task) in plan.tasks.iter_mut().enumerate() {
        let steps = if number < 17 { 0 } else { 1 + number % 15 };
        task.controller = (controller + steps) % 16;
        task.priority = number as u64;
    }
}

/// Refusal 12: lets a task on a controller cost more than any period of a full plan.
fn overload(plan: &mut Plan, controller: usize) {
    plan.tasks[controller].c_plus = 100_001;
}

/// Refusal 13: gives a task a jitter of 1,025 periods.
fn burst(plan: &mut Plan, task: usize) {
    if let Source::Outside(stream) = plan.tasks[task].source {
        plan.tasks[task].source = Source::Outside(Stream {
            jitter: 1_025 * stream.period,
            ..stream
        });
    }
}
