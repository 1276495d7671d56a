//! Chains of the longest and most tangled shapes.

use super::build::{fed, outside, pathless};
use super::dice::Dice;
use super::random::draw_seats;
use super::write::write;
use super::Kind;
use crate::plan::{Path, Plan};

/// The kinds of plans that are special by their chains.
pub const KINDS: [Kind; 9] = [
    Kind("chained: 64 tasks rising", |dice| write(&rising(dice))),
    Kind("chained: 64 tasks falling", |dice| write(&falling(dice))),
    Kind("chained: a path off its chain", off_chain),
    Kind("chained: one feeds 63", one_feeds_all),
    Kind("chained: no start", no_start),
    Kind("chained: run I", |_| crossing(2, 10, 4, 4)),
    Kind("chained: crossing, settles", settling),
    Kind("chained: crossing, never settles", never_settling),
    Kind("chained: 16 on each controller", crowded),
];

/// A chain of 64 tasks from task 0 to task 63.
fn rising(dice: &mut Dice) -> Plan {
    long(dice, |number| number)
}

/// A chain of 64 tasks from task 63 to task 0.
fn falling(dice: &mut Dice) -> Plan {
    long(dice, |number| 63 - number)
}

/// A chain of 64 tasks with a path for each quarter of it; `turn` gives a task's place in the
/// chain from its number, and its number from its place.
fn long(dice: &mut Dice, turn: fn(usize) -> usize) -> Plan {
    let controllers = 4 + dice.below(13);
    let seats = draw_seats(dice, controllers, 64);
    let period = dice.between(50_000, 1_000_000);
    let most = period / dice.pick(&[400, 100, 40]);
    let mut task = |number| {
        let cost = dice.between(1, most);
        match turn(number) {
            0 => outside(seats[number], cost, period, 0),
            place => fed(seats[number], cost, turn(place - 1)),
        }
    };
    let tasks = (0..64).map(&mut task).collect();
    let quarter = |first| Path {
        deadline: dice.of_any_size(9),
        tasks: (first..first + 16).map(turn).collect(),
    };
    Plan {
        controllers,
        tasks,
        paths: [0, 16, 32, 48].map(quarter).to_vec(),
    }
}

/// A chain of 64 tasks with another task in the stead of one on a path.
fn off_chain(dice: &mut Dice) -> Vec<u8> {
    let mut plan = falling(dice);
    let path = &mut plan.paths[dice.below(4)];
    let step = dice.below(16);
    path.tasks[step] = (path.tasks[step] + 1 + dice.below(63)) % 64;
    write(&plan)
}

/// One task that feeds the 63 others.
fn one_feeds_all(dice: &mut Dice) -> Vec<u8> {
    let seats = draw_seats(dice, 4, 64);
    let feeder = dice.below(64);
    let period = dice.between(50_000, 1_000_000);
    let most = period / 20;
    let task = |number| {
        let cost = dice.between(1, most);
        if number == feeder {
            outside(seats[number], cost, period, 0)
        } else {
            fed(seats[number], cost, feeder)
        }
    };
    write(&pathless(4, (0..64).map(task).collect()))
}

/// A ring of tasks each fed by the next, and others that hang on it or are fed from outside.
fn no_start(dice: &mut Dice) -> Vec<u8> {
    let count = 1 + dice.below(64);
    let ring = 1 + dice.below(count);
    let seats = draw_seats(dice, 4, count);
    let numbers = dice.shuffled(count);
    let mut tasks = vec![outside((0, 0), 1, 1_000, 0); count];
    for place in 0..count {
        let feeder = if place < ring {
            (place + 1) % ring
        } else {
            dice.below(place)
        };
        let number = numbers[place];
        tasks[number] = if place < ring || dice.chance(50) {
            fed(seats[number], 1, numbers[feeder])
        } else {
            outside(seats[number], 1, 1_000, 0)
        };
    }
    write(&pathless(4, tasks))
}

/// A ring of chains: each starts on its controller with a task that is less urgent there and
/// costs `low`, and goes on to the next controller with one that is more urgent there and costs
/// `high`.
fn crossing(controllers: usize, period: u64, low: u64, high: u64) -> Vec<u8> {
    let mut plan = pathless(controllers, Vec::new());
    for controller in 0..controllers {
        let (first, second) = (2 * controller, 2 * controller + 1);
        let next = (controller + 1) % controllers;
        plan.tasks.push(outside((controller, 1), low, period, 0));
        plan.tasks.push(fed((next, 0), high, first));
        plan.paths.push(Path {
            deadline: 2 * period,
            tasks: vec![first, second],
        });
    }
    write(&plan)
}

/// Crossing chains that take many sweeps, the more the nearer each cost is to half a period.
fn settling(dice: &mut Dice) -> Vec<u8> {
    let controllers = 2 + dice.below(15);
    let period = dice.between(100, 10_000);
    let cost = period * dice.between(400, 488) / 1_000;
    crossing(controllers, period, cost, cost)
}

/// Crossing chains whose jitters grow in every sweep: the more urgent tasks take more than half
/// of every period.
fn never_settling(dice: &mut Dice) -> Vec<u8> {
    let controllers = 2 + dice.below(15);
    let period = dice.between(10, 1_000_000);
    let low = period * dice.between(20, 30) / 100;
    let high = period * dice.between(60, 70) / 100;
    crossing(controllers, period, low, high)
}

/// Four controllers with 16 tasks each.
fn crowded(dice: &mut Dice) -> Vec<u8> {
    let seats = draw_seats(dice, 4, 64);
    let task = |seat| {
        let period = dice.between(1_000, 1_000_000);
        let cost = dice.between(1, period / 10);
        outside(seat, cost, period, dice.between(0, period))
    };
    write(&pathless(4, seats.into_iter().map(task).collect()))
}
