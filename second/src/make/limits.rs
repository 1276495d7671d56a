//! Jobs, windows, jitters and deadlines at their limits and one beyond.

use super::build::{fed, outside, pathless};
use super::dice::Dice;
use super::write::write;
use super::Kind;
use crate::plan::{Path, Plan, Task};

/// The kinds of plans at a limit.
pub const KINDS: [Kind; 19] = [
    Kind("limits: 1,024 jobs", |dice| jobs(dice, 0)),
    Kind("limits: 1,025 jobs", |dice| jobs(dice, 1)),
    Kind("limits: window one below", |dice| window(dice, LIMIT - 1)),
    Kind("limits: window at", |dice| window(dice, LIMIT)),
    Kind("limits: window one above", |dice| window(dice, LIMIT + 1)),
    Kind("limits: outside jitter one below", |_| jitter(LIMIT - 1)),
    Kind("limits: outside jitter at", |_| jitter(LIMIT)),
    Kind("limits: outside jitter one above", |_| jitter(LIMIT + 1)),
    Kind("limits: output jitter one below", |dice| {
        output(dice, LIMIT - 1)
    }),
    Kind("limits: output jitter at", |dice| output(dice, LIMIT)),
    Kind("limits: output jitter one above", |dice| {
        output(dice, LIMIT + 1)
    }),
    Kind("limits: input jitter one below", |dice| {
        input(dice, LIMIT - 1)
    }),
    Kind("limits: input jitter at", |dice| input(dice, LIMIT)),
    Kind("limits: input jitter one above", |dice| {
        input(dice, LIMIT + 1)
    }),
    Kind("limits: rival leaves, lower task stays", |dice| {
        rival_leaves(dice, 0)
    }),
    Kind("limits: rival leaves, lower task too", |dice| {
        rival_leaves(dice, 1)
    }),
    Kind("limits: many rivals leave", many_rivals_leave),
    Kind("limits: deadline met", |dice| deadline(dice, 0)),
    Kind("limits: deadline missed", |dice| deadline(dice, 1)),
];

/// The most ticks of a jitter or a window, and the longest period.
const LIMIT: u64 = 1_000_000_000;

/// A lone task that looks at 1,024 jobs, or at more if its jitter has extra ticks: the last job
/// looked at is the first whose successor comes when all work is done.
fn jobs(dice: &mut Dice, extra: u64) -> Vec<u8> {
    let period = dice.between(2, 900_000);
    let cost = dice.between(1, period - 1);
    let jitter = 1_024 * (period - cost) + extra;
    write(&pathless(1, vec![outside((0, 0), cost, period, jitter)]))
}

/// Task 1's last job looked at has a window of that length: q jobs of its own and one of a rival
/// that comes once in the longest period.
fn window(dice: &mut Dice, length: u64) -> Vec<u8> {
    let q = dice.between(1_000, 1_024);
    let cost = (LIMIT - 2) / q;
    let period = cost + dice.between(2, 900);
    let rival = outside((0, 0), length - q * cost, LIMIT, 0);
    let task = outside((0, 1), cost, period, q * period - length);
    write(&pathless(1, vec![rival, task]))
}

/// A task with that outside jitter and nothing else to leave the limits by.
fn jitter(jitter: u64) -> Vec<u8> {
    write(&pathless(1, vec![outside((0, 0), 1, LIMIT, jitter)]))
}

/// A task with that output jitter.
///
/// Its second job may come `distance` ticks after the first and `early` ticks before the first is
/// done, so R+ is C+ plus `early`.
fn with_output_jitter(dice: &mut Dice, output: u64) -> Task {
    let early = dice.between(2, 400_000);
    let distance = dice.between(early + 1, 600_000);
    let task = outside((0, 0), distance + early, LIMIT, LIMIT - distance);
    Task {
        c_minus: LIMIT + 2 * early - output,
        ..task
    }
}

/// A lone task with that output jitter.
fn output(dice: &mut Dice, output: u64) -> Vec<u8> {
    write(&pathless(1, vec![with_output_jitter(dice, output)]))
}

/// Task 0 has that input jitter once task 1, its feeder, has settled.
fn input(dice: &mut Dice, input: u64) -> Vec<u8> {
    let feeder = with_output_jitter(dice, input);
    write(&pathless(2, vec![fed((1, 0), 1, 1), feeder]))
}

/// Task 1 leaves the limits by its input jitter in the first sweep; the window of task 0, whose
/// rival it is, comes to the limit and the extra ticks, so task 0 stays or leaves too.
///
/// The limit and task 1's input jitter are n periods, so a window at the limit holds n of its jobs.
fn rival_leaves(dice: &mut Dice, extra: u64) -> Vec<u8> {
    let period = 10 * dice.between(50_000, 99_999) + dice.pick(&[1, 3, 7, 9]);
    let n = 2 * LIMIT / period + 1;
    let cost = (LIMIT - 1) / n;
    let task = outside((0, 1), LIMIT - n * cost + extra, LIMIT, 0);
    let rival = fed((0, 0), cost, 2);
    let feeder = Task {
        c_plus: 1 + n * period - 2 * LIMIT,
        ..outside((1, 0), 1, period, LIMIT)
    };
    write(&pathless(2, vec![task, rival, feeder]))
}

/// A chain of 59 tasks in falling order whose second sweep adds up jitters far above the limit;
/// task 0, whose rivals some of them are, leaves too if they cost more than 13 ticks.
///
/// On each of four controllers one busy task leaves the others one tick in a million.
fn many_rivals_leave(dice: &mut Dice) -> Vec<u8> {
    let most = dice.pick(&[13, 60]);
    let cost = dice.between(3, most);
    let mut tasks = vec![outside((0, 255), 1, LIMIT, 0)];
    for number in 1..59 {
        tasks.push(fed((number % 4, number as u64), cost, number + 1));
    }
    tasks.push(outside((59 % 4, 59), cost, LIMIT, 0));
    for controller in 0..4 {
        tasks.push(outside((controller, 0), 999_999, 1_000_000, 0));
    }
    write(&pathless(4, tasks))
}

/// A path of two tasks, alone on their controllers, whose worst misses the deadline by that much.
fn deadline(dice: &mut Dice, late: u64) -> Vec<u8> {
    let [first, second] = [0; 2].map(|_| dice.of_any_size(6));
    let path = Path {
        deadline: first + second - late,
        tasks: vec![0, 1],
    };
    write(&Plan {
        controllers: 2,
        tasks: vec![outside((0, 0), first, LIMIT, 0), fed((1, 0), second, 0)],
        paths: vec![path],
    })
}
