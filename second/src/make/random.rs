//! Random plans of every size and load.

use super::build::{fed, outside, Seat};
use super::dice::Dice;
use super::write::write;
use super::Kind;
use crate::chains;
use crate::plan::{Path, Plan, Source, Task};

/// The kinds of random plans.
pub const KINDS: [Kind; 4] = [
    Kind("random: tiny", |dice| write(&draw(dice, TINY))),
    Kind("random: small", |dice| write(&draw(dice, SMALL))),
    Kind("random: middle", |dice| write(&draw(dice, MIDDLE))),
    Kind("random: large", |dice| write(&draw(dice, LARGE))),
];

/// The most controllers, tasks and paths of a random plan.
pub type Size = (usize, usize, usize);

/// Hardly anything.
pub const TINY: Size = (1, 2, 1);
/// A few of each.
pub const SMALL: Size = (3, 8, 4);
/// A dozen or two.
pub const MIDDLE: Size = (8, 24, 12);
/// As many as a plan may have.
pub const LARGE: Size = (16, 64, 32);

/// The loads in percent that the controllers of a random plan are meant to have.
const LOADS: [u64; 6] = [3, 20, 40, 60, 90, 130];

/// A random plan of up to that size.
pub fn draw(dice: &mut Dice, (controllers, tasks, paths): Size) -> Plan {
    let controllers = up_to(dice, controllers);
    let count = up_to(dice, tasks.min(16 * controllers));
    let mut tasks = draw_tasks(dice, controllers, count);
    draw_costs(dice, &mut tasks);
    let count = dice.below(paths + 1);
    let paths = (0..count).map(|_| draw_path(dice, &tasks)).collect();
    Plan {
        controllers,
        tasks,
        paths,
    }
}

/// A count from 1 to `most`, often `most` itself.
fn up_to(dice: &mut Dice, most: usize) -> usize {
    if dice.chance(25) {
        return most;
    }
    1 + dice.below(most)
}

/// Tasks in random seats and chains; each costs one tick for now.
fn draw_tasks(dice: &mut Dice, controllers: usize, count: usize) -> Vec<Task> {
    let seats = draw_seats(dice, controllers, count);
    let crowd = (count / controllers + 1) as u64;
    let scale = draw_scale(dice, crowd);
    let starts = dice.pick(&[5, 30, 80]);
    let numbers = dice.shuffled(count);
    let mut tasks = vec![outside((0, 0), 1, 1, 0); count];
    for (place, &number) in numbers.iter().enumerate() {
        let seat = seats[number];
        tasks[number] = if place == 0 || dice.chance(starts) {
            draw_outside(dice, seat, scale)
        } else {
            let (nearest, any) = (place - 1, dice.below(place));
            let feeder = dice.pick(&[nearest, nearest, any]);
            fed(seat, 1, numbers[feeder])
        };
    }
    tasks
}

/// Random seats, no two alike and at most 16 on a controller.
pub fn draw_seats(dice: &mut Dice, controllers: usize, count: usize) -> Vec<Seat> {
    let order = dice.shuffled(16 * controllers);
    let first = dice.between(0, 240);
    let seat = |&number: &usize| (number % controllers, first + (number / controllers) as u64);
    order.iter().take(count).map(seat).collect()
}

/// The least period of a plan's streams when that many tasks crowd a controller.
fn draw_scale(dice: &mut Dice, crowd: u64) -> u64 {
    let scale = dice.pick(&[2, 10, 100, 10_000, 10_000_000]);
    (scale * crowd).min(250_000_000)
}

/// A task fed from outside with a random period and jitter.
fn draw_outside(dice: &mut Dice, seat: Seat, scale: u64) -> Task {
    let scale = if dice.chance(90) { scale } else { 250_000_000 };
    let period = dice.between(scale, 4 * scale);
    let most = dice.pick(&[0, 0, 0, 0, period, period, 10 * period, 1_000 * period]);
    let jitter = dice.between(0, most.min(1_000_000_000));
    outside(seat, 1, period, jitter)
}

/// Gives every task costs so that the controllers have about the same random load.
fn draw_costs(dice: &mut Dice, tasks: &mut [Task]) {
    let numbers = 0..tasks.len();
    let periods: Vec<u64> = numbers.map(|task| chains::period(tasks, task)).collect();
    let load = dice.pick(&LOADS);
    let mut crowds = [0; 16];
    for task in tasks.iter() {
        crowds[task.controller] += 1;
    }
    for (task, period) in tasks.iter_mut().zip(periods) {
        let percent = load * dice.between(50, 150) / 100;
        let cost = period * percent / (100 * crowds[task.controller]);
        task.c_plus = cost.clamp(1, 1_000_000);
        let least = dice.between(1, task.c_plus);
        task.c_minus = dice.pick(&[least, task.c_plus]);
    }
}

/// A path that ends with a random task and starts with one of those before it in its chain.
fn draw_path(dice: &mut Dice, tasks: &[Task]) -> Path {
    let deadline = dice.of_any_size(9);
    let length = 1 + dice.below(16);
    let mut path = vec![dice.below(tasks.len())];
    while let Source::Feeder(feeder) = tasks[path[0]].source {
        if path.len() == length {
            break;
        }
        path.insert(0, feeder);
    }
    Path {
        deadline,
        tasks: path,
    }
}
