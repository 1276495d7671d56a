//! Every value at the ends of its range and just outside.

use super::build::outside;
use super::dice::Dice;
use super::random;
use super::write::write;
use super::Kind;
use crate::plan::{Path, Plan, Source, Task};

/// The kinds of plans with a value at an end of its range.
pub const KINDS: [Kind; 16] = [
    Kind("range: edition", |dice| head(dice, 3, &[0, 1, 2, 255])),
    Kind("range: controllers", |dice| head(dice, 4, &[0, 1, 16, 17])),
    Kind("range: tasks", |dice| head(dice, 5, &[0, 1, 64, 65])),
    Kind("range: paths", |dice| head(dice, 6, &[0, 1, 32, 33])),
    Kind("range: own number", |dice| controller(dice, 3)),
    Kind("range: policy", |dice| controller(dice, 4)),
    Kind("range: controller", |dice| task(dice, on_controller)),
    Kind("range: priority", |dice| task(dice, with_priority)),
    Kind("range: C-", |dice| task(dice, with_c_minus)),
    Kind("range: C+", |dice| task(dice, with_c_plus)),
    Kind("range: P", |dice| task(dice, with_period)),
    Kind("range: J", |dice| task(dice, with_jitter)),
    Kind("range: feeder", |dice| task(dice, with_feeder)),
    Kind("range: deadline", |dice| path(dice, with_deadline)),
    Kind("range: path's length", |dice| path(dice, with_length)),
    Kind("range: path's task", |dice| path(dice, with_task)),
];

/// A small random plan.
fn small(dice: &mut Dice) -> Plan {
    random::draw(dice, random::SMALL)
}

/// A plan with one of the choices as that byte of its head.
fn head(dice: &mut Dice, place: usize, choices: &[u8]) -> Vec<u8> {
    let mut plan = write(&small(dice));
    plan[place] = dice.pick(choices);
    plan
}

/// A plan with that byte of a controller's field one off or as it was.
fn controller(dice: &mut Dice, offset: usize) -> Vec<u8> {
    let plan = small(dice);
    let field = 7 + 5 * dice.below(plan.controllers);
    let mut plan = write(&plan);
    let byte = plan[field + offset];
    plan[field + offset] = dice.pick(&[byte.wrapping_sub(1), byte, byte + 1]);
    plan
}

/// A plan with a change to one of its tasks.
fn task(dice: &mut Dice, change: fn(&mut Dice, &Plan, Task) -> Task) -> Vec<u8> {
    let mut plan = small(dice);
    let number = dice.below(plan.tasks.len());
    plan.tasks[number] = change(dice, &plan, plan.tasks[number]);
    write(&plan)
}

/// The task on the last controller or on one that the head does not count.
fn on_controller(dice: &mut Dice, plan: &Plan, task: Task) -> Task {
    let controller = dice.pick(&[plan.controllers - 1, plan.controllers, 255]);
    Task { controller, ..task }
}

/// The task as urgent or as little urgent as can be.
fn with_priority(dice: &mut Dice, _: &Plan, task: Task) -> Task {
    let priority = dice.pick(&[0, 255]);
    Task { priority, ..task }
}

/// The task with C- at the ends of its range, C+ staying as it is.
fn with_c_minus(dice: &mut Dice, _: &Plan, task: Task) -> Task {
    let c_minus = dice.pick(&[0, 1, task.c_plus, 1_000_000, 1_000_001]);
    Task { c_minus, ..task }
}

/// The task with C+ at the ends of its range, C- staying as it is.
fn with_c_plus(dice: &mut Dice, _: &Plan, task: Task) -> Task {
    let c_plus = dice.pick(&[task.c_minus - 1, task.c_minus, 1_000_000, 1_000_001]);
    Task { c_plus, ..task }
}

/// The task fed from outside with P at the ends of its range.
fn with_period(dice: &mut Dice, _: &Plan, task: Task) -> Task {
    let period = dice.pick(&[0, 1, 1_000_000_000, 1_000_000_001, 0xFFFF_FFFF]);
    outside((task.controller, task.priority), 1, period, 0)
}

/// The task fed from outside with J at the ends of its range.
fn with_jitter(dice: &mut Dice, _: &Plan, task: Task) -> Task {
    let jitter = dice.pick(&[0, 1_000_000_000, 1_000_000_001, 0xFFFF_FFFF]);
    outside((task.controller, task.priority), 1, 1_000_000_000, jitter)
}

/// The task fed by the last one or by one that the head does not count.
fn with_feeder(dice: &mut Dice, plan: &Plan, task: Task) -> Task {
    let feeder = dice.pick(&[plan.tasks.len() - 1, plan.tasks.len(), 255]);
    let source = Source::Feeder(feeder);
    Task { source, ..task }
}

/// A plan with one more path, changed.
fn path(dice: &mut Dice, change: fn(&mut Dice, &Plan, Path) -> Path) -> Vec<u8> {
    let mut plan = small(dice);
    let path = Path {
        deadline: dice.of_any_size(9),
        tasks: vec![dice.below(plan.tasks.len())],
    };
    plan.paths.push(change(dice, &plan, path));
    write(&plan)
}

/// The path with its deadline at the ends of its range.
fn with_deadline(dice: &mut Dice, _: &Plan, path: Path) -> Path {
    let deadline = dice.pick(&[0, 1, 0xFFFF_FFFF]);
    Path { deadline, ..path }
}

/// The path with too few, the most or too many tasks.
fn with_length(dice: &mut Dice, _: &Plan, path: Path) -> Path {
    let length = dice.pick(&[0, 16, 17]);
    let tasks = vec![path.tasks[0]; length];
    Path { tasks, ..path }
}

/// The path of the last task or of one that the head does not count.
fn with_task(dice: &mut Dice, plan: &Plan, path: Path) -> Path {
    let task = dice.pick(&[plan.tasks.len() - 1, plan.tasks.len(), 255]);
    let tasks = vec![task];
    Path { tasks, ..path }
}
