//! The form of a plan as a whole: refusals 7 to 10.

use crate::answer::{refuse, Refusal};
use crate::chains;
use crate::plan::{Path, Plan, Source, Task};

/// The most tasks a controller may have.
const MOST_TASKS: usize = 16;

/// Gives the first of refusals 7 to 10 that is due.
pub fn check(plan: &Plan) -> Result<(), Refusal> {
    refuse(7, sharing_priority(&plan.tasks))?;
    refuse(8, never_outside(&plan.tasks))?;
    refuse(9, broken_path(plan))?;
    refuse(10, crowded_controller(plan))
}

/// The lowest task that shares controller and priority with a lower-numbered one.
fn sharing_priority(tasks: &[Task]) -> Option<usize> {
    let seat = |task: &Task| (task.controller, task.priority);
    (0..tasks.len()).find(|&number| {
        let lower = &tasks[..number];
        lower.iter().any(|task| seat(task) == seat(&tasks[number]))
    })
}

/// The lowest task whose chain does not start outside.
fn never_outside(tasks: &[Task]) -> Option<usize> {
    (0..tasks.len()).find(|&number| !chains::starts_outside(tasks, number))
}

/// The lowest path with a task that is not fed by the one before it.
fn broken_path(plan: &Plan) -> Option<usize> {
    let is_link = |pair: &[usize]| plan.tasks[pair[1]].source == Source::Feeder(pair[0]);
    let is_broken = |path: &Path| !path.tasks.windows(2).all(is_link);
    plan.paths.iter().position(is_broken)
}

/// The lowest controller with too many tasks.
fn crowded_controller(plan: &Plan) -> Option<usize> {
    (0..plan.controllers).find(|&controller| {
        let is_on_it = |task: &&Task| task.controller == controller;
        plan.tasks.iter().filter(is_on_it).count() > MOST_TASKS
    })
}
