//! The sweeps: the least consistent set within limits, or refusal 13.

use crate::answer::Refusal;
use crate::chains::input_stream;
use crate::equations::{bound, Bound, Rival};
use crate::plan::Task;
use crate::stream::Stream;

/// What the sweeps settle on: the first sweep that changed nothing, and every task's input stream
/// and bound in it.
pub struct Settled {
    pub sweep: u64,
    pub streams: Vec<Stream>,
    pub bounds: Vec<Bound>,
}

/// Sweeps until a sweep changes nothing, or gives refusal 13.
pub fn settle(tasks: &[Task]) -> Result<Settled, Refusal> {
    let rivals: Vec<_> = tasks.iter().map(|task| rivals_of(task, tasks)).collect();
    let mut set: Vec<u64> = tasks.iter().map(|task| task.c_plus).collect();
    let mut number = 1;
    loop {
        let streams = input_streams(tasks, &set);
        let bounds = sweep(tasks, &rivals, &streams).map_err(|place| leave(place, number))?;
        let new_set = bounds.iter().map(|bound| bound.r_plus);
        if new_set.clone().eq(set.iter().copied()) {
            return Ok(Settled {
                sweep: number,
                streams,
                bounds,
            });
        }
        set = new_set.collect();
        number += 1;
    }
}

/// The numbers of a task's rivals: the more urgent tasks on the same controller.
fn rivals_of(task: &Task, tasks: &[Task]) -> Vec<usize> {
    let is_rival = |&other: &usize| {
        let other = &tasks[other];
        other.controller == task.controller && other.priority < task.priority
    };
    (0..tasks.len()).filter(is_rival).collect()
}

/// The input stream of every task, when `set` holds every task's R+.
fn input_streams(tasks: &[Task], set: &[u64]) -> Vec<Stream> {
    let numbers = 0..tasks.len();
    numbers.map(|task| input_stream(tasks, set, task)).collect()
}

/// Works out every task's bound from the input streams, or names the lowest task that leaves the
/// limits.
fn sweep(tasks: &[Task], rivals: &[Vec<usize>], streams: &[Stream]) -> Result<Vec<Bound>, usize> {
    let as_rival = |&number: &usize| Rival {
        stream: streams[number],
        c_plus: tasks[number].c_plus,
    };
    let mut bounds = Vec::with_capacity(tasks.len());
    let mut its_rivals = Vec::new();
    for (number, task) in tasks.iter().enumerate() {
        its_rivals.clear();
        its_rivals.extend(rivals[number].iter().map(as_rival));
        bounds.push(bound(task, streams[number], &its_rivals).ok_or(number)?);
    }
    Ok(bounds)
}

/// Refusal 13 for a task that leaves the limits in a sweep.
fn leave(task: usize, sweep: u64) -> Refusal {
    Refusal {
        number: 13,
        place: task,
        sweep,
    }
}
