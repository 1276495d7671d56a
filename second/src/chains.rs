//! The chains: going back from feeder to feeder.

use crate::plan::{Source, Task};
use crate::stream::Stream;

/// Whether going back from a task reaches one that is fed from outside.
pub fn starts_outside(tasks: &[Task], task: usize) -> bool {
    let mut reached = task;
    for _ in tasks {
        match tasks[reached].source {
            Source::Outside(_) => return true,
            Source::Feeder(feeder) => reached = feeder,
        }
    }
    false
}

/// The period of a task whose chain starts outside: that of the outside stream there.
pub fn period(tasks: &[Task], task: usize) -> u64 {
    match tasks[task].source {
        Source::Outside(stream) => stream.period,
        Source::Feeder(feeder) => period(tasks, feeder),
    }
}

/// The input stream of a task whose chain starts outside, when `set` holds every task's R+.
pub fn input_stream(tasks: &[Task], set: &[u64], task: usize) -> Stream {
    match tasks[task].source {
        Source::Outside(stream) => stream,
        Source::Feeder(feeder) => {
            let added = set[feeder] - tasks[feeder].c_minus;
            input_stream(tasks, set, feeder).with_added_jitter(added)
        }
    }
}
