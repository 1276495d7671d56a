//! Writing a plan as bytes, whatever its values.

use crate::plan::{tag, Path, Plan, Source, Task};

/// The bytes of a plan.
pub fn write(plan: &Plan) -> Vec<u8> {
    let mut bytes = vec![tag::HEAD, 0, 4, 1];
    let counts = [plan.controllers, plan.tasks.len(), plan.paths.len()];
    bytes.extend(counts.map(|count| count as u8));
    for number in 0..plan.controllers {
        bytes.extend([tag::CONTROLLER, 0, 2, number as u8, 1]);
    }
    for task in &plan.tasks {
        write_task(&mut bytes, task);
    }
    for path in &plan.paths {
        write_path(&mut bytes, path);
    }
    bytes
}

/// Appends a task's field.
fn write_task(bytes: &mut Vec<u8>, task: &Task) {
    let (tag, length) = match task.source {
        Source::Outside(_) => (tag::OUTSIDE, 18),
        Source::Feeder(_) => (tag::FED, 11),
    };
    let seat = [task.controller as u8, task.priority as u8];
    bytes.extend([tag, 0, length]);
    bytes.extend(seat);
    bytes.extend(four_bytes(task.c_minus));
    bytes.extend(four_bytes(task.c_plus));
    match task.source {
        Source::Outside(stream) => {
            bytes.extend(four_bytes(stream.period));
            bytes.extend(four_bytes(stream.jitter));
        }
        Source::Feeder(feeder) => bytes.push(feeder as u8),
    }
}

/// Appends a path's field.
fn write_path(bytes: &mut Vec<u8>, path: &Path) {
    let length = 4 + path.tasks.len() as u8;
    bytes.extend([tag::PATH, 0, length]);
    bytes.extend(four_bytes(path.deadline));
    bytes.extend(path.tasks.iter().map(|&task| task as u8));
}

/// A number in four bytes, the most significant first.
fn four_bytes(number: u64) -> [u8; 4] {
    (number as u32).to_be_bytes()
}
