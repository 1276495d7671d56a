//! The report.

use crate::plan::{Path, Plan};
use crate::sweeps::Settled;

/// The length of a plan's report in bytes.
pub fn length(plan: &Plan) -> usize {
    14 + 22 * plan.tasks.len() + 29 * plan.paths.len()
}

/// The report on a plan and what its sweeps settled on.
pub fn write(plan: &Plan, settled: &Settled) -> Vec<u8> {
    let mut report = Vec::with_capacity(length(plan));
    write_head(&mut report, plan, settled);
    for number in 0..plan.tasks.len() {
        write_task(&mut report, plan, settled, number);
    }
    for (number, path) in plan.paths.iter().enumerate() {
        write_path(&mut report, plan, settled, number, path);
    }
    report
}

/// Appends the head: the sweeps and the counts of tasks and paths.
fn write_head(report: &mut Vec<u8>, plan: &Plan, settled: &Settled) {
    report.extend([0x81, 0, 11, 1]);
    report.extend(settled.sweep.to_be_bytes());
    report.push(plan.tasks.len() as u8);
    report.push(plan.paths.len() as u8);
}

/// Appends the record of a task.
fn write_task(report: &mut Vec<u8>, plan: &Plan, settled: &Settled, number: usize) {
    let r_minus = plan.tasks[number].c_minus;
    let r_plus = settled.bounds[number].r_plus;
    let input = settled.streams[number];
    let output = input.with_added_jitter(r_plus - r_minus);
    report.extend([0x90, 0, 19, number as u8]);
    for ticks in [r_minus, r_plus, input.jitter, output.jitter] {
        report.extend((ticks as u32).to_be_bytes());
    }
    report.extend((settled.bounds[number].jobs as u16).to_be_bytes());
}

/// Appends the record of a path.
fn write_path(report: &mut Vec<u8>, plan: &Plan, settled: &Settled, number: usize, path: &Path) {
    let tasks = path.tasks.iter();
    let best: u64 = tasks.clone().map(|&task| plan.tasks[task].c_minus).sum();
    let worst: u64 = tasks.map(|&task| settled.bounds[task].r_plus).sum();
    let slack = path.deadline as i64 - worst as i64;
    let verdict = if slack >= 0 { 1 } else { 2 };
    report.extend([0xA0, 0, 26, number as u8, verdict]);
    report.extend(best.to_be_bytes());
    report.extend(worst.to_be_bytes());
    report.extend(slack.to_be_bytes());
}
