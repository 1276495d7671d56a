//! Every run listed in document 01, by its name there.

mod common;

use common::{bytes, fed, outside, path, plan, report, run_j, Path, Task};
use second::answer::{line, Refusal};

const J_PLAN: &str = "01000401010201 1000020001 20001200010000000500000005 0000001E0000003C \
    21000B0002000000010000000900 3000060000005A0001";

const J_REPORT: &str = "81000B0100000000000000020201 \
    90001300000000050000000F0000003C000000460003 90001301000000010000002F00000046000000740005 \
    A0001A00010000000000000006000000000000003E000000000000001C";

/// The plan of one task alone, with C- = C+.
fn alone(cost: u32, period: u32, jitter: u32) -> Vec<u8> {
    plan(1, &[outside([0, 0], [cost, cost, period, jitter])], &[])
}

/// The refusal that a plan must be answered with: number, place and sweep.
fn refusal(plan: &[u8]) -> (u8, usize, u64) {
    let Refusal {
        number,
        place,
        sweep,
    } = second::answer(plan).expect_err("the plan is refused");
    (number, place, sweep)
}

#[test]
fn run_a() {
    let report = report(&alone(3, 10, 0));
    assert_eq!(report.r_plus(), [3]);
    assert_eq!(report.jobs(), [1]);
    assert_eq!(report.sweeps, 1);
}

#[test]
fn run_b() {
    let tasks = [
        outside([0, 1], [2, 2, 5, 0]),
        outside([0, 2], [4, 4, 20, 0]),
    ];
    assert_eq!(report(&plan(1, &tasks, &[])).r_plus(), [2, 8]);
}

#[test]
fn run_c() {
    let tasks = [outside([0, 1], [1, 1, 2, 0]), outside([0, 2], [1, 1, 2, 0])];
    let report = report(&plan(1, &tasks, &[]));
    assert_eq!(report.r_plus(), [1, 2]);
    assert_eq!(report.jobs(), [1, 1]);
}

#[test]
fn run_d() {
    assert_eq!(report(&alone(10, 10, 0)).r_plus(), [10]);
}

#[test]
fn run_e() {
    assert_eq!(refusal(&alone(10, 10, 1)), (13, 0, 1));
}

#[test]
fn run_f() {
    assert_eq!(refusal(&alone(11, 10, 0)), (12, 0, 0));
}

#[test]
fn run_g() {
    let report = report(&alone(1, 1_000, 1_022_976));
    assert_eq!(report.jobs(), [1_024]);
    assert_eq!(report.r_plus(), [1_023]);
}

#[test]
fn run_h() {
    assert_eq!(refusal(&alone(1, 1_000, 1_022_977)), (13, 0, 1));
}

#[test]
fn run_i() {
    let tasks = [
        outside([0, 2], [4, 4, 10, 0]),
        fed([1, 1], [4, 4], 0),
        outside([1, 2], [4, 4, 10, 0]),
        fed([0, 1], [4, 4], 2),
    ];
    let report = report(&plan(2, &tasks, &[path(18, &[0, 1]), path(17, &[2, 3])]));
    assert_eq!(report.r_plus(), [12, 6, 12, 6]);
    assert_eq!(report.sweeps, 4);
    let worst: Vec<u64> = report.paths.iter().map(|path| path.worst).collect();
    assert_eq!(worst, [18, 18]);
    let verdicts: Vec<u64> = report.paths.iter().map(|path| path.verdict).collect();
    assert_eq!(verdicts, [1, 2]);
}

#[test]
fn the_empty_plan() {
    assert_eq!(refusal(&[]), (2, 0, 0));
}

#[test]
fn a_task_feeding_itself() {
    assert_eq!(refusal(&plan(1, &[fed([0, 0], [1, 1], 0)], &[])), (8, 0, 0));
}

#[test]
fn run_j_as_a_table() {
    let report = report(&run_j(90));
    let first = Task {
        r_minus: 5,
        r_plus: 15,
        input_jitter: 60,
        output_jitter: 70,
        jobs: 3,
    };
    let second = Task {
        r_minus: 1,
        r_plus: 47,
        input_jitter: 70,
        output_jitter: 116,
        jobs: 5,
    };
    let path = Path {
        verdict: 1,
        best: 6,
        worst: 62,
        slack: 28,
    };
    assert_eq!(report.sweeps, 2);
    assert_eq!(report.tasks, [first, second]);
    assert_eq!(report.paths, [path]);
}

#[test]
fn run_j_as_bytes() {
    assert_eq!(run_j(90), bytes(J_PLAN));
    let answer = second::answer(&bytes(J_PLAN));
    assert_eq!(line(&answer), J_REPORT.replace(' ', ""));
    assert_eq!(answer.unwrap().bytes, bytes(J_REPORT));
}

#[test]
fn run_j_with_deadline_62() {
    let path = &report(&run_j(62)).paths[0];
    assert_eq!((path.slack, path.verdict), (0, 1));
}

#[test]
fn run_j_with_deadline_61() {
    let path = &report(&run_j(61)).paths[0];
    assert_eq!((path.slack, path.verdict), (-1, 2));
}
