//! A plan writer and a report reader for the tests; they share nothing with the program's own.

// Each test file uses a part of this.
#![allow(dead_code)]

/// A whole plan from its controllers and the fields of its tasks and paths.
pub fn plan(controllers: u8, tasks: &[Vec<u8>], paths: &[Vec<u8>]) -> Vec<u8> {
    let mut bytes = vec![0x01, 0, 4, 1, controllers];
    bytes.push(tasks.len() as u8);
    bytes.push(paths.len() as u8);
    for number in 0..controllers {
        bytes.extend([0x10, 0, 2, number, 1]);
    }
    bytes.extend(tasks.concat());
    bytes.extend(paths.concat());
    bytes
}

/// The field of a task fed from outside: controller and priority; C-, C+, P and J.
pub fn outside([controller, priority]: [u8; 2], ticks: [u32; 4]) -> Vec<u8> {
    let mut field = vec![0x20, 0, 18, controller, priority];
    field.extend(ticks.iter().flat_map(|number| number.to_be_bytes()));
    field
}

/// The field of a fed task: controller and priority; C- and C+; its feeder.
pub fn fed([controller, priority]: [u8; 2], costs: [u32; 2], feeder: u8) -> Vec<u8> {
    let mut field = vec![0x21, 0, 11, controller, priority];
    field.extend(costs.iter().flat_map(|number| number.to_be_bytes()));
    field.push(feeder);
    field
}

/// The field of a path.
pub fn path(deadline: u32, tasks: &[u8]) -> Vec<u8> {
    let mut field = vec![0x30, 0, 4 + tasks.len() as u8];
    field.extend(deadline.to_be_bytes());
    field.extend(tasks);
    field
}

/// Run J's plan, with any deadline.
pub fn run_j(deadline: u32) -> Vec<u8> {
    let tasks = [outside([0, 1], [5, 5, 30, 60]), fed([0, 2], [1, 9], 0)];
    plan(1, &tasks, &[path(deadline, &[0, 1])])
}

/// The bytes that hexadecimal digits spell; spaces do not count.
pub fn bytes(digits: &str) -> Vec<u8> {
    let digits: Vec<char> = digits.chars().filter(|&digit| digit != ' ').collect();
    let byte = |pair: &[char]| u8::from_str_radix(&String::from_iter(pair), 16).unwrap();
    digits.chunks(2).map(byte).collect()
}

/// A report taken apart.
#[derive(Debug, PartialEq)]
pub struct Report {
    pub sweeps: u64,
    pub tasks: Vec<Task>,
    pub paths: Vec<Path>,
}

/// A task's record in a report.
#[derive(Debug, PartialEq)]
pub struct Task {
    pub r_minus: u64,
    pub r_plus: u64,
    pub input_jitter: u64,
    pub output_jitter: u64,
    pub jobs: u64,
}

/// A path's record in a report.
#[derive(Debug, PartialEq)]
pub struct Path {
    pub verdict: u64,
    pub best: u64,
    pub worst: u64,
    pub slack: i64,
}

impl Report {
    /// Every task's R+.
    pub fn r_plus(&self) -> Vec<u64> {
        self.tasks.iter().map(|task| task.r_plus).collect()
    }

    /// Every task's number of jobs looked at.
    pub fn jobs(&self) -> Vec<u64> {
        self.tasks.iter().map(|task| task.jobs).collect()
    }
}

/// Takes apart the report that a plan must be answered with.
pub fn report(plan: &[u8]) -> Report {
    let answer = second::answer(plan).expect("the plan is accepted");
    let mut rest = &answer.bytes[..];
    assert_eq!(take(&mut rest, &[1, 2, 1]), [0x81, 11, 1]);
    let head = take(&mut rest, &[8, 1, 1]);
    assert_eq!(head[0], answer.sweep);
    let report = Report {
        sweeps: head[0],
        tasks: (0..head[1])
            .map(|task| take_task(&mut rest, task))
            .collect(),
        paths: (0..head[2])
            .map(|path| take_path(&mut rest, path))
            .collect(),
    };
    assert!(rest.is_empty());
    report
}

/// Takes the record of the task with that number off the front of a report.
fn take_task(rest: &mut &[u8], number: u64) -> Task {
    assert_eq!(take(rest, &[1, 2, 1]), [0x90, 19, number]);
    let values = take(rest, &[4, 4, 4, 4, 2]);
    Task {
        r_minus: values[0],
        r_plus: values[1],
        input_jitter: values[2],
        output_jitter: values[3],
        jobs: values[4],
    }
}

/// Takes the record of the path with that number off the front of a report.
fn take_path(rest: &mut &[u8], number: u64) -> Path {
    assert_eq!(take(rest, &[1, 2, 1]), [0xA0, 26, number]);
    let values = take(rest, &[1, 8, 8, 8]);
    Path {
        verdict: values[0],
        best: values[1],
        worst: values[2],
        slack: values[3] as i64,
    }
}

/// Takes numbers of these sizes off the front of some bytes.
fn take(rest: &mut &[u8], sizes: &[usize]) -> Vec<u64> {
    let mut next = |size: &usize| {
        let (bytes, left) = rest.split_at(*size);
        *rest = left;
        bytes
            .iter()
            .fold(0, |number, &byte| number << 8 | u64::from(byte))
    };
    sizes.iter().map(&mut next).collect()
}
