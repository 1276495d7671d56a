//! Reads a plan from standard input and prints the verdict on each of its paths, or why there is none.
//!
//! The exit status is 0 when the verdict on every path was printed whole and every path meets. It is 1 for all else: a
//! path that misses or a refusal, as printed; no paths in the plan, input that cannot be read or output that cannot be
//! written, as a sentence on standard error says.
#![no_main]

use std::fs::File;
use std::io::{self, Read, Write};
use std::os::unix::io::AsFd;

/// The proved library, behind functions that no caller can misuse. `include/late.h` says what each one does.
mod late {
    /// A plan is at most so many bytes long.
    pub const PLAN_BYTES: u64 = 4_096;

    /// The bytes of a report's head, of a task's record and of a path's.
    pub const HEAD_RECORD_BYTES: usize = 14;
    pub const TASK_RECORD_BYTES: usize = 22;
    pub const PATH_RECORD_BYTES: usize = 29;

    /// The verdict on a path that meets.
    pub const MEETS: u8 = 1;

    extern "C" {
        fn late_answer(
            plan: *const u8,
            plan_bytes: usize,
            report: *mut u8,
            report_bytes: usize,
            place: *mut u64,
            sweep: *mut u64,
        ) -> u64;
        fn late_path(plan: *const u8, plan_bytes: usize, path: u64, from: *mut u64) -> u64;
        fn late_report_bytes() -> u64;
    }

    /// What is answered to a plan.
    pub enum Answer {
        /// Accepted: the report.
        Accepted(Vec<u8>),
        /// Refused, with number and place.
        Refused { number: u64, place: u64 },
    }

    /// The answer to a plan.
    pub fn answer(plan: &[u8]) -> Answer {
        // SAFETY: it reads and writes nothing.
        let mut report = vec![0; unsafe { late_report_bytes() } as usize];
        let (mut place, mut sweep) = (0, 0);
        // SAFETY: it reads the plan, and writes the report and the two numbers, which are apart.
        let number = unsafe {
            late_answer(
                plan.as_ptr(),
                plan.len(),
                report.as_mut_ptr(),
                report.len(),
                &mut place,
                &mut sweep,
            )
        };
        if number == 0 {
            report.truncate(place as usize);
            Answer::Accepted(report)
        } else {
            Answer::Refused { number, place }
        }
    }

    /// The part of the plan that holds a path's task numbers.
    pub fn path(plan: &[u8], path: u8) -> &[u8] {
        let mut from = 0;
        // SAFETY: it reads the plan, and writes the number.
        let count = unsafe { late_path(plan.as_ptr(), plan.len(), u64::from(path), &mut from) };
        &plan[from as usize..][..count as usize]
    }
}

/// What the number of a refusal means, with what its place counts.
fn meaning(number: u64) -> &'static str {
    match number {
        1 => "the plan is too long: byte",
        2 => "a field is cut short: byte",
        3 => "another tag than is due: byte",
        4 => "a length not allowed for its tag: byte",
        5 => "a value outside its range: byte",
        6 => "bytes after the last field: byte",
        7 => "shares controller and priority with another: task",
        8 => "no outside stream feeds its chain: task",
        9 => "its tasks do not feed each other: path",
        10 => "more than 16 tasks: controller",
        11 => "the report space is too short: bytes needed",
        12 => "load above one: controller",
        13 => "no bound within limits: task",
        _ => "see late.h: place",
    }
}

/// The eight bytes from a place on.
fn eight(bytes: &[u8], at: usize) -> [u8; 8] {
    bytes[at..at + 8].try_into().unwrap()
}

/// The line that the record of a path gives, and whether the path meets.
fn path_line(plan: &[u8], record: &[u8]) -> (String, bool) {
    let value = &record[3..];
    let path = value[0];
    let tasks: Vec<String> = late::path(plan, path).iter().map(u8::to_string).collect();
    let tasks = tasks.join(" ");
    let meets = value[1] == late::MEETS;
    let verdict = if meets { "meets" } else { "misses" };
    let worst = u64::from_be_bytes(eight(value, 10));
    let slack = i64::from_be_bytes(eight(value, 18));
    let line = format!("path {path}: tasks {tasks}: {verdict}, worst {worst}, slack {slack}\n");
    (line, meets)
}

/// The records of a report's paths, if they end where the report does.
fn path_records(report: &[u8]) -> Option<&[u8]> {
    // The head ends with how many tasks and paths there are.
    let tasks = usize::from(*report.get(late::HEAD_RECORD_BYTES - 2)?);
    let paths = usize::from(*report.get(late::HEAD_RECORD_BYTES - 1)?);
    let records = report.get(late::HEAD_RECORD_BYTES + tasks * late::TASK_RECORD_BYTES..)?;
    (records.len() == paths * late::PATH_RECORD_BYTES).then_some(records)
}

/// What to print about a plan, and whether all its paths meet; or why there is nothing to print.
fn verdicts(plan: &[u8]) -> Result<(String, bool), &'static str> {
    let report = match late::answer(plan) {
        late::Answer::Accepted(report) => report,
        late::Answer::Refused { number, place } => {
            return Ok((format!("refusal {number}: {} {place}\n", meaning(number)), false));
        }
    };
    let records = path_records(&report).ok_or("the report does not end where its records do")?;
    if records.is_empty() {
        return Err("the plan has no paths, so there is no verdict");
    }
    let mut lines = String::new();
    let mut all_meet = true;
    for record in records.chunks_exact(late::PATH_RECORD_BYTES) {
        let (line, meets) = path_line(plan, record);
        lines += &line;
        all_meet &= meets;
    }
    Ok((lines, all_meet))
}

/// The plan on standard input; one byte more than a plan may have tells that it is too long. Read as a file, because
/// `Stdin` takes some failures for the end of the input.
fn read_plan() -> io::Result<Vec<u8>> {
    let mut plan = Vec::new();
    let input = File::from(io::stdin().as_fd().try_clone_to_owned()?);
    input.take(late::PLAN_BYTES + 1).read_to_end(&mut plan)?;
    Ok(plan)
}

/// Prints a text whole. Written as a file, because `Stdout` passes over some failures.
fn print(text: &str) -> io::Result<()> {
    let mut output = File::from(io::stdout().as_fd().try_clone_to_owned()?);
    output.write_all(text.as_bytes())
}

/// Reads, answers and prints: whether all paths meet, or what went wrong.
fn run() -> Result<bool, String> {
    let plan = read_plan().map_err(|error| format!("standard input: {error}"))?;
    let (text, all_meet) = verdicts(&plan)?;
    print(&text).map_err(|error| format!("standard output: {error}"))?;
    Ok(all_meet)
}

/// What C calls `main`. Before Rust's own `main`, a closed standard output is replaced by /dev/null, where verdicts
/// would be lost without an error.
#[no_mangle]
pub extern "C" fn main() -> i32 {
    match run() {
        Ok(true) => 0,
        Ok(false) => 1,
        Err(fault) => {
            // Where this cannot be written either, the exit status says it alone.
            let _ = writeln!(io::stderr(), "verdicts: {fault}");
            1
        }
    }
}
