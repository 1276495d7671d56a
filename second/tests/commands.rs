//! The program as it is called: arguments, standard input and output, exit status.

mod common;

use common::run_j;
use std::fs::File;
use std::io::Write;
use std::process::{Command, Output, Stdio};

/// Runs the program with these arguments and this input.
fn run(arguments: &[&str], input: &[u8]) -> Output {
    let mut program = Command::new(env!("CARGO_BIN_EXE_second"))
        .args(arguments)
        .stdin(Stdio::piped())
        .stdout(Stdio::piped())
        .stderr(Stdio::piped())
        .spawn()
        .unwrap();
    program.stdin.take().unwrap().write_all(input).unwrap();
    program.wait_with_output().unwrap()
}

/// What the program prints when all is well.
fn printed(arguments: &[&str], input: &[u8]) -> String {
    let output = run(arguments, input);
    assert!(output.status.success());
    assert!(output.stderr.is_empty());
    String::from_utf8(output.stdout).unwrap()
}

/// Holds an output to be a failure that prints something on standard error only.
fn assert_fails(output: &Output) {
    assert_eq!(output.status.code(), Some(2));
    assert!(output.stdout.is_empty());
    assert!(!output.stderr.is_empty());
}

#[test]
fn without_arguments_it_answers_one_plan_in_one_line() {
    assert_eq!(printed(&[], &[]), "2 0\n");
    assert_eq!(printed(&[], &run_j(90)[..50]), "2 47\n");
    let report = printed(&[], &run_j(90));
    // 87 bytes in two digits each, and the end of the line.
    assert_eq!(report.len(), 2 * 87 + 1);
    assert!(report.starts_with("81000B01"));
}

#[test]
fn a_plan_of_4096_bytes_is_read_to_its_end_and_no_further() {
    let mut plan = run_j(90);
    plan.resize(4_096, 0);
    assert_eq!(printed(&[], &plan), "6 56\n");
    plan.push(0);
    assert_eq!(printed(&[], &plan), "1 0\n");
}

#[test]
fn many_answers_what_make_writes() {
    let plans = run(&["--make", "3", "100"], &[]).stdout;
    let lines = printed(&["--many"], &plans);
    assert_eq!(lines.lines().count(), 100);
}

#[test]
fn many_fails_after_the_lines_for_whole_plans() {
    let output = run(&["--many"], &[0, 0, 0]);
    assert_eq!(output.status.code(), Some(2));
    assert_eq!(output.stdout, b"2 0 0\n");
    assert!(!output.stderr.is_empty());
}

#[test]
fn help_is_printed_when_asked_for() {
    assert!(printed(&["--help"], &[]).starts_with("usage:"));
}

#[test]
fn other_arguments_fail() {
    assert_fails(&run(&["--what"], &[]));
    assert_fails(&run(&["--many", "more"], &[]));
    assert_fails(&run(&["--make", "1"], &[]));
    assert_fails(&run(&["--make", "1", "some"], &[]));
    assert_fails(&run(&["--make", "-1", "1"], &[]));
}

#[test]
fn a_read_error_is_no_answer() {
    // Reading a directory fails, and so does reading a file opened for writing.
    let directory = File::open("/").unwrap();
    let write_only = File::options().write(true).open("/dev/null").unwrap();
    for input in [directory, write_only] {
        let mut program = Command::new(env!("CARGO_BIN_EXE_second"));
        assert_fails(&program.stdin(input).output().unwrap());
    }
}
