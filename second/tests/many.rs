//! The form in which `--many` reads plans and writes lines.

mod common;

use common::run_j;
use second::answer::line;
use second::many::{answer_many, write_plan};
use std::io::ErrorKind;

/// The lines for an input, and the kind of error that ended it if one did.
fn lines(mut input: &[u8]) -> (String, Option<ErrorKind>) {
    let mut output = Vec::new();
    let outcome = answer_many(&mut input, &mut output);
    let lines = String::from_utf8(output).unwrap();
    (lines, outcome.err().map(|error| error.kind()))
}

/// Plans each after its length.
fn framed(plans: &[&[u8]]) -> Vec<u8> {
    let mut bytes = Vec::new();
    for plan in plans {
        write_plan(&mut bytes, plan).unwrap();
    }
    bytes
}

#[test]
fn no_plans_give_no_lines() {
    assert_eq!(lines(&[]), (String::new(), None));
}

#[test]
fn a_length_has_two_bytes_the_most_significant_first() {
    let framed = framed(&[&[7; 0x0102]]);
    assert_eq!(framed[..3], [0x01, 0x02, 7]);
    assert_eq!(framed.len(), 2 + 0x0102);
}

#[test]
fn every_line_ends_with_the_sweep_number() {
    // Run J settles in two sweeps; run E, a task with C 10, P 10 and J 1, leaves the limits in the
    // first; no other refusal has a sweep.
    let run_e = common::plan(1, &[common::outside([0, 0], [10, 10, 10, 1])], &[]);
    let framed = framed(&[&run_j(90), &[], &run_e, &[0; 4_097]]);
    let report = line(&second::answer(&run_j(90)));
    let due = format!("{report} 2\n2 0 0\n13 0 1\n1 0 0\n");
    assert_eq!(lines(&framed), (due, None));
}

#[test]
fn a_cut_length_is_an_error_after_the_lines_for_whole_plans() {
    let mut input = framed(&[&[]]);
    input.push(0);
    let due = ("2 0 0\n".to_string(), Some(ErrorKind::UnexpectedEof));
    assert_eq!(lines(&input), due);
}

#[test]
fn a_cut_plan_is_an_error_after_the_lines_for_whole_plans() {
    let mut input = framed(&[&[], &run_j(90)]);
    input.pop();
    let due = ("2 0 0\n".to_string(), Some(ErrorKind::UnexpectedEof));
    assert_eq!(lines(&input), due);
}
