//! What `--make` writes: the same for a seed, every kind, every refusal, and every edge as built.

use second::answer::Answer;
use second::make::{make, name, names, plan};
use second::many::write_plan;
use std::collections::BTreeSet;

/// How many plans are enough to have every kind.
const ENOUGH: u64 = 190;

/// The plans of a seed as `--make` writes them.
fn made(seed: u64, count: u64) -> Vec<u8> {
    let mut bytes = Vec::new();
    make(seed, count, &mut bytes).unwrap();
    bytes
}

/// The number of an answer, 0 being accepted.
fn number(answer: &Answer) -> u8 {
    match answer {
        Ok(_) => 0,
        Err(refusal) => refusal.number,
    }
}

/// The answers to all plans of a kind among the first 3,000 of a seed.
fn answers_to(kind: &str) -> Vec<Answer> {
    let numbers = (0..3_000).filter(|&number| name(number) == kind);
    let answers: Vec<Answer> = numbers.map(|n| second::answer(&plan(7, n))).collect();
    assert!(answers.len() >= 10, "{kind} is missing");
    answers
}

#[test]
fn a_seed_always_gives_the_same_plans() {
    assert_eq!(made(1, ENOUGH), made(1, ENOUGH));
}

#[test]
fn another_seed_gives_other_plans() {
    assert_ne!(made(1, ENOUGH), made(2, ENOUGH));
}

#[test]
fn fewer_plans_are_the_first_of_more() {
    assert!(made(1, ENOUGH).starts_with(&made(1, 10)));
}

#[test]
fn every_plan_is_written_after_its_length() {
    let mut bytes = Vec::new();
    for number in 0..ENOUGH {
        write_plan(&mut bytes, &plan(5, number)).unwrap();
    }
    assert_eq!(bytes, made(5, ENOUGH));
}

#[test]
fn enough_plans_have_every_kind() {
    let made: BTreeSet<_> = (0..ENOUGH).map(name).collect();
    assert_eq!(made, names().collect());
}

#[test]
fn enough_plans_have_every_refusal_but_11() {
    let plans = (0..ENOUGH).map(|n| plan(1, n));
    let numbers: BTreeSet<u8> = plans.map(|plan| number(&second::answer(&plan))).collect();
    assert_eq!(
        Vec::from_iter(numbers),
        [0, 1, 2, 3, 4, 5, 6, 7, 8, 9, 10, 12, 13]
    );
}

#[test]
fn refusals_have_their_first_and_last_places() {
    // A longest plan has 7 + 16 * 5 + 64 * 21 + 32 * 23 = 2,167 bytes; its last field begins 23
    // bytes before its end. A shortest plan has 7 + 5 + 14 = 26 bytes.
    let due = [
        ("1: 4,097 bytes", 1, 0),
        ("2: no byte", 2, 0),
        ("2: first header cut", 2, 0),
        ("2: first value cut", 2, 0),
        ("2: last header cut", 2, 2_144),
        ("2: last value cut", 2, 2_144),
        ("3: first tag", 3, 0),
        ("3: last tag", 3, 2_144),
        ("4: first length", 4, 0),
        ("4: last length", 4, 2_144),
        ("5: first value", 5, 3),
        ("5: last value", 5, 2_166),
        ("6: after the shortest plan", 6, 26),
        ("6: after the longest plan", 6, 2_167),
        ("6: 4,096 bytes", 6, 2_167),
        ("7: task 1", 7, 1),
        ("7: task 63", 7, 63),
        ("8: task 0", 8, 0),
        ("8: task 63", 8, 63),
        ("9: path 0", 9, 0),
        ("9: path 31", 9, 31),
        ("10: controller 0", 10, 0),
        ("10: controller 15", 10, 15),
        ("12: controller 0", 12, 0),
        ("12: controller 15", 12, 15),
        ("13: task 0", 13, 0),
        ("13: task 63", 13, 63),
    ];
    for (kind, number, place) in due {
        for answer in answers_to(kind) {
            let refusal = answer.expect_err(kind);
            assert_eq!((refusal.number, refusal.place), (number, place), "{kind}");
        }
    }
}

#[test]
fn loads_fall_on_their_side_of_one() {
    let due = [
        ("load: split, one", 0),
        ("load: split, a tick more", 12),
        ("load: split, a tick less", 0),
        ("load: nested, one", 0),
        ("load: nested, a tick more", 12),
        ("load: nested, a tick less", 0),
        ("load: nested, a period shorter", 12),
        ("load: nested, a period longer", 0),
        ("load: coprime, just above one", 12),
    ];
    for (kind, due) in due {
        for answer in answers_to(kind) {
            assert_eq!(number(&answer), due, "{kind}");
        }
    }
    for answer in answers_to("load: coprime, just below one") {
        assert_ne!(number(&answer), 12);
    }
}

#[test]
fn plans_at_a_limit_are_accepted() {
    let within = [
        "limits: 1,024 jobs",
        "limits: window one below",
        "limits: window at",
        "limits: outside jitter one below",
        "limits: output jitter one below",
        "limits: output jitter at",
        "limits: input jitter one below",
    ];
    for kind in within {
        for answer in answers_to(kind) {
            assert_eq!(number(&answer), 0, "{kind}");
        }
    }
}

#[test]
fn plans_beyond_a_limit_leave_it_where_and_when_they_were_built_to() {
    // Every input jitter at the limit leads to at least two jobs at once, so to an output jitter
    // above the limit.
    let beyond = [
        ("limits: 1,025 jobs", 0, 1),
        ("limits: window one above", 1, 1),
        ("limits: outside jitter at", 0, 1),
        ("limits: output jitter one above", 0, 1),
        ("limits: input jitter at", 0, 2),
        ("limits: input jitter one above", 1, 1),
        ("limits: rival leaves, lower task stays", 1, 1),
        ("limits: rival leaves, lower task too", 0, 1),
    ];
    for (kind, place, sweep) in beyond {
        for answer in answers_to(kind) {
            let refusal = answer.expect_err(kind);
            let found = (refusal.number, refusal.place, refusal.sweep);
            assert_eq!(found, (13, place, sweep), "{kind}");
        }
    }
}

#[test]
fn an_outside_jitter_above_the_limit_is_outside_its_range() {
    // The jitter is at 7 + 5 + 3 + 14 = 29.
    for answer in answers_to("limits: outside jitter one above") {
        let refusal = answer.unwrap_err();
        assert_eq!((refusal.number, refusal.place), (5, 29));
    }
}

#[test]
fn many_rivals_leave_in_the_second_sweep_with_or_without_task_0() {
    let answers = answers_to("limits: many rivals leave");
    let refusals = answers.into_iter().map(Result::unwrap_err);
    let found: BTreeSet<_> = refusals.map(|r| (r.number, r.place, r.sweep)).collect();
    assert_eq!(Vec::from_iter(found), [(13, 0, 2), (13, 1, 2)]);
}

#[test]
fn chains_answer_as_they_were_built_to() {
    let due = [
        ("chained: a path off its chain", 9),
        ("chained: one feeds 63", 0),
        ("chained: no start", 8),
        ("chained: run I", 0),
        ("chained: crossing, settles", 0),
        ("chained: crossing, never settles", 13),
        ("7 to 13: none", 0),
    ];
    for (kind, due) in due {
        for answer in answers_to(kind) {
            assert_eq!(number(&answer), due, "{kind}");
        }
    }
}
