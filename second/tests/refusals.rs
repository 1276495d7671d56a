//! Every refusal with its place, and the order in which they are judged.
//!
//! Most plans here are run J's with a few bytes changed. Its fields begin at 0 (head), 7
//! (controller), 12 (task 0), 33 (task 1) and 47 (path), and it ends at 56.

mod common;

use common::{fed, outside, path, plan, run_j};
use second::answer::{line, Refusal};
use second::{answer, answer_within};

/// The number and place of the refusal that a plan must be answered with.
fn refusal(plan: &[u8]) -> (u8, usize) {
    let refusal = answer(plan).expect_err("the plan is refused");
    (refusal.number, refusal.place)
}

/// Run J's plan with other bytes from a place on.
fn j_with(place: usize, bytes: &[u8]) -> Vec<u8> {
    let mut plan = run_j(90);
    plan[place..place + bytes.len()].copy_from_slice(bytes);
    plan
}

/// A number in four bytes.
fn number(number: u32) -> [u8; 4] {
    number.to_be_bytes()
}

/// Run J's plan cut to a length.
fn j_cut(length: usize) -> Vec<u8> {
    run_j(90)[..length].to_vec()
}

/// Run J's plan with a byte after it.
fn j_and_more() -> Vec<u8> {
    [run_j(90), vec![0xFF]].concat()
}

/// The plan of one task that costs 1 in every 1,000 ticks on each seat.
fn idle(controllers: u8, seats: &[[u8; 2]]) -> Vec<u8> {
    let task = |&seat| outside(seat, [1, 1, 1_000, 0]);
    let tasks: Vec<Vec<u8>> = seats.iter().map(task).collect();
    plan(controllers, &tasks, &[])
}

#[test]
fn refusal_1_is_for_plans_longer_than_4096_bytes() {
    assert_eq!(refusal(&[0; 4_097]), (1, 0));
    assert_eq!(refusal(&[0; 4_096]), (3, 0));
    assert_eq!(refusal(&[0; 65_535]), (1, 0));
}

#[test]
fn refusal_2_is_for_a_cut_header() {
    assert_eq!(refusal(&j_cut(0)), (2, 0));
    assert_eq!(refusal(&j_cut(2)), (2, 0));
    assert_eq!(refusal(&j_cut(7)), (2, 7));
    assert_eq!(refusal(&j_cut(49)), (2, 47));
}

#[test]
fn refusal_2_is_for_a_cut_value() {
    assert_eq!(refusal(&j_cut(3)), (2, 0));
    assert_eq!(refusal(&j_cut(6)), (2, 0));
    assert_eq!(refusal(&j_cut(46)), (2, 33));
    assert_eq!(refusal(&j_cut(55)), (2, 47));
}

#[test]
fn refusal_3_is_for_another_tag_than_is_due() {
    assert_eq!(refusal(&j_with(0, &[0x02])), (3, 0));
    assert_eq!(refusal(&j_with(7, &[0x20])), (3, 7));
    assert_eq!(refusal(&j_with(12, &[0x22])), (3, 12));
    assert_eq!(refusal(&j_with(47, &[0x21])), (3, 47));
}

#[test]
fn refusal_4_is_for_a_length_not_allowed_for_the_tag() {
    assert_eq!(refusal(&j_with(1, &[0, 5])), (4, 0));
    assert_eq!(refusal(&j_with(1, &[1, 4])), (4, 0));
    assert_eq!(refusal(&j_with(13, &[0, 11])), (4, 12));
    assert_eq!(refusal(&j_with(34, &[0, 18])), (4, 33));
    assert_eq!(refusal(&j_with(48, &[0, 4])), (4, 47));
    assert_eq!(refusal(&j_with(48, &[0, 21])), (4, 47));
}

#[test]
fn refusal_5_is_for_the_head() {
    assert_eq!(refusal(&j_with(3, &[2])), (5, 3));
    assert_eq!(refusal(&j_with(4, &[0])), (5, 4));
    assert_eq!(refusal(&j_with(4, &[17])), (5, 4));
    assert_eq!(refusal(&j_with(5, &[0])), (5, 5));
    assert_eq!(refusal(&j_with(5, &[65])), (5, 5));
    assert_eq!(refusal(&j_with(6, &[33])), (5, 6));
}

#[test]
fn refusal_5_is_for_a_controller() {
    assert_eq!(refusal(&j_with(10, &[1])), (5, 10));
    assert_eq!(refusal(&j_with(11, &[0])), (5, 11));
    assert_eq!(refusal(&j_with(11, &[2])), (5, 11));
}

#[test]
fn refusal_5_is_for_a_task() {
    assert_eq!(refusal(&j_with(15, &[1])), (5, 15));
    assert_eq!(refusal(&j_with(17, &number(0))), (5, 17));
    assert_eq!(refusal(&j_with(17, &number(1_000_001))), (5, 17));
    assert_eq!(refusal(&j_with(21, &number(4))), (5, 21));
    assert_eq!(refusal(&j_with(21, &number(1_000_001))), (5, 21));
    assert_eq!(refusal(&j_with(25, &number(0))), (5, 25));
    assert_eq!(refusal(&j_with(25, &number(1_000_000_001))), (5, 25));
    assert_eq!(refusal(&j_with(29, &number(1_000_000_001))), (5, 29));
    assert_eq!(refusal(&j_with(46, &[2])), (5, 46));
}

#[test]
fn refusal_5_is_for_a_path() {
    assert_eq!(refusal(&j_with(50, &number(0))), (5, 50));
    assert_eq!(refusal(&j_with(54, &[2])), (5, 54));
    assert_eq!(refusal(&j_with(55, &[2])), (5, 55));
}

#[test]
fn refusal_6_is_for_bytes_after_the_last_field() {
    assert_eq!(refusal(&j_and_more()), (6, 56));
}

#[test]
fn refusal_7_names_the_lowest_task_sharing_with_a_lower_one() {
    assert_eq!(refusal(&idle(1, &[[0, 5], [0, 5]])), (7, 1));
    let seats = [[0, 1], [1, 1], [0, 2], [1, 2], [1, 1], [0, 1]];
    assert_eq!(refusal(&idle(2, &seats)), (7, 4));
}

#[test]
fn one_priority_on_two_controllers_is_no_refusal() {
    assert!(answer(&idle(2, &[[0, 5], [1, 5]])).is_ok());
}

#[test]
fn refusal_8_names_the_lowest_task_that_never_comes_from_outside() {
    let tasks = [
        outside([0, 0], [1, 1, 1_000, 0]),
        fed([0, 1], [1, 1], 3),
        fed([0, 2], [1, 1], 0),
        fed([0, 3], [1, 1], 4),
        fed([0, 4], [1, 1], 3),
    ];
    assert_eq!(refusal(&plan(1, &tasks, &[])), (8, 1));
}

#[test]
fn refusal_9_names_the_lowest_path_off_its_chain() {
    let tasks = [fed([0, 0], [1, 1], 1), outside([0, 1], [1, 1, 1_000, 0])];
    let along = path(9, &[1, 0]);
    let from_the_middle = path(9, &[0]);
    let backwards = path(9, &[0, 1]);
    let twice = path(9, &[1, 1]);
    let paths = [along, from_the_middle, backwards, twice];
    assert_eq!(refusal(&plan(1, &tasks, &paths)), (9, 2));
}

#[test]
fn refusal_10_is_for_more_than_16_tasks_on_a_controller() {
    let seats: Vec<[u8; 2]> = (0..17).map(|priority| [1, priority]).collect();
    assert!(answer(&idle(2, &seats[..16])).is_ok());
    assert_eq!(refusal(&idle(2, &seats)), (10, 1));
}

#[test]
fn refusal_11_is_for_too_little_room() {
    // Run J has two tasks and a path: 14 + 2 * 22 + 29 = 87.
    assert_eq!(answer_within(&run_j(90), 86), Err(Refusal::new(11, 87)));
    assert_eq!(answer_within(&run_j(90), 0), Err(Refusal::new(11, 87)));
    assert_eq!(answer_within(&run_j(90), 87), answer(&run_j(90)));
}

#[test]
fn refusal_12_names_the_lowest_overloaded_controller() {
    // Controller 0 has a load of 1/2 + 1/3 + 1/6, which is one; controllers 1 and 2 have more.
    let tasks = [
        outside([2, 0], [3, 3, 2, 0]),
        outside([1, 0], [1, 3, 2, 0]),
        outside([0, 0], [1, 1, 2, 0]),
        outside([0, 1], [1, 1, 3, 0]),
        outside([0, 2], [1, 1, 6, 0]),
    ];
    assert_eq!(refusal(&plan(3, &tasks, &[])), (12, 1));
}

#[test]
fn refusal_12_counts_a_fed_task_by_its_chains_period() {
    // Task 2 gets an event every 30 ticks and takes 20 of them; task 0 is fed by it through task 1.
    let chain = |cost| {
        let tasks = [
            fed([0, 1], [cost, cost], 1),
            fed([1, 0], [1, 1], 2),
            outside([0, 0], [20, 20, 30, 0]),
        ];
        plan(2, &tasks, &[])
    };
    assert!(answer(&chain(10)).is_ok());
    assert_eq!(refusal(&chain(11)), (12, 0));
}

#[test]
fn refusal_13_names_the_lowest_task_that_leaves_and_the_sweep() {
    // Both tasks look at more than 1,024 jobs in the first sweep.
    let tasks = [
        outside([0, 0], [1, 1, 10, 0]),
        outside([1, 0], [1, 1, 10, 100_000]),
        outside([2, 0], [1, 1, 10, 100_000]),
    ];
    let refusal = answer(&plan(3, &tasks, &[])).unwrap_err();
    assert_eq!((refusal.number, refusal.place, refusal.sweep), (13, 1, 1));
}

#[test]
fn a_line_tells_number_and_place_only() {
    assert_eq!(line(&answer(&j_and_more())), "6 56");
}

#[test]
fn within_a_field_the_order_is_header_tag_length_value_range() {
    let wrong_everything = [0x02, 0, 9];
    assert_eq!(refusal(&wrong_everything[..2]), (2, 0));
    assert_eq!(refusal(&wrong_everything), (3, 0));
    assert_eq!(refusal(&[0x01, 0, 9]), (4, 0));
    assert_eq!(refusal(&[0x01, 0, 4, 9, 9, 9]), (2, 0));
    assert_eq!(refusal(&[0x01, 0, 4, 9, 99, 99, 99]), (5, 3));
    assert_eq!(refusal(&[0x01, 0, 4, 1, 99, 99, 99]), (5, 4));
}

#[test]
fn an_earlier_field_goes_first() {
    // Task 0 has no period; the plan is cut before task 1.
    assert_eq!(refusal(&j_with(25, &number(0))[..33]), (5, 25));
}

#[test]
fn refusals_6_to_13_are_judged_by_number() {
    // A byte follows the last field (6), tasks 0 and 1 share a seat (7), task 2 feeds itself (8),
    // the path leaves its chain (9), a controller has 17 tasks (10), there is no room (11), task 3
    // overloads the controller (12), and task 4 looks at too many jobs (13). Each plan mends what
    // the one before was refused for.
    let seats = (0..17).map(|priority| [0, priority]);
    let mut tasks: Vec<_> = seats.map(|seat| outside(seat, [1, 1, 1_000, 0])).collect();
    tasks[1] = outside([0, 0], [1, 1, 1_000, 0]);
    tasks[2] = fed([0, 2], [1, 1], 2);
    tasks[3] = outside([0, 3], [999, 999, 1_000, 0]);
    tasks[4] = outside([0, 4], [1, 1, 1_000, 2_000_000]);
    let mut paths = [path(9, &[0, 1]), vec![0]];
    let refused = |tasks: &[Vec<u8>], paths: &[Vec<u8>], room| {
        let mut plan = plan(1, tasks, paths);
        // The head counts one path; the second of `paths` is what follows it.
        plan[6] = 1;
        let refusal = answer_within(&plan, room).unwrap_err();
        (refusal.number, refusal.place)
    };
    // 7 + 5 + 16 * 21 + 14 + 9 = 371.
    assert_eq!(refused(&tasks, &paths, 0), (6, 371));
    paths[1].clear();
    assert_eq!(refused(&tasks, &paths, 0), (7, 1));
    tasks[1] = outside([0, 1], [1, 1, 1_000, 0]);
    assert_eq!(refused(&tasks, &paths, 0), (8, 2));
    tasks[2] = outside([0, 2], [1, 1, 1_000, 0]);
    assert_eq!(refused(&tasks, &paths, 0), (9, 0));
    paths[0] = path(9, &[0]);
    assert_eq!(refused(&tasks, &paths, 0), (10, 0));
    tasks.pop();
    // 14 + 16 * 22 + 29 = 395.
    assert_eq!(refused(&tasks, &paths, 394), (11, 395));
    assert_eq!(refused(&tasks, &paths, 395), (12, 0));
    tasks[3] = outside([0, 3], [1, 1, 1_000, 0]);
    assert_eq!(refused(&tasks, &paths, 395), (13, 4));
}
