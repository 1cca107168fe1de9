//! The releases that make each meets so late, in the words for people, worked out by hand.

use crate::common::{self, *};
use second::words::words_with_why;

/// The words of the table of these tasks, with the releases that make each meets so late.
fn why_words(tasks: &[Task]) -> String {
    words_with_why(text(tasks).as_bytes())
}

#[test]
fn r1_below_one_path() {
    // Task 1 is done at tick 4: its own 2 and, of the one path above it, the release at tick 0. A miss is shown as ever.
    let expected = "\
task 0, vertex 0: meets its deadline of 5 ticks, at worst after 2, 3 to spare (1 group examined), with nothing above it
task 1, vertex 0: meets its deadline of 7 ticks, at worst after 4, 3 to spare (1 group examined), by these releases:
    task 0: vertex 0 at tick 0, vertex 0 at tick 5
task 2, vertex 0: MISSES its deadline of 6 ticks (1 group examined), shown by these releases:
    task 0: vertex 0 at tick 0, vertex 0 at tick 5
    task 1: vertex 0 at tick 0
    8 ticks of work are due by the deadline, 2 of them its own: 2 ticks too many
meets 2, misses 1, unfinished 0, refused 0
This may NOT go out: a job type misses its deadline.
";
    assert_eq!(why_words(&common::r1(2)), expected);
}

#[test]
fn r5_meets_just_in_time() {
    // Below the first path, (0), the last vertex is done at 2 + 1, below (1) at 2 + 3.
    let expected = "\
task 0, vertex 0: meets its deadline of 5 ticks, at worst after 1, 4 to spare (1 group examined), with nothing above it
task 0, vertex 1: meets its deadline of 5 ticks, at worst after 3, 2 to spare (1 group examined), with nothing above it
task 1, vertex 0: meets its deadline of 5 ticks, at worst after 5, 0 to spare (1 group examined), by these releases:
    task 0: vertex 1 at tick 0
meets 3, misses 0, unfinished 0, refused 0
This may go out: every job type meets its deadline.
";
    assert_eq!(why_words(&r5(5)), expected);
}

#[test]
fn r7_by_its_last_path() {
    // Below (0) task 1 is done at 1 + 3, below (1,2) at 1 + 1, below (2) at 1 + 4.
    let expected = "
task 1, vertex 0: meets its deadline of 5 ticks, at worst after 5, 0 to spare (5 groups examined), by these releases:
    task 0: vertex 2 at tick 0
meets 4, misses 0, unfinished 0, refused 0
This may go out: every job type meets its deadline.
";
    let found = why_words(&r7());
    assert!(found.ends_with(expected), "{found}");
}

#[test]
fn the_first_of_equally_late() {
    // Task 0 has 2 by either path, task 1 has 3 by (1,0) and by (2): done at 1 + 2 + 3, first with (0) and (1,0).
    let tasks = [
        task(&[(2, 9), (2, 9)], &[]),
        task(&[(1, 9), (3, 9), (3, 9)], &[(1, 0, 9)]),
        task(&[(1, 10)], &[]),
    ];
    let expected = "
task 2, vertex 0: meets its deadline of 10 ticks, at worst after 6, 4 to spare (1 group examined), by these releases:
    task 0: vertex 0 at tick 0
    task 1: vertex 1 at tick 0, vertex 0 at tick 9
meets 6, misses 0, unfinished 0, refused 0
This may go out: every job type meets its deadline.
";
    let found = why_words(&tasks);
    assert!(found.ends_with(expected), "{found}");
}
