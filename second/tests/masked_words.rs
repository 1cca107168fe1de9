//! The words for people on masked time, written out by hand from their format.

use crate::common::*;
use second::words::{words, words_with_why};

/// The words of the table of these tasks.
fn table_words(tasks: &[Task]) -> String {
    words(text(tasks).as_bytes())
}

/// R2 above a task that masks 1 tick.
fn r2_above_a_masked_length() -> Vec<Task> {
    [r1(1), vec![masked(1, task(&[(1, 100)], &[]))]].concat()
}

#[test]
fn r2_above_one_masked_tick() {
    // 2 + 1; 2 + 1 + 2; 1 + 1 + 4 + 2 by tick 6; and nothing below the last: 1 + 6 + 4 + 2 by tick 13.
    let expected = "\
task 0, vertex 0: meets its deadline of 5 ticks, at worst after 3 (1 tick of it is task 3's masked time), 2 to spare (1 group examined)
task 1, vertex 0: meets its deadline of 7 ticks, at worst after 5 (1 tick of it is task 3's masked time), 2 to spare (1 group examined)
task 2, vertex 0: MISSES its deadline of 6 ticks (1 group examined), shown by these releases:
    task 0: vertex 0 at tick 0, vertex 0 at tick 5
    task 1: vertex 0 at tick 0
    8 ticks of work (1 tick of it is task 3's masked time) are due by the deadline, 1 of them its own: 2 ticks too many
task 3, vertex 0: meets its deadline of 100 ticks, at worst after 13, 87 to spare (1 group examined)
meets 3, misses 1, unfinished 0, refused 0
This may NOT go out: a job type misses its deadline.
";
    assert_eq!(table_words(&r2_above_a_masked_length()), expected);
}

#[test]
fn why_so_late_with_masked_time() {
    let expected = "\
task 0, vertex 0: meets its deadline of 5 ticks, at worst after 3 (1 tick of it is task 3's masked time), 2 to spare (1 group examined), with nothing above it
task 1, vertex 0: meets its deadline of 7 ticks, at worst after 5 (1 tick of it is task 3's masked time), 2 to spare (1 group examined), by these releases:
    task 0: vertex 0 at tick 0, vertex 0 at tick 5
task 2, vertex 0: MISSES its deadline of 6 ticks (1 group examined), shown by these releases:
";
    let found = words_with_why(text(&r2_above_a_masked_length()).as_bytes());
    assert!(found.starts_with(expected), "{found}");
}

#[test]
fn the_first_of_the_lower_tasks_that_mask_longest() {
    let tasks = [
        task(&[(1, 9)], &[]),
        masked(1, task(&[(2, 9)], &[])),
        masked(2, task(&[(2, 9)], &[])),
        masked(2, task(&[(5, 20)], &[])),
    ];
    // 1 + 2; 2 + 2 + 1; 2 + 2 + 1 + 2; and without masked time 5 + 1 + 2 + 2.
    let expected = "\
task 0, vertex 0: meets its deadline of 9 ticks, at worst after 3 (2 ticks of it are task 2's masked time), 6 to spare (1 group examined)
task 1, vertex 0: meets its deadline of 9 ticks, at worst after 5 (2 ticks of it are task 2's masked time), 4 to spare (1 group examined)
task 2, vertex 0: meets its deadline of 9 ticks, at worst after 7 (2 ticks of it are task 3's masked time), 2 to spare (1 group examined)
task 3, vertex 0: meets its deadline of 20 ticks, at worst after 10, 10 to spare (1 group examined)
meets 4, misses 0, unfinished 0, refused 0
This may go out: every job type meets its deadline.
";
    assert_eq!(table_words(&tasks), expected);
}

#[test]
fn a_miss_with_nothing_above_it() {
    let lower = |m| masked(m, task(&[(11, 100)], &[]));
    let words = |m| -> String {
        let words = table_words(&[task(&[(2, 2)], &[]), lower(m)]);
        words.split_inclusive('\n').take(2).collect()
    };
    let expected = "\
task 0, vertex 0: MISSES its deadline of 2 ticks (1 group examined), with nothing above it:
    3 ticks of work (1 tick of it is task 1's masked time) are due by the deadline, 2 of them its own: 1 tick too many
";
    assert_eq!(words(1), expected);
    let expected = "\
task 0, vertex 0: MISSES its deadline of 2 ticks (1 group examined), with nothing above it:
    13 ticks of work (11 ticks of it are task 1's masked time) are due by the deadline, 2 of them its own: 11 ticks too many
";
    assert_eq!(words(11), expected);
}

#[test]
fn the_own_and_the_higher_masked_lengths_are_not_spoken_of() {
    let plain = [task(&[(3, 3)], &[]), task(&[(4, 6), (4, 9)], &[])];
    let expected = "\
task 0, vertex 0: meets its deadline of 3 ticks, at worst after 3, 0 to spare (1 group examined)
task 1, vertex 0: MISSES its deadline of 6 ticks (1 group examined), shown by these releases:
    task 0: vertex 0 at tick 0
    7 ticks of work are due by the deadline, 4 of them its own: 1 tick too many
task 1, vertex 1: meets its deadline of 9 ticks, at worst after 7, 2 to spare (1 group examined)
meets 2, misses 1, unfinished 0, refused 0
This may NOT go out: a job type misses its deadline.
";
    assert_eq!(table_words(&plain), expected);
    let higher = [masked(3, plain[0].clone()), plain[1].clone()];
    assert_eq!(table_words(&higher), expected);
}

#[test]
fn a_worst_finish_that_was_not_found_says_nothing_of_masked_time() {
    let mut tasks = vec![task(&[(1, 9); 12], &[]); 4];
    tasks.push(task(&[(3, 9), (1, 7), (4, 9)], &[(1, 2, 7)]));
    tasks.push(task(&[(1, 11)], &[]));
    tasks.push(masked(1, task(&[(1, 20)], &[])));
    // With B 1 and the four tasks' 4, (0) finishes at 6 + 3, (1,2) at 6 + 1 and (2) at 6 + 4. All paths together, and also (0) and
    // (1,2), have 5 from tick 8 on and are free at tick 11: one group for the verdict. That is later than each choice, so the search
    // for the worst finish sees all 2 x 3 x 12^4 - 1 = 124,415 groups. Nothing masks task 6, but task 5's 1 comes before its own 1.
    let expected = "
task 5, vertex 0: meets its deadline of 11 ticks (1 group examined; its worst finish wasn't found within 100000 groups)
task 6, vertex 0: meets its deadline of 20 ticks (1 group examined; its worst finish wasn't found within 100000 groups)
meets 53, misses 0, unfinished 0, refused 0
This may go out: every job type meets its deadline.
";
    let found = table_words(&tasks);
    assert!(found.ends_with(expected), "{found}");
    // The others say it: 1 + 1, and 4 + 1 + 4 below the four tasks.
    let first = "task 0, vertex 0: meets its deadline of 9 ticks, at worst after 2 (1 tick of it is task 6's masked time), 7 to spare (1 group examined)\n";
    assert!(found.starts_with(first), "{found}");
    let third = "task 4, vertex 2: meets its deadline of 9 ticks, at worst after 9 (1 tick of it is task 6's masked time), 0 to spare (1 group examined)\n";
    assert!(found.contains(third), "{found}");
}

#[test]
fn refused_masked_lengths() {
    let rule = "a number is outside its bounds, an edge names a vertex that the task hasn't, or the task's masked length exceeds its largest e";
    for (text, line, shown) in [
        ("0401000000\n", 1, "0401000000"),
        ("04010003e9\n", 1, "04010003e9"),
        ("0402000002\n0200010005\n0200010006\n", 3, "0200010006"),
    ] {
        let expected = format!(
            "REFUSED (3) at line {line}: {rule}\n    {shown}\n\
             This may NOT go out: the table can't be read, so nothing was judged.\n"
        );
        assert_eq!(words(text.as_bytes()), expected);
    }
}
