//! Runs of releases of one vertex in the words for people, worked out by hand: four or more neighbours are said once.

use crate::common::generators::texts_for_words;
use crate::common::*;
use second::words::{words, words_with_why};

/// The lines below the miss of a vertex (e, d) below this task: the releases, and the work that is due.
fn shown(above: &Task, vertex: (u32, u32)) -> String {
    let found = words(text(&[above.clone(), task(&[vertex], &[])]).as_bytes());
    let (_, behind) = found.split_once(", shown by these releases:\n").unwrap();
    behind.split_inclusive('\n').take(2).collect()
}

/// The releases of a task's first path: any path shows that a job below it misses that takes its whole deadline d.
fn first_path(above: &Task, d: u32) -> String {
    let found = shown(above, (d, d));
    let line = found.lines().next().unwrap();
    line.strip_prefix("    task 0: ").unwrap().to_string()
}

/// The lines of a vertex (e, d) that meets below this task, with the releases that make it so late.
fn why(above: &Task, vertex: (u32, u32)) -> String {
    let found = words_with_why(text(&[above.clone(), task(&[vertex], &[])]).as_bytes());
    let lines = found.split_inclusive('\n');
    let lines = lines.skip_while(|line| !line.starts_with("task 1, vertex 0: "));
    lines.take(2).collect()
}

/// A vertex 0 that leads to vertex 1 after 4 ticks, and a vertex 1 that leads to both after 1.
fn between() -> Task {
    task(&[(1, 4), (1, 1)], &[(0, 1, 4), (1, 0, 1), (1, 1, 1)])
}

/// A vertex 0 that leads to itself after 6 ticks and to vertex 1 after 1, and a vertex 1 that leads to itself after 1.
fn before() -> Task {
    task(&[(1, 1), (1, 1)], &[(0, 0, 6), (0, 1, 1), (1, 1, 1)])
}

/// A vertex 0 that leads to vertex 1 after 3 ticks, and a vertex 1 that leads to itself after 2 and back after 9.
fn twice() -> Task {
    task(&[(1, 3), (1, 2)], &[(0, 1, 3), (1, 0, 9), (1, 1, 2)])
}

#[test]
fn the_words_of_a_table() {
    // Up to tick 7 there are four releases, at 0, 2, 4 and 6: 8 + 4. The sum is that of all of them.
    let expected = "\
task 0, vertex 0: meets its deadline of 2 ticks, at worst after 1, 1 to spare (1 group examined)
task 1, vertex 0: MISSES its deadline of 8 ticks (1 group examined), shown by these releases:
    task 0: vertex 0 at tick 0 and every 2 ticks up to tick 6
    12 ticks of work are due by the deadline, 8 of them its own: 4 ticks too many
meets 1, misses 1, unfinished 0, refused 0
This may NOT go out: a job type misses its deadline.
";
    let tasks = [self_edge(1, 2, 2), task(&[(8, 8)], &[])];
    assert_eq!(words(text(&tasks).as_bytes()), expected);
    // With e 4 it is done at tick 8: 4 + 4.
    let expected = "\
task 0, vertex 0: meets its deadline of 2 ticks, at worst after 1, 1 to spare (1 group examined), with nothing above it
task 1, vertex 0: meets its deadline of 8 ticks, at worst after 8, 0 to spare (1 group examined), by these releases:
    task 0: vertex 0 at tick 0 and every 2 ticks up to tick 6
meets 2, misses 0, unfinished 0, refused 0
This may go out: every job type meets its deadline.
";
    let tasks = [self_edge(1, 2, 2), task(&[(4, 8)], &[])];
    assert_eq!(words_with_why(text(&tasks).as_bytes()), expected);
}

#[test]
fn three_four_and_five_every_two_ticks() {
    for (d, releases, due, over) in [
        (
            6,
            "vertex 0 at tick 0, vertex 0 at tick 2, vertex 0 at tick 4",
            9,
            3,
        ),
        (
            7,
            "vertex 0 at tick 0 and every 2 ticks up to tick 6",
            11,
            4,
        ),
        (
            8,
            "vertex 0 at tick 0 and every 2 ticks up to tick 6",
            12,
            4,
        ),
        (
            9,
            "vertex 0 at tick 0 and every 2 ticks up to tick 8",
            14,
            5,
        ),
        (
            10,
            "vertex 0 at tick 0 and every 2 ticks up to tick 8",
            15,
            5,
        ),
    ] {
        let expected = format!(
            "    task 0: {releases}\n    {due} ticks of work are due by the deadline, {d} of them its own: {over} ticks too many\n"
        );
        assert_eq!(shown(&self_edge(1, 2, 2), (d, d)), expected);
    }
}

#[test]
fn one_to_five_every_tick() {
    for (d, releases) in [
        (1, "vertex 0 at tick 0"),
        (2, "vertex 0 at tick 0, vertex 0 at tick 1"),
        (
            3,
            "vertex 0 at tick 0, vertex 0 at tick 1, vertex 0 at tick 2",
        ),
        (4, "vertex 0 at tick 0 and every tick up to tick 3"),
        (5, "vertex 0 at tick 0 and every tick up to tick 4"),
    ] {
        assert_eq!(first_path(&self_edge(1, 1, 1), d), releases);
    }
}

#[test]
fn up_to_tick_999() {
    // A thousand releases and 1 tick of its own.
    let expected = "    \
    task 0: vertex 0 at tick 0 and every tick up to tick 999
    1001 ticks of work are due by the deadline, 1 of them its own: 1 tick too many
";
    assert_eq!(shown(&self_edge(1, 1, 1), (1, 1_000)), expected);
    // The fourth at tick 3 x 333 = 999, or not before 3 x 334 = 1,002.
    for (p, releases) in [
        (333, "vertex 0 at tick 0 and every 333 ticks up to tick 999"),
        (
            334,
            "vertex 0 at tick 0, vertex 0 at tick 334, vertex 0 at tick 668",
        ),
    ] {
        assert_eq!(first_path(&self_edge(1, 9, p), 1_000), releases);
    }
}

#[test]
fn at_the_start_of_a_path() {
    // Where the 2 ticks to vertex 0 are too long, the 1 to vertex 1 fits.
    let above = task(&[(1, 1), (1, 1)], &[(0, 0, 2), (0, 1, 1)]);
    for (d, releases) in [
        (
            6,
            "vertex 0 at tick 0, vertex 0 at tick 2, vertex 0 at tick 4, vertex 1 at tick 5",
        ),
        (
            8,
            "vertex 0 at tick 0 and every 2 ticks up to tick 6, vertex 1 at tick 7",
        ),
        (
            10,
            "vertex 0 at tick 0 and every 2 ticks up to tick 8, vertex 1 at tick 9",
        ),
    ] {
        assert_eq!(first_path(&above, d), releases);
    }
}

#[test]
fn at_the_end_of_a_path() {
    // The ticks are 0, 3, 5, 7, 9 and 11.
    let above = task(&[(1, 3), (1, 2)], &[(0, 1, 3), (1, 1, 2)]);
    for (d, releases) in [
        (
            9,
            "vertex 0 at tick 0, vertex 1 at tick 3, vertex 1 at tick 5, vertex 1 at tick 7",
        ),
        (
            10,
            "vertex 0 at tick 0, vertex 1 at tick 3 and every 2 ticks up to tick 9",
        ),
        (
            12,
            "vertex 0 at tick 0, vertex 1 at tick 3 and every 2 ticks up to tick 11",
        ),
    ] {
        assert_eq!(first_path(&above, d), releases);
    }
}

#[test]
fn in_the_middle_of_a_path() {
    // The paths from vertex 0 come in the order of how many releases n of vertex 1 lie between; the second of vertex 0 is at tick 4 + n.
    // With e 5 and n 3 there are 10 by tick 9, with e 4 and n 4 too, and with e 4 and n 5 there are 11 by tick 10: with fewer between,
    // (0,1,0,1) by tick 10 among them, that tick is free. And no tick before it is: up to tick t from 4 to 4 + n there are e + t - 3.
    for (vertex, releases, due) in [
        (
            (5, 9),
            "vertex 0 at tick 0, vertex 1 at tick 4, vertex 1 at tick 5, vertex 1 at tick 6, vertex 0 at tick 7",
            10,
        ),
        (
            (4, 9),
            "vertex 0 at tick 0, vertex 1 at tick 4 and every tick up to tick 7, vertex 0 at tick 8",
            10,
        ),
        (
            (4, 10),
            "vertex 0 at tick 0, vertex 1 at tick 4 and every tick up to tick 8, vertex 0 at tick 9",
            11,
        ),
    ] {
        let own = vertex.0;
        let expected = format!(
            "    task 0: {releases}\n    {due} ticks of work are due by the deadline, {own} of them its own: 1 tick too many\n"
        );
        assert_eq!(shown(&between(), vertex), expected);
    }
    // Where the 3 ticks to vertex 1 are too long, the 1 to vertex 2 fits: ticks 0, 2, 5, 8, 11 and 12.
    let above = task(
        &[(1, 2), (1, 1), (1, 1)],
        &[(0, 1, 2), (1, 1, 3), (1, 2, 1)],
    );
    let expected =
        "vertex 0 at tick 0, vertex 1 at tick 2 and every 3 ticks up to tick 11, vertex 2 at tick 12";
    assert_eq!(first_path(&above, 13), expected);
}

#[test]
fn two_behind_each_other() {
    // Where the 6 ticks to vertex 0 are too long, vertex 1 comes after 1, and then at every tick.
    for (d, releases) in [
        (
            16,
            "vertex 0 at tick 0, vertex 0 at tick 6, vertex 0 at tick 12, vertex 1 at tick 13, vertex 1 at tick 14, vertex 1 at tick 15",
        ),
        (
            17,
            "vertex 0 at tick 0, vertex 0 at tick 6, vertex 0 at tick 12, vertex 1 at tick 13 and every tick up to tick 16",
        ),
        (
            22,
            "vertex 0 at tick 0 and every 6 ticks up to tick 18, vertex 1 at tick 19, vertex 1 at tick 20, vertex 1 at tick 21",
        ),
        (
            24,
            "vertex 0 at tick 0 and every 6 ticks up to tick 18, vertex 1 at tick 19 and every tick up to tick 23",
        ),
    ] {
        assert_eq!(first_path(&before(), d), releases);
    }
}

#[test]
fn of_one_vertex_with_another_between() {
    // Three and one more are no four neighbours: where the 4 ticks to vertex 0 are too long, it comes by way of vertex 1 after 1 + 1.
    let above = task(&[(1, 1), (1, 1)], &[(0, 0, 4), (0, 1, 1), (1, 0, 1)]);
    for (d, releases) in [
        (
            11,
            "vertex 0 at tick 0, vertex 0 at tick 4, vertex 0 at tick 8, vertex 1 at tick 9, vertex 0 at tick 10",
        ),
        (
            15,
            "vertex 0 at tick 0 and every 4 ticks up to tick 12, vertex 1 at tick 13, vertex 0 at tick 14",
        ),
    ] {
        assert_eq!(first_path(&above, d), releases);
    }
    // Vertex 1 leads back as long as the 5 ticks fit: at tick 7 they don't.
    let above = task(&[(1, 1), (1, 1)], &[(0, 1, 1), (1, 0, 5), (1, 1, 1)]);
    let expected = "vertex 0 at tick 0, vertex 1 at tick 1, vertex 0 at tick 6, vertex 1 at tick 7 and every tick up to tick 11";
    assert_eq!(first_path(&above, 12), expected);
}

#[test]
fn below_a_meets() {
    // 3 + 3 at tick 6, 4 + 4 at tick 8; and 1 + 1 at tick 2, with the path's releases behind it.
    for ((e, d), worst, spare, releases) in [
        (
            (3, 6),
            6,
            0,
            "vertex 0 at tick 0, vertex 0 at tick 2, vertex 0 at tick 4",
        ),
        (
            (4, 8),
            8,
            0,
            "vertex 0 at tick 0 and every 2 ticks up to tick 6",
        ),
        (
            (1, 10),
            2,
            8,
            "vertex 0 at tick 0 and every 2 ticks up to tick 8",
        ),
    ] {
        let expected = format!(
            "task 1, vertex 0: meets its deadline of {d} ticks, at worst after {worst}, {spare} to spare (1 group examined), by these releases:\n    \
             task 0: {releases}\n"
        );
        assert_eq!(why(&self_edge(1, 2, 2), (e, d)), expected);
    }
}

#[test]
fn twice_in_one_path_below_a_meets() {
    // With a release of vertex 1 every 2 ticks e 4 is done at tick 8, by those at 0, 2, 4 and 6, and e 3 at tick 6, by those at 0, 2 and 4.
    // Every other start is done earlier. Behind it the first path leads back to vertex 0 after 9 ticks and on to vertex 1 after 3, and
    // there the next 9 are too long. No path has a load above that of vertex 1 alone, so that one group is examined.
    let expected = "\
task 1, vertex 0: meets its deadline of 25 ticks, at worst after 8, 17 to spare (1 group examined), by these releases:
    task 0: vertex 1 at tick 0 and every 2 ticks up to tick 6, vertex 0 at tick 15, vertex 1 at tick 18 and every 2 ticks up to tick 24
";
    assert_eq!(why(&twice(), (4, 25)), expected);
    let expected = "\
task 1, vertex 0: meets its deadline of 21 ticks, at worst after 6, 15 to spare (1 group examined), by these releases:
    task 0: vertex 1 at tick 0, vertex 1 at tick 2, vertex 1 at tick 4, vertex 0 at tick 13, vertex 1 at tick 16, vertex 1 at tick 18, vertex 1 at tick 20
";
    assert_eq!(why(&twice(), (3, 21)), expected);
}

#[test]
fn each_higher_task_by_itself() {
    // Done at 1 + 1 + 1.
    let tasks = |d| {
        [
            self_edge(1, 5, 5),
            self_edge(1, 10, 10),
            task(&[(1, d)], &[]),
        ]
    };
    let expected = "
task 2, vertex 0: meets its deadline of 40 ticks, at worst after 3, 37 to spare (1 group examined), by these releases:
    task 0: vertex 0 at tick 0 and every 5 ticks up to tick 35
    task 1: vertex 0 at tick 0 and every 10 ticks up to tick 30
meets 3, misses 0, unfinished 0, refused 0
";
    let found = words_with_why(text(&tasks(40)).as_bytes());
    assert!(found.contains(expected), "{found}");
    let expected = "
task 2, vertex 0: meets its deadline of 30 ticks, at worst after 3, 27 to spare (1 group examined), by these releases:
    task 0: vertex 0 at tick 0 and every 5 ticks up to tick 25
    task 1: vertex 0 at tick 0, vertex 0 at tick 10, vertex 0 at tick 20
meets 3, misses 0, unfinished 0, refused 0
";
    let found = words_with_why(text(&tasks(30)).as_bytes());
    assert!(found.contains(expected), "{found}");
}

#[test]
fn texts_for_the_words() {
    let texts = texts_for_words("texts_with_runs");
    for (above, judged) in [
        (
            self_edge(1, 2, 2),
            vec![(6, 6), (8, 8), (10, 10), (3, 6), (4, 8), (1, 10)],
        ),
        (self_edge(1, 1, 1), vec![(3, 3), (4, 4), (5, 5), (1, 1_000)]),
        (between(), vec![(5, 9), (4, 9), (4, 10)]),
        (before(), vec![(24, 24), (22, 22), (17, 17), (16, 16)]),
        (twice(), vec![(4, 25), (3, 21)]),
    ] {
        let text = text(&[above, task(&judged, &[])]);
        assert!(texts.contains(&text.into_bytes()));
    }
}
