//! The words for people, written out by hand from their format.

use crate::common::{self, *};
use second::case::{WHY, WORDS};
use second::words::{words, words_with_why};
use std::fs;
use std::process::Command;

/// The last line where no table was read.
const UNREAD: &str = "This may NOT go out: the table can't be read, so nothing was judged.\n";

/// The words of the table of these tasks.
fn table_words(tasks: &[Task]) -> String {
    words(text(tasks).as_bytes())
}

/// The words for a vertex that meets, with its worst finish and the ticks from there to its deadline.
fn meets(numbers: (u16, u16), d: &str, worst: (u32, u32), groups: &str) -> String {
    let (task, vertex) = numbers;
    let (worst, spare) = worst;
    format!("task {task}, vertex {vertex}: meets its deadline of {d}, at worst after {worst}, {spare} to spare ({groups} examined)\n")
}

#[test]
fn r1() {
    // Nothing above task 0: its own 2. Above task 1 there is one release up to tick 5: 2 + 2.
    let expected = "\
task 0, vertex 0: meets its deadline of 5 ticks, at worst after 2, 3 to spare (1 group examined)
task 1, vertex 0: meets its deadline of 7 ticks, at worst after 4, 3 to spare (1 group examined)
task 2, vertex 0: MISSES its deadline of 6 ticks (1 group examined), shown by these releases:
    task 0: vertex 0 at tick 0, vertex 0 at tick 5
    task 1: vertex 0 at tick 0
    8 ticks of work are due by the deadline, 2 of them its own: 2 ticks too many
meets 2, misses 1, unfinished 0, refused 0
This may NOT go out: a job type misses its deadline.
";
    assert_eq!(table_words(&common::r1(2)), expected);
}

#[test]
fn r2_may_go_out() {
    // The last one at tick 5: 1 + 2 + 2.
    let expected = [
        &meets((0, 0), "5 ticks", (2, 3), "1 group")[..],
        &meets((1, 0), "7 ticks", (4, 3), "1 group"),
        &meets((2, 0), "6 ticks", (5, 1), "1 group"),
        "meets 3, misses 0, unfinished 0, refused 0\n",
        "This may go out: every job type meets its deadline.\n",
    ];
    assert_eq!(table_words(&common::r1(1)), expected.concat());
}

#[test]
fn r4_is_a_typing_slip() {
    let expected = "\
REFUSED (13) at line 2: the job is longer than its own deadline
    0200030002
This may NOT go out: the table can't be read, so nothing was judged.
";
    assert_eq!(table_words(&[task(&[(3, 2)], &[])]), expected);
}

#[test]
fn r7_and_one_tick() {
    let mut tasks = r7();
    tasks.push(task(&[(1, 1)], &[]));
    // At tick 1 the last vertex has its own 1 and, from the first paths in order, 3 and 1.
    let last = "\
task 2, vertex 0: MISSES its deadline of 1 tick (3 groups examined), shown by these releases:
    task 0: vertex 0 at tick 0
    task 1: vertex 0 at tick 0
    5 ticks of work are due by the deadline, 1 of them its own: 4 ticks too many
meets 4, misses 1, unfinished 0, refused 0
This may NOT go out: a job type misses its deadline.
";
    // Below (0) task 1 is done at 1 + 3, below (1,2) at 1 + 1, below (2) at 1 + 4.
    let expected = [
        &meets((0, 0), "10 ticks", (3, 7), "1 group")[..],
        &meets((0, 1), "2 ticks", (1, 1), "1 group"),
        &meets((0, 2), "10 ticks", (4, 6), "1 group"),
        &meets((1, 0), "5 ticks", (5, 0), "5 groups"),
        last,
    ];
    assert_eq!(table_words(&tasks), expected.concat());
}

#[test]
fn the_worst_is_that_of_a_choice() {
    let mut tasks = r7();
    tasks[1] = task(&[(1, 10)], &[]);
    // All paths together have 4 and from tick 3 on 5: free at 1 + 5. But each by itself is free earlier, as above.
    let expected = [
        &meets((1, 0), "10 ticks", (5, 5), "1 group")[..],
        "meets 4, misses 0, unfinished 0, refused 0\n",
        "This may go out: every job type meets its deadline.\n",
    ];
    let found = table_words(&tasks);
    assert!(found.ends_with(&expected.concat()), "{found}");
}

#[test]
fn one_tick_of_one_tick() {
    let expected = [
        &meets((0, 0), "1 tick", (1, 0), "1 group")[..],
        "meets 1, misses 0, unfinished 0, refused 0\n",
        "This may go out: every job type meets its deadline.\n",
    ];
    assert_eq!(table_words(&[task(&[(1, 1)], &[])]), expected.concat());
}

#[test]
fn a_meets_whose_worst_finish_was_not_found() {
    let tasks_of = |kinds| {
        let mut tasks = vec![task(&vec![(1, 9); kinds], &[]); 4];
        tasks.push(task(&[(3, 9), (1, 6), (4, 9)], &[(1, 2, 6)]));
        tasks.push(task(&[(1, 10)], &[]));
        tasks
    };
    // The four tasks always add 4, so (0) finishes at 1 + 4 + 3, (1,2) at 1 + 4 + 1 and (2) at 1 + 4 + 4. All paths together, and
    // also (0) and (1,2), have 5 from tick 7 on and are free at tick 10: one group for the verdict. That is later than each choice,
    // so the search for the worst finish sees all 2 x 3 x 12^4 - 1 = 124,415 groups; with eleven kinds, 2 x 3 x 11^4 - 1 = 87,845.
    let expected = "
task 5, vertex 0: meets its deadline of 10 ticks (1 group examined; its worst finish wasn't found within 100000 groups)
meets 52, misses 0, unfinished 0, refused 0
This may go out: every job type meets its deadline.
";
    let found = table_words(&tasks_of(12));
    assert!(found.ends_with(expected), "{found}");
    let found = words_with_why(text(&tasks_of(12)).as_bytes());
    assert!(found.ends_with(expected), "{found}");
    let expected = [
        &meets((5, 0), "10 ticks", (9, 1), "1 group")[..],
        "meets 48, misses 0, unfinished 0, refused 0\n",
        "This may go out: every job type meets its deadline.\n",
    ];
    let found = table_words(&tasks_of(11));
    assert!(found.ends_with(&expected.concat()), "{found}");
}

#[test]
fn releases_at_the_sums_of_their_separations() {
    // Separations 3, 4 and 2, so ticks 0, 3, 7 and 9; the next release would be at 12. The work is 2 + 4 + 2 + 1 and 9.
    let above = task(
        &[(2, 3), (2, 2), (4, 4), (1, 2)],
        &[(0, 2, 3), (1, 3, 2), (2, 1, 4), (3, 0, 3)],
    );
    let words = table_words(&[above, task(&[(9, 10)], &[])]);
    let expected = "\
task 1, vertex 0: MISSES its deadline of 10 ticks (3 groups examined), shown by these releases:
    task 0: vertex 0 at tick 0, vertex 2 at tick 3, vertex 1 at tick 7, vertex 3 at tick 9
    18 ticks of work are due by the deadline, 9 of them its own: 8 ticks too many
meets 4, misses 1, unfinished 0, refused 0
";
    assert!(words.contains(expected), "{words}");
}

#[test]
fn unfinished_and_refused_vertices() {
    let mut tasks = vec![task(&[(1, 9); 12], &[]); 4];
    tasks.push(task(&[(3, 9), (1, 6), (4, 9)], &[(1, 2, 6)]));
    tasks.push(task(&[(1, 9)], &[]));
    let expected = "\
task 5, vertex 0: UNFINISHED: the search was cut short after 100000 groups; this is neither a yes nor a no
meets 51, misses 0, unfinished 1, refused 0
This may NOT go out: not every job type was shown to meet its deadline.
";
    assert!(table_words(&tasks).ends_with(expected));
    let few = self_edge(1, 200, 200);
    let expected = "\
task 2, vertex 0: REFUSED (9): task 1 has more than 64 complete paths, so this was not judged
meets 5, misses 0, unfinished 0, refused 1
This may NOT go out: not every job type was shown to meet its deadline.
";
    assert!(table_words(&[few, r10(), task(&[(1, 31)], &[])]).ends_with(expected));
    // 4 x 127 x 21 cells.
    let tasks = [r10(), r10(), r10(), r10(), task(&[(1, 21)], &[])];
    let expected = "\
task 4, vertex 0: REFUSED (10): 10668 work cells are needed and there are 8192, so this was not judged
meets 16, misses 0, unfinished 0, refused 1
This may NOT go out: not every job type was shown to meet its deadline.
";
    assert!(table_words(&tasks).ends_with(expected));
}

#[test]
fn a_miss_decides_before_a_refusal() {
    let words = table_words(&[r10(), task(&[(1, 31), (31, 31)], &[]), task(&[(1, 1)], &[])]);
    let expected = "\
meets 4, misses 1, unfinished 0, refused 2
This may NOT go out: a job type misses its deadline.
";
    assert!(words.ends_with(expected), "{words}");
}

#[test]
fn a_long_input() {
    let expected = format!("REFUSED (12): the input is longer than 8191 bytes\n{UNREAD}");
    for bytes in [8_192, 9_000] {
        assert_eq!(words(&vec![b'0'; bytes]), expected);
    }
    assert!(words(&[b'0'; 8_191]).starts_with("REFUSED (1) at line 1: "));
}

#[test]
fn the_rules_of_a_refused_text() {
    let first = "010202\n0200020005\n0200010006\n";
    for (more, number, line, rule, shown) in [
        (
            "0300\n",
            2,
            4,
            "this kind of frame isn't allowed here, or its length is wrong for its kind",
            "0300",
        ),
        (
            "0300020005\n",
            3,
            4,
            "a number is outside its bounds, an edge names a vertex that the task hasn't, or the task's masked length exceeds its largest e",
            "0300020005",
        ),
        (
            "0300000004\n",
            4,
            4,
            "the deadline of the edge's starting vertex exceeds the separation",
            "0300000004",
        ),
        (
            "0301010006\n0300000005\n",
            5,
            5,
            "the edge doesn't come after the one before it in its task",
            "0300000005",
        ),
        (
            "",
            6,
            4,
            "the text ends and no end frame was read",
            "(the text ends before this line)",
        ),
        (
            "0300010005\n0301000006\n00\nx\n00\n",
            7,
            7,
            "there are bytes after the end frame",
            "x",
        ),
        (
            "0300010005\n0301000006\n00\n\n",
            7,
            7,
            "there are bytes after the end frame",
            "(an empty line)",
        ),
    ] {
        let expected = format!("REFUSED ({number}) at line {line}: {rule}\n    {shown}\n{UNREAD}");
        assert_eq!(words((first.to_string() + more).as_bytes()), expected);
    }
    let empty = "REFUSED (6) at line 1: the text ends and no end frame was read\n    (the text ends before this line)\n";
    assert_eq!(words(b""), empty.to_string() + UNREAD);
}

#[test]
fn the_lines_that_rule_1_shows() {
    let rule =
        "a line must be pairs of the digits 0-9a-f, at least one pair, and end in a line feed";
    let digits = "0123456789".repeat(6);
    for (line, shown) in [
        (&b"\n"[..], "(an empty line)".to_string()),
        (b"0", "0".into()),
        (b"0 ~!\"A\n", "0 ~!\"A".into()),
        (
            b"\0\t\r\x1f\x7f\x80\xc3\xa9\xff\n",
            r"\x00\x09\x0d\x1f\x7f\x80\xc3\xa9\xff".into(),
        ),
        (b"a\\x00\n", r"a\x5cx00".into()),
        (
            format!("{}z\n", &digits[..59]).as_bytes(),
            digits[..59].to_string() + "z",
        ),
        (format!("{digits}z\n").as_bytes(), format!("{digits}...")),
        (format!("{digits}z").as_bytes(), format!("{digits}...")),
        (&[b'\\'; 61], r"\x5c".repeat(60) + "..."),
    ] {
        let text = [b"010100\n", line].concat();
        let expected = format!("REFUSED (1) at line 2: {rule}\n    {shown}\n{UNREAD}");
        assert_eq!(words(&text), expected);
    }
}

#[test]
fn the_program_writes_an_empty_line_after_each_text() {
    let table = text(&common::r1(1));
    let texts = [table.as_bytes(), b"", table.as_bytes()];
    let found = answered_lines(&sequence_of(WORDS, &texts));
    let expected: String = texts.map(|text| words(text) + "\n").concat();
    assert_eq!(found, expected);
    let found = answered_lines(&sequence_of(WHY, &texts));
    let expected: String = texts.map(|text| words_with_why(text) + "\n").concat();
    assert_eq!(found, expected);
}

/// What is said of some text that the words are checked with.
const SAID: [&str; 39] = [
    "REFUSED (1) at",
    "REFUSED (2) at",
    "REFUSED (3) at",
    "REFUSED (4) at",
    "REFUSED (5) at",
    "REFUSED (6) at",
    "REFUSED (7) at",
    "REFUSED (9): task 0",
    "REFUSED (9): task 1",
    "REFUSED (10): ",
    "REFUSED (12): ",
    "REFUSED (13) at line 2: the job is longer than its own deadline\n    0200060005\n",
    "REFUSED (13) at line 3: the job is longer than its own deadline\n    06000600050004\n",
    "(an empty line)",
    "(the text ends before this line)",
    r"\x0d",
    r"\x5c",
    r"\xff",
    "f...",
    "0g",
    ", at worst after ",
    ", 0 to spare (",
    "; its worst finish wasn't found within 100000 groups)",
    "MISSES its deadline of 1 tick (",
    "examined), shown by",
    "examined), with nothing above it:",
    "after 3 (1 tick of it is task 3's masked time), 2 to spare",
    "3 ticks of work (1 tick of it is task 1's masked time) are due",
    "ticks of it are task 4's masked time), ",
    "ticks of it are task 5's masked time), ",
    "13 ticks of work (11 ticks of it are task 1's masked time) are due",
    ": 1 tick too many",
    "vertex 0 at tick 0 and every tick up to tick 199\n",
    "vertex 0 at tick 0 and every 3 ticks up to tick 999\n",
    "masked length exceeds its largest e\n    030001ea61\n",
    "REFUSED (10): 9000 work cells",
    "This may go out",
    "not every job type was shown",
    "a job type misses",
];

#[test]
fn the_texts_that_the_words_are_checked_with() {
    let folder = concat!(env!("CARGO_TARGET_TMPDIR"), "/texts");
    let _ = fs::remove_dir_all(folder);
    fs::create_dir(folder).unwrap();
    let mut generator = Command::new(env!("CARGO_BIN_EXE_texts_for_words"));
    assert!(generator.arg(folder).status().unwrap().success());
    let texts = fs::read_dir(folder).unwrap();
    let texts: Vec<_> = texts
        .map(|text| fs::read(text.unwrap().path()).unwrap())
        .collect();
    assert!((60..=130).contains(&texts.len()));
    assert!(texts.contains(&text(&common::r1(2)).into_bytes()));
    let words: Vec<_> = texts.iter().map(|text| words(text)).collect();
    for said in SAID {
        assert!(words.iter().any(|words| words.contains(said)), "{said}");
    }
}
