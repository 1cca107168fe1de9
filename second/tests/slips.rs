//! Jobs longer than their own deadline, refusal 13 (wish 6): e and d around each other, the order of the refusals, and what is still judged, by hand.

use crate::common::lateness::{latest_in, meets, misses};
use crate::common::refused::{check, check_lines, check_tasks};
use crate::common::vendors::{vendor_task, KINDS};
use crate::common::writing::said;
use crate::common::*;
use second::case::{Case, BACK, CELLS, CHECK, DESK, FINISH, FINISHES, LIST, RECORD, TABLE};
use second::case::{UNMARKED, VERTEX};
use second::judge::Verdict;
use second::words::{words, words_with_why};

/// Vertices (e, d), each with the number that refuses its line, 0 if none does.
const VERTICES: [(u32, u32, u8); 23] = [
    (1, 1, 0),
    (2, 1, 13),
    (1_000, 1, 13),
    (1_001, 1, 3),
    (4, 5, 0),
    (5, 5, 0),
    (6, 5, 13),
    (200, 200, 0),
    (201, 200, 13),
    (999, 999, 0),
    (1_000, 999, 13),
    (1_000, 1_000, 0),
    (1_001, 1_000, 3),
    // e is 1 and 0 in its low byte.
    (257, 2, 13),
    (256, 200, 13),
    // 3 comes first, for d and for e.
    (1, 0, 3),
    (0, 0, 3),
    (1_000, 0, 3),
    (0, 1, 3),
    (1_002, 1_001, 3),
    (1_000, 1_001, 3),
    (1_001, 1_001, 3),
    (65_535, 65_535, 3),
];

/// What a check gives for this number at this line.
fn at(number: u8, line: usize) -> (u8, usize) {
    match number {
        0 => (0, 0),
        _ => (number, line),
    }
}

#[test]
fn in_each_vertex_of_a_plain_task() {
    for (e, d, number) in VERTICES {
        for place in 0..3 {
            let mut vertices = [(1, 9); 3];
            vertices[place] = (e, d);
            let found = check_tasks(&[task(&vertices, &[])]);
            assert_eq!(found, at(number, 2 + place), "({e}, {d})");
            // In the second task, behind four lines.
            let first = task(&[(9, 9); 3], &[]);
            let found = check_tasks(&[first, task(&vertices, &[])]);
            assert_eq!(found, at(number, 6 + place), "({e}, {d})");
        }
    }
}

#[test]
fn at_every_deadline() {
    for d in 1..=999 {
        let vertex = |e| check_tasks(&[task(&[(e, d)], &[])]);
        assert_eq!(vertex(d), (0, 0), "{d}");
        assert_eq!([vertex(d + 1), vertex(1_000)], [(13, 2); 2], "{d}");
        assert_eq!(vertex(1_001), (3, 2), "{d}");
    }
}

#[test]
fn in_each_vertex_of_a_ring_and_a_gear_table() {
    for (e, d, p, number) in [
        (5, 5, 5, 0),
        (6, 5, 5, 13),
        (6, 5, 6, 13),
        (6, 5, 60_000, 13),
        (1_000, 1_000, 1_000, 0),
        (201, 200, 200, 13),
        (1_000, 999, 999, 13),
        (1_000, 200, 60_000, 13),
        (1_001, 1_000, 60_000, 3),
        // 3 comes first, for p, for d and for e.
        (6, 5, 0, 3),
        (6, 5, 60_001, 3),
        (1_000, 1, 65_535, 3),
        (6, 0, 7, 3),
        (1_002, 1_001, 3_000, 3),
        (0, 5, 7, 3),
        // 4 comes behind it.
        (6, 5, 4, 13),
        (5, 5, 4, 4),
        (1_000, 999, 998, 13),
        (1_000, 1_000, 999, 4),
        (1_000, 200, 1, 13),
        (3, 2, 1, 13),
    ] {
        for kind in KINDS {
            for place in 0..3 {
                let mut vertices = [(1, 9, 9); 3];
                vertices[place] = (e, d, p);
                let text = vendor_task(kind, &vertices) + "00\n";
                let found = check(text.as_bytes());
                assert_eq!(found, at(number, 2 + place), "({e}, {d}, {p})");
            }
        }
    }
}

/// Masked lengths and (e, d) of the last of three vertices, the others with e 3: the number and line that the task is refused by, zeros if none.
const BESIDE_M: [(u32, u32, u32, u8, usize); 13] = [
    (3, 2, 1, 13, 4),
    // m exceeds every e, and the job its deadline.
    (4, 2, 1, 13, 4),
    (5, 4, 3, 13, 4),
    (1_000, 201, 200, 13, 4),
    // The e that is too long would let m pass.
    (4, 4, 3, 13, 4),
    (1_000, 1_000, 999, 13, 4),
    // Without a slip m is refused, or passes.
    (4, 3, 3, 3, 4),
    (1_000, 999, 1_000, 3, 4),
    (1_000, 1_000, 1_000, 0, 0),
    (4, 4, 4, 0, 0),
    // m outside its bounds is at the task's line.
    (1_001, 4, 3, 3, 1),
    // The last vertex's own 3.
    (4, 0, 3, 3, 4),
    (4, 4, 1_001, 3, 4),
];

#[test]
fn before_the_test_of_m() {
    for (m, e, d, number, line) in BESIDE_M {
        let tasks = [masked(m, task(&[(3, 9), (3, 9), (e, d)], &[]))];
        assert_eq!(check_tasks(&tasks), (number, line), "{m} ({e}, {d})");
        let expected = match number {
            0 => Ok(text(&tasks).len()),
            _ => Err((number, line)),
        };
        assert_eq!(said(&tasks, 1_000), expected, "{m} ({e}, {d})");
    }
    // In an earlier vertex's line.
    for (place, line) in [(0, 2), (1, 3)] {
        for slip in [(2, 1), (4, 3)] {
            let mut vertices = [(3, 9); 3];
            vertices[place] = slip;
            let tasks = [masked(4, task(&vertices, &[]))];
            assert_eq!(check_tasks(&tasks), (13, line));
            assert_eq!(said(&tasks, 1_000), Err((13, line)));
        }
    }
}

#[test]
fn the_first_faulty_line_decides() {
    let lines = [
        "010202\n",
        "0200060005\n",
        "0200010006\n",
        "0300010005\n",
        "0301000006\n",
        "00\n",
    ];
    let with = |line: usize, faulty: &str| {
        let mut lines = lines;
        lines[line - 1] = faulty;
        check_lines(&lines)
    };
    assert_eq!(check_lines(&lines), (13, 2));
    assert_eq!(with(2, "0200050005\n"), (0, 0));
    for (line, faulty) in [
        (3, "zz\n"),
        (3, "0300000005\n"),
        (3, "0200000006\n"),
        (3, "0200070006\n"),
        (4, "0300010004\n"),
        (5, "0300000006\n"),
        (6, "0501\n"),
        (6, "00\n\n"),
    ] {
        assert_eq!(with(line, faulty), (13, 2), "{faulty:?}");
    }
    assert_eq!(check_lines(&lines[..2]), (13, 2));
    for (line, faulty, number) in [
        (1, "010d02\n", 3),
        (1, "0102\n", 2),
        (2, "02000600050\n", 1),
        (2, "020006000500\n", 2),
        (2, "06000600050005\n", 2),
    ] {
        assert_eq!(with(line, faulty), (number, line), "{faulty:?}");
    }
    // Without a line feed, it is row 1.
    assert_eq!(check(b"010100\n0200060005"), (1, 2));
}

#[test]
fn written_at_the_line_of_its_frame() {
    for (e, d, number) in VERTICES {
        // Behind the four lines of the first task and the second one's own.
        for (place, line) in [(0, 6), (1, 7), (2, 8)] {
            let mut vertices = [(1, 9); 3];
            vertices[place] = (e, d);
            let tasks = [task(&[(9, 9); 2], &[(1, 1, 9)]), task(&vertices, &[])];
            let needed = text(&tasks).len();
            for bytes in [0, needed - 1, needed, 4_000] {
                let expected = match number {
                    0 if bytes < needed => Err((10, needed)),
                    0 => Ok(needed),
                    _ => Err((number, line)),
                };
                assert_eq!(said(&tasks, bytes), expected, "({e}, {d})");
            }
        }
    }
}

#[test]
fn numbers_that_do_not_fit_their_bytes() {
    // In its low bytes 65,541 is 5, and 65,542 is 6.
    for (e, d) in [
        (65_541, 5),
        (65_542, 5),
        (6, 65_541),
        (65_542, 65_541),
        (65_541, 65_541),
        (u32::MAX, 200),
        (u32::MAX, u32::MAX),
        (1, u32::MAX),
    ] {
        assert_eq!(said(&[task(&[(e, d)], &[])], 100), Err((3, 2)));
    }
}

#[test]
fn in_words() {
    let refused = |text: &str, line: usize, shown: &str| {
        let expected = format!(
            "REFUSED (13) at line {line}: the job is longer than its own deadline\n    {shown}\n\
             This may NOT go out: the table can't be read, so nothing was judged.\n"
        );
        assert_eq!(words(text.as_bytes()), expected);
        assert_eq!(words_with_why(text.as_bytes()), expected);
    };
    refused("010100\n0200030002\n00\n", 2, "0200030002");
    let second = "010100\n0200010001\n0401000009\n0203e800c8\n00\n";
    refused(second, 4, "0203e800c8");
    refused(
        "0702\n06000500050005\n06000600050004\n",
        3,
        "06000600050004",
    );
}

/// What each mode of a case answers to these bytes, with ten cells or bytes of each area.
fn answer(mode: u8, bytes: &[u8]) -> String {
    let case = Case {
        budget: 9,
        work: 10,
        witness: 10,
        ..Case::plain(mode, bytes.to_vec())
    };
    String::from_utf8(case.answer(&mut [0; 10], &mut [0; 10])).unwrap()
}

#[test]
fn r4_in_every_mode() {
    let r4 = b"010100\n0200030002\n00\n";
    for mode in [CHECK, UNMARKED, FINISHES, BACK] {
        assert_eq!(answer(mode, r4), "1e0d0002\n");
    }
    assert_eq!(answer(DESK, r4), "\0\0\0\x091e0d0002\n");
    assert_eq!(answer(LIST, r4), "-\n");
    // No cell is zeroed or written, and each holds its mark.
    assert_eq!(answer(TABLE, r4), "1e0d00020000000001\n");
    let [numbers, finish, areas] = ["030000000d00000002", "00000000", "00000000010000000001"];
    assert_eq!(answer(VERTEX, r4), format!("{numbers}{areas}\n"));
    assert_eq!(answer(FINISH, r4), format!("{numbers}{finish}{areas}\n"));
    // One task, of m 0, one vertex and no edges; its e and d.
    let record = [0, 1, 0, 0, 0, 1, 0, 0, 0, 3, 0, 2];
    assert_eq!(answer(RECORD, &record), "0d000000020000000001\n");
    let cells = [0, 1, 0, 0, 0, 0, 0, 3, 0, 2];
    assert_eq!(answer(CELLS, &cells), "0d000000020000000001\n");
}

#[test]
fn nothing_misses_with_nothing_above_and_no_masked_time() {
    let mut own = masked(
        1_000,
        task(&[(1, 1), (5, 5), (199, 200), (1_000, 1_000)], &[]),
    );
    own.edges = vec![(0, 0, 1), (3, 3, 1_000)];
    // Its own masked length doesn't hold it up.
    let finishes = (0..).zip([1, 5, 199, 1_000]);
    for (vertex, finish) in finishes {
        let found = latest_in(std::slice::from_ref(&own), (0, vertex), 1, (0, 0));
        assert_eq!(found, meets(finish, 1, (0, 0), 0, &[]));
    }
}

#[test]
fn masked_time_is_not_counted() {
    let masking = |m| masked(m, task(&[(1_000, 1_000)], &[]));
    // e + B at d and past it, e below d and at it, each of them readable.
    for (e, d, m, finish) in [
        (4, 5, 1, Some(5)),
        (4, 5, 2, None),
        (5, 5, 1, None),
        (1, 1, 1, None),
        (1, 1_000, 999, Some(1_000)),
        (1, 1_000, 1_000, None),
        (1_000, 1_000, 1_000, None),
    ] {
        let tasks = [task(&[(e, d)], &[]), masking(m)];
        assert_eq!(check_tasks(&tasks), (0, 0));
        let (found, verdict) = match finish {
            Some(finish) => {
                let verdict = Verdict::Meets { count: 1 };
                (meets(finish, 1, (0, 0), 0, &[]), verdict)
            }
            None => {
                let verdict = Verdict::Misses { count: 1, cells: 0 };
                (misses(1, (0, 0), 0, &[]), verdict)
            }
        };
        assert_eq!(latest_in(&tasks, (0, 0), 1, (0, 0)), found);
        assert_eq!(judged(&text(&tasks), (0, 0), 1, (0, 0)), verdict);
    }
    // Below two paths: the top group overloads, and so does the first of them.
    let tasks = [r5(5), vec![masking(4)]].concat();
    let lent = (15, 6);
    let found = latest_in(&tasks, (1, 0), 2, lent);
    assert_eq!(found, misses(2, lent, 15, &[1, 0]));
    let verdict = judged(&text(&tasks), (1, 0), 2, lent);
    assert_eq!(verdict, Verdict::Misses { count: 2, cells: 2 });
}
