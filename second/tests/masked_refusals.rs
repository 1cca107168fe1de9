//! The refusals of a task with a masked length: m at its bounds, and against its task's largest e.

use crate::common::refused::{check, check_lines, check_tasks};
use crate::common::*;
use second::table::Ticks;
use second::text::read;

/// The lines of a small valid text: three vertices, the one in the middle with the largest e, 2, and m 2.
const LINES: [&str; 7] = [
    "0403020002\n",
    "0200010005\n",
    "0200020006\n",
    "0200010006\n",
    "0300010005\n",
    "0301000006\n",
    "00\n",
];

/// The first line with m 3, which exceeds every e.
const TOO_LARGE: &str = "0403020003\n";

/// The valid lines with some of them, from 1, replaced.
fn check_with(replacements: &[(usize, &str)]) -> (u8, usize) {
    let mut lines = LINES;
    for &(line, replacement) in replacements {
        lines[line - 1] = replacement;
    }
    check_lines(&lines)
}

#[test]
fn a_valid_text_is_readable() {
    assert_eq!(check_lines(&LINES), (0, 0));
}

#[test]
fn m_is_read_high_byte_first_and_is_0_without_one() {
    let of_e = |e| task(&[(1, 9), (e, 1_000)], &[(0, 1, 9)]);
    let lengths = [0, 1, 2, 99, 128, 256, 999, 1_000];
    let tasks = lengths.map(|m| masked(m, of_e(1_000)));
    let table = read(text(&tasks).as_bytes()).unwrap();
    let found: Vec<_> = table.tasks.iter().map(|task| task.m).collect();
    assert_eq!(found, lengths.map(Ticks));
    let table = read(b"0401000002\n02000200c8\n00\n").unwrap();
    assert_eq!(table.tasks[0].m, Ticks(2));
    // 512, which is above every e.
    assert_eq!(check(b"0401000200\n02000200c8\n00\n"), (3, 2));
}

#[test]
fn m_out_of_its_bounds_is_row_3_at_the_tasks_line() {
    let before = open_text(&[task(&[(1, 1), (1, 1)], &[])]);
    let with = |m, next: &str| masked_task_line(1, 0, m) + next;
    for m in [0, 1_001, 65_535] {
        // Whatever comes behind the line.
        for next in ["02000100c8\n00\n", "zz\n"] {
            let lines = with(m, next);
            assert_eq!(check(lines.as_bytes()), (3, 1), "{m}");
            let behind = before.clone() + &lines;
            assert_eq!(check(behind.as_bytes()), (3, 4), "{m}");
        }
    }
    // The largest e is 999: a longer m, within its bounds, is refused at the vertex's line.
    for (m, expected) in [(1, (0, 0)), (201, (0, 0)), (999, (0, 0)), (1_000, (3, 2))] {
        let lines = with(m, "0203e703e8\n00\n");
        assert_eq!(check(lines.as_bytes()), expected, "{m}");
        assert_eq!(check(with(m, "zz\n").as_bytes()), (1, 2), "{m}");
    }
}

#[test]
fn the_counts_of_a_masked_task() {
    let task_of = |vertices, edges: usize| {
        let edges: Vec<_> = (0..edges).map(|n| (n / 6, n % 6, 1)).collect();
        check_tasks(&[masked(1, task(&vec![(1, 1); vertices], &edges))])
    };
    for (vertices, edges) in [(1, 0), (12, 0), (6, 32), (12, 32)] {
        assert_eq!(task_of(vertices, edges), (0, 0));
    }
    for (vertices, edges) in [(0, 0), (13, 0), (255, 0), (6, 33), (6, 36)] {
        assert_eq!(task_of(vertices, edges), (3, 1));
    }
    assert_eq!(check(b"0406ff0001\n"), (3, 1));
    assert_eq!(check(b"0400000000\n"), (3, 1));
}

#[test]
fn m_up_to_the_largest_e_wherever_it_is() {
    for count in [1, 2, 3, 12] {
        for largest in 0..count {
            let mut vertices = vec![(3, 9); count];
            vertices[largest].0 = 7;
            let with = |m| check_tasks(&[masked(m, task(&vertices, &[(0, 0, 9)]))]);
            for m in 1..=7 {
                assert_eq!(with(m), (0, 0));
            }
            for m in [8, 9, 1_000] {
                // The task's line, and the vertices behind it.
                assert_eq!(with(m), (3, 1 + count), "{largest} of {count}");
            }
        }
    }
    let long = |m| check_tasks(&[masked(m, task(&[(999, 1_000)], &[]))]);
    assert_eq!(
        [long(999), long(1_000), long(1_001)],
        [(0, 0), (3, 2), (3, 1)]
    );
}

#[test]
fn m_is_compared_with_its_own_task_only() {
    let small = |m| masked(m, task(&[(1, 9); 2], &[]));
    let large = |m| masked(m, task(&[(5, 9)], &[(0, 0, 9)]));
    assert_eq!(
        check_tasks(&[large(5), small(1), small(0), large(5)]),
        (0, 0)
    );
    assert_eq!(check_tasks(&[large(5), small(2), large(5)]), (3, 6));
    assert_eq!(check_tasks(&[small(2), large(5)]), (3, 3));
    assert_eq!(check_tasks(&[small(1), large(6)]), (3, 5));
}

#[test]
fn a_vertex_before_the_last_is_read_while_m_exceeds_every_e_so_far() {
    let rising = masked(9, task(&[(1, 9), (2, 9), (3, 9), (9, 9)], &[]));
    assert_eq!(check_tasks(&[rising]), (0, 0));
    // The last vertex isn't there, so nothing is said of m.
    let lines = [TOO_LARGE, LINES[1], LINES[2]];
    assert_eq!(check_lines(&lines), (6, 4));
    assert_eq!(check_lines(&[&lines[..], &["00\n"]].concat()), (2, 4));
}

#[test]
fn the_last_vertexs_own_checks_come_before_ms() {
    assert_eq!(check_with(&[(1, TOO_LARGE)]), (3, 4));
    for (faulty, number) in [
        ("\n", 1),
        ("02000100060\n", 1),
        ("020001000A\n", 1),
        ("02000100\n", 2),
        ("020001000600\n", 2),
        ("0300010005\n", 2),
        ("0403020002\n", 2),
        ("00\n", 2),
        ("0200000006\n", 3),
        ("0203e90006\n", 3),
        ("0200010000\n", 3),
        ("02000103e9\n", 3),
        // A job longer than its own deadline, whose e m exceeds, and whose e it doesn't.
        ("0200020001\n", 13),
        ("0200070006\n", 13),
    ] {
        let found = check_with(&[(1, TOO_LARGE), (4, faulty)]);
        assert_eq!(found, (number, 4), "{faulty:?}");
    }
    // Without a line feed it is row 1, and without the line row 6.
    let lines = [TOO_LARGE, LINES[1], LINES[2], "0200010006"];
    assert_eq!(check_lines(&lines), (1, 4));
}

#[test]
fn an_earlier_vertexs_line_comes_before_m() {
    for (faulty, number) in [
        ("zz\n", 1),
        ("0300010005\n", 2),
        ("0200000005\n", 3),
        ("0200060005\n", 13),
    ] {
        for line in [2, 3] {
            let found = check_with(&[(1, TOO_LARGE), (line, faulty)]);
            assert_eq!(found, (number, line), "{faulty:?}");
        }
    }
}

#[test]
fn a_faulty_edge_comes_after_m() {
    for (faulty, number) in [
        ("zz\n", 1),
        ("03000100\n", 2),
        ("0300030005\n", 3),
        ("0300010004\n", 4),
        ("0300000005\n", 5),
    ] {
        // The second edge of two, since 5 needs one before it.
        assert_eq!(check_with(&[(6, faulty)]), (number, 6), "{faulty:?}");
        let found = check_with(&[(1, TOO_LARGE), (6, faulty)]);
        assert_eq!(found, (3, 4), "{faulty:?}");
    }
}

#[test]
fn a_task_where_a_vertex_or_an_edge_must_come() {
    for line in 2..=6 {
        for frame in ["0401000001\n", "0401000000\n", "04ffffffff\n", "04\n"] {
            assert_eq!(check_with(&[(line, frame)]), (2, line), "{frame:?}");
        }
    }
}

#[test]
fn a_masked_task_behind_a_whole_one() {
    let whole: String = LINES[..6].concat();
    for (behind, expected) in [
        ("0401000001\n0200010001\n00\n", (0, 0)),
        ("0401000000\n", (3, 7)),
        ("0401000001\n", (6, 8)),
        ("0401000002\n0200010001\n", (3, 8)),
        ("04010001\n", (2, 7)),
        ("0401000001", (1, 7)),
    ] {
        let text = whole.clone() + behind;
        assert_eq!(check(text.as_bytes()), expected, "{behind:?}");
    }
}
