//! The refusal sheet: every row with its place, at each bound and one past it.

use crate::common::refused::{check, check_lines, check_tasks};
use crate::common::*;
use second::desk;
use second::text;

/// The lines of a small valid text: two vertices, two edges.
const LINES: [&str; 6] = [
    "010202\n",
    "0200020005\n",
    "0200010006\n",
    "0300010005\n",
    "0301000006\n",
    "00\n",
];

/// The valid lines with one of them, from 1, replaced.
fn check_with(line: usize, replacement: &str) -> (u8, usize) {
    let mut lines = LINES;
    lines[line - 1] = replacement;
    check_lines(&lines)
}

#[test]
fn a_valid_text_is_readable() {
    assert_eq!(check_lines(&LINES), (0, 0));
}

#[test]
fn row_1_faulty_lines() {
    for (line, good) in (1..).zip(LINES) {
        let digits = good.trim_end();
        let faulty = [
            "\n".to_string(),
            format!("{digits}0\n"),
            format!("{}\n", &digits[1..]),
            format!("{digits}\r\n"),
            format!("{digits} \n"),
            format!(" {digits}\n"),
            format!("{digits}0A\n"),
            format!("{digits}0g\n"),
            format!("{digits}0/\n"),
            format!("{digits}0:\n"),
            format!("{digits}0`\n"),
            format!("{digits}\0\0\n"),
            format!("{digits}é\n"),
        ];
        for replacement in faulty {
            assert_eq!(check_with(line, &replacement), (1, line), "{replacement:?}");
        }
    }
}

#[test]
fn row_1_no_line_feed() {
    let whole = LINES.concat();
    let mut line = 1;
    for (end, byte) in whole.bytes().enumerate() {
        // What ends with a line feed, and the empty text, is row 6.
        if end > 0 && whole.as_bytes()[end - 1] != b'\n' {
            assert_eq!(check(&whole.as_bytes()[..end]), (1, line));
        }
        line += usize::from(byte == b'\n');
    }
    assert_eq!(check(b"zz"), (1, 1));
    assert_eq!(check(b"\n"), (1, 1));
    assert_eq!(check(b"\xef\xbb\xbf010101\n"), (1, 1));
    assert_eq!(check(&[b'0'; 20_000]), (1, 1));
}

#[test]
fn row_1_comes_before_row_2() {
    assert_eq!(check_with(2, "ff000\n"), (1, 2));
    assert_eq!(check_with(2, "0000zz\n"), (1, 2));
    assert_eq!(check(b"09"), (1, 1));
}

#[test]
fn row_2_kinds_not_allowed_here() {
    for line in 1..=6 {
        let allowed: &[&str] = match line {
            1 => &["01", "04"],
            2 | 3 => &["02"],
            4 | 5 => &["03"],
            // A task may begin where the end may stand.
            _ => &["00", "01", "04"],
        };
        for frame in [
            "00\n",
            "010101\n",
            "0200010005\n",
            "0300000006\n",
            "0401010001\n",
        ] {
            if !allowed.contains(&&frame[..2]) {
                assert_eq!(check_with(line, frame), (2, line), "{frame:?}");
            }
        }
        for frame in [
            "05\n",
            "0500010005\n",
            "08\n",
            "10\n",
            "1f00000000\n",
            "ff\n",
        ] {
            assert_eq!(check_with(line, frame), (2, line), "{frame:?}");
        }
    }
}

#[test]
fn row_2_wrong_lengths() {
    let wrong = [
        (1, "01\n"),
        (1, "0102\n"),
        (1, "01020200\n"),
        (1, "04\n"),
        (1, "040202\n"),
        (1, "04020201\n"),
        (1, "040202000100\n"),
        (2, "02\n"),
        (2, "02000200\n"),
        (2, "020002000500\n"),
        (4, "03\n"),
        (4, "03000100\n"),
        (4, "030001000500\n"),
        (6, "0000\n"),
    ];
    for (line, frame) in wrong {
        assert_eq!(check_with(line, frame), (2, line), "{frame:?}");
    }
    let long = "02".repeat(4_000) + "\n";
    assert_eq!(check_with(2, &long), (2, 2));
}

#[test]
fn row_2_comes_before_row_3() {
    assert_eq!(check_with(1, "01000000\n"), (2, 1));
    assert_eq!(check_with(1, "04000000\n"), (2, 1));
    assert_eq!(check_with(1, "040000000000\n"), (2, 1));
    assert_eq!(check_with(2, "02000000\n"), (2, 2));
}

#[test]
fn row_2_the_ninth_task() {
    let plain = task(&[(1, 1)], &[]);
    let eight_of = |one: &Task| vec![one.clone(); 8];
    for eight in [eight_of(&plain), eight_of(&masked(1, plain.clone()))] {
        assert_eq!(check_tasks(&eight), (0, 0));
        for ninth in ["010100\n", "01\n", "010000\n", "01ffff\n"] {
            let nine = open_text(&eight) + ninth;
            assert_eq!(check(nine.as_bytes()), (2, 17), "{ninth:?}");
        }
        for ninth in ["0401000001\n", "04\n", "0400000000\n", "04ffffffff\n"] {
            let nine = open_text(&eight) + ninth;
            assert_eq!(check(nine.as_bytes()), (2, 17), "{ninth:?}");
        }
        for ninth in [&plain, &masked(1, plain.clone())] {
            let nine = [&eight[..], std::slice::from_ref(ninth)].concat();
            assert_eq!(check_tasks(&nine), (2, 17));
        }
    }
}

#[test]
fn row_2_an_end_before_any_task() {
    assert_eq!(check(b"00\n"), (2, 1));
    assert_eq!(check(b"00\n00\n"), (2, 1));
}

#[test]
fn row_3_the_number_of_vertices() {
    let vertices = |n| check_tasks(&[task(&vec![(1, 1); n], &[])]);
    assert_eq!(vertices(0), (3, 1));
    assert_eq!(vertices(1), (0, 0));
    assert_eq!(vertices(12), (0, 0));
    assert_eq!(vertices(13), (3, 1));
    assert_eq!(check(b"01ff00\n"), (3, 1));
}

#[test]
fn row_3_the_number_of_edges() {
    let edges = |n| {
        let edges: Vec<_> = (0..n).map(|n| (n / 6, n % 6, 1)).collect();
        check_tasks(&[task(&[(1, 1); 6], &edges)])
    };
    assert_eq!(edges(0), (0, 0));
    assert_eq!(edges(1), (0, 0));
    assert_eq!(edges(32), (0, 0));
    assert_eq!(edges(33), (3, 1));
    assert_eq!(check(b"0106ff\n"), (3, 1));
}

#[test]
fn row_3_more_edges_announced_than_there_can_be() {
    // The fault appears at the line where it happens, not at the task's.
    let lines = ["010102\n", "0200010001\n", "0300000001\n"];
    assert_eq!(check_lines(&lines), (6, 4));
    let with = |next: &str| check_lines(&[&lines[..], &[next]].concat());
    assert_eq!(with("0300000001\n"), (5, 4));
    assert_eq!(with("0300010001\n"), (3, 4));
    assert_eq!(with("00\n"), (2, 4));
}

#[test]
fn row_3_e_and_d() {
    let vertex = |e, d| check_with(3, &vertex_line(e, d));
    for good in [(1, 6), (6, 6), (1, 1)] {
        assert_eq!(vertex(good.0, good.1), (0, 0), "{good:?}");
    }
    // e is within its bounds, though longer than its d.
    for long in [(1_000, 6), (1_000, 1)] {
        assert_eq!(vertex(long.0, long.1), (13, 3), "{long:?}");
    }
    for bad in [
        (0, 6),
        (1_001, 6),
        (65_535, 6),
        (1, 0),
        (1, 1_001),
        (1, 65_535),
    ] {
        assert_eq!(vertex(bad.0, bad.1), (3, 3), "{bad:?}");
    }
    assert_eq!(check_tasks(&[task(&[(1, 1_000)], &[])]), (0, 0));
    assert_eq!(check_tasks(&[task(&[(1, 1_001)], &[])]), (3, 2));
}

#[test]
fn row_3_edges() {
    let edge = |from, to, p| check_with(5, &edge_line(from, to, p));
    assert_eq!(edge(1, 0, 6), (0, 0));
    assert_eq!(edge(1, 1, 60_000), (0, 0));
    assert_eq!(edge(1, 1, 60_001), (3, 5));
    assert_eq!(edge(1, 1, 65_535), (3, 5));
    assert_eq!(edge(1, 1, 0), (3, 5));
    assert_eq!(edge(2, 0, 6), (3, 5));
    assert_eq!(edge(1, 2, 6), (3, 5));
    assert_eq!(edge(255, 255, 6), (3, 5));
    assert_eq!(check_tasks(&[self_edge(1, 1, 1)]), (0, 0));
    assert_eq!(check_tasks(&[self_edge(1, 1, 0)]), (3, 3));
}

#[test]
fn row_3_vertices_are_those_of_the_same_task() {
    let tasks = [task(&[(1, 1); 3], &[]), task(&[(1, 1)], &[(0, 1, 1)])];
    assert_eq!(check_tasks(&tasks), (3, 7));
}

#[test]
fn row_4_d_of_the_starting_vertex_exceeds_p() {
    assert_eq!(check_tasks(&[self_edge(1, 7, 7)]), (0, 0));
    assert_eq!(check_tasks(&[self_edge(1, 8, 7)]), (4, 3));
    assert_eq!(check_tasks(&[self_edge(1, 1_000, 1_000)]), (0, 0));
    assert_eq!(check_tasks(&[self_edge(1, 1_000, 999)]), (4, 3));
    // Only the starting vertex's d counts.
    let two = |from, to| check_tasks(&[task(&[(1, 3), (1, 9)], &[(from, to, 5)])]);
    assert_eq!(two(0, 1), (0, 0));
    assert_eq!(two(1, 0), (4, 4));
}

#[test]
fn row_5_edges_not_in_rising_order() {
    assert_eq!(check_with(5, "0300010006\n"), (5, 5));
    assert_eq!(check_with(5, "0300000006\n"), (5, 5));
    assert_eq!(check_with(4, "0301010006\n"), (5, 5));
    assert_eq!(check_with(4, "0301000006\n"), (5, 5));
    assert_eq!(check_with(4, "0300000006\n"), (0, 0));
    // The first edge of a task follows no other.
    let tasks = [
        task(&[(1, 1); 2], &[(1, 1, 1)]),
        task(&[(1, 1); 2], &[(0, 0, 1)]),
    ];
    assert_eq!(check_tasks(&tasks), (0, 0));
}

#[test]
fn rows_3_4_and_5_in_one_line() {
    // Line 4 is the edge (0, 1); vertex 0 has d 5.
    assert_eq!(check_with(5, "0300000000\n"), (3, 5));
    assert_eq!(check_with(5, "0300020004\n"), (3, 5));
    assert_eq!(check_with(5, "0300000004\n"), (4, 5));
    assert_eq!(check_with(5, "0300000005\n"), (5, 5));
}

#[test]
fn the_first_faulty_line_decides() {
    let mut lines = LINES;
    lines[4] = "zz\n";
    lines[3] = "0300010000\n";
    assert_eq!(check_lines(&lines), (3, 4));
    lines[2] = "02\n";
    assert_eq!(check_lines(&lines), (2, 3));
    lines[1] = "\n";
    assert_eq!(check_lines(&lines), (1, 2));
}

#[test]
fn row_6_the_text_ends_after_a_line_feed() {
    assert_eq!(check(b""), (6, 1));
    for read in 1..LINES.len() {
        assert_eq!(check_lines(&LINES[..read]), (6, read + 1));
    }
    let eight = open_text(&vec![task(&[(1, 1)], &[]); 8]);
    assert_eq!(check(eight.as_bytes()), (6, 17));
}

#[test]
fn row_7_bytes_after_the_end() {
    for more in [
        "\n", "\0", "0", "00", "00\n", "zz\n", "010101\n", "\r\n", " ",
    ] {
        let text = LINES.concat() + more;
        assert_eq!(check(text.as_bytes()), (7, 7), "{more:?}");
    }
    let text = [LINES.concat().as_bytes(), &[0xff; 20_000]].concat();
    assert_eq!(check(&text), (7, 7));
}

#[test]
fn the_longest_valid_text() {
    let edges: Vec<_> = (0..32).map(|n| (n / 12, n % 12, 60_000)).collect();
    // The largest task; without a masked length, its frame has two bytes less.
    let largest = task(&[(1_000, 1_000); 12], &edges);
    for (m, bytes) in [(1_000, 3_963), (1, 3_963), (0, 3_931)] {
        let mut longest = text(&vec![masked(m, largest.clone()); 8]);
        assert_eq!(longest.len(), bytes);
        assert_eq!(check(longest.as_bytes()), (0, 0));
        let table = text::read(longest.as_bytes()).unwrap();
        assert_eq!(table.numbers().count(), 96);
        longest.push('\n');
        assert_eq!(check(longest.as_bytes()), (7, 8 * 45 + 2));
    }
}

#[test]
fn row_8_no_such_task_or_vertex() {
    let text = LINES.concat();
    let verdict = |task, vertex| refusal(judged(&text, (task, vertex), 9, (0, 0)));
    assert_eq!(verdict(0, 1), None);
    assert_eq!(verdict(0, 2), Some((8, 0)));
    assert_eq!(verdict(1, 0), Some((8, 0)));
    assert_eq!(verdict(0, 65_535), Some((8, 0)));
    assert_eq!(verdict(65_535, 65_535), Some((8, 0)));
}

#[test]
fn row_9_the_lowest_numbered_task() {
    let tasks = [
        self_edge(1, 1, 1),
        r10_with_fifth(),
        r10_with_fifth(),
        task(&[(1, 21), (1, 20)], &[]),
    ];
    let verdict = |vertex| refusal(judged(&text(&tasks), (3, vertex), 9, (0, 0)));
    assert_eq!(verdict(0), Some((9, 1)));
    // At 20 a path has two vertices: 16 + 1 complete paths, and 1 for task 0.
    assert_eq!(verdict(1), Some((10, 20 * (1 + 33 + 33))));
}

#[test]
fn row_9_looks_only_at_higher_tasks() {
    let tasks = [task(&[(1, 21)], &[]), r10_with_fifth(), r10_with_fifth()];
    assert_eq!(refusal(judged(&text(&tasks), (0, 0), 9, (0, 0))), None);
}

#[test]
fn rows_8_to_11_in_order() {
    let tasks = [r10_with_fifth(), task(&[(1, 21), (1, 10)], &[])];
    let text = text(&tasks);
    let verdict = |vertex, lent| refusal(judged(&text, (1, vertex), 0, lent));
    assert_eq!(verdict(2, (0, 0)), Some((8, 0)));
    assert_eq!(verdict(0, (0, 0)), Some((9, 0)));
    // At 10 the five single vertices are the complete paths: 10 x 9 and 11 cells.
    assert_eq!(verdict(1, (0, 0)), Some((10, 90)));
    assert_eq!(verdict(1, (89, 11)), Some((10, 90)));
    assert_eq!(verdict(1, (90, 10)), Some((11, 11)));
    assert_eq!(verdict(1, (90, 0)), Some((11, 11)));
    assert_eq!(verdict(1, (90, 11)), None);
}

#[test]
fn row_12_only_from_the_program() {
    let mut input = LINES.concat().into_bytes();
    input.resize(8_191, b'\n');
    assert_eq!(check(&input), (7, 7));
    assert_eq!(desk::output(&input), "1e070007\n");
    input.push(b'\n');
    assert_eq!(check(&input), (7, 7));
    assert_eq!(desk::output(&input), "1e0c0000\n");
    assert_eq!(desk::output(&[0; 8_191]), "1e010001\n");
    assert_eq!(desk::output(&[0; 8_192]), "1e0c0000\n");
    assert_eq!(desk::output(&[0; 100_000]), "1e0c0000\n");
}
