//! The refusals of rings and gear tables: every row with its line, at each bound and one past it.

use crate::common::refused::{check, check_lines};
use crate::common::vendors::{vendor_task, vendor_task_line, vendor_vertex_line, KINDS};
use crate::common::*;
use second::text::read;

/// The lines of a small valid text: a ring of three vertices and a gear table of two.
const LINES: [&str; 8] = [
    "0503\n",
    "06000200050007\n",
    "06000100060006\n",
    "06000300040009\n",
    "0702\n",
    "06000100040004\n",
    "06000200050008\n",
    "00\n",
];

/// The lines of the vertices, from 1.
const VERTEX_LINES: [usize; 5] = [2, 3, 4, 6, 7];

/// The valid lines with some of them, from 1, replaced.
fn check_with(replacements: &[(usize, &str)]) -> (u8, usize) {
    let mut lines = LINES;
    for &(line, replacement) in replacements {
        lines[line - 1] = replacement;
    }
    check_lines(&lines)
}

/// The valid lines with this vertex (e, d, p) at each place in turn: its row, 0 for a readable text, at its line.
fn check_vertex(e: u32, d: u32, p: u32, row: u8) {
    for line in VERTEX_LINES {
        let found = check_with(&[(line, &vendor_vertex_line(e, d, p))]);
        let expected = if row == 0 { (0, 0) } else { (row, line) };
        assert_eq!(found, expected, "({e}, {d}, {p})");
    }
}

#[test]
fn a_valid_text_is_readable() {
    assert_eq!(check_lines(&LINES), (0, 0));
}

#[test]
fn row_1_faulty_lines() {
    for (line, good) in (1..).zip(LINES) {
        let digits = good.trim_end();
        let faulty = [
            "\n".to_string(),
            format!("{digits}0\n"),
            format!("{}\n", &digits[1..]),
            format!("{digits}\r\n"),
            format!(" {digits}\n"),
            format!("{digits}0A\n"),
            format!("{digits}0g\n"),
            format!("{digits}\0\0\n"),
            digits.replace('0', "O") + "\n",
        ];
        for replacement in faulty {
            let found = check_with(&[(line, &replacement)]);
            assert_eq!(found, (1, line), "{replacement:?}");
        }
    }
}

#[test]
fn cut_off_at_every_byte() {
    let whole = LINES.concat();
    let mut line = 1;
    for (end, byte) in whole.bytes().enumerate() {
        let at_line_feed = end == 0 || whole.as_bytes()[end - 1] == b'\n';
        // After a line feed it is row 6, in the middle of a ring too.
        let row = if at_line_feed { 6 } else { 1 };
        assert_eq!(check(&whole.as_bytes()[..end]), (row, line));
        line += usize::from(byte == b'\n');
    }
}

#[test]
fn row_2_what_stands_inside() {
    for line in VERTEX_LINES {
        for frame in [
            "00\n",
            "010100\n",
            "010101\n",
            "0200020005\n",
            "0300000007\n",
            "0300010007\n",
            "0401000001\n",
            "0501\n",
            "0701\n",
            "08000200050007\n",
            "16000200050007\n",
            "ff\n",
        ] {
            assert_eq!(check_with(&[(line, frame)]), (2, line), "{frame:?}");
        }
    }
}

#[test]
fn row_2_a_vertex_with_a_separation_anywhere_else() {
    let vertex = "06000200050007\n";
    assert_eq!(check(vertex.as_bytes()), (2, 1));
    // In the place of a task frame or of the end.
    for line in [1, 5, 8] {
        assert_eq!(check_with(&[(line, vertex)]), (2, line));
    }
    // In a plain task: for its vertex, for its edge, and behind it; with a masked length, too.
    for first in ["010101\n", "0401010002\n"] {
        let lines = [first, "0200020005\n", "0300000005\n", "00\n"];
        assert_eq!(check_lines(&lines), (0, 0));
        for line in 1..=4 {
            let mut lines = lines;
            lines[line - 1] = vertex;
            assert_eq!(check_lines(&lines), (2, line));
        }
    }
}

#[test]
fn row_2_what_stands_behind() {
    // The ring's three vertices are read: then comes a task or the end.
    for frame in [
        "0200020005\n",
        "0300000007\n",
        "0300010007\n",
        "06000100040004\n",
    ] {
        for kind in KINDS {
            let lines = [vendor_task(kind, &[(2, 5, 7); 3]), frame.into()].concat();
            assert_eq!(check(lines.as_bytes()), (2, 5), "{frame:?}");
        }
    }
    for next in [
        "00\n",
        "010100\n0200010001\n00\n",
        "0401000001\n0200010001\n00\n",
    ] {
        assert_eq!(check_lines(&[&LINES[..4], &[next]].concat()), (0, 0));
    }
}

#[test]
fn row_2_wrong_lengths() {
    for line in [1, 5] {
        for frame in [
            "05\n",
            "050300\n",
            "050303\n",
            "05030000\n",
            "0503000002\n",
            "07\n",
            "070200\n",
            "070202\n",
            "07020000\n",
            "06\n",
            "0603\n",
        ] {
            assert_eq!(check_with(&[(line, frame)]), (2, line), "{frame:?}");
        }
    }
    for line in VERTEX_LINES {
        for frame in [
            "06\n",
            "0603\n",
            "0600020005\n",
            "060002000500\n",
            "0600020005000700\n",
            "060002000500070007\n",
        ] {
            assert_eq!(check_with(&[(line, frame)]), (2, line), "{frame:?}");
        }
        let long = "06".repeat(4_000) + "\n";
        assert_eq!(check_with(&[(line, &long)]), (2, line));
    }
}

#[test]
fn row_2_comes_before_row_3() {
    for (line, frame) in [
        (1, "050000\n"),
        (1, "07ff00\n"),
        (2, "0600000000\n"),
        (2, "0600000000000000\n"),
        (6, "02ffffffff\n"),
        (6, "05ff\n"),
    ] {
        assert_eq!(check_with(&[(line, frame)]), (2, line), "{frame:?}");
    }
}

#[test]
fn row_3_the_count() {
    let vertex = vendor_vertex_line(1, 1, 1);
    let before = "010100\n0200010001\n";
    for kind in KINDS {
        for (count, good) in [
            (0, false),
            (1, true),
            (2, true),
            (12, true),
            (13, false),
            (32, false),
            (255, false),
        ] {
            let lines = vendor_task_line(kind, count) + &vertex.repeat(count) + "00\n";
            let expected = |line| if good { (0, 0) } else { (3, line) };
            assert_eq!(check(lines.as_bytes()), expected(1), "{kind} {count}");
            let behind = before.to_string() + &lines;
            assert_eq!(check(behind.as_bytes()), expected(3), "{kind} {count}");
        }
        // Whatever comes behind the line.
        for count in [0, 13] {
            for next in ["", "zz\n", "00\n"] {
                let lines = vendor_task_line(kind, count) + next;
                assert_eq!(check(lines.as_bytes()), (3, 1));
            }
        }
    }
}

#[test]
fn the_count_and_the_lines_that_follow() {
    for kind in KINDS {
        for count in 1..=12 {
            let lines =
                |there| vendor_task_line(kind, count) + &vendor_vertex_line(1, 1, 1).repeat(there);
            // Too few, and then the end frame, a task, or nothing.
            let few = lines(count - 1);
            for next in ["00\n", "010100\n", "0501\n"] {
                let text = few.clone() + next;
                assert_eq!(check(text.as_bytes()), (2, count + 1), "{next:?}");
            }
            assert_eq!(check(few.as_bytes()), (6, count + 1));
            // Just enough, and one too many.
            assert_eq!(check(lines(count).as_bytes()), (6, count + 2));
            assert_eq!(check(lines(count + 1).as_bytes()), (2, count + 2));
        }
    }
}

#[test]
fn row_3_e_d_and_p() {
    // 1,000 is within its bounds, though longer than its d.
    for (e, row) in [(0, 3), (1, 0), (5, 0), (1_000, 13), (1_001, 3), (65_535, 3)] {
        check_vertex(e, 5, 7, row);
    }
    for (d, row) in [(0, 3), (1, 0), (1_000, 0), (1_001, 3), (65_535, 3)] {
        check_vertex(1, d, 60_000, row);
    }
    for (p, row) in [(0, 3), (1, 0), (60_000, 0), (60_001, 3), (65_535, 3)] {
        check_vertex(1, 1, p, row);
    }
}

#[test]
fn row_4_d_exceeds_p() {
    for (d, p, row) in [
        (7, 7, 0),
        (8, 7, 4),
        (1, 1, 0),
        (2, 1, 4),
        (1_000, 1_000, 0),
        (1_000, 999, 4),
        (1_000, 1, 4),
        (1_000, 60_000, 0),
    ] {
        check_vertex(1, d, p, row);
    }
}

#[test]
fn row_4_by_its_own_p() {
    // d 9 with p 5 before p 20: not the next one's, and in the last not the first one's.
    for kind in KINDS {
        for (faulty, line) in [(0, 2), (1, 3), (2, 4)] {
            let mut vertices = [(1, 1, 20); 3];
            vertices[faulty] = (1, 9, 5);
            let text = vendor_task(kind, &vertices) + "00\n";
            assert_eq!(check(text.as_bytes()), (4, line));
            // All others have the short p, and this one its own long one.
            let mut vertices = [(1, 5, 5); 3];
            vertices[faulty] = (1, 9, 20);
            let text = vendor_task(kind, &vertices) + "00\n";
            assert_eq!(check(text.as_bytes()), (0, 0));
        }
    }
}

#[test]
fn row_3_comes_before_row_4() {
    for (e, d, p) in [
        (0, 8, 7),
        (1_001, 8, 7),
        (1, 1_001, 1_000),
        (1, 1_001, 7),
        (1, 8, 0),
        (1, 65_535, 60_000),
        (0, 0, 0),
        (0, 1_001, 0),
    ] {
        check_vertex(e, d, p, 3);
    }
}

#[test]
fn the_first_faulty_line_decides() {
    let [bad_digit, bad_kind] = ["zz\n", "0200010005\n"];
    let [bad_number, bad_deadline] = ["06000000050005\n", "06000100050004\n"];
    let rows = [
        (bad_digit, 1),
        (bad_kind, 2),
        (bad_number, 3),
        (bad_deadline, 4),
        ("06000600050005\n", 13),
    ];
    for (first, row) in rows {
        for (second, _) in rows {
            assert_eq!(check_with(&[(2, first), (3, second)]), (row, 2));
            assert_eq!(check_with(&[(4, first), (6, second)]), (row, 4));
        }
        assert_eq!(check_with(&[(5, "0700\n"), (6, first)]), (3, 5));
    }
}

#[test]
fn row_2_the_ninth_task() {
    let [ring, gears] = KINDS.map(|kind| vendor_task(kind, &[(1, 1, 1)]));
    let plain = "010100\n0200010001\n";
    let masked = "0401000001\n0200010001\n";
    // Each of the eight has two lines.
    for eight in [
        ring.repeat(8),
        gears.repeat(8),
        plain.repeat(8),
        [&ring, plain, &gears, masked].concat().repeat(2),
        plain.repeat(7) + &gears,
    ] {
        assert_eq!(check((eight.clone() + "00\n").as_bytes()), (0, 0));
        for ninth in [&ring, &gears, plain, masked] {
            let nine = eight.clone() + ninth + "00\n";
            assert_eq!(check(nine.as_bytes()), (2, 17));
        }
        // Whatever its length and its numbers.
        for ninth in [
            "0500\n",
            "07ff\n",
            "05\n",
            "07\n",
            "050100\n",
            "06000100010001\n",
        ] {
            let nine = eight.clone() + ninth;
            assert_eq!(check(nine.as_bytes()), (2, 17), "{ninth:?}");
        }
        assert_eq!(check((eight.clone() + "05g1\n").as_bytes()), (1, 17));
        assert_eq!(check((eight + "0501").as_bytes()), (1, 17));
    }
}

#[test]
fn row_6_no_end_frame() {
    for read in 0..LINES.len() {
        assert_eq!(check_lines(&LINES[..read]), (6, read + 1));
    }
}

#[test]
fn row_7_bytes_after_the_end() {
    for more in ["\n", "\0", "0", "00\n", "0501\n", "06000100010001\n", " "] {
        let text = LINES.concat() + more;
        assert_eq!(check(text.as_bytes()), (7, 9), "{more:?}");
    }
}

#[test]
fn a_masked_task_before_or_behind() {
    // m is compared with its own task's e alone, and no e of a ring or a gear table lets it pass.
    for (m, row) in [(2, (0, 0)), (3, (3, 6))] {
        let masked = masked_task_line(1, 0, m) + &vertex_line(2, 9);
        let lines = [LINES[..4].concat(), masked, LINES[4..].concat()].concat();
        assert_eq!(check(lines.as_bytes()), row);
    }
    let lines = ["0401000002\n0200020009\n", &LINES.concat()].concat();
    let table = read(lines.as_bytes()).unwrap();
    let lengths: Vec<_> = table.tasks.iter().map(|task| task.m.0).collect();
    assert_eq!(lengths, [2, 0, 0]);
}
