//! Slower cradles (wish 7): d up to 1,000 and p up to 60,000, read and written, at each bound and around it, by hand.

use crate::common::refused::{check, check_tasks};
use crate::common::vendors::{vendor_task, KINDS};
use crate::common::writing::{said, written_back};
use crate::common::*;
use second::table::Ticks;
use second::text::read;

/// Deadlines, each with the number that refuses it, 0 if none does.
const DEADLINES: [(u32, u8); 11] = [
    (0, 3),
    (1, 0),
    (200, 0),
    (201, 0),
    (256, 0),
    (999, 0),
    (1_000, 0),
    (1_001, 3),
    (1_024, 3),
    (60_000, 3),
    (65_535, 3),
];

/// Separations, each with the number that refuses it, 0 if none does.
const SEPARATIONS: [(u32, u8); 10] = [
    (0, 3),
    (1, 0),
    (1_000, 0),
    (1_001, 0),
    (32_768, 0),
    (59_999, 0),
    (60_000, 0),
    (60_001, 3),
    (60_161, 3),
    (65_535, 3),
];

/// What a check gives for this number at this line.
fn at(number: u8, line: usize) -> (u8, usize) {
    match number {
        0 => (0, 0),
        _ => (number, line),
    }
}

/// What the writer says of a table that is refused by this number at this line, or of so many bytes.
fn written_at(number: u8, line: usize, bytes: usize) -> Result<usize, (u8, usize)> {
    match number {
        0 => Ok(bytes),
        _ => Err((number, line)),
    }
}

/// The d of the first vertex and the p of its first edge.
fn first_numbers(text: &str) -> (Ticks, Ticks) {
    let table = read(text.as_bytes()).unwrap();
    let vertex = &table.tasks[0].vertices[0];
    (vertex.d, vertex.edges[0].p)
}

#[test]
fn d_in_a_plain_task() {
    for (d, number) in DEADLINES {
        // A task's line of 7 bytes, a vertex and an edge of 11 each, and the end of 3.
        let tasks = [self_edge(1, d, 60_000)];
        assert_eq!(check_tasks(&tasks), at(number, 2), "{d}");
        assert_eq!(said(&tasks, 100), written_at(number, 2, 32), "{d}");
        if number == 0 {
            assert_eq!(first_numbers(&text(&tasks)), (Ticks(d), Ticks(60_000)));
        }
        // The second vertex of the second task, with a masked length.
        let later = masked(1, task(&[(1, 1), (1, d)], &[]));
        let tasks = [self_edge(1, 1, 1), later];
        assert_eq!(check_tasks(&tasks), at(number, 6), "{d}");
        assert_eq!(said(&tasks, 100), written_at(number, 6, 65), "{d}");
    }
}

#[test]
fn p_in_a_plain_task() {
    for (p, number) in SEPARATIONS {
        let tasks = [self_edge(1, 1, p)];
        assert_eq!(check_tasks(&tasks), at(number, 3), "{p}");
        assert_eq!(said(&tasks, 100), written_at(number, 3, 32), "{p}");
        if number == 0 {
            assert_eq!(first_numbers(&text(&tasks)), (Ticks(1), Ticks(p)));
        }
        // The second edge of the second task.
        let later = task(&[(1, 1), (1, 1)], &[(0, 1, 60_000), (1, 0, p)]);
        let tasks = [self_edge(1, 1, 1), later];
        assert_eq!(check_tasks(&tasks), at(number, 8), "{p}");
        assert_eq!(said(&tasks, 100), written_at(number, 8, 83), "{p}");
    }
}

#[test]
fn d_and_p_in_rings_and_gear_tables() {
    for kind in KINDS {
        for place in 0..3 {
            let with = |d: u32, p: u32| {
                let mut vertices = [(1, 1, 1); 3];
                vertices[place] = (1, d, p);
                let text = vendor_task(kind, &vertices) + "00\n";
                (check(text.as_bytes()), text)
            };
            for (d, number) in DEADLINES {
                let (found, text) = with(d, 60_000);
                assert_eq!(found, at(number, 2 + place), "{d}");
                if number == 0 && place == 0 {
                    assert_eq!(first_numbers(&text), (Ticks(d), Ticks(60_000)));
                }
            }
            for (p, number) in SEPARATIONS {
                let (found, text) = with(1, p);
                assert_eq!(found, at(number, 2 + place), "{p}");
                if number == 0 && place == 0 {
                    assert_eq!(first_numbers(&text), (Ticks(1), Ticks(p)));
                }
            }
        }
    }
}

#[test]
fn d_against_p() {
    for (d, p, number) in [
        (1_000, 1_000, 0),
        (1_000, 999, 4),
        (999, 999, 0),
        (201, 200, 4),
        (201, 201, 0),
        (1_000, 60_000, 0),
        // 3 comes first.
        (1_001, 1_000, 3),
        (1_001, 1_001, 3),
        (1_000, 60_001, 3),
    ] {
        // d is in line 2 and p in line 3, and a ring has both in line 2.
        let line = if d > 1_000 { 2 } else { 3 };
        let tasks = [self_edge(1, d, p)];
        assert_eq!(check_tasks(&tasks), at(number, line), "{d} {p}");
        assert_eq!(said(&tasks, 100), written_at(number, line, 32), "{d} {p}");
        for kind in KINDS {
            let text = vendor_task(kind, &[(1, d, p)]) + "00\n";
            assert_eq!(check(text.as_bytes()), at(number, 2), "{d} {p}");
        }
    }
}

#[test]
fn a_foreign_byte_in_each_digit() {
    // d is 03e8 and p is ea60: four digits of each, in a vertex's and an edge's line and in a ring's.
    let texts = [
        ("010101\n02000103e8\n03000003e8\n00\n", 13, 2),
        ("010101\n02000103e8\n030000ea60\n00\n", 24, 3),
        ("0501\n06000103e8ea60\n00\n", 11, 2),
        ("0701\n06000103e8ea60\n00\n", 15, 2),
    ];
    for (text, first, line) in texts {
        assert_eq!(check(text.as_bytes()), (0, 0), "{text:?}");
        for digit in first..first + 4 {
            for foreign in [b'g', b'E', b'A', b' ', b'G', b'/', b':', 0x80, 0xe9, 0xff] {
                let mut bytes = text.as_bytes().to_vec();
                bytes[digit] = foreign;
                assert_eq!(check(&bytes), (1, line), "{text:?} {digit} {foreign}");
            }
        }
    }
    // Upper case throughout, and one digit more or less.
    for line in ["030000EA60\n", "030000ea6\n", "030000ea600\n"] {
        let text = format!("010101\n02000103e8\n{line}00\n");
        assert_eq!(check(text.as_bytes()), (1, 3), "{line:?}");
    }
}

#[test]
fn e_and_m_keep_their_bounds() {
    // e = d = 1,000, and m as long.
    let longest = masked(1_000, self_edge(1_000, 1_000, 1_000));
    assert_eq!(check_tasks(std::slice::from_ref(&longest)), (0, 0));
    let table = read(text(std::slice::from_ref(&longest)).as_bytes()).unwrap();
    let vertex = &table.tasks[0].vertices[0];
    let numbers = (table.tasks[0].m, vertex.e, vertex.d);
    assert_eq!(numbers, (Ticks(1_000), Ticks(1_000), Ticks(1_000)));
    let bytes = "04010103e8\n0203e803e8\n03000003e8\n00\n";
    assert_eq!(text(std::slice::from_ref(&longest)), bytes);
    assert_eq!(said(std::slice::from_ref(&longest), 36), Ok(36));
    assert_eq!(written_back(bytes.as_bytes()), bytes.as_bytes());
    // One more of each, and an e longer than its d.
    let with = |m, e, d| {
        let tasks = [masked(m, task(&[(e, d)], &[]))];
        let found = check_tasks(&tasks);
        assert_eq!(said(&tasks, 100).err(), Some(found).filter(|f| f.0 > 0));
        found
    };
    assert_eq!(with(1_001, 1_000, 1_000), (3, 1));
    assert_eq!(with(1_000, 1_001, 1_000), (3, 2));
    assert_eq!(with(1_000, 1_000, 1_001), (3, 2));
    assert_eq!(with(1_000, 1_000, 999), (13, 2));
    assert_eq!(with(1_000, 999, 1_000), (3, 2));
    assert_eq!(with(999, 999, 1_000), (0, 0));
    for e in [201, 256, 257, 999] {
        assert_eq!(with(e, e, e), (0, 0));
        assert_eq!(with(e, e, 1_000), (0, 0));
        assert_eq!(with(e, e, e - 1), (13, 2));
    }
}

#[test]
fn rings_are_written_as_plain_tasks() {
    let ring = "0502\n0603e803e8ea60\n06000100c903e8\n00\n";
    let plain = "010202\n0203e803e8\n02000100c9\n030001ea60\n03010003e8\n00\n";
    assert_eq!(written_back(ring.as_bytes()), plain.as_bytes());
    let gears = ring.replace("0502", "0702");
    let plain = plain
        .replace("030001ea60", "030000ea60")
        .replace("03010003e8", "03010103e8");
    assert_eq!(written_back(gears.as_bytes()), plain.as_bytes());
}
