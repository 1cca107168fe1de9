//! The cases that the judge is checked with, and their lines.

use crate::common::{answered_lines, cases_of, r1, r5, run, text};
use second::case::{Case, HEADER_BYTES, TABLE, VERTEX};
use second::sequence::MOST_BYTES;
use std::process::Command;

/// The sequence of cases.
fn sequence() -> Vec<u8> {
    let generator = Command::new(env!("CARGO_BIN_EXE_cases_for_judge")).output();
    generator.unwrap().stdout
}

/// The vertices to judge.
fn vertices() -> Vec<Case> {
    let mut cases = cases_of(&sequence());
    cases.retain(|case| case.mode == VERTEX);
    cases
}

/// A verdict's line: its three numbers, the zeroed work cells, and the witness cells; all else is unchanged.
fn line(verdict: (u8, u32, u32), zeroed: u32, witness: &[u16]) -> String {
    let (kind, value, place) = verdict;
    let written = witness.len();
    let cells: String = witness.iter().map(|cell| format!("{cell:04x}")).collect();
    format!("{kind:02x}{value:08x}{place:08x}{zeroed:08x}01{written:08x}01{cells}\n")
}

/// The line of meets with this count.
fn meets(count: u32, zeroed: u32) -> String {
    line((0, count, 0), zeroed, &[])
}

/// The line of misses with this count and these witness cells.
fn misses(count: u32, zeroed: u32, witness: &[u16]) -> String {
    line((1, count, witness.len() as u32), zeroed, witness)
}

/// The line of unfinished with this budget.
fn unfinished(budget: u32, zeroed: u32) -> String {
    line((2, budget, 0), zeroed, &[])
}

/// The line of a refusal's number and place.
fn refused(number: u32, place: u32) -> String {
    line((3, number, place), 0, &[])
}

/// The lines of R1 to R11, by the document's numbers; work cells are d x the sum of (2 x paths - 1).
fn bench() -> Vec<String> {
    let mut lines = vec![
        // R1: the third task's witness is (0,0) of the first task and (0) of the second.
        meets(1, 0),
        meets(1, 7),
        misses(1, 6 * (1 + 1), &[2, 0, 0, 1, 0]),
        // R2
        meets(1, 6 * (1 + 1)),
        // R3, below it a vertex that misses: horizon 5 has path (0), horizon 6 has (0,0).
        misses(1, 5, &[1, 0]),
        misses(1, 6, &[2, 0, 0]),
        // R4, with cells to spare and with none
        refused(13, 2),
        refused(13, 2),
        // R5, R6
        meets(1, 5 * 3),
        misses(3, 4 * 3, &[1, 1]),
        // R7
        meets(5, 25),
        // R8
        unfinished(0, 25),
        unfinished(4, 25),
        meets(5, 25),
        meets(5, 25),
    ];
    // R9: 24, 25 and 26 work cells, each with 5, 6 and 7 witness cells.
    lines.extend([refused(10, 25), refused(10, 25), refused(10, 25)]);
    lines.extend([refused(11, 6), meets(5, 25), meets(5, 25)]);
    lines.extend([refused(11, 6), meets(5, 25), meets(5, 25)]);
    // R10, each with cells to spare and with none. At tick 2 the top group has 1 + 1; e 20 overloads with every path, so that
    // 64, 32, 16, 8, 4, 2 and 1 of them are examined. A fifth vertex at horizon 20 makes 4 x 4 + 1 paths.
    lines.extend([meets(1, 21 * 127), refused(10, 21 * 127)]);
    lines.extend([misses(7, 21 * 127, &[3, 0, 0, 0]), refused(10, 21 * 127)]);
    lines.extend([refused(9, 0), refused(9, 0)]);
    lines.extend([refused(9, 0), refused(9, 0)]);
    lines.extend([meets(1, 20 * 33), refused(10, 20 * 33)]);
    // R11
    lines.extend([refused(6, 1), refused(2, 1), refused(1, 1)]);
    lines
}

/// The lines of the tables with masked lengths, which come next.
fn masked() -> Vec<String> {
    let above = [1, 0, 2, 0, 0, 1, 0];
    let mut lines = vec![
        // R2 above a masked tick and without it, then below one and without it.
        misses(1, 12, &[2, 0, 0, 1, 0]),
        meets(1, 12),
        misses(1, 18, &above),
        misses(1, 18, &above),
        // Nothing above: 1 + 2, 3 + 2, 4 + 2 and 5 + 2 by tick 5; 1 + 999, 1 + 1,000 and 1,000 + 1,000 by tick 1,000.
        meets(1, 0),
        meets(1, 0),
        misses(1, 0, &[]),
        misses(1, 0, &[]),
        meets(1, 0),
        misses(1, 0, &[]),
        misses(1, 0, &[]),
    ];
    // Eight tasks of one path, each of which masks all its e: at most 21 by tick 50.
    lines.extend((0..8).map(|higher| meets(1, 50 * higher)));
    // R5 and R6 with one of the judged 2 ticks masked; and 4 + 2 by tick 5, which every path overloads.
    lines.extend([unfinished(0, 15), meets(1, 15)]);
    lines.extend([unfinished(2, 12), misses(3, 12, &[1, 1])]);
    lines.extend([unfinished(1, 15), misses(2, 15, &[1, 0])]);
    // All paths together have 5 from tick 5 on: free at tick 2 + 5 and 4 + 5, and with 5 + 5 not by tick 9, nor is (1,2).
    lines.extend([unfinished(0, 45), meets(1, 45)]);
    lines.extend([unfinished(0, 45), meets(1, 45)]);
    lines.extend([unfinished(3, 45), misses(4, 45, &[2, 1, 2])]);
    // Every group: 2 x 3 x 2^4 - 1.
    lines.extend([unfinished(94, 170), meets(95, 170)]);
    lines
}

#[test]
fn the_bench_and_masked_lengths_by_the_documents_numbers() {
    let found = answered_lines(&sequence());
    let lines: Vec<_> = found.split_inclusive('\n').collect();
    let expected = [bench(), masked()].concat();
    assert_eq!(lines[..expected.len()], expected);
}

/// A whole table's line: its four counts and the zeroed work cells; all else is unchanged.
fn counted(counts: [u8; 4], zeroed: u32) -> String {
    let [meets, misses, unfinished, refused] = counts;
    format!("1f{meets:02x}{misses:02x}{unfinished:02x}{refused:02x}{zeroed:08x}01\n")
}

#[test]
fn the_whole_table_by_the_documents_numbers() {
    let lines: Vec<_> = vertices().iter().map(Case::tabled).collect();
    // R1, R2: the third task needs most.
    assert_eq!(lines[2], counted([2, 1, 0, 0], 12));
    assert_eq!(lines[3], counted([3, 0, 0, 0], 12));
    // R4 is refused as a whole.
    let r4 = "1e0d00020000000001\n";
    assert_eq!(lines[6..8], [r4, r4]);
    // R7, R8: the three vertices above need no cells and one group each.
    assert_eq!(lines[10], counted([4, 0, 0, 0], 25));
    assert_eq!(lines[11], counted([0, 0, 4, 0], 25));
    assert_eq!(lines[12], counted([3, 0, 1, 0], 25));
    assert_eq!(lines[13], counted([4, 0, 0, 0], 25));
    // R9: with 24 cells the last vertex is refused, and no other needs any; no witness area is lent.
    assert_eq!(lines[15], counted([3, 0, 0, 1], 0));
    assert_eq!(lines[18], counted([4, 0, 0, 0], 25));
    // R11
    let refused = [
        "1e0600010000000001\n",
        "1e0200010000000001\n",
        "1e0100010000000001\n",
    ];
    let last = bench().len();
    assert_eq!(lines[last - 3..last], refused);
    // R2 above a masked tick and without it; the last vertex needs 300 cells and has 40.
    assert_eq!(lines[last], counted([2, 1, 0, 1], 12));
    assert_eq!(lines[last + 1], counted([3, 0, 0, 1], 12));
}

#[test]
fn a_line_for_each_case() {
    let sequence = sequence();
    let cases = cases_of(&sequence);
    let bytes: Vec<u8> = cases.iter().flat_map(Case::bytes).collect();
    assert_eq!(bytes, sequence);
    let line = |case: &Case| match case.mode {
        VERTEX => case.judged(),
        TABLE => case.tabled(),
        mode => format!("no such mode: {mode:02x}\n"),
    };
    let lines: String = cases.iter().map(line).collect();
    assert!(answered_lines(&sequence) == lines);
    assert!(lines.ends_with("no such mode: 7a\n"));
}

#[test]
fn the_whole_table_of_each_vertex() {
    let cases = cases_of(&sequence());
    for vertex in vertices() {
        let table = Case {
            budget: vertex.budget,
            work: vertex.work,
            ..Case::plain(TABLE, vertex.text)
        };
        assert_eq!(cases.iter().filter(|&case| *case == table).count(), 1);
    }
}

#[test]
fn every_verdict_and_every_refusal_is_there() {
    let lines: Vec<_> = vertices().iter().map(Case::judged).collect();
    for kind in ["00", "01", "02"] {
        let of_kind = lines.iter().filter(|line| line.starts_with(kind));
        assert!(of_kind.count() > 50);
    }
    for number in (1..=11).chain([13]) {
        let refusal = format!("03{number:08x}");
        assert!(lines.iter().any(|line| line.starts_with(&refusal)));
    }
}

#[test]
fn areas_are_within_what_the_checked_program_lends() {
    for case in cases_of(&sequence()) {
        assert!(case.work <= 8_192 && case.witness <= 7_100);
    }
    assert!(sequence().len() <= MOST_BYTES);
}

#[test]
fn a_header_high_byte_first() {
    let case = Case {
        mode: b'v',
        task: 1,
        vertex: 2,
        budget: 0x0304_0506,
        work: 0x0708,
        witness: 0x090a,
        text: text(&r5(4)).into_bytes(),
    };
    let bytes = case.bytes();
    let header = *bytes.first_chunk().unwrap();
    // The text's lines have 7, 11, 11, 7, 11 and 3 bytes.
    let numbers = [118, 0, 0, 0, 50, 1, 2, 3, 4, 5, 6, 0, 0, 7, 8, 0, 0, 9, 10];
    assert_eq!(header, numbers);
    assert_eq!(bytes[HEADER_BYTES..], case.text);
    let text = Vec::new();
    assert_eq!(Case::headed(header), Case { text, ..case });
}

#[test]
fn a_broken_sequence_of_cases() {
    let whole = Case {
        mode: VERTEX,
        task: 2,
        vertex: 0,
        budget: 1,
        work: 12,
        witness: 14,
        text: text(&r1(2)).into_bytes(),
    };
    let (line, whole) = (whole.judged(), whole.bytes());
    assert_eq!(answered_lines(&whole), line);
    for end in 1..whole.len() {
        let broken = &whole[..end];
        for sequence in [broken.to_vec(), [&whole, broken].concat()] {
            let found = run(&["cases"], &sequence);
            assert_eq!(found.status.code(), Some(1));
            assert!(!found.stderr.is_empty());
        }
    }
}
