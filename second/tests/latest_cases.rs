//! The cases that the worst finish is checked with, and their lines.

use crate::common::{answered_lines, cases_of};
use second::case::{Case, FINISH};
use std::process::Command;

/// The sequence of cases.
fn sequence() -> Vec<u8> {
    let generator = Command::new(env!("CARGO_BIN_EXE_cases_for_latest")).output();
    generator.unwrap().stdout
}

/// A line: the verdict's three numbers and the worst finish, the zeroed work cells, and the witness cells; all else is unchanged.
fn line(verdict: (u8, u32, u32), finish: u32, zeroed: u32, witness: &[u16]) -> String {
    let (kind, value, place) = verdict;
    let written = witness.len();
    let cells: String = witness.iter().map(|cell| format!("{cell:04x}")).collect();
    format!("{kind:02x}{value:08x}{place:08x}{finish:08x}{zeroed:08x}01{written:08x}01{cells}\n")
}

/// The line of meets with this worst finish, count and witness cells.
fn meets(finish: u32, count: u32, zeroed: u32, witness: &[u16]) -> String {
    line((0, count, witness.len() as u32), finish, zeroed, witness)
}

/// The line of misses with this count and these witness cells.
fn misses(count: u32, zeroed: u32, witness: &[u16]) -> String {
    line((1, count, witness.len() as u32), 0, zeroed, witness)
}

/// The line of unfinished with this budget.
fn unfinished(budget: u32, zeroed: u32) -> String {
    line((2, budget, 0), 0, zeroed, &[])
}

/// The line of a refusal's number and place.
fn refused(number: u32, place: u32) -> String {
    line((3, number, place), 0, 0, &[])
}

/// The lines of R1 to R11; `tests/latest.rs` works out the numbers.
fn bench() -> Vec<String> {
    let r7 = || meets(5, 5, 25, &[1, 2]);
    let mut lines = vec![
        // R1
        meets(2, 1, 0, &[]),
        meets(4, 1, 7, &[2, 0, 0]),
        misses(1, 12, &[2, 0, 0, 1, 0]),
        // R2
        meets(5, 1, 12, &[2, 0, 0, 1, 0]),
        // R3, below it a vertex that misses
        misses(1, 5, &[1, 0]),
        misses(1, 6, &[2, 0, 0]),
        // R4, with cells to spare and with none
        refused(13, 2),
        refused(13, 2),
        // R5, R6
        meets(5, 3, 15, &[1, 1]),
        misses(3, 12, &[1, 1]),
        // R7, R8
        r7(),
        unfinished(0, 25),
        unfinished(4, 25),
        r7(),
        r7(),
    ];
    // R9: 24, 25 and 26 work cells, each with 5, 6 and 7 witness cells.
    lines.extend([refused(10, 25), refused(10, 25), refused(10, 25)]);
    lines.extend([refused(11, 6), r7(), r7()]);
    lines.extend([refused(11, 6), r7(), r7()]);
    // R10, each with cells to spare and with none.
    let path = [3, 0, 0, 0];
    lines.extend([meets(2, 13, 21 * 127, &path), refused(10, 21 * 127)]);
    lines.extend([misses(7, 21 * 127, &path), refused(10, 21 * 127)]);
    lines.extend([refused(9, 0), refused(9, 0)]);
    lines.extend([refused(9, 0), refused(9, 0)]);
    lines.extend([meets(2, 11, 20 * 33, &[2, 0, 0]), refused(10, 20 * 33)]);
    // R11
    lines.extend([refused(6, 1), refused(2, 1), refused(1, 1)]);
    lines
}

/// The lines of the tables with masked lengths, which come next; `tests/cases.rs` says what they are.
fn masked() -> Vec<String> {
    let (r2, above) = ([2, 0, 0, 1, 0], [1, 0, 2, 0, 0, 1, 0]);
    let mut lines = vec![
        // R2
        misses(1, 12, &r2),
        meets(5, 1, 12, &r2),
        misses(1, 18, &above),
        misses(1, 18, &above),
        // Nothing above
        meets(3, 1, 0, &[]),
        meets(5, 1, 0, &[]),
        misses(1, 0, &[]),
        misses(1, 0, &[]),
        meets(1_000, 1, 0, &[]),
        misses(1, 0, &[]),
        misses(1, 0, &[]),
    ];
    // e 4, 1, 3, 2, 2, 7, 1 and 1, and as much masked: the own e, those above, and the largest below.
    let finishes = [11, 12, 15, 17, 19, 20, 21, 21];
    let eight = (0..).zip(finishes);
    lines.extend(eight.map(|(higher, finish)| {
        let paths = [1, 0].repeat(higher);
        meets(finish, 1, 50 * higher as u32, &paths)
    }));
    // R5, R6; and 4 + 2 by tick 5
    lines.extend([unfinished(2, 15), meets(5, 3, 15, &[1, 1])]);
    lines.extend([unfinished(2, 12), misses(3, 12, &[1, 1])]);
    lines.extend([unfinished(1, 15), misses(2, 15, &[1, 0])]);
    // (2) at tick 2 + 4, and (1,2) at 4 + 5; with 5 + 5 that is the witness.
    lines.extend([unfinished(4, 45), meets(6, 5, 45, &[1, 2])]);
    lines.extend([unfinished(4, 45), meets(9, 5, 45, &[2, 1, 2])]);
    lines.extend([unfinished(3, 45), misses(4, 45, &[2, 1, 2])]);
    // Every group: the last task's (0) at tick 2 + 4 + 3, (1,2) at 2 + 4 + 1, (2) at 2 + 4 + 4, and (0) with (1,2) not by tick 10.
    let latest = [1, 0, 1, 0, 1, 0, 1, 0, 1, 2];
    lines.extend([unfinished(94, 170), meets(10, 95, 170, &latest)]);
    lines
}

#[test]
fn the_bench_and_masked_lengths_by_hand() {
    let found = answered_lines(&sequence());
    let lines: Vec<_> = found.split_inclusive('\n').collect();
    let expected = [bench(), masked()].concat();
    assert_eq!(lines[..expected.len()], expected);
}

#[test]
fn a_line_for_each_case() {
    let sequence = sequence();
    let cases = cases_of(&sequence);
    assert!(cases.iter().all(|case| case.mode == FINISH));
    let bytes: Vec<u8> = cases.iter().flat_map(Case::bytes).collect();
    assert_eq!(bytes, sequence);
    let lines: String = cases.iter().map(Case::finished).collect();
    assert!(answered_lines(&sequence) == lines);
}

#[test]
fn the_same_from_run_to_run_and_not_too_long() {
    let sequence = sequence();
    assert!(sequence == self::sequence());
    assert!(sequence.len() < 200_000);
    for case in cases_of(&sequence) {
        assert!(case.work <= 8_192 && case.witness <= 7_100);
    }
}

#[test]
fn every_verdict_and_every_refusal_is_there() {
    let cases = cases_of(&sequence());
    let lines: Vec<_> = cases.iter().map(Case::finished).collect();
    for kind in ["00", "01", "02"] {
        let of_kind = lines.iter().filter(|line| line.starts_with(kind));
        assert!(of_kind.count() > 50);
    }
    for number in (1..=11).chain([13]) {
        let refusal = format!("03{number:08x}");
        assert!(lines.iter().any(|line| line.starts_with(&refusal)));
    }
}

#[test]
fn the_old_line_without_the_finish_after_a_miss_or_a_refusal() {
    for case in cases_of(&sequence()) {
        let (old, new) = (case.judged(), case.finished());
        // The verdict byte, the value and the place are before the finish, in 18 digits.
        let without = [&new[..18], &new[26..]].concat();
        if new.starts_with("03") {
            assert_eq!(old, without);
        }
        // The value of a miss, in 8 digits, is the call's own count.
        if new.starts_with("01") {
            assert!(old[..2] == without[..2] && old[10..] == without[10..]);
            assert!(old[2..10] <= without[2..10]);
        }
    }
}
