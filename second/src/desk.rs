//! The desk program's output.

use crate::bounds::{BUDGET, INPUT_BYTES, WITNESS_CELLS, WORK_CELLS};
use crate::bounds::{COUNTS_FRAME, END_FRAME, PATH_FRAME, REFUSED_FRAME, VERDICT_FRAME};
use crate::judge::{judge_table, judge_vertex, Counts, Verdict};
use crate::refusal::{Refusal, Row};
use crate::table::{Table, TaskNo, VertexNo};
use crate::text;

/// The desk program's whole output for an input: lines of hexadecimal, one frame a line.
pub fn output(input: &[u8]) -> String {
    let mut lines = String::new();
    match read(input) {
        Ok(table) => write_table(&mut lines, &table),
        Err(refusal) => write_refusal(&mut lines, &refusal),
    }
    lines.push('\n');
    lines
}

/// The text check as a line: the frame of a refused text, the end frame for a readable one.
pub fn check(text: &[u8]) -> String {
    let mut line = String::new();
    match text::read(text) {
        Ok(_) => write_bytes(&mut line, &[END_FRAME]),
        Err(refusal) => write_refusal(&mut line, &refusal),
    }
    line.push('\n');
    line
}

/// The whole table's four counts as a frame, or the frame of a refused text; no line feed behind it.
pub fn counts(text: &[u8], budget: u32, work: &mut [u32]) -> String {
    let mut frame = String::new();
    match judge_table(text, budget, work) {
        Ok(counts) => write_counts(&mut frame, &counts),
        Err(refusal) => write_refusal(&mut frame, &refusal),
    }
    frame
}

/// Reads an input: refusal 12 before all, then as a text.
pub(crate) fn read(input: &[u8]) -> Result<Table, Refusal> {
    if input.len() > INPUT_BYTES {
        return Err(Refusal::at(Row::LongInput, 0));
    }
    text::read(input)
}

/// Writes the frame of a refused text or input.
pub(crate) fn write_refusal(lines: &mut String, refusal: &Refusal) {
    // The bounds leave a few hundred good lines before a faulty one, so 2 bytes hold its number.
    let [high, low] = (refusal.place as u16).to_be_bytes();
    write_bytes(lines, &[REFUSED_FRAME, refusal.number(), high, low]);
}

/// Writes the frames of every vertex, and last the four counts.
fn write_table(lines: &mut String, table: &Table) {
    let mut work = [0; WORK_CELLS];
    let mut witness = [0; WITNESS_CELLS];
    let mut counts = Counts::default();
    for (task, vertex) in table.numbers() {
        let verdict = judge_vertex(table, task, vertex, BUDGET, &mut work, &mut witness);
        counts.add(&verdict);
        write_verdict(lines, task, vertex, &verdict);
        if let Verdict::Misses { .. } = verdict {
            write_paths(lines, task, &witness);
        }
    }
    write_counts(lines, &counts);
}

/// Writes the frame of the four counts.
pub(crate) fn write_counts(lines: &mut String, counts: &Counts) {
    let &Counts {
        meets,
        misses,
        unfinished,
        refused,
    } = counts;
    write_bytes(lines, &[COUNTS_FRAME]);
    write_bytes(lines, &[meets, misses, unfinished, refused].map(byte));
}

/// Writes the frame of one vertex.
fn write_verdict(lines: &mut String, task: TaskNo, vertex: VertexNo, verdict: &Verdict) {
    write_bytes(lines, &[VERDICT_FRAME, byte(task.0), byte(vertex.0)]);
    write_bytes(lines, &[verdict.kind()]);
    write_bytes(lines, &verdict.value().to_be_bytes());
    lines.push('\n');
}

/// Writes one frame for each higher task of a missing vertex, from the witness area.
fn write_paths(lines: &mut String, task: TaskNo, witness: &[u16]) {
    let mut front = witness;
    for higher in 0..task.0 {
        // The frame goes on like the area: the path's length, in 2 bytes, and its vertices, in 1 byte each.
        let length = front[0];
        let (path, rest) = front[1..].split_at(usize::from(length));
        write_bytes(lines, &[PATH_FRAME, byte(higher)]);
        write_bytes(lines, &length.to_be_bytes());
        for &vertex in path {
            write_bytes(lines, &[byte(vertex)]);
        }
        lines.push('\n');
        front = rest;
    }
}

/// The byte of a number that the bounds keep below 256.
fn byte(number: u16) -> u8 {
    number as u8
}

/// Writes bytes as lower case digits.
pub(crate) fn write_bytes(lines: &mut String, bytes: &[u8]) {
    const DIGITS: [char; 16] = [
        '0', '1', '2', '3', '4', '5', '6', '7', '8', '9', 'a', 'b', 'c', 'd', 'e', 'f',
    ];
    for byte in bytes {
        lines.push(DIGITS[usize::from(byte / 16)]);
        lines.push(DIGITS[usize::from(byte % 16)]);
    }
}

/// Writes a number of cells or bytes, or a place, in 4 bytes.
pub(crate) fn write_number(lines: &mut String, number: usize) {
    // Areas and texts are no longer than 4 bytes can count.
    write_bytes(lines, &(number as u32).to_be_bytes());
}
