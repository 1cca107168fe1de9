//! Writing a table as a text (wish 4), or one of the refusals 2 to 5, 13 and 10.
//!
//! A table doesn't say which of its tasks were read from a ring or a gear table (wish 5), so that none is written as one.

use crate::bounds::{EDGE_FRAME, END_FRAME, MASKED_TASK_FRAME, TASK_FRAME, VERTEX_FRAME};
use crate::desk::write_bytes;
use crate::record::{EdgeRecord, Record, TaskRecord, VertexRecord};
use crate::refusal::{Refusal, Row};
use crate::rules::{self, Kept};
use crate::table::{Ticks, VertexNo};

/// Writes a table's text to the front of an area: how many bytes were written, or a refusal, which changes nothing.
pub fn write(table: &Record, area: &mut [u8]) -> Result<usize, Refusal> {
    let text = text_of(table)?;
    let Some(front) = area.get_mut(..text.len()) else {
        return Err(Refusal::at(Row::WorkArea, text.len()));
    };
    front.copy_from_slice(text.as_bytes());
    Ok(text.len())
}

/// The text of a table, or the refusal of the first line that would break a rule.
pub fn text_of(table: &Record) -> Result<String, Refusal> {
    let mut lines = Lines::default();
    for (number, task) in table.tasks.iter().enumerate() {
        lines.keep(rules::another_task(number))?;
        write_task(&mut lines, task)?;
    }
    lines.keep(rules::end(table.tasks.len()))?;
    lines.write(&[&[END_FRAME]]);
    Ok(lines.text)
}

/// Writes a task's lines: its frame, its vertices, its edges.
fn write_task(lines: &mut Lines, task: &TaskRecord) -> Result<(), Refusal> {
    write_task_frame(lines, task)?;
    // A task's vertices are at least one, so that a line is the last one's.
    let last = task.vertices.len() - 1;
    for (number, &vertex) in task.vertices.iter().enumerate() {
        lines.keep(rules::vertex(vertex))?;
        if number == last {
            let e = task.vertices.iter().map(|vertex| vertex.e);
            lines.keep(rules::largest_e(task.m, e))?;
        }
        let VertexRecord { e, d } = vertex;
        lines.write(&[&[VERTEX_FRAME], &two_bytes(e), &two_bytes(d)]);
    }
    let d = |number: VertexNo| Some(task.vertices.get(usize::from(number.0))?.d);
    let mut before = None;
    for &edge in &task.edges {
        lines.keep(rules::edge(edge, before, d))?;
        let EdgeRecord { from, to, p } = edge;
        lines.write(&[&[EDGE_FRAME, byte(from), byte(to)], &two_bytes(p)]);
        before = Some(edge);
    }
    Ok(())
}

/// Writes a task's own line, by its m with the frame that has it or the one that means 0.
fn write_task_frame(lines: &mut Lines, task: &TaskRecord) -> Result<(), Refusal> {
    let [vertices, edges] = [task.vertices.len(), task.edges.len()];
    lines.keep(rules::counts(vertices, edges))?;
    // The rule keeps both below 256.
    let counts = [vertices as u8, edges as u8];
    if task.m == Ticks(0) {
        lines.write(&[&[TASK_FRAME], &counts]);
        return Ok(());
    }
    lines.keep(rules::masked_length(task.m))?;
    lines.write(&[&[MASKED_TASK_FRAME], &counts, &two_bytes(task.m)]);
    Ok(())
}

/// The byte of a vertex number that the rules keep below 256.
fn byte(number: VertexNo) -> u8 {
    number.0 as u8
}

/// The bytes of ticks that the rules keep below 65,536.
fn two_bytes(ticks: Ticks) -> [u8; 2] {
    (ticks.0 as u16).to_be_bytes()
}

/// The lines of a text, written from the first.
#[derive(Default)]
struct Lines {
    /// What is written so far.
    text: String,
    /// How many lines that is.
    written: usize,
}

impl Lines {
    /// Goes on if the line to be written keeps a rule, and else refuses it.
    fn keep(&self, kept: Kept) -> Result<(), Refusal> {
        kept.map_err(|row| Refusal::at(row, self.written + 1))
    }

    /// Writes the next line: the frame of these bytes.
    fn write(&mut self, frame: &[&[u8]]) {
        for bytes in frame {
            write_bytes(&mut self.text, bytes);
        }
        self.text.push('\n');
        self.written += 1;
    }
}
