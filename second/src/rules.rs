//! The rules of a table's lines, rows 2 to 5 and 13 of the refusal sheet, which hold for a text that is read and for a table that is written.

use crate::bounds::{D, E, EDGES, M, P, TASKS, VERTICES};
use crate::record::{EdgeRecord, VertexRecord};
use crate::refusal::Row;
use crate::table::{Ticks, VertexNo};
use std::ops::RangeInclusive;

/// Nothing if a line keeps a rule, else the row that refuses it.
pub(crate) type Kept = Result<(), Row>;

/// A task's line, of a table with so many tasks before it.
pub(crate) fn another_task(before: usize) -> Kept {
    keeps(before < TASKS, Row::Frame)
}

/// The end's line, of a table with so many tasks.
pub(crate) fn end(tasks: usize) -> Kept {
    keeps(tasks > 0, Row::Frame)
}

/// A task's line: how many vertices and edges there are.
pub(crate) fn counts(vertices: usize, edges: usize) -> Kept {
    keeps(
        is_within(vertices, &VERTICES) && is_within(edges, &EDGES),
        Row::Number,
    )
}

/// A masked task's line: its m.
pub(crate) fn masked_length(m: Ticks) -> Kept {
    keeps(are_within(m, &M), Row::Number)
}

/// A vertex's line: its numbers, then its e against its d.
pub(crate) fn vertex(vertex: VertexRecord) -> Kept {
    vertex_numbers(vertex)?;
    own_deadline(vertex)
}

/// The line of a vertex with a separation: its numbers, then its e against its d, then its d against its p.
pub(crate) fn vendor_vertex(vertex: VertexRecord, p: Ticks) -> Kept {
    vertex_numbers(vertex)?;
    separation(p)?;
    own_deadline(vertex)?;
    start_deadline(vertex.d, p)
}

/// The bounds of a vertex's e and d.
fn vertex_numbers(vertex: VertexRecord) -> Kept {
    keeps(
        are_within(vertex.e, &E) && are_within(vertex.d, &D),
        Row::Number,
    )
}

/// "A job longer than its own deadline is a typing slip" (wish 6): e doesn't exceed d. "Masked time isn't counted here."
fn own_deadline(vertex: VertexRecord) -> Kept {
    keeps(vertex.e <= vertex.d, Row::LongJob)
}

/// The last vertex's line, after its own rules: m doesn't exceed the largest e of its task.
pub(crate) fn largest_e(m: Ticks, mut e: impl Iterator<Item = Ticks>) -> Kept {
    keeps(e.any(|e| e >= m), Row::Number)
}

/// An edge's line: its numbers, then d of its starting vertex, then its place behind the edge before it; d is none of a vertex that the task hasn't.
pub(crate) fn edge(
    edge: EdgeRecord,
    before: Option<EdgeRecord>,
    d: impl Fn(VertexNo) -> Option<Ticks>,
) -> Kept {
    let start_d = d(edge.from).ok_or(Row::Number)?;
    d(edge.to).ok_or(Row::Number)?;
    separation(edge.p)?;
    start_deadline(start_d, edge.p)?;
    let is_after = |before: EdgeRecord| (before.from, before.to) < (edge.from, edge.to);
    keeps(before.is_none_or(is_after), Row::EdgeOrder)
}

/// The bounds of an edge's p.
fn separation(p: Ticks) -> Kept {
    keeps(are_within(p, &P), Row::Number)
}

/// d of the vertex that an edge starts from doesn't exceed the edge's p.
fn start_deadline(start_d: Ticks, p: Ticks) -> Kept {
    keeps(start_d <= p, Row::Deadline)
}

/// Nothing if the rule is kept, else the row.
fn keeps(kept: bool, row: Row) -> Kept {
    match kept {
        true => Ok(()),
        false => Err(row),
    }
}

/// Is the number within its bounds?
fn is_within(number: usize, bounds: &RangeInclusive<u8>) -> bool {
    (usize::from(*bounds.start())..=usize::from(*bounds.end())).contains(&number)
}

/// Are the ticks within their bounds?
fn are_within(ticks: Ticks, bounds: &RangeInclusive<u16>) -> bool {
    (u32::from(*bounds.start())..=u32::from(*bounds.end())).contains(&ticks.0)
}
