//! Every number of document 01 and of wishes 3, 5 and 7, by a name in their words.

use std::ops::RangeInclusive;

/// The most tasks of a table; the fewest is one.
pub const TASKS: usize = 8;
/// The most higher tasks that a vertex can have.
pub const HIGHER_TASKS: usize = TASKS - 1;
/// How many vertices a task has, a ring or a gear table too.
pub const VERTICES: RangeInclusive<u8> = 1..=12;
/// How many edges a task has.
pub const EDGES: RangeInclusive<u8> = 0..=32;
/// The masked length m that a masked task's frame has, in ticks; any other task's is 0.
pub const M: RangeInclusive<u16> = 1..=1_000;
/// A vertex's execution time e, in ticks.
pub const E: RangeInclusive<u16> = 1..=1_000;
/// A vertex's deadline d, in ticks.
pub const D: RangeInclusive<u16> = 1..=1_000;
/// An edge's separation p, in ticks.
pub const P: RangeInclusive<u16> = 1..=60_000;
/// The most complete paths that a higher task may have.
pub const PATHS: usize = 64;
/// The most work cells that a vertex can need.
pub const MOST_WORK_CELLS: usize = *D.end() as usize * HIGHER_TASKS * (2 * PATHS - 1);

/// The first byte of a task frame without a masked length.
pub const TASK_FRAME: u8 = 0x01;
/// The first byte of a task frame with a masked length.
pub const MASKED_TASK_FRAME: u8 = 0x04;
/// The first byte of a vertex frame.
pub const VERTEX_FRAME: u8 = 0x02;
/// The first byte of an edge frame.
pub const EDGE_FRAME: u8 = 0x03;
/// The first byte of a ring's task frame.
pub const RING_FRAME: u8 = 0x05;
/// The first byte of a gear table's task frame.
pub const GEAR_TABLE_FRAME: u8 = 0x07;
/// The first byte of a vertex frame with the separation from it, of a ring or a gear table.
pub const VENDOR_VERTEX_FRAME: u8 = 0x06;
/// The only byte of an end frame.
pub const END_FRAME: u8 = 0x00;

/// The longest input of the desk program, in bytes.
pub const INPUT_BYTES: usize = 8_191;
/// The work cells that the desk program lends.
pub const WORK_CELLS: usize = 8_192;
/// The witness cells that the desk program lends: enough for every vertex.
pub const WITNESS_CELLS: usize = 7_007;
/// The budget of the desk program.
pub const BUDGET: u32 = 100_000;

/// The first byte of an output frame for one vertex.
pub const VERDICT_FRAME: u8 = 0x10;
/// The first byte of an output frame for one path of a witness.
pub const PATH_FRAME: u8 = 0x12;
/// The first byte of the output frame for a refused text or input.
pub const REFUSED_FRAME: u8 = 0x1e;
/// The first byte of the output frame for the four counts.
pub const COUNTS_FRAME: u8 = 0x1f;

/// The verdict byte for meets.
pub const MEETS: u8 = 0x00;
/// The verdict byte for misses.
pub const MISSES: u8 = 0x01;
/// The verdict byte for unfinished.
pub const UNFINISHED: u8 = 0x02;
/// The verdict byte for refused.
pub const REFUSED: u8 = 0x03;
