//! Random tasks of slow cradles (wish 7): deadlines above 200, separations far beyond every deadline, and close ones, which make paths long.

use super::{between, self_edge, Random, Size};

/// A few vertices, most with deadlines above 200, and separations around them and beyond.
pub const SIZE: Size = Size {
    vertices: 3,
    e: 300,
    d: (201, 800),
    p: 900,
};

/// The same with separations up to the largest.
pub const FAR: Size = Size { p: 59_001, ..SIZE };

/// The lines of a self-edge task of one long path: a release at every tick, or every few.
pub fn close_task(random: &mut Random) -> String {
    let p = between(random, 1, 40) as u32;
    let e = 1 + random.below(p as usize / 2 + 1) as u32;
    self_edge(e.min(p), p, p)
}
