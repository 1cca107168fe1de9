//! How late is the latest? One vertex, judged with its worst finish.

use crate::judge::{Judged, Verdict};
use crate::refusal::Refusal;
use crate::table::{Table, TaskNo, Ticks, VertexNo};
use crate::text;
use crate::walk::Outcome;

/// What is said of a vertex, with its worst finish if it meets.
#[derive(Clone, Copy, Debug, PartialEq, Eq)]
pub enum Lateness {
    /// No choice of paths overloads the vertex, and the one in the witness area is the first of the latest.
    Meets {
        /// C, the number of groups to examine.
        count: u32,
        /// The worst finish: the largest over all choices.
        finish: Ticks,
        /// The witness cells written.
        cells: usize,
    },
    /// The paths in the witness area overload the vertex.
    Misses {
        /// C, the number of groups to examine.
        count: u32,
        /// The witness cells written.
        cells: usize,
    },
    /// The budget is below C.
    Unfinished {
        /// The budget.
        budget: u32,
    },
    /// The judge refuses, and no lent area is changed.
    Refused(Refusal),
}

impl Lateness {
    /// The verdict in it, with this call's count.
    pub fn verdict(&self) -> Verdict {
        match *self {
            Lateness::Meets { count, .. } => Verdict::Meets { count },
            Lateness::Misses { count, cells } => Verdict::Misses { count, cells },
            Lateness::Unfinished { budget } => Verdict::Unfinished { budget },
            Lateness::Refused(refusal) => Verdict::Refused(refusal),
        }
    }

    /// The witness cells written, what is returned with a refusal, else zero.
    pub fn place(&self) -> usize {
        match self {
            Lateness::Meets { cells, .. } => *cells,
            other => other.verdict().place(),
        }
    }

    /// The worst finish of a vertex that meets, else zero.
    pub fn finish(&self) -> Ticks {
        match self {
            Lateness::Meets { finish, .. } => *finish,
            _ => Ticks(0),
        }
    }
}

/// Judges one vertex of the text's table, and gives its worst finish if it meets; refusals 1 to 11 and 13.
pub fn latest(
    text: &[u8],
    task: TaskNo,
    vertex: VertexNo,
    budget: u32,
    work: &mut [u32],
    witness: &mut [u16],
) -> Lateness {
    match text::read(text) {
        Ok(table) => latest_of_vertex(&table, task, vertex, budget, work, witness),
        Err(refusal) => Lateness::Refused(refusal),
    }
}

/// Judges one vertex of a table that was read, and gives its worst finish if it meets; refusals 8 to 11.
pub(crate) fn latest_of_vertex(
    table: &Table,
    task: TaskNo,
    vertex: VertexNo,
    budget: u32,
    work: &mut [u32],
    witness: &mut [u16],
) -> Lateness {
    let judged = match Judged::admit(table, task, vertex, work.len(), witness.len()) {
        Ok(judged) => judged,
        Err(refusal) => return Lateness::Refused(refusal),
    };
    // Every choice finishes later than 0, so the first one raises the bar.
    match judged.walk(Ticks(0), budget, work) {
        Outcome::Meets { count, bar, latest } => Lateness::Meets {
            count,
            finish: bar,
            cells: judged.write_witness(&latest, witness),
        },
        Outcome::Misses { count, witness: at } => {
            let cells = judged.write_witness(&at, witness);
            Lateness::Misses { count, cells }
        }
        Outcome::Unfinished => Lateness::Unfinished { budget },
    }
}
