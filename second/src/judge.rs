//! The judge: one vertex, or the whole table.

use crate::bounds::{MEETS, MISSES, REFUSED, UNFINISHED};
use crate::bounds::{PATHS, WITNESS_CELLS};
use crate::paths::{complete_paths, Path};
use crate::refusal::{Refusal, Row};
use crate::table::{Table, TaskNo, Ticks, VertexNo};
use crate::text;
use crate::walk::{stretch_cells, walk, Outcome};

/// What is said of a vertex.
#[derive(Clone, Copy, Debug, PartialEq, Eq)]
pub enum Verdict {
    /// No choice of paths overloads the vertex.
    Meets {
        /// C, the number of groups to examine.
        count: u32,
    },
    /// The paths in the witness area overload the vertex.
    Misses {
        /// C, the number of groups to examine.
        count: u32,
        /// The witness cells written.
        cells: usize,
    },
    /// The budget is below C.
    Unfinished {
        /// The budget.
        budget: u32,
    },
    /// The judge refuses, and no lent area is changed.
    Refused(Refusal),
}

impl Verdict {
    /// The verdict byte.
    pub fn kind(&self) -> u8 {
        match self {
            Verdict::Meets { .. } => MEETS,
            Verdict::Misses { .. } => MISSES,
            Verdict::Unfinished { .. } => UNFINISHED,
            Verdict::Refused(_) => REFUSED,
        }
    }

    /// The count, the budget or the refusal's number.
    pub fn value(&self) -> u32 {
        match self {
            Verdict::Meets { count } | Verdict::Misses { count, .. } => *count,
            Verdict::Unfinished { budget } => *budget,
            Verdict::Refused(refusal) => u32::from(refusal.number()),
        }
    }

    /// The witness cells written, what is returned with a refusal, else zero.
    pub fn place(&self) -> usize {
        match self {
            Verdict::Meets { .. } | Verdict::Unfinished { .. } => 0,
            Verdict::Misses { cells, .. } => *cells,
            Verdict::Refused(refusal) => refusal.place,
        }
    }
}

/// How many vertices of a table meet, miss, are unfinished and are refused.
#[derive(Clone, Copy, Debug, Default, PartialEq, Eq)]
pub struct Counts {
    /// The vertices that meet.
    pub meets: u16,
    /// The vertices that miss.
    pub misses: u16,
    /// The vertices that are unfinished.
    pub unfinished: u16,
    /// The vertices that are refused.
    pub refused: u16,
}

impl Counts {
    /// Counts one vertex's verdict.
    pub fn add(&mut self, verdict: &Verdict) {
        match verdict {
            Verdict::Meets { .. } => self.meets += 1,
            Verdict::Misses { .. } => self.misses += 1,
            Verdict::Unfinished { .. } => self.unfinished += 1,
            Verdict::Refused(_) => self.refused += 1,
        }
    }
}

/// Judges one vertex of the text's table; refusals 1 to 11 and 13.
pub fn judge(
    text: &[u8],
    task: TaskNo,
    vertex: VertexNo,
    budget: u32,
    work: &mut [u32],
    witness: &mut [u16],
) -> Verdict {
    match text::read(text) {
        Ok(table) => judge_vertex(&table, task, vertex, budget, work, witness),
        Err(refusal) => Verdict::Refused(refusal),
    }
}

/// Judges every vertex of the text's table, each with the budget afresh; refusals 1 to 7 and 13.
pub fn judge_table(text: &[u8], budget: u32, work: &mut [u32]) -> Result<Counts, Refusal> {
    let table = text::read(text)?;
    let mut counts = Counts::default();
    // No witness area is lent here, so the paths of a miss are written to one that is dropped.
    let mut dropped = [0; WITNESS_CELLS];
    for (task, vertex) in table.numbers() {
        let verdict = judge_vertex(&table, task, vertex, budget, work, &mut dropped);
        counts.add(&verdict);
    }
    Ok(counts)
}

/// Judges one vertex of a table that was read; refusals 8 to 11.
pub(crate) fn judge_vertex(
    table: &Table,
    task: TaskNo,
    vertex: VertexNo,
    budget: u32,
    work: &mut [u32],
    witness: &mut [u16],
) -> Verdict {
    let judged = match Judged::admit(table, task, vertex, work.len(), witness.len()) {
        Ok(judged) => judged,
        Err(refusal) => return Verdict::Refused(refusal),
    };
    // Later than d finishes just what overloads.
    match judged.walk(judged.d, budget, work) {
        Outcome::Meets { count, .. } => Verdict::Meets { count },
        Outcome::Misses { count, witness: at } => {
            let cells = judged.write_witness(&at, witness);
            Verdict::Misses { count, cells }
        }
        Outcome::Unfinished => Verdict::Unfinished { budget },
    }
}

/// A vertex that is judged, with the complete paths of each higher task.
pub(crate) struct Judged {
    /// What the overload rule takes for e: the vertex's own, and the masked time that can hold it up.
    e_plus_b: Ticks,
    d: Ticks,
    higher: Vec<Vec<Path>>,
}

impl Judged {
    /// The judged vertex, if areas of these lengths suffice; refusals 8 to 11.
    pub(crate) fn admit(
        table: &Table,
        task: TaskNo,
        vertex: VertexNo,
        work: usize,
        witness: usize,
    ) -> Result<Judged, Refusal> {
        let judged = Judged::of(table, task, vertex)?;
        if work < judged.work_cells() {
            return Err(Refusal::at(Row::WorkArea, judged.work_cells()));
        }
        if witness < judged.witness_cells() {
            return Err(Refusal::at(Row::WitnessArea, judged.witness_cells()));
        }
        Ok(judged)
    }

    /// Finds the vertex and lists the paths; refusals 8 and 9.
    fn of(table: &Table, task: TaskNo, vertex: VertexNo) -> Result<Judged, Refusal> {
        let Some(vertex) = table.vertex(task, vertex) else {
            return Err(Refusal::at(Row::NoVertex, 0));
        };
        let mut higher = Vec::with_capacity(usize::from(task.0));
        for (number, above) in table.tasks[..usize::from(task.0)].iter().enumerate() {
            let Some(paths) = complete_paths(above, vertex.d, PATHS) else {
                return Err(Refusal::at(Row::ManyPaths, number));
            };
            higher.push(paths);
        }
        Ok(Judged {
            e_plus_b: vertex.e + table.masked_time(task),
            d: vertex.d,
            higher,
        })
    }

    /// The work cells needed: d times the sum over higher tasks of (2 x paths - 1).
    fn work_cells(&self) -> usize {
        let stretches = self.higher.iter().map(Vec::len);
        stretches.map(|paths| stretch_cells(paths, self.d)).sum()
    }

    /// The witness cells needed: h x (1 + d).
    fn witness_cells(&self) -> usize {
        self.higher.len() * (1 + self.d.0 as usize)
    }

    /// Walks the groups from this bar on, and leaves the needed work cells zero.
    pub(crate) fn walk(&self, bar: Ticks, budget: u32, work: &mut [u32]) -> Outcome {
        let needed = &mut work[..self.work_cells()];
        let outcome = walk(self.e_plus_b, self.d, &self.higher, bar, budget, needed);
        needed.fill(0);
        outcome
    }

    /// Writes the length and vertices of the path at each task's place; gives the cells written.
    pub(crate) fn write_witness(&self, places: &[usize], witness: &mut [u16]) -> usize {
        let mut cells = 0;
        for (paths, &place) in self.higher.iter().zip(places) {
            let steps = &paths[place].steps;
            // A path's length is at most d, which a cell holds.
            witness[cells] = steps.len() as u16;
            cells += 1;
            for step in steps {
                witness[cells] = step.vertex.0;
                cells += 1;
            }
        }
        cells
    }
}
