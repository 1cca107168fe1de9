//! A table as it is built in memory (wish 4): any counts and any numbers, whether they keep the rules or not.

use crate::bounds::{EDGES, TASKS, VERTICES};
use crate::table::{Table, Task, Ticks, VertexNo};

/// The tasks, in priority order; the counts are the lists' lengths.
#[derive(Clone, Debug, Default, PartialEq, Eq)]
pub struct Record {
    /// The tasks, by task number.
    pub tasks: Vec<TaskRecord>,
}

/// A task.
#[derive(Clone, Debug, Default, PartialEq, Eq)]
pub struct TaskRecord {
    /// The masked length; 0 if there is none.
    pub m: Ticks,
    /// The vertices, by vertex number.
    pub vertices: Vec<VertexRecord>,
    /// The edges, in the order in which they are written.
    pub edges: Vec<EdgeRecord>,
}

/// A vertex.
#[derive(Clone, Copy, Debug, Default, PartialEq, Eq)]
pub struct VertexRecord {
    /// The execution time.
    pub e: Ticks,
    /// The deadline.
    pub d: Ticks,
}

/// An edge.
#[derive(Clone, Copy, Debug, Default, PartialEq, Eq)]
pub struct EdgeRecord {
    /// The vertex it starts from.
    pub from: VertexNo,
    /// The vertex it leads to.
    pub to: VertexNo,
    /// The separation.
    pub p: Ticks,
}

impl Record {
    /// The record of a fixed layout, numbers with the high byte first; bytes that are missing at the end are zeros, and further bytes are ignored.
    ///
    /// The number of tasks (2 bytes), then eight tasks: m (2), how many vertices (2), how many edges (2), twelve vertices of e (2) and d (2), 32 edges of from (1), to (1) and p (2).
    /// What lies behind the counts is left out. A count beyond the layout's places is kept: zeros stand for what has no place.
    pub fn laid_out(bytes: &[u8]) -> Record {
        let mut numbers = Numbers(bytes);
        let count = numbers.next_count();
        let mut tasks: Vec<_> = (0..TASKS).map(|_| laid_out_task(&mut numbers)).collect();
        tasks.resize(count, TaskRecord::default());
        Record { tasks }
    }

    /// The record of a list of 16-bit cells, each with the high byte first; a last odd byte is ignored, and cells that are missing at the end are zeros.
    ///
    /// Task after task: how many vertices, how many edges, m, then e and d of each vertex, then from, to and p of each edge.
    pub fn of_cells(bytes: &[u8]) -> Record {
        let even = bytes.len() / 2 * 2;
        let mut cells = Numbers(&bytes[..even]);
        let mut tasks = Vec::new();
        while !cells.0.is_empty() {
            let [vertices, edges] = [cells.next_count(), cells.next_count()];
            tasks.push(TaskRecord {
                m: cells.next_ticks(),
                vertices: (0..vertices).map(|_| cells.next_vertex()).collect(),
                edges: (0..edges).map(|_| cells.next_edge_of_cells()).collect(),
            });
        }
        Record { tasks }
    }
}

impl From<&Table> for Record {
    /// The record of a table that was read.
    fn from(table: &Table) -> Record {
        let tasks = table.tasks.iter().map(TaskRecord::from).collect();
        Record { tasks }
    }
}

impl From<&Task> for TaskRecord {
    /// The record of a task: its vertices, and the edges out of each in turn.
    fn from(task: &Task) -> TaskRecord {
        let mut record = TaskRecord {
            m: task.m,
            ..TaskRecord::default()
        };
        for (from, vertex) in (0..).map(VertexNo).zip(&task.vertices) {
            let (e, d) = (vertex.e, vertex.d);
            record.vertices.push(VertexRecord { e, d });
            for edge in &vertex.edges {
                let (to, p) = (edge.to, edge.p);
                record.edges.push(EdgeRecord { from, to, p });
            }
        }
        record
    }
}

/// The next task of the fixed layout, its lists as long as its counts say.
fn laid_out_task(numbers: &mut Numbers) -> TaskRecord {
    let m = numbers.next_ticks();
    let [vertex_count, edge_count] = [numbers.next_count(), numbers.next_count()];
    let places = 0..*VERTICES.end();
    let mut vertices: Vec<_> = places.map(|_| numbers.next_vertex()).collect();
    vertices.resize(vertex_count, VertexRecord::default());
    let places = 0..*EDGES.end();
    let mut edges: Vec<_> = places.map(|_| numbers.next_laid_out_edge()).collect();
    edges.resize(edge_count, EdgeRecord::default());
    TaskRecord { m, vertices, edges }
}

/// Numbers one after the other, the high byte first; behind the last byte there are zeros.
struct Numbers<'a>(&'a [u8]);

impl Numbers<'_> {
    /// The next number of 1 byte.
    fn next_byte(&mut self) -> u8 {
        let Some((&byte, rest)) = self.0.split_first() else {
            return 0;
        };
        self.0 = rest;
        byte
    }

    /// The next number of 2 bytes.
    fn next_number(&mut self) -> u16 {
        u16::from_be_bytes([self.next_byte(), self.next_byte()])
    }

    /// The next number, of 2 bytes, as a count.
    fn next_count(&mut self) -> usize {
        usize::from(self.next_number())
    }

    /// The next number, of 2 bytes, as ticks.
    fn next_ticks(&mut self) -> Ticks {
        Ticks(u32::from(self.next_number()))
    }

    /// The next vertex: e and d.
    fn next_vertex(&mut self) -> VertexRecord {
        VertexRecord {
            e: self.next_ticks(),
            d: self.next_ticks(),
        }
    }

    /// The next edge of the fixed layout: from and to have 1 byte.
    fn next_laid_out_edge(&mut self) -> EdgeRecord {
        EdgeRecord {
            from: VertexNo(u16::from(self.next_byte())),
            to: VertexNo(u16::from(self.next_byte())),
            p: self.next_ticks(),
        }
    }

    /// The next edge of a list of cells: from and to have a cell.
    fn next_edge_of_cells(&mut self) -> EdgeRecord {
        EdgeRecord {
            from: VertexNo(self.next_number()),
            to: VertexNo(self.next_number()),
            p: self.next_ticks(),
        }
    }
}
