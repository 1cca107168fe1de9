//! Tables for the writer, whole or broken: as the bytes of a record, and as cells.

use super::{random_graph, Random, Size};
use second::record::{Record, TaskRecord};
use second::table::Ticks;
use second::text;

/// The places of the fixed layout: for tasks, and for a task's vertices and edges.
const PLACES: (usize, usize, usize) = (8, 12, 32);

/// Numbers up to the largest, in tasks of few vertices.
const FEW_VERTICES: Size = Size {
    vertices: 4,
    e: 1_000,
    d: (1, 1_000),
    p: 59_001,
};
/// Numbers up to the largest, in tasks of up to the most vertices.
const MANY_VERTICES: Size = Size {
    vertices: 12,
    ..FEW_VERTICES
};

/// A table: how many tasks it says that it has, and tasks.
#[derive(Clone)]
pub struct Draft {
    /// How many tasks the table has.
    pub n: u16,
    /// Its tasks, and what lies behind them.
    pub tasks: Vec<TaskDraft>,
}

/// A task: its masked length, how many vertices and edges it says that it has, and vertices and edges.
#[derive(Clone)]
pub struct TaskDraft {
    /// The masked length.
    pub m: u16,
    /// How many vertices the task has.
    pub nv: u16,
    /// How many edges the task has.
    pub ne: u16,
    /// (e, d) of its vertices, and what lies behind them.
    pub vertices: Vec<(u16, u16)>,
    /// (from, to, p) of its edges, and what lies behind them.
    pub edges: Vec<(u16, u16, u16)>,
}

impl TaskDraft {
    /// The task of this masked length and all these vertices (e, d) and edges (from, to, p).
    pub fn of(m: u16, vertices: &[(u16, u16)], edges: &[(u16, u16, u16)]) -> TaskDraft {
        TaskDraft {
            m,
            nv: vertices.len() as u16,
            ne: edges.len() as u16,
            vertices: vertices.to_vec(),
            edges: edges.to_vec(),
        }
    }

    /// The task of a record whose numbers fit in 2 bytes.
    fn of_record(task: &TaskRecord) -> TaskDraft {
        let two = |ticks: Ticks| ticks.0 as u16;
        let vertices = task.vertices.iter();
        let vertices: Vec<_> = vertices.map(|v| (two(v.e), two(v.d))).collect();
        let edges = task.edges.iter();
        let edges: Vec<_> = edges.map(|e| (e.from.0, e.to.0, two(e.p))).collect();
        TaskDraft::of(two(task.m), &vertices, &edges)
    }

    /// A task of random numbers, which has nothing yet.
    fn junk(random: &mut Random) -> TaskDraft {
        TaskDraft {
            m: junk(random),
            nv: junk(random),
            ne: junk(random),
            vertices: Vec::new(),
            edges: Vec::new(),
        }
    }

    /// A random valid task; one in two has a masked length.
    fn random(random: &mut Random) -> TaskDraft {
        let size = [&FEW_VERTICES, &FEW_VERTICES, &MANY_VERTICES][random.below(3)];
        let (vertices, edges) = random_graph(random, size);
        let vertices: Vec<_> = vertices.iter().map(|v| (v.0 as u16, v.1 as u16)).collect();
        let edges = edges.iter();
        let edges: Vec<_> = edges
            .map(|e| (e.0 as u16, e.1 as u16, e.2 as u16))
            .collect();
        let largest = vertices.iter().map(|vertex| vertex.0).max().unwrap_or(0);
        let within = 1 + random.below(usize::from(largest)) as u16;
        let m = [0, 0, 0, 1, largest, within][random.below(6)];
        TaskDraft::of(m, &vertices, &edges)
    }
}

impl Draft {
    /// The table of all these tasks.
    pub fn of(tasks: Vec<TaskDraft>) -> Draft {
        let n = tasks.len() as u16;
        Draft { n, tasks }
    }

    /// The table of a valid text.
    pub fn of_text(valid: &str) -> Draft {
        let table = text::read(valid.as_bytes()).expect("a valid text");
        let tasks = Record::from(&table).tasks;
        Draft::of(tasks.iter().map(TaskDraft::of_record).collect())
    }

    /// A random valid table; few tasks are frequent.
    pub fn random(random: &mut Random) -> Draft {
        let most = [1, 2, 3, 8][random.below(4)];
        let count = 1 + random.below(most);
        Draft::of((0..count).map(|_| TaskDraft::random(random)).collect())
    }

    /// The bytes of the table in the fixed layout, without the zeros at their end.
    pub fn record(&self) -> Vec<u8> {
        let mut bytes = self.n.to_be_bytes().to_vec();
        for task in self.tasks.iter().take(PLACES.0) {
            for number in [task.m, task.nv, task.ne] {
                bytes.extend(number.to_be_bytes());
            }
            let vertices = task.vertices.iter().copied().chain([(0, 0); PLACES.1]);
            for (e, d) in vertices.take(PLACES.1) {
                bytes.extend([e, d].map(u16::to_be_bytes).concat());
            }
            let edges = task.edges.iter().copied().chain([(0, 0, 0); PLACES.2]);
            for (from, to, p) in edges.take(PLACES.2) {
                bytes.extend([from as u8, to as u8]);
                bytes.extend(p.to_be_bytes());
            }
        }
        let end = bytes.iter().rposition(|&byte| byte != 0);
        bytes.truncate(end.map_or(0, |last| last + 1));
        bytes
    }

    /// The bytes of the table's cells, without what lies behind the counts.
    pub fn cells(&self) -> Vec<u8> {
        let mut cells = Vec::new();
        for task in self.tasks.iter().take(self.n.into()) {
            cells.extend([task.nv, task.ne, task.m]);
            for &(e, d) in task.vertices.iter().take(task.nv.into()) {
                cells.extend([e, d]);
            }
            for &(from, to, p) in task.edges.iter().take(task.ne.into()) {
                cells.extend([from, to, p]);
            }
        }
        cells.into_iter().flat_map(u16::to_be_bytes).collect()
    }

    /// Puts random numbers into all places behind the counts, at times also into the tasks behind the last.
    pub fn add_junk(&mut self, random: &mut Random) {
        if random.below(4) == 0 {
            self.tasks.resize_with(PLACES.0, || TaskDraft::junk(random));
        }
        for task in &mut self.tasks {
            while task.vertices.len() < PLACES.1 {
                task.vertices.push((junk(random), junk(random)));
            }
            while task.edges.len() < PLACES.2 {
                let (from, to) = (junk(random) & 0xff, junk(random) & 0xff);
                task.edges.push((from, to, junk(random)));
            }
        }
    }

    /// Puts a random number in the place of a random one, on a random line of a random task.
    pub fn break_one(&mut self, random: &mut Random) {
        let at = random.below(usize::from(self.n));
        let task = &mut self.tasks[at];
        let line = random.below(usize::from(1 + task.nv + task.ne));
        let number = random.below(3);
        if line == 0 {
            let value = [0, 1, 12, 13, 32, 33, 1_000, 1_001, junk(random)][random.below(9)];
            *[&mut task.m, &mut task.nv, &mut task.ne][number] = value;
        } else if line <= usize::from(task.nv) {
            let (e, d) = &mut task.vertices[line - 1];
            // As e, the last is longer than its own deadline by one tick.
            let value = [0, 1, 201, 999, 1_000, 1_001, junk(random), *d + 1][random.below(8)];
            *[e, d][number % 2] = value;
        } else {
            let (from, to, p) = &mut task.edges[line - 1 - usize::from(task.nv)];
            match number {
                2 => *p = [0, 1, 99, 999, 60_000, 60_001, junk(random)][random.below(7)],
                _ => *[from, to][number] = [0, task.nv - 1, task.nv, 255][random.below(4)],
            }
        }
    }
}

/// A random number of 2 bytes; small ones are frequent.
fn junk(random: &mut Random) -> u16 {
    let end = [3, 300, 65_536][random.below(3)];
    random.below(end) as u16
}
