//! What the tests of the writer share: the call on a marked area, and the rules of wishes 4, 6 and 7 once more, as a list of all faults.

use super::{text, Task};
use second::record::{EdgeRecord, Record, TaskRecord, VertexRecord};
use second::table::{Ticks, VertexNo};
use second::text::read;
use second::write::write;

/// The bytes written, or the number and place of a refusal.
pub type Said = Result<usize, (u8, usize)>;

/// The table of these tasks in memory.
pub fn record(tasks: &[Task]) -> Record {
    let number = |vertex: usize| VertexNo(vertex.try_into().unwrap());
    let one = |task: &Task| TaskRecord {
        m: Ticks(task.m),
        vertices: task
            .vertices
            .iter()
            .map(|&(e, d)| VertexRecord {
                e: Ticks(e),
                d: Ticks(d),
            })
            .collect(),
        edges: task
            .edges
            .iter()
            .map(|&(from, to, p)| EdgeRecord {
                from: number(from),
                to: number(to),
                p: Ticks(p),
            })
            .collect(),
    };
    Record {
        tasks: tasks.iter().map(one).collect(),
    }
}

/// Bytes that no text has, so that any change shows.
pub fn byte_area(bytes: usize) -> Vec<u8> {
    (0..bytes).map(|at| 0x90 + (at % 89) as u8).collect()
}

/// What a text gives when it is read and written again, to an area of more bytes than any text has.
pub fn written_back(bytes: &[u8]) -> Vec<u8> {
    let table = read(bytes).unwrap();
    let mut area = byte_area(4_000);
    let written = write(&Record::from(&table), &mut area).unwrap();
    assert_eq!(area[written..], byte_area(4_000)[written..]);
    area[..written].to_vec()
}

/// Writes the tasks to an area of so many bytes, and checks that each byte of it is as it has to be: what the writer says.
pub fn said(tasks: &[Task], bytes: usize) -> Said {
    let mut area = byte_area(bytes);
    let said = write(&record(tasks), &mut area);
    let mut expected = byte_area(bytes);
    if said.is_ok() {
        let text = text(tasks);
        assert_eq!(said, Ok(text.len()));
        expected[..text.len()].copy_from_slice(text.as_bytes());
    }
    assert_eq!(area, expected);
    said.map_err(|refusal| (refusal.number(), refusal.place))
}

/// What has to be said of the tasks and an area of so many bytes.
pub fn expected(tasks: &[Task], bytes: usize) -> Said {
    if let Some((line, place)) = faults(tasks).into_iter().min() {
        return Err((ORDER[place], line));
    }
    let needed = text(tasks).len();
    match needed <= bytes {
        true => Ok(needed),
        false => Err((10, needed)),
    }
}

/// The numbers that a line can be refused by, in the order in which they come; the second 3 is that of a masked length above its task's largest e.
const ORDER: [u8; 6] = [2, 3, 13, 3, 4, 5];
/// The places of that order.
const FRAME: usize = 0;
const NUMBER: usize = 1;
const LONG_JOB: usize = 2;
const LARGEST_E: usize = 3;
const DEADLINE: usize = 4;
const EDGE_ORDER: usize = 5;

/// All faults of a table, each as a line and its place in the order within a line.
fn faults(tasks: &[Task]) -> Vec<(usize, usize)> {
    let mut faults = Vec::new();
    if tasks.is_empty() {
        faults.push((1, FRAME));
    }
    let mut line = 1;
    for (number, task) in tasks.iter().enumerate() {
        if number >= 8 {
            faults.push((line, FRAME));
        }
        add_faults(&mut faults, line, task);
        line += 1 + task.vertices.len() + task.edges.len();
    }
    faults
}

/// Adds all faults of a task whose frame is at this line.
fn add_faults(faults: &mut Vec<(usize, usize)>, line: usize, task: &Task) {
    let (vertices, edges) = (task.vertices.len(), task.edges.len());
    if vertices == 0 || vertices > 12 || edges > 32 || task.m > 1_000 {
        faults.push((line, NUMBER));
    }
    for (number, &(e, d)) in task.vertices.iter().enumerate() {
        if e == 0 || e > 1_000 || d == 0 || d > 1_000 {
            faults.push((line + 1 + number, NUMBER));
        }
        if e > d {
            faults.push((line + 1 + number, LONG_JOB));
        }
    }
    if vertices > 0 && task.m > task.largest_e() {
        faults.push((line + vertices, LARGEST_E));
    }
    for (number, &(from, to, p)) in task.edges.iter().enumerate() {
        let line = line + vertices + 1 + number;
        if from >= vertices || to >= vertices || p == 0 || p > 60_000 {
            faults.push((line, NUMBER));
        }
        if from < vertices && task.vertices[from].1 > p {
            faults.push((line, DEADLINE));
        }
        if number > 0 {
            let before = task.edges[number - 1];
            if (from, to) <= (before.0, before.1) {
                faults.push((line, EDGE_ORDER));
            }
        }
    }
}

/// The number at this byte, of 2 bytes; a byte behind the end is 0.
fn number_at(bytes: &[u8], at: usize) -> usize {
    let byte = |at: usize| usize::from(bytes.get(at).copied().unwrap_or(0));
    byte(at) * 256 + byte(at + 1)
}

/// The tasks of a record of the fixed layout; zeros are in what has no place in it.
pub fn tasks_of_record(bytes: &[u8]) -> Vec<Task> {
    let mut tasks = Vec::new();
    for place in 0..number_at(bytes, 0) {
        let mut task = Task::default();
        if place < 8 {
            let front = 2 + 182 * place;
            let ticks = |at: usize| number_at(bytes, front + at) as u32;
            task.m = ticks(0);
            for vertex in 0..number_at(bytes, front + 2) {
                let at = 6 + 4 * vertex;
                task.vertices.push(match vertex {
                    0..12 => (ticks(at), ticks(at + 2)),
                    _ => (0, 0),
                });
            }
            for edge in 0..number_at(bytes, front + 4) {
                let at = 54 + 4 * edge;
                let ends = number_at(bytes, front + at);
                task.edges.push(match edge {
                    0..32 => (ends / 256, ends % 256, ticks(at + 2)),
                    _ => (0, 0, 0),
                });
            }
        }
        tasks.push(task);
    }
    tasks
}

/// The tasks of a list of cells.
pub fn tasks_of_cells(bytes: &[u8]) -> Vec<Task> {
    let cells: Vec<_> = (0..bytes.len() / 2)
        .map(|cell| number_at(bytes, 2 * cell))
        .collect();
    let mut tasks = Vec::new();
    let mut at = 0;
    while at < cells.len() {
        let cell = |at: usize| cells.get(at).copied().unwrap_or(0);
        let ticks = |at: usize| cell(at) as u32;
        let (vertices, edges) = (cell(at), cell(at + 1));
        let (first_vertex, first_edge) = (at + 3, at + 3 + 2 * vertices);
        let vertex = |number: usize| {
            let at = first_vertex + 2 * number;
            (ticks(at), ticks(at + 1))
        };
        let edge = |number: usize| {
            let at = first_edge + 3 * number;
            (cell(at), cell(at + 1), ticks(at + 2))
        };
        tasks.push(Task {
            m: ticks(at + 2),
            vertices: (0..vertices).map(vertex).collect(),
            edges: (0..edges).map(edge).collect(),
        });
        at = first_edge + 3 * edges;
    }
    tasks
}
