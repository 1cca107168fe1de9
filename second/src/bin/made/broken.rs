//! Tables at each bound of the rules and one past it, at the first, a middle and the last line; with edges out of order; with jobs longer than their own
//! deadline; and with several faults.

use super::drafts::{Draft, TaskDraft};
use super::slips::{BESIDE_M, VERTICES};

/// The edges (from, to) of a task of three vertices.
const PAIRS: [(u16, u16); 3] = [(0, 1), (1, 0), (2, 2)];
/// The e of a sound task whose d is 5: the largest is just as long.
const E: [u16; 3] = [2, 5, 3];

/// Every table that is made here.
pub fn tables() -> Vec<Draft> {
    let mut tables = Vec::new();
    for place in 0..3 {
        counts(&mut tables, place);
        numbers(&mut tables, place);
        masked_lengths(&mut tables, place);
        ends(&mut tables, place, &[2, 3, 255]);
        deadlines(&mut tables, place);
        order(&mut tables, place);
        slips(&mut tables, place);
    }
    two_lines(&mut tables);
    one_line(&mut tables);
    slips_beside_m(&mut tables);
    tables
}

/// A task of three vertices of these e and this d, with three edges of this p.
fn task(e: [u16; 3], d: u16, p: u16) -> TaskDraft {
    let edges = PAIRS.map(|(from, to)| (from, to, p));
    TaskDraft::of(0, &e.map(|e| (e, d)), &edges)
}

/// Three such tasks.
fn table(e: [u16; 3], d: u16, p: u16) -> Draft {
    Draft::of(vec![task(e, d, p); 3])
}

/// Three tasks, the one at this place with this task instead.
fn with_task(place: usize, task: TaskDraft) -> Draft {
    let mut table = table(E, 5, 9);
    table.tasks[place] = task;
    table
}

/// How many vertices, with twelve sound ones in the record, and how many edges, with 32; the last of each list have a sound low byte.
fn counts(tables: &mut Vec<Draft>, place: usize) {
    for nv in [0, 1, 12, 13, 300, 65_535, 256, 257, 268] {
        let task = TaskDraft::of(0, &[(1, 5); 12], &[]);
        tables.push(with_task(place, TaskDraft { nv, ..task }));
    }
    let edges: Vec<_> = (0..32).map(|n| (n / 6, n % 6, 9)).collect();
    for ne in [0, 1, 32, 33, 65_535, 256, 257, 288] {
        let task = TaskDraft::of(0, &[(1, 5); 6], &edges);
        tables.push(with_task(place, TaskDraft { ne, ..task }));
    }
}

/// e, d and p.
fn numbers(tables: &mut Vec<Draft>, place: usize) {
    for e in [0, 1, 6, 1_000, 1_001, 65_535] {
        let mut table = table(E, 5, 9);
        table.tasks[place].vertices[place].0 = e;
        tables.push(table);
    }
    for d in [0, 1, 201, 1_000, 1_001, 65_535] {
        let mut table = table([1; 3], 5, 1_000);
        table.tasks[place].vertices[place].1 = d;
        tables.push(table);
    }
    for p in [0, 1, 1_001, 60_000, 60_001, 65_535] {
        let mut table = table([1; 3], 1, 9);
        table.tasks[place].edges[place].2 = p;
        tables.push(table);
    }
}

/// m, with the largest e in the first, the second and the last vertex, and with the largest that there is.
fn masked_lengths(tables: &mut Vec<Draft>, place: usize) {
    let mut push = |task: TaskDraft, m: u16| {
        tables.push(with_task(place, TaskDraft { m, ..task }));
    };
    for m in [0, 1, 5, 6, 1_000, 1_001, 65_535] {
        push(task(E, 5, 9), m);
    }
    for m in [999, 1_000, 1_001] {
        push(task([2, 1_000, 3], 1_000, 1_000), m);
    }
    for m in [5, 6] {
        push(task([5, 2, 3], 5, 9), m);
        push(task([2, 3, 5], 5, 9), m);
    }
}

/// from and to of a task's only edge, each of these numbers.
pub fn ends(tables: &mut Vec<Draft>, place: usize, numbers: &[u16]) {
    for &number in numbers {
        for edge in [(number, 0, 9), (0, number, 9), (number, number, 9)] {
            let task = TaskDraft::of(0, &[(1, 5); 3], &[edge]);
            tables.push(with_task(place, task));
        }
    }
}

/// d of the starting vertex at p and one above.
fn deadlines(tables: &mut Vec<Draft>, place: usize) {
    for (d, p) in [(9, 9), (10, 9), (1_000, 1_000), (1_000, 999)] {
        let mut task = task([1; 3], 1, 9);
        task.vertices[usize::from(PAIRS[place].0)].1 = d;
        task.edges[place].2 = p;
        tables.push(with_task(place, task));
    }
}

/// Edges that are equal, that fall in from and in to; and edges that rise in from and fall in to, which is in order.
fn order(tables: &mut Vec<Draft>, place: usize) {
    for pairs in [
        &[(0, 1), (0, 1)][..],
        &[(1, 1), (0, 1)],
        &[(1, 0), (0, 2)],
        &[(0, 1), (0, 0)],
        &[(0, 0), (1, 2), (1, 2)],
        &[(0, 0), (1, 2), (1, 1)],
        &[(0, 1), (2, 2), (1, 2)],
        &[(0, 2), (1, 1), (2, 0)],
    ] {
        let edges: Vec<_> = pairs.iter().map(|&(from, to)| (from, to, 9)).collect();
        let task = TaskDraft::of(0, &[(1, 5); 3], &edges);
        tables.push(with_task(place, task));
    }
}

/// e and d around each other, in the first, the second and the last vertex of a table's only task.
fn slips(tables: &mut Vec<Draft>, place: usize) {
    for vertex in VERTICES {
        let mut vertices = [(1, 9); 3];
        vertices[place] = vertex;
        tables.push(Draft::of(vec![TaskDraft::of(0, &vertices, &[])]));
    }
}

/// The same beside a masked length.
fn slips_beside_m(tables: &mut Vec<Draft>) {
    for (m, place, e, d) in BESIDE_M {
        let mut vertices = [(3, 9); 3];
        vertices[place] = (e, d);
        tables.push(Draft::of(vec![TaskDraft::of(m, &vertices, &[])]));
    }
}

/// Each of some faults, and each two of them; the first line's decides.
fn two_lines(tables: &mut Vec<Draft>) {
    let faults: [fn(&mut Draft); 10] = [
        |table| table.tasks[0].m = 1_001,
        |table| table.tasks[0].vertices[0].1 = 1_001,
        |table| table.tasks[0].edges[1].2 = 4,
        |table| table.tasks[1].nv = 13,
        |table| table.tasks[1].vertices[1].0 = 6,
        |table| table.tasks[1].m = 8,
        |table| table.tasks[1].edges[0].1 = 3,
        |table| table.tasks[1].edges[1] = (0, 1, 9),
        |table| table.tasks[2].edges[1].2 = 60_001,
        |table| table.tasks[2].edges[2].0 = 0,
    ];
    for (number, first) in faults.iter().enumerate() {
        for second in &faults[number..] {
            let mut table = table(E, 5, 9);
            second(&mut table);
            first(&mut table);
            tables.push(table);
        }
    }
}

/// Several faults in one line: 3 before 4 before 5.
fn one_line(tables: &mut Vec<Draft>) {
    for edge in [
        (2, 2, 0),
        (2, 3, 4),
        (3, 2, 4),
        (0, 1, 0),
        (0, 1, 60_001),
        (0, 3, 9),
        (0, 3, 4),
        (1, 0, 4),
        (1, 0, 5),
        (0, 2, 4),
        (0, 2, 5),
        (255, 255, 65_535),
    ] {
        let mut task = task(E, 5, 9);
        task.edges[2] = edge;
        tables.push(with_task(1, task));
    }
    for (m, last) in [(8, (0, 5)), (8, (3, 1_001)), (8, (0, 0)), (5, (0, 1_001))] {
        let mut task = task(E, 5, 9);
        task.vertices[2] = last;
        tables.push(with_task(1, TaskDraft { m, ..task }));
    }
    for (m, nv, ne) in [(1_001, 0, 33), (0, 13, 33), (1_001, 3, 33), (1_001, 13, 3)] {
        let task = task(E, 5, 9);
        tables.push(with_task(1, TaskDraft { m, nv, ne, ..task }));
    }
}
