//! Random tables with budgets and areas around what they need, one vertex and the whole table.

use crate::common::definitions::count_paths;
use crate::common::random::{table, Random, Size};
use crate::common::{text, witness_area, work_area, Task};
use second::judge::{judge, judge_table, Counts, Verdict};
use second::table::{TaskNo, VertexNo};

/// Small tables, in which both verdicts are frequent.
const SMALL: Size = Size {
    tasks: 4,
    vertices: 3,
    edges: 5,
    e: 3,
    d: 9,
    p: 9,
};

/// Tables of slower cradles, with long paths among theirs.
const SLOW: Size = Size {
    tasks: 4,
    vertices: 3,
    edges: 4,
    e: 250,
    d: 1_000,
    p: 4_000,
};

#[test]
fn budgets_and_areas() {
    let mut random = Random(4);
    for number in 0..750 {
        let tasks = table(&mut random, [&SMALL, &SLOW][usize::from(number % 5 == 0)]);
        for number in 0..tasks.len() {
            for vertex in 0..tasks[number].vertices.len() {
                check_budgets(&tasks, number, vertex);
            }
        }
    }
}

#[test]
fn whole_tables() {
    let mut random = Random(5);
    for number in 0..750 {
        let tasks = table(&mut random, [&SMALL, &SLOW][usize::from(number % 5 == 0)]);
        check_table(&mut random, &tasks);
    }
}

/// The cells that a vertex needs of both areas; none if refusal 9 holds.
fn cells_needed(tasks: &[Task], number: usize, d: u32) -> Option<(usize, usize)> {
    let mut rows = 0;
    for task in &tasks[..number] {
        let paths = count_paths(task, d);
        if paths > 64 {
            return None;
        }
        rows += 2 * paths as usize - 1;
    }
    Some((d as usize * rows, number * (1 + d as usize)))
}

/// Checks one vertex's verdict and areas with budgets around its count.
fn check_budgets(tasks: &[Task], number: usize, vertex: usize) {
    let d = tasks[number].vertices[vertex].1;
    let Some((needed, witness_needed)) = cells_needed(tasks, number, d) else {
        return;
    };
    let bytes = text(tasks).into_bytes();
    let judged = |budget, more| {
        let (mut work, mut witness) = (
            work_area(needed + more),
            witness_area(witness_needed + more),
        );
        let (task, vertex) = (TaskNo(number as u16), VertexNo(vertex as u16));
        let verdict = judge(&bytes, task, vertex, budget, &mut work, &mut witness);
        assert!(work[..needed].iter().all(|&cell| cell == 0));
        assert_eq!(work[needed..], work_area(needed + more)[needed..]);
        (verdict, witness)
    };
    let (whole, witness) = judged(u32::MAX, 0);
    let (count, written) = match whole {
        Verdict::Meets { count } => (count, 0),
        Verdict::Misses { count, cells } => (count, cells),
        other => panic!("{other:?}"),
    };
    assert_eq!(witness[written..], witness_area(witness_needed)[written..]);
    for budget in [count, count + 1] {
        let (verdict, more) = judged(budget, 3);
        assert_eq!((verdict, &more[..written]), (whole, &witness[..written]));
        assert_eq!(more[written..], witness_area(witness_needed + 3)[written..]);
    }
    for budget in [0, count / 2, count - 1] {
        let unfinished = Verdict::Unfinished { budget };
        let expected = (unfinished, witness_area(witness_needed));
        assert_eq!(judged(budget, 0), expected);
    }
}

/// Checks a whole table against its vertices, with a random work area and rising budgets.
fn check_table(random: &mut Random, tasks: &[Task]) {
    let bytes = text(tasks).into_bytes();
    let most = [400, 8_192][random.below(2)];
    let cells = random.below(most);
    let mut before = Counts::default();
    for budget in [0, 1, 2, 5, 20, u32::MAX] {
        let mut work = work_area(cells);
        let counts = judge_table(&bytes, budget, &mut work).unwrap();
        assert_eq!(counts, count_each(tasks, &bytes, budget, cells));
        let mut expected = work_area(cells);
        expected[..largest_need(tasks, cells)].fill(0);
        assert_eq!(work, expected);
        assert!(counts.meets >= before.meets && counts.misses >= before.misses);
        before = counts;
    }
    assert_eq!(before.unfinished, 0);
}

/// The counts of a table from judging each vertex by itself.
fn count_each(tasks: &[Task], bytes: &[u8], budget: u32, cells: usize) -> Counts {
    let mut counts = Counts::default();
    let mut vertices = 0;
    for (number, task) in (0..).zip(tasks) {
        for vertex in 0..task.vertices.len() as u16 {
            let (mut work, mut witness) = (work_area(cells), witness_area(7_007));
            let (task, vertex) = (TaskNo(number), VertexNo(vertex));
            match judge(bytes, task, vertex, budget, &mut work, &mut witness) {
                Verdict::Meets { .. } => counts.meets += 1,
                Verdict::Misses { .. } => counts.misses += 1,
                Verdict::Unfinished { .. } => counts.unfinished += 1,
                Verdict::Refused(_) => counts.refused += 1,
            }
            vertices += 1;
        }
    }
    let sum = counts.meets + counts.misses + counts.unfinished + counts.refused;
    assert_eq!(sum, vertices);
    counts
}

/// The largest need of work cells among the vertices that are not refused.
fn largest_need(tasks: &[Task], cells: usize) -> usize {
    let vertices = tasks.iter().enumerate().flat_map(|(number, task)| {
        let needs = task
            .vertices
            .iter()
            .map(move |&(_, d)| cells_needed(tasks, number, d));
        needs.flatten().map(|needed| needed.0)
    });
    vertices
        .filter(|&needed| needed <= cells)
        .max()
        .unwrap_or(0)
}
