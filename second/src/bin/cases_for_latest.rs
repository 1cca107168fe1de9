//! Writes the cases that the worst finish is checked with: a sequence as `second cases` reads it.
//!
//! The bench examples, masked lengths, every refusal, groups passed over and ties, nothing above, and random tables with budgets and areas around what they need. The sequence is the same from run to run.

#![forbid(unsafe_code)]

mod made;

use made::vertices::{Vertices, ENOUGH};
use made::{masked_task, self_edge, task, text};
use second::case::FINISH;
use second::sequence::write_cases;
use std::io;

/// Where the random tables start from.
const SEED: u64 = 20_261_118;
/// How many random vertices of each verdict are judged whose count is 1, small, or larger.
const RANDOM_VERTICES: [usize; 3] = [2, 8, 14];
/// How many of those have a d above 200.
const SLOW_VERTICES: [usize; 3] = [2, 6, 0];
/// More than the tables made here need.
const PLENTY: (u32, u32) = (300, 60);
/// A budget above every count here.
const BUDGET: u32 = 100_000;

/// Writes each case.
fn main() -> io::Result<()> {
    let mut vertices = Vertices::of(FINISH);
    vertices.bench();
    vertices.masked();
    vertices.many_paths();
    vertices.texts();
    vertices.numbers();
    vertices.large();
    vertices.slow();
    nothing_above(&mut vertices);
    one_task(&mut vertices);
    several_tasks(&mut vertices);
    longest(&mut vertices);
    vertices.random(SEED, RANDOM_VERTICES, Vertices::at_count);
    vertices.random_slow(SEED, SLOW_VERTICES, Vertices::at_count);
    write_cases(vertices.cases)
}

/// A task of vertices without edges: each is a path by itself.
fn edgeless(e: &[u32]) -> String {
    let vertices: Vec<_> = e.iter().map(|&e| (e, 50)).collect();
    task(&vertices, &[])
}

/// The text of these tasks, below them a vertex (e, d) to judge.
fn above(tasks: &[String], judged: (u32, u32)) -> String {
    text(&[tasks, &[task(&[judged], &[])]].concat())
}

/// A vertex without higher tasks: e below d and at d; and the same held up by a masked tick, which only those at d miss by.
fn nothing_above(vertices: &mut Vertices) {
    let first = task(&[(1, 5), (4, 5), (5, 5), (1_000, 1_000)], &[]);
    let masking = masked_task(1, &[(1, 50)], &[]);
    for text in [first.clone(), first + &masking].map(|tasks| text(&[tasks])) {
        for vertex in 0..4 {
            for (budget, lent) in [(0, ENOUGH), (1, ENOUGH), (1, (0, 0))] {
                vertices.push(&text, (0, vertex), budget, lent);
            }
        }
    }
}

/// The paths of one task: each later than those before, earlier, equal; and a miss behind groups that were passed over.
fn one_task(vertices: &mut Vertices) {
    for e in [
        &[1, 2, 3, 4, 5, 6, 7, 8][..],
        &[8, 7, 6, 5, 4, 3, 2, 1],
        &[5, 1, 2, 3],
        &[1, 3, 3, 3],
        &[4, 4, 4, 4, 4],
        &[2, 6, 1, 6, 3, 6, 6],
        &[3, 3, 1, 2, 1, 1, 1, 20],
    ] {
        let text = above(&[edgeless(e)], (1, 10));
        vertices.push(&text, (1, 0), BUDGET, PLENTY);
    }
    // Passed over because earlier, because equal, and before a miss.
    for e in [&[5, 1, 2, 3][..], &[1, 3, 3, 3], &[3, 3, 1, 2, 1, 1, 1, 20]] {
        vertices.around(&above(&[edgeless(e)], (1, 10)), (1, 0));
    }
    // Other loads and the same finish 3: the path (0), and the path (1,2) whose second release is at 1.
    let same = task(&[(2, 9), (1, 1), (1, 9)], &[(1, 2, 1)]);
    let swapped = task(&[(1, 1), (1, 9), (2, 9)], &[(0, 1, 1)]);
    for tasks in [same, swapped] {
        vertices.push(&above(&[tasks], (1, 9)), (1, 0), BUDGET, PLENTY);
    }
}

/// Choices of several tasks, of which the first of the latest is written; with d at the worst finish and one before it.
fn several_tasks(vertices: &mut Vertices) {
    for (tasks, worst) in [
        (vec![[2, 2, 2], [3, 3, 3]], 6),
        (vec![[2, 1, 2], [1, 2, 2]], 5),
        (vec![[1, 2, 2], [2, 2, 1]], 5),
        (vec![[1, 2, 3], [3, 2, 1], [2, 3, 1]], 10),
        (vec![[3, 2, 1], [1, 2, 3], [1, 3, 3]], 10),
        (vec![[1, 1, 2], [1, 2, 1], [2, 1, 1], [1, 1, 1]], 8),
    ] {
        let number = tasks.len() as u8;
        let tasks: Vec<_> = tasks.iter().map(|e| edgeless(e)).collect();
        for d in [worst + 1, worst, worst - 1] {
            let text = above(&tasks, (1, d));
            vertices.push(&text, (number, 0), BUDGET, (2_000, 100));
        }
    }
}

/// The latest finish that there is, by a long path, one a little earlier, and a miss.
fn longest(vertices: &mut Vertices) {
    for e in [499, 500, 501] {
        let text = above(&[self_edge(1, 2, 2)], (e, 1_000));
        vertices.push(&text, (1, 0), 1, (1_000, 1_001));
    }
}
