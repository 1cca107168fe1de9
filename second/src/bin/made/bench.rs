//! The bench examples R1 to R11 as texts, R2 with a masked length, and R1 as rings and gear tables.

use super::vendors::{vendor_task, KINDS};
use super::{masked_task, self_edge, task, text};

/// R1's text, with the last e.
pub fn r1(last_e: u32) -> String {
    text(&r1_tasks(last_e))
}

/// R1's tasks, with the last e.
fn r1_tasks(last_e: u32) -> Vec<String> {
    vec![
        self_edge(2, 5, 5),
        self_edge(2, 7, 7),
        self_edge(last_e, 6, 7),
    ]
}

/// R2 with one more task, of one vertex e 1 d 100: below the others with masked length 1 and without, and above them with it and without.
pub fn masked_texts() -> [String; 4] {
    let vertex = [(1, 100)];
    let [masked, plain] = [masked_task(1, &vertex, &[]), task(&vertex, &[])];
    let below = |fourth: &String| text(&[r1_tasks(1), vec![fourth.clone()]].concat());
    let above = |first: &String| text(&[vec![first.clone()], r1_tasks(1)].concat());
    [below(&masked), below(&plain), above(&masked), above(&plain)]
}

/// R1 as rings and gear tables of one vertex each, and then one of three vertices of each kind above a vertex of e 2 and of e 3.
pub fn vendor_texts() -> Vec<String> {
    let mut texts = Vec::new();
    for kinds in [["05", "07", "05"], ["07", "05", "07"]] {
        let vertices = [(2, 5, 5), (2, 7, 7), (2, 6, 7)];
        let tasks = [0, 1, 2].map(|number| vendor_task(kinds[number], &[vertices[number]]));
        texts.push(text(&tasks));
    }
    for kind in KINDS {
        let above = vendor_task(kind, &[(1, 4, 4), (3, 5, 5), (2, 6, 6)]);
        texts.extend([2, 3].map(|e| text(&[above.clone(), task(&[(e, 6)], &[])])));
    }
    texts
}

/// R3's task, below it a vertex that misses and whose d is the horizon: 4 + 2 by tick 5, 4 + 4 by tick 6.
pub fn r3(horizon: u32) -> String {
    text(&[self_edge(2, 5, 5), task(&[(4, horizon)], &[])])
}

/// R4's text, whose only job is longer than its own deadline.
pub fn r4() -> String {
    text(&[task(&[(3, 2)], &[])])
}

/// R5's text, with the judged d.
pub fn r5(d: u32) -> String {
    text(&[task(&[(1, 5), (3, 5)], &[]), task(&[(2, d)], &[])])
}

/// R7's text.
pub fn r7() -> String {
    let above = task(&[(3, 10), (1, 2), (4, 10)], &[(1, 2, 2)]);
    text(&[above, task(&[(1, 5)], &[])])
}

/// R10's task: four vertices and all 16 edges with p 10, then further vertices without edges.
pub fn r10(vertices: usize) -> String {
    let edges: Vec<_> = (0..16).map(|n| (n / 4, n % 4, 10)).collect();
    task(&vec![(1, 10); vertices], &edges)
}

/// R10's texts: 64 paths, once with a miss; 256 and 65, which are refused; and 17.
pub fn r10_texts() -> [String; 5] {
    let judged = [(4, 1, 21), (4, 20, 21), (4, 1, 31), (5, 1, 21), (5, 1, 20)];
    judged.map(|(above, e, d)| text(&[r10(above), task(&[(e, d)], &[])]))
}

/// R11's texts.
pub const R11_TEXTS: [&str; 3] = ["", "00\n", "00"];

/// The texts of R1 to R11; R8 is about budgets and R9 about areas, both with R7's text.
pub fn texts() -> Vec<String> {
    let mut texts = vec![r1(2), r1(1), r3(5), r3(6), r4(), r5(5), r5(4), r7()];
    texts.extend(r10_texts());
    texts.extend(R11_TEXTS.map(String::from));
    texts
}
