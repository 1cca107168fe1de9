//! Rings and gear tables as the tests write them down, and the plain tasks that they stand for.

use super::random::Random;
use super::{task, Task};

/// The first byte of a ring and of a gear table.
pub const KINDS: [&str; 2] = ["05", "07"];

/// The line of a ring's or a gear table's frame.
pub fn vendor_task_line(kind: &str, count: usize) -> String {
    format!("{kind}{count:02x}\n")
}

/// The line of a vertex frame with a separation.
pub fn vendor_vertex_line(e: u32, d: u32, p: u32) -> String {
    format!("06{e:04x}{d:04x}{p:04x}\n")
}

/// The lines of a ring or a gear table with these vertices (e, d, p).
pub fn vendor_task(kind: &str, vertices: &[(u32, u32, u32)]) -> String {
    let lines = vertices.iter().map(|v| vendor_vertex_line(v.0, v.1, v.2));
    vendor_task_line(kind, vertices.len()) + &lines.collect::<String>()
}

/// The plain task that a ring or a gear table with these vertices (e, d, p) stands for.
pub fn plain_task(kind: &str, vertices: &[(u32, u32, u32)]) -> Task {
    let next = match kind {
        // The second, the third and so on, and after the last the first.
        "05" => (1..vertices.len()).chain([0]).collect::<Vec<_>>(),
        _ => (0..vertices.len()).collect(),
    };
    let edges = vertices.iter().zip(next).enumerate();
    let edges: Vec<_> = edges.map(|(from, (v, to))| (from, to, v.2)).collect();
    let vertices: Vec<_> = vertices.iter().map(|v| (v.0, v.1)).collect();
    task(&vertices, &edges)
}

/// The lines of a random ring or gear table whose numbers are up to these (e, d, p), and the plain task that it stands for.
pub fn random_vendor_task(random: &mut Random, most: (u32, u32, u32)) -> (String, Task) {
    let count = [1, 2, 3, 3, 4, 12][random.below(6)];
    let mut vertices = Vec::new();
    for _ in 0..count {
        let d = random.between(1, most.1);
        let p = [d, random.between(d, most.2)][random.below(2)];
        vertices.push((random.between(1, most.0.min(d)), d, p));
    }
    let kind = KINDS[random.below(2)];
    (vendor_task(kind, &vertices), plain_task(kind, &vertices))
}

/// Has the text a line of a ring's or a gear table's frame?
pub fn has_vendor_task(text: &[u8]) -> bool {
    let is_vendor_task =
        |line: &[u8]| line.len() == 4 && KINDS.iter().any(|kind| line.starts_with(kind.as_bytes()));
    text.split(|&byte| byte == b'\n').any(is_vendor_task)
}
