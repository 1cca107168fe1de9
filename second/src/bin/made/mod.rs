//! What the generators share: lines of a text, the bench examples, the refusals of a text, rings and gear tables, jobs longer than their own deadline, slow cradles,
//! cases of one vertex, tables for the writer, and a pseudo-random generator.

// No generator uses all of it.
#![allow(dead_code)]

pub mod bench;
pub mod broken;
pub mod drafts;
pub mod refusals;
pub mod slips;
pub mod slow;
pub mod slow_vertices;
pub mod vendor_refusals;
pub mod vendors;
pub mod vertices;

/// The line of a task frame without a masked length.
fn task_line(vertices: usize, edges: usize) -> String {
    format!("01{vertices:02x}{edges:02x}\n")
}

/// The line of a task frame with a masked length.
pub fn masked_task_line(vertices: usize, edges: usize, m: u32) -> String {
    format!("04{vertices:02x}{edges:02x}{m:04x}\n")
}

/// A vertex frame's line.
pub fn vertex_line(e: u32, d: u32) -> String {
    format!("02{e:04x}{d:04x}\n")
}

/// An edge frame's line.
pub fn edge_line(from: usize, to: usize, p: u32) -> String {
    format!("03{from:02x}{to:02x}{p:04x}\n")
}

/// The lines of a task with these vertices (e, d) and edges (from, to, p), without a masked length.
pub fn task(vertices: &[(u32, u32)], edges: &[(usize, usize, u32)]) -> String {
    task_line(vertices.len(), edges.len()) + &graph_lines(vertices, edges)
}

/// The lines of a task with this masked length, these vertices (e, d) and edges (from, to, p).
pub fn masked_task(m: u32, vertices: &[(u32, u32)], edges: &[(usize, usize, u32)]) -> String {
    masked_task_line(vertices.len(), edges.len(), m) + &graph_lines(vertices, edges)
}

/// The lines of these vertices (e, d) and edges (from, to, p).
fn graph_lines(vertices: &[(u32, u32)], edges: &[(usize, usize, u32)]) -> String {
    let mut lines = String::new();
    for &(e, d) in vertices {
        lines += &vertex_line(e, d);
    }
    for &(from, to, p) in edges {
        lines += &edge_line(from, to, p);
    }
    lines
}

/// The lines of a self-edge task (e, d, p).
pub fn self_edge(e: u32, d: u32, p: u32) -> String {
    task(&[(e, d)], &[(0, 0, p)])
}

/// The text of these tasks.
pub fn text(tasks: &[String]) -> String {
    tasks.concat() + "00\n"
}

/// A xorshift generator; its state is anything but zero.
pub struct Random(pub u64);

impl Random {
    /// A generator that starts from this seed, far from where it starts from the next one.
    pub fn seeded(seed: u64) -> Random {
        Random(seed.wrapping_mul(0x9e37_79b9_7f4a_7c15) | 1)
    }

    /// A number from 0 to below the end, which is at least 1.
    pub fn below(&mut self, end: usize) -> usize {
        self.0 ^= self.0 << 13;
        self.0 ^= self.0 >> 7;
        self.0 ^= self.0 << 17;
        (self.0 >> 16) as usize % end
    }
}

/// How large the numbers of a random task are.
pub struct Size {
    /// The most vertices.
    pub vertices: usize,
    /// The largest e.
    pub e: usize,
    /// The least d, and how many there are.
    pub d: (usize, usize),
    /// How many separations there are from d on.
    pub p: usize,
}

/// The lines of a random valid task; one in two has a masked length.
pub fn random_task(random: &mut Random, size: &Size) -> String {
    let (vertices, edges) = random_graph(random, size);
    if random.below(2) == 0 {
        return task(&vertices, &edges);
    }
    let e = vertices.iter().map(|vertex| vertex.0 as usize);
    let largest = e.max().unwrap_or(1);
    let most = [1, largest.div_ceil(3), largest][random.below(3)];
    let m = 1 + random.below(most) as u32;
    masked_task(m, &vertices, &edges)
}

/// The lines of a random valid task without a masked length.
pub fn random_unmasked_task(random: &mut Random, size: &Size) -> String {
    let (vertices, edges) = random_graph(random, size);
    task(&vertices, &edges)
}

/// The vertices (e, d) and the edges (from, to, p) of a task.
type Graph = (Vec<(u32, u32)>, Vec<(usize, usize, u32)>);

/// The random vertices and edges of a valid task; one in three edges is there.
fn random_graph(random: &mut Random, size: &Size) -> Graph {
    let count = 1 + random.below(size.vertices);
    let mut vertices = Vec::new();
    for _ in 0..count {
        vertices.push(random_vertex(random, size));
    }
    let mut edges = Vec::new();
    for pair in 0..count * count {
        if random.below(3) == 0 {
            let (from, to) = (pair / count, pair % count);
            let p = vertices[from].1 + random.below(size.p) as u32;
            edges.push((from, to, p));
        }
    }
    // A task has at most 32 edges.
    edges.truncate(32);
    (vertices, edges)
}

/// A number between these, both included.
pub fn between(random: &mut Random, least: usize, most: usize) -> usize {
    least + random.below(most - least + 1)
}

/// The e and d of a random valid vertex: behind d, what is drawn for e begins again with 1.
fn random_vertex(random: &mut Random, size: &Size) -> (u32, u32) {
    let drawn = random.below(size.e);
    let d = size.d.0 + random.below(size.d.1);
    let e = 1 + drawn % d;
    (e as u32, d as u32)
}

/// The number of four digits from this byte of a line on; 0 if there are others.
fn number_at(line: &[u8], first: usize) -> u16 {
    let digits = String::from_utf8_lossy(&line[first..first + 4]);
    u16::from_str_radix(&digits, 16).unwrap_or(0)
}

/// Puts a number's four digits into a line, from this byte on.
fn put_number(line: &mut [u8], first: usize, number: u16) {
    line[first..first + 4].copy_from_slice(format!("{number:04x}").as_bytes());
}

/// Changes the masked length of a random task that has one, at times to one that is out of bounds or too large.
pub fn damage_m(random: &mut Random, text: &mut [u8]) {
    let lines = text.split_mut(|&byte| byte == b'\n');
    let is_masked_task = |line: &&mut [u8]| line.len() == 10 && line.starts_with(b"04");
    let mut masked: Vec<_> = lines.filter(is_masked_task).collect();
    if masked.is_empty() {
        return;
    }
    let at = random.below(masked.len());
    let m = [0, 1, 5, 9, 1_000, 1_001, random.below(65_536)][random.below(7)];
    put_number(masked[at], 6, m as u16);
}

/// Changes, puts in, takes out or cuts off at a random byte of a text that has one.
pub fn damage(random: &mut Random, text: &mut Vec<u8>) {
    let at = random.below(text.len());
    let byte = b"0123456789abcdefAFg\r\n "[random.below(22)];
    match random.below(5) {
        0 | 1 => text[at] = byte,
        2 => text.insert(at, byte),
        3 => drop(text.remove(at)),
        _ => text.truncate(at),
    }
}
