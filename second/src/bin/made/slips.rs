//! Texts with a job longer than its own deadline, refusal 13: e and d around each other, beside other faults in the same line and in others, and by chance.

use super::refusals::{with, LINES};
use super::vendors::{vendor_task, KINDS};
use super::{bench, masked_task, number_at, put_number, task, Random};

/// Vertices (e, d): e up to d and past it, and out of their bounds, which is 3.
pub const VERTICES: [(u16, u16); 15] = [
    (1, 1),
    (2, 1),
    (5, 5),
    (6, 5),
    (201, 200),
    (999, 999),
    (1_000, 999),
    (1_000, 1_000),
    (1_001, 1_000),
    (257, 2),
    (1_000, 201),
    (1, 0),
    (0, 0),
    (1_000, 1_001),
    (65_535, 65_535),
];

/// A masked length, and beside it the place, e and d of one vertex of three; the others have e 3. The vertex's own refusals come before that of m.
pub const BESIDE_M: [(u16, usize, u16, u16); 18] = [
    (3, 2, 2, 1),
    (4, 2, 2, 1),
    (4, 2, 4, 3),
    (5, 2, 4, 3),
    (4, 2, 3, 3),
    (4, 2, 4, 4),
    (4, 2, 0, 3),
    (4, 2, 1_001, 3),
    (4, 0, 2, 1),
    (4, 1, 2, 1),
    (4, 0, 4, 3),
    (4, 1, 4, 3),
    (1_000, 2, 999, 1_000),
    (1_000, 2, 201, 200),
    (1_000, 2, 1_000, 999),
    (1_000, 2, 1_000, 1_000),
    (1_001, 2, 1_000, 999),
    (1_001, 0, 2, 1),
];

/// Adds every text.
pub fn add(texts: &mut Vec<Vec<u8>>) {
    bounds(texts);
    masked_lengths(texts);
    vendor_bounds(texts);
    other_lines(texts);
}

/// In the first, the second and the last vertex of a plain task.
fn bounds(texts: &mut Vec<Vec<u8>>) {
    for place in 0..3 {
        for (e, d) in VERTICES {
            let mut vertices = [(1, 9); 3];
            vertices[place] = (e.into(), d.into());
            texts.push((task(&vertices, &[]) + "00\n").into_bytes());
        }
    }
}

/// Beside a masked length.
fn masked_lengths(texts: &mut Vec<Vec<u8>>) {
    for (m, place, e, d) in BESIDE_M {
        let mut vertices = [(3, 9); 3];
        vertices[place] = (e.into(), d.into());
        texts.push((masked_task(m.into(), &vertices, &[]) + "00\n").into_bytes());
    }
}

/// In the first, the second and the last vertex of a ring, and in the second of a gear table: e around d; 3 before that, for p too; and that before 4.
fn vendor_bounds(texts: &mut Vec<Vec<u8>>) {
    let [ring, gears] = KINDS;
    for (kind, place) in [(ring, 0), (ring, 1), (ring, 2), (gears, 1)] {
        for vertex in [
            (5, 5, 5),
            (6, 5, 5),
            (6, 5, 6),
            (201, 200, 200),
            (1_000, 999, 999),
            (1_000, 1_000, 1_000),
            (1_000, 999, 60_000),
            (1_001, 1_000, 60_000),
            (6, 5, 0),
            (6, 5, 60_001),
            (6, 0, 7),
            (5, 5, 4),
            (6, 5, 4),
            (1_000, 999, 998),
        ] {
            let mut vertices = [(1, 9, 9); 3];
            vertices[place] = vertex;
            texts.push((vendor_task(kind, &vertices) + "00\n").into_bytes());
        }
    }
}

/// With a fault in a line behind it, with one before it, and in a later task.
fn other_lines(texts: &mut Vec<Vec<u8>>) {
    let mut lines = LINES;
    lines[1] = "0200060005\n";
    for (line, faulty) in [
        (3, "zz\n"),
        (3, "0300000005\n"),
        (3, "0200000006\n"),
        (3, "0200070006\n"),
        (4, "0300010004\n"),
        (5, "0300000006\n"),
        (1, "010d02\n"),
        (1, "0402020009\n"),
    ] {
        let mut lines = lines;
        lines[line - 1] = faulty;
        texts.push(lines.concat().into_bytes());
    }
    texts.push(lines[..2].concat().into_bytes());
    texts.push((lines.concat() + "\n").into_bytes());
    texts.push(with(3, "0200070006\n"));
    texts.push(bench::r1(7).into_bytes());
    let ring = vendor_task("05", &[(1, 9, 9), (10, 9, 9)]);
    texts.push([LINES[..5].concat(), ring].concat().into_bytes());
}

/// Makes a random vertex's job longer than its own deadline, if there is a vertex; at times the masked length that its task may have exceeds every e, too.
pub fn slip(random: &mut Random, text: &mut [u8]) {
    let mut lines: Vec<_> = text.split_mut(|&byte| byte == b'\n').collect();
    let is_vertex = |line: &[u8]| match line.len() {
        10 => line.starts_with(b"02"),
        14 => line.starts_with(b"06"),
        _ => false,
    };
    let vertices: Vec<_> = (0..lines.len()).filter(|&n| is_vertex(lines[n])).collect();
    if vertices.is_empty() {
        return;
    }
    let at = vertices[random.below(vertices.len())];
    lengthen(random, lines[at]);
    let own_task = lines[..at].iter_mut().rfind(|line| !is_vertex(line));
    let is_masked = |line: &&mut &mut [u8]| line.len() == 10 && line.starts_with(b"04");
    if let (Some(line), 0) = (own_task.filter(is_masked), random.below(2)) {
        put_number(line, 6, 1_000);
    }
}

/// Puts an e longer than its d into a vertex's line: by one tick or by more; at times with another fault.
fn lengthen(random: &mut Random, line: &mut [u8]) {
    let d = number_at(line, 6);
    let one_more = d.saturating_add(1);
    let [more, most] = [256, 1_000].map(|e| one_more.max(e));
    let e = [one_more, one_more, more, most, 1_001][random.below(5)];
    put_number(line, 2, e);
    if random.below(2) == 0 {
        return;
    }
    let p = [0, 60_001, d.saturating_sub(1), d.saturating_sub(1)][random.below(4)];
    let (first, number) = [(6, 0), (6, 1_001), (10, p), (10, p)][random.below(4)];
    // A plain vertex has no p.
    if first < line.len() {
        put_number(line, first, number);
    }
}
