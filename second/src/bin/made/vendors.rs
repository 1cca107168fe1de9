//! Rings and gear tables: their lines, random ones among a table's tasks, and damage to their lines.

use super::{number_at, put_number, random_vertex, Random, Size};

/// The first byte of a ring and of a gear table.
pub const KINDS: [&str; 2] = ["05", "07"];
/// The most vertices that a ring or a gear table has.
const MOST_VERTICES: usize = 12;

/// The line of a vertex frame with a separation.
pub fn vendor_vertex_line(e: u32, d: u32, p: u32) -> String {
    format!("06{e:04x}{d:04x}{p:04x}\n")
}

/// The lines of a ring or a gear table with these vertices (e, d, p).
pub fn vendor_task(kind: &str, vertices: &[(u32, u32, u32)]) -> String {
    let mut lines = format!("{kind}{:02x}\n", vertices.len());
    for &(e, d, p) in vertices {
        lines += &vendor_vertex_line(e, d, p);
    }
    lines
}

/// Puts one or two random rings or gear tables among a table's tasks, of which there are at most six; into one table of three, none.
pub fn mix_in(random: &mut Random, tasks: &mut Vec<String>, size: &Size) {
    for _ in 0..random.below(3) {
        let at = random.below(tasks.len() + 1);
        tasks.insert(at, random_vendor_task(random, size));
    }
}

/// The lines of a random valid ring or gear table; one in eight has the most vertices.
fn random_vendor_task(random: &mut Random, size: &Size) -> String {
    let count = match random.below(8) {
        0 => MOST_VERTICES,
        _ => 1 + random.below(size.vertices),
    };
    let mut vertices = Vec::new();
    for _ in 0..count {
        let (e, d) = random_vertex(random, size);
        let p = d + random.below(size.p) as u32;
        vertices.push((e, d, p));
    }
    vendor_task(KINDS[random.below(2)], &vertices)
}

/// Damages a random line of a ring or a gear table, if there is one: puts another kind, count or number into it.
pub fn damage_vendor_line(random: &mut Random, text: &mut [u8]) {
    let lines = text.split_mut(|&byte| byte == b'\n');
    let is_vendor_line = |line: &&mut [u8]| {
        let kinds: [&[u8]; 3] = [b"05", b"06", b"07"];
        [4, 14].contains(&line.len()) && kinds.iter().any(|kind| line.starts_with(kind))
    };
    let mut lines: Vec<_> = lines.filter(is_vendor_line).collect();
    if lines.is_empty() {
        return;
    }
    let at = random.below(lines.len());
    let line = &mut lines[at];
    if random.below(4) == 0 {
        line[1] = b"01234567"[random.below(8)];
    } else if line.len() == 4 {
        let count = [0, 1, 2, 3, 12, 13, random.below(256)][random.below(7)];
        line[2..].copy_from_slice(format!("{count:02x}").as_bytes());
    } else {
        damage_vendor_vertex(random, line);
    }
}

/// Puts another number into the line of a vertex frame with a separation: e, d or p, or the p that is one below its d.
fn damage_vendor_vertex(random: &mut Random, line: &mut [u8]) {
    let below_d = number_at(line, 6).saturating_sub(1);
    let any = random.below(65_536) as u16;
    let number = [0, 1, 9, 1_000, 1_001, 60_000, 60_001, any][random.below(8)];
    let (first, number) = [(2, number), (6, number), (10, number), (10, below_d)][random.below(4)];
    put_number(line, first, number);
}
