//! A small pseudo-random generator, and random tables and texts.

use super::{masked_task_line, task_line, Task};

/// A xorshift generator; the seed is anything but zero.
pub struct Random(pub u64);

impl Random {
    /// The next 64 bits.
    fn next(&mut self) -> u64 {
        self.0 ^= self.0 << 13;
        self.0 ^= self.0 >> 7;
        self.0 ^= self.0 << 17;
        self.0
    }

    /// A number from 0 to below the end, which is at least 1.
    pub fn below(&mut self, end: usize) -> usize {
        (self.next() >> 16) as usize % end
    }

    /// A number from the first to the last.
    pub fn between(&mut self, first: u32, last: u32) -> u32 {
        first + self.below((last - first + 1) as usize) as u32
    }
}

/// The largest numbers of a random table.
pub struct Size {
    pub tasks: u32,
    pub vertices: u32,
    pub edges: usize,
    pub e: u32,
    pub d: u32,
    pub p: u32,
}

/// A random valid table.
pub fn table(random: &mut Random, size: &Size) -> Vec<Task> {
    let tasks = random.between(1, size.tasks);
    (0..tasks).map(|_| random_task(random, size)).collect()
}

/// A random valid task; short deadlines and separations are frequent, so that paths are many. One in two has a masked length.
fn random_task(random: &mut Random, size: &Size) -> Task {
    let mut task = Task::default();
    let longest = [size.d, size.d / 3, 2][random.below(3)];
    for _ in 0..random.between(1, size.vertices) {
        let d = random.between(1, longest);
        task.vertices.push((random.between(1, size.e.min(d)), d));
    }
    let count = task.vertices.len();
    let mut pairs: Vec<_> = (0..count * count).map(|n| (n / count, n % count)).collect();
    let most = random.below(size.edges.min(pairs.len()) + 1);
    while pairs.len() > most {
        pairs.remove(random.below(pairs.len()));
    }
    let longest = [size.p, size.p / 3, 1][random.below(3)];
    for (from, to) in pairs {
        let least = task.vertices[from].1;
        let p = random.between(least, longest.max(least));
        task.edges.push((from, to, p));
    }
    if random.below(2) == 0 {
        task.m = random_m(random, &task);
    }
    task
}

/// A random masked length that the task may have; 1 and the largest are frequent.
pub fn random_m(random: &mut Random, task: &Task) -> u32 {
    let largest = task.largest_e();
    match random.below(4) {
        0 => 1,
        1 => largest,
        _ => random.between(1, largest),
    }
}

/// Damages a text in one random way.
pub fn damage(random: &mut Random, text: &mut Vec<u8>) {
    let at = random.below(text.len() + 1);
    let digit = b"0123456789abcdef"[random.below(16)];
    match random.below(11) {
        0 => text.truncate(at),
        1 => text.insert(at, digit),
        2 => text.insert(at, random.below(256) as u8),
        3 => text.insert(at, b'\n'),
        4 if at < text.len() => drop(text.remove(at)),
        5 if at < text.len() => text[at] = random.below(256) as u8,
        6 => damage_lines(random, text),
        7 => text.push(digit),
        8 => damage_m(random, text),
        9 => slip(random, text),
        _ if at < text.len() => text[at] = digit,
        _ => (),
    }
}

/// Drops, doubles or swaps whole lines of a text.
fn damage_lines(random: &mut Random, text: &mut Vec<u8>) {
    let mut lines: Vec<Vec<u8>> = text
        .split_inclusive(|&b| b == b'\n')
        .map(Vec::from)
        .collect();
    if lines.is_empty() {
        return;
    }
    let (a, b) = (random.below(lines.len()), random.below(lines.len()));
    match random.below(3) {
        0 => drop(lines.remove(a)),
        1 => lines.insert(a, lines[a].clone()),
        _ => lines.swap(a, b),
    }
    *text = lines.concat();
}

/// Changes the masked length of some task that has one, at times to one that is out of bounds or too large.
fn damage_m(random: &mut Random, text: &mut [u8]) {
    let lines = text.split_mut(|&b| b == b'\n');
    let mut masked: Vec<_> = lines
        .filter(|line| line.len() == 10 && line.starts_with(b"04"))
        .collect();
    if masked.is_empty() {
        return;
    }
    let at = random.below(masked.len());
    let m = [0, 1, 2, 3, 4, 1_000, 1_001, random.below(65_536)][random.below(8)];
    masked[at][6..].copy_from_slice(format!("{m:04x}").as_bytes());
}

/// Makes the job of some vertex longer than its own deadline, if there is a vertex; at times another number of its line is 0, too.
fn slip(random: &mut Random, text: &mut [u8]) {
    let lines = text.split_mut(|&b| b == b'\n');
    let is_vertex = |line: &&mut [u8]| match line.len() {
        10 => line.starts_with(b"02"),
        14 => line.starts_with(b"06"),
        _ => false,
    };
    let mut vertices: Vec<_> = lines.filter(is_vertex).collect();
    if vertices.is_empty() {
        return;
    }
    let at = random.below(vertices.len());
    let line = &mut vertices[at];
    let d = String::from_utf8_lossy(&line[6..10]).into_owned();
    let d = u32::from_str_radix(&d, 16).unwrap_or(0);
    let [more, most] = [256, 1_000].map(|e| e.max(d + 1));
    let e = [d + 1, d + 1, more, most, 1_001][random.below(5)] % 65_536;
    line[2..6].copy_from_slice(format!("{e:04x}").as_bytes());
    if random.below(4) == 0 {
        let numbers = (line.len() - 2) / 4;
        let first = 2 + 4 * random.below(numbers);
        line[first..first + 4].copy_from_slice(b"0000");
    }
}

/// Bytes without any sense.
pub fn noise(random: &mut Random) -> Vec<u8> {
    (0..random.below(40))
        .map(|_| random.below(256) as u8)
        .collect()
}

/// Lines that look like frames, in no sensible order.
pub fn frames(random: &mut Random) -> Vec<u8> {
    let mut text = match random.below(2) {
        0 => task_line(random.below(3), random.below(3)),
        _ => masked_task_line(random.below(3), random.below(3), random.between(0, 3)),
    };
    for _ in 0..random.below(8) {
        let small = random.below(4);
        text += &match random.below(6) {
            0 => task_line(small, random.below(3)),
            4 => masked_task_line(small, random.below(3), random.between(0, 3)),
            1 | 2 => format!("02000{small}000{}\n", random.below(3)),
            3 => format!("030{}0{small}000{}\n", random.below(2), random.below(4)),
            _ => format!("0{}\n", random.below(6)),
        };
    }
    (text + "00\n").into_bytes()
}
