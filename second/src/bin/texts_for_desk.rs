//! Writes the texts that the desk is checked with: a sequence as `second cases` reads it.
//!
//! The bench examples, R2 with a masked length, R1 as rings and gear tables, every refusal of a text, some of jobs longer than their own
//! deadline, inputs around the longest, long paths and large areas, and random texts, whole and damaged, most with a masked length, and most
//! with a ring or a gear table. The sequence is the same from run to run. A first argument gives the random part another seed; with a second one, only so many
//! random texts are written.

#![forbid(unsafe_code)]

mod made;

use made::vendors::{damage_vendor_line, mix_in, vendor_task, KINDS};
use made::{bench, damage, damage_m, masked_task, random_task, refusals, task, text};
use made::{between, self_edge, slips, slow, vendor_refusals, Random, Size};
use second::bounds::INPUT_BYTES;
use second::case::DESK;
use second::sequence::write_sequence;
use std::env;
use std::io;

/// The random part's own seed.
const SEED: u64 = 20_261_117;
/// How many random texts are written.
const RANDOM_TEXTS: u64 = 310;
/// One refused text of so many with a ring or a gear table is written; the reader is checked with all of them.
const ONE_VENDOR_REFUSAL_OF: usize = 6;
/// One text of so many about jobs longer than their own deadline is written; the reader is checked with all of them.
const ONE_SLIP_OF: usize = 5;
/// One random text of so many has a vertex with many groups to examine.
const ONE_CROWDED_OF: usize = 6;
/// One random text of so many has a vertex below long paths.
const ONE_LONG_OF: usize = 12;

/// A few short paths; close releases, so many paths; long deadlines, which need many work cells; and slow cradles.
const SIZES: [Size; 5] = [
    Size {
        vertices: 4,
        e: 7,
        d: (3, 22),
        p: 8,
    },
    Size {
        vertices: 3,
        e: 4,
        d: (1, 18),
        p: 3,
    },
    Size {
        vertices: 6,
        e: 40,
        d: (20, 181),
        p: 120,
    },
    slow::SIZE,
    slow::FAR,
];

/// Writes all texts, or as many random ones as the arguments say.
fn main() -> io::Result<()> {
    let numbers: Result<Vec<u64>, _> = env::args().skip(1).map(|word| word.parse()).collect();
    let texts = match numbers.as_deref() {
        Ok([]) => all_texts(SEED),
        Ok([seed]) => all_texts(*seed),
        Ok([seed, count]) => random_texts(*seed, *count),
        _ => return Err(io::Error::other("usage: texts_for_desk [SEED [COUNT]]")),
    };
    write_sequence(DESK, texts)
}

/// Every text.
fn all_texts(seed: u64) -> Vec<Vec<u8>> {
    let mut texts: Vec<_> = bench::texts().into_iter().map(String::into_bytes).collect();
    texts.extend(bench::masked_texts().map(String::into_bytes));
    texts.extend(bench::vendor_texts().into_iter().map(String::into_bytes));
    refusals::add(&mut texts);
    let mut refused = Vec::new();
    vendor_refusals::add(&mut refused);
    texts.extend(refused.into_iter().step_by(ONE_VENDOR_REFUSAL_OF));
    let mut too_long = Vec::new();
    slips::add(&mut too_long);
    texts.extend(too_long.into_iter().step_by(ONE_SLIP_OF));
    long_inputs(&mut texts);
    for (n, last_e) in [(11, 1), (12, 1), (11, 2), (12, 2)] {
        texts.push(every_group(n, last_e).into_bytes());
    }
    slow_texts(&mut texts);
    texts.extend(random_texts(seed, RANDOM_TEXTS));
    texts
}

/// The longest witness; paths of as many vertices as one byte counts, and around it; work areas that just suffice and don't; R7 with numbers
/// 200 times as large; the largest loads; and a separation beyond every deadline.
fn slow_texts(texts: &mut Vec<Vec<u8>>) {
    let every_tick = || self_edge(1, 1, 1);
    let alone = |e: u32, d: u32| task(&[(e, d)], &[]);
    let mut tables = vec![[vec![every_tick(); 7], vec![alone(1, 1_000)]].concat()];
    for d in [255, 256, 257, 999] {
        tables.push(vec![every_tick(), self_edge(1, d, d), alone(1, d)]);
    }
    for (paths, d) in [(4, 1_000), (5, 910), (5, 911), (5, 1_000)] {
        tables.push(vec![task(&vec![(1, 10); paths], &[]), alone(1, d)]);
    }
    let r7 = task(&[(600, 1_000), (200, 400), (800, 1_000)], &[(1, 2, 400)]);
    tables.push(vec![r7, alone(200, 1_000)]);
    let heaviest = task(&[(999, 999), (1_000, 1_000)], &[(0, 1, 999)]);
    let masking = masked_task(1_000, &[(1_000, 1_000)], &[]);
    tables.push(vec![
        heaviest.clone(),
        heaviest,
        alone(1_000, 1_000),
        masking,
    ]);
    for e in [700, 701] {
        tables.push(vec![self_edge(300, 1_000, 60_000), alone(e, 1_000)]);
    }
    texts.extend(tables.iter().map(|tasks| text(tasks).into_bytes()));
}

/// Inputs of the longest length, one more, and far more: with bytes after a valid text, and without any line feed.
fn long_inputs(texts: &mut Vec<Vec<u8>>) {
    for bytes in [INPUT_BYTES, INPUT_BYTES + 1, 9_000] {
        let mut valid = bench::r1(2).into_bytes();
        valid.resize(bytes, b'\n');
        texts.push(valid);
        texts.push(vec![b'0'; bytes]);
    }
}

/// Four tasks of n equal vertices, then one whose three paths overload only together: all 6 n^4 - 1 groups are examined.
///
/// The first task's last vertex has an e of its own: with 2, the choices that overload are among the last.
fn every_group(n: usize, last_e: u32) -> String {
    let mut tasks = vec![task(&vec![(1, 9); n], &[]); 4];
    let mut vertices = vec![(1, 9); n];
    vertices[n - 1].0 = last_e;
    tasks[0] = task(&vertices, &[]);
    tasks.push(task(&[(3, 9), (1, 6), (4, 9)], &[(1, 2, 6)]));
    tasks.push(task(&[(1, 9)], &[]));
    text(&tasks)
}

/// So many random texts from a seed.
fn random_texts(seed: u64, count: u64) -> Vec<Vec<u8>> {
    let mut random = Random::seeded(seed);
    (0..count).map(|_| random_text(&mut random)).collect()
}

/// A random table's text, whole, with a job longer than its own deadline, or damaged in up to five ways.
fn random_text(random: &mut Random) -> Vec<u8> {
    if random.below(ONE_CROWDED_OF) == 0 {
        return crowded(random).into_bytes();
    }
    if random.below(ONE_LONG_OF) == 0 {
        return below_long_paths(random).into_bytes();
    }
    let mut tasks = Vec::new();
    for _ in 0..=random.below(4) {
        let size = &SIZES[random.below(SIZES.len())];
        tasks.push(random_task(random, size));
    }
    let size = &SIZES[random.below(SIZES.len())];
    mix_in(random, &mut tasks, size);
    let mut text = text(&tasks);
    if random.below(2) == 0 {
        return text.into_bytes();
    }
    if random.below(4) == 0 {
        let mut text = text.into_bytes();
        slips::slip(random, &mut text);
        return text;
    }
    if random.below(2) == 0 {
        text = with_a_line_moved(random, &text);
    }
    let mut text = text.into_bytes();
    if random.below(4) == 0 {
        damage_m(random, &mut text);
    }
    if random.below(2) == 0 {
        damage_vendor_line(random, &mut text);
    }
    for _ in 0..random.below(3) {
        if !text.is_empty() {
            damage(random, &mut text);
        }
    }
    text
}

/// A random table's text with one or two tasks of one long path each, at times another task, and below them vertices of a long deadline.
fn below_long_paths(random: &mut Random) -> String {
    let mut tasks = Vec::new();
    for _ in 0..=random.below(2) {
        let p = between(random, 1, 3) as u32;
        let e = between(random, 1, p as usize) as u32;
        tasks.push(self_edge(e, p, p));
    }
    if random.below(2) == 0 {
        tasks.push(random_task(random, &slow::SIZE));
    }
    let mut vertices = Vec::new();
    for _ in 0..=random.below(2) {
        let d = between(random, 256, 1_000);
        let e = [1, d / 3, d / 2][random.below(3)] as u32;
        vertices.push((e, d as u32));
    }
    tasks.push(task(&vertices, &[]));
    text(&tasks)
}

/// The text with one line taken out, put somewhere else, or doubled there; or as it is.
fn with_a_line_moved(random: &mut Random, text: &str) -> String {
    let mut lines: Vec<_> = text.split_inclusive('\n').collect();
    let at = random.below(lines.len());
    let line = lines[at];
    if random.below(3) > 0 {
        lines.remove(at);
    }
    if random.below(3) > 0 {
        lines.insert(random.below(lines.len() + 1), line);
    }
    lines.concat()
}

/// A random table's text with a vertex that meets after many groups; at times one more path makes it miss, or leave groups out. It is
/// the last one, or there is a task below it that holds it up.
///
/// The first tasks have alike vertices. Let x be the judged e, the masked time and one of each of them. The task below them has three
/// paths, and x with each of them leaves a tick free: with (0), of a, tick d; with (1,2), of 1 and after p of b more, tick p; with (2),
/// of b, tick d. But x with (0) and (1,2) in one range leaves none, so that all groups of the first tasks' paths are examined with them.
fn crowded(random: &mut Random) -> String {
    let mut tasks = Vec::new();
    let (e, masked) = (1 + random.below(4) as u32, random.below(3) as u32);
    let mut x = e + masked;
    for _ in 0..random.below(6) {
        let alike = 1 + random.below(2) as u32;
        x += alike;
        let mut vertices = vec![(alike, 20); 1 + random.below(12)];
        if random.below(4) == 0 {
            // One path that is lighter or heavier, if not alike.
            let at = random.below(vertices.len());
            vertices[at].0 = 1 + random.below(3) as u32;
        }
        tasks.push(alike_task(random, &vertices));
    }
    let a = 2 + random.below(3) as u32;
    let b = a + random.below(4) as u32;
    let p = x + 1 + random.below(a as usize - 1) as u32;
    tasks.push(task(&[(a, 20), (1, p), (b, 20)], &[(1, 2, p)]));
    tasks.push(task(&[(e, x + b)], &[]));
    if masked > 0 {
        tasks.push(masked_task(masked, &[(masked, 50)], &[]));
    }
    text(&tasks)
}

/// The lines of a task of these vertices, each of which is a path by itself: without edges, or a ring or a gear table with separations
/// beyond every deadline here.
fn alike_task(random: &mut Random, vertices: &[(u32, u32)]) -> String {
    let separated: Vec<_> = vertices.iter().map(|&(e, d)| (e, d, 40)).collect();
    match random.below(4) {
        0 => vendor_task(KINDS[random.below(2)], &separated),
        _ => task(vertices, &[]),
    }
}
