//! Writes the texts that the lister is checked with: a sequence as `second cases` reads it.
//!
//! The bench examples, R2 with a masked length, long paths and far separations, then random tables whose tasks have from one path to far more than are allowed.
//! The sequence is the same from run to run.

#![forbid(unsafe_code)]

mod made;

use made::vendors::{vendor_task, KINDS};
use made::{bench, self_edge, task, text, Random};
use second::case::LIST;
use second::sequence::write_sequence;
use std::io;

/// How many random tables are written.
const TABLES: usize = 200;
/// The largest d.
const MOST_D: usize = 1_000;
/// How many of those with close releases have the longest horizon.
const LONGEST: usize = 3;

/// How close the releases of a table's tasks are: the least and the number of separations, and the same of the horizon.
struct Size {
    p: (usize, usize),
    d: (usize, usize),
}

/// Short horizons with close releases, longer ones, and long ones, also with close releases: long paths, and many; and the longest, with separations up to
/// the largest.
const SIZES: [Size; 6] = [
    Size {
        p: (1, 6),
        d: (1, 12),
    },
    Size {
        p: (3, 15),
        d: (10, 30),
    },
    Size {
        p: (10, 40),
        d: (30, 31),
    },
    Size {
        p: (150, 600),
        d: (700, 301),
    },
    Size {
        p: (1, 9),
        d: (200, 1),
    },
    Size {
        p: (300, 59_701),
        d: (1_000, 1),
    },
];

/// The longest horizon with close releases.
const CLOSE: Size = Size {
    p: (2, 30),
    d: (999, 2),
};

/// Writes the bench examples, the unreadable texts of R4 and R11 among them, R2 with a masked length, long paths, and then tables of each size in turn.
fn main() -> io::Result<()> {
    let mut random = Random(20_261_115);
    let mut texts: Vec<_> = bench::texts().into_iter().map(String::into_bytes).collect();
    texts.extend(bench::masked_texts().map(String::into_bytes));
    texts.extend(long_paths().into_iter().map(String::into_bytes));
    let sizes = SIZES.iter().cycle().take(TABLES);
    let sizes = sizes.chain([&CLOSE; LONGEST]);
    texts.extend(sizes.map(|size| table(&mut random, size)));
    write_sequence(LIST, texts)
}

/// Paths of as many vertices as one byte counts, one more and two more, and of the most; rings and gear tables with a release at every tick; a separation at
/// the horizon, one before it, and the largest; and loads as large as they can be.
fn long_paths() -> Vec<String> {
    let below = |above: String, d: u32| text(&[above, task(&[(1, d)], &[])]);
    let mut texts = Vec::new();
    for d in [255, 256, 257, 999, 1_000] {
        texts.push(below(self_edge(1, 1, 1), d));
    }
    for kind in KINDS {
        texts.push(below(vendor_task(kind, &[(1, 1, 1), (2, 2, 2)]), 1_000));
    }
    for p in [999, 1_000, 1_001, 59_999, 60_000] {
        let above = task(&[(999, 999), (1_000, 1_000)], &[(0, 0, p), (0, 1, 999)]);
        texts.push(below(above, 1_000));
    }
    texts
}

/// A random table of one to three tasks; vertex 0 of the last has the horizon as its d.
fn table(random: &mut Random, size: &Size) -> Vec<u8> {
    let mut text = String::new();
    for _ in 0..random.below(3) {
        text += &random_task(random, size, None);
    }
    let d = size.d.0 + random.below(size.d.1);
    text += &random_task(random, size, Some(d as u32));
    (text + "00\n").into_bytes()
}

/// The lines of a random task of one to five vertices, with this d of vertex 0 if there is one.
///
/// Every other d is the least separation that follows, and as long as the longest one where none does, so that e can be long, too; but no d is above the
/// largest.
fn random_task(random: &mut Random, size: &Size, first_d: Option<u32>) -> String {
    let count = 1 + random.below(5);
    let longest = (size.p.0 + size.p.1 - 1).min(MOST_D) as u32;
    let mut deadlines = vec![longest; count];
    let rare = 1 + random.below(4);
    let mut edges = Vec::new();
    for pair in 0..count * count {
        if random.below(rare) == 0 {
            let (from, to) = (pair / count, pair % count);
            let drawn = (size.p.0 + random.below(size.p.1)) as u32;
            let p = match (from, first_d) {
                (0, Some(d)) => drawn.max(d),
                _ => drawn,
            };
            deadlines[from] = deadlines[from].min(p);
            edges.push((from, to, p));
        }
    }
    if let Some(d) = first_d {
        deadlines[0] = d;
    }
    let mut vertices = Vec::new();
    for d in deadlines {
        let most = if d > 200 { d as usize } else { 20 };
        let e = 1 + random.below(most) as u32 % d;
        vertices.push((e, d));
    }
    task(&vertices, &edges)
}
