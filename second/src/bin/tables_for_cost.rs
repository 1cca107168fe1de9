//! Writes the tables whose judging docs/COST.md counts: a sequence as `second cases` reads it.
//!
//! The first argument is a family: `small` tables like R1, `paper` tables like those of source document 001, section 8.1, `heavy` ones, with
//! many groups, `slow` ones, of slow cradles with long deadlines, or `long`, a table with the longest path. With `few`, the bench examples and
//! some tables of each family. A second argument gives another seed. With `latest` before them, each table is asked how late every vertex's
//! latest is. None has a masked length, so that costs can be compared with earlier ones.

#![forbid(unsafe_code)]

mod made;

use made::{bench, between, random_unmasked_task, self_edge, task, text, Random, Size};
use second::bounds::{BUDGET, MOST_WORK_CELLS, WITNESS_CELLS};
use second::case::{FINISHES, UNMARKED};
use second::judge::{judge, Verdict};
use second::latest::latest;
use second::sequence::write_sequence;
use second::table::{TaskNo, VertexNo};
use second::text::read;
use std::env;
use std::io;

/// The seed where none is given.
const SEED: u64 = 20_261_115;

/// So many groups are many.
const MANY_GROUPS: u32 = 20_000;

/// A small table's tasks that are not self-edge tasks.
const SMALL: Size = Size {
    vertices: 3,
    e: 3,
    d: (4, 7),
    p: 4,
};

/// Writes the tables of the family that the arguments name.
fn main() -> io::Result<()> {
    let arguments: Vec<_> = env::args().skip(1).collect();
    let words: Vec<_> = arguments.iter().map(String::as_str).collect();
    let (mode, words) = match words.as_slice() {
        ["latest", words @ ..] => (FINISHES, words),
        words => (UNMARKED, words),
    };
    let texts = match words {
        [family] => family_of(family, SEED),
        [family, seed] => seed.parse().ok().and_then(|seed| family_of(family, seed)),
        _ => None,
    };
    let Some(texts) = texts else {
        return Err(io::Error::other(
            "usage: tables_for_cost [latest] small | paper | heavy | slow | long | few [SEED]",
        ));
    };
    let texts: Vec<_> = texts.into_iter().map(String::into_bytes).collect();
    write_sequence(mode, texts)
}

/// The tables of a family, if there is one of this name.
fn family_of(name: &str, seed: u64) -> Option<Vec<String>> {
    let mut random = Random::seeded(seed);
    let mut tables = |count: usize, one: fn(&mut Random) -> String| {
        (0..count).map(|_| one(&mut random)).collect::<Vec<_>>()
    };
    match name {
        "small" => Some(tables(400, small)),
        "paper" => Some(tables(60, paper)),
        "heavy" => Some([tables(6, alike), tables(2, dense)].concat()),
        "few" => {
            let families = [tables(20, small), tables(5, paper), tables(1, alike)];
            let slow = tables(3, slow);
            Some([bench::texts(), families.concat(), slow, vec![long()]].concat())
        }
        "slow" => Some(tables(40, slow)),
        "long" => Some(vec![long()]),
        _ => None,
    }
}

/// One to three tasks: self-edge tasks like R1's, or of up to three vertices.
fn small(random: &mut Random) -> String {
    let mut tasks = Vec::new();
    for _ in 0..between(random, 1, 3) {
        if random.below(2) == 0 {
            tasks.push(random_unmasked_task(random, &SMALL));
            continue;
        }
        let [e, d] = [between(random, 1, 2), between(random, 5, 7)];
        let p = between(random, d, 7);
        tasks.push(self_edge(e as u32, d as u32, p as u32));
    }
    text(&tasks)
}

/// A table as in section 8.1, with up to 8 tasks where the section has about 20.
fn paper(random: &mut Random) -> String {
    let mut tasks = Vec::new();
    for _ in 0..between(random, 3, 8) {
        tasks.push(paper_task(random));
    }
    text(&tasks)
}

/// A task as in section 8.1: 5 to 10 vertices, fan-out 1 to 3, strongly connected, d at least half the least separation that follows.
///
/// Separations of 100 to 300 become 67 to 200, so that every d is within its bound, and e/d of up to 0.07 becomes 0.175, since
/// there are 8 tasks at most and not 20.
fn paper_task(random: &mut Random) -> String {
    let count = between(random, 5, 10);
    let mut vertices = Vec::new();
    let mut edges = Vec::new();
    for from in 0..count {
        let mut ends = vec![(from + 1) % count];
        for _ in 1..between(random, 1, 3) {
            ends.push(random.below(count));
        }
        ends.sort_unstable();
        ends.dedup();
        let mut least = usize::MAX;
        for to in ends {
            let p = between(random, 67, 200);
            least = least.min(p);
            edges.push((from, to, p as u32));
        }
        let d = between(random, least.div_ceil(2), least);
        let e = between(random, 0, d * 175 / 1_000).max(1);
        vertices.push((e as u32, d as u32));
    }
    task(&vertices, &edges)
}

/// A table whose last vertex meets after all groups were examined, some tens of thousands.
///
/// The first tasks have alike vertices. Let x be the judged e and one of each of them. The task below them has three paths, and x with
/// each of them leaves a tick free: with (0), of a, tick d; with (1,2), of 1 and after p of b more, tick p; with (2), of b, tick d. But x
/// with (0) and (1,2) in one range leaves none, so that all groups of the first tasks' paths are examined with them.
fn alike(random: &mut Random) -> String {
    let e = between(random, 5, 15) as u32;
    let mut x = e;
    let mut tasks = Vec::new();
    for _ in 0..4 {
        let alike = between(random, 10, 25) as u32;
        x += alike;
        tasks.push(task(&vec![(alike, 200); between(random, 7, 11)], &[]));
    }
    let a = between(random, 10, 30) as u32;
    let b = a + random.below(30) as u32;
    let p = x + 1 + random.below(a as usize - 1) as u32;
    tasks.push(task(&[(a, 200), (1, p), (b, 200)], &[(1, 2, p)]));
    tasks.push(task(&[(e, x + b)], &[]));
    text(&tasks)
}

/// A table whose last vertex, d 200, has many groups, each tested at many ticks: seven tasks of many paths above the least e that does it.
fn dense(random: &mut Random) -> String {
    loop {
        let mut tasks: Vec<_> = (0..7).map(|_| dense_task(random)).collect();
        for e in 1..=200 {
            tasks.truncate(7);
            tasks.push(task(&[(e, 200)], &[]));
            let text = text(&tasks);
            match last_verdict(&text) {
                Verdict::Meets { count } if count < MANY_GROUPS => {}
                Verdict::Meets { .. } | Verdict::Unfinished { .. } => return text,
                Verdict::Misses { .. } | Verdict::Refused(_) => break,
            }
        }
    }
}

/// A task of three vertices and all nine edges.
fn dense_task(random: &mut Random) -> String {
    let mut vertices = Vec::new();
    let mut edges = Vec::new();
    for from in 0..3 {
        vertices.push((between(random, 2, 6) as u32, between(random, 30, 60) as u32));
        for to in 0..3 {
            edges.push((from, to, between(random, 60, 120) as u32));
        }
    }
    task(&vertices, &edges)
}

/// The verdict of the only vertex of task 7, with areas that suffice.
fn last_verdict(text: &str) -> Verdict {
    let mut work = vec![0; MOST_WORK_CELLS];
    let mut witness = [0; WITNESS_CELLS];
    judge(
        text.as_bytes(),
        TaskNo(7),
        VertexNo(0),
        BUDGET,
        &mut work,
        &mut witness,
    )
}

/// A slow cradle: two to six tasks, a few of them with a short job that comes often, so that their paths are long; every search is finished.
fn slow(random: &mut Random) -> String {
    loop {
        let mut tasks = Vec::new();
        for _ in 0..between(random, 2, 6) {
            tasks.push(match random.below(4) {
                0 => often(random),
                _ => slow_task(random),
            });
        }
        let text = text(&tasks);
        if is_finished(&text) {
            return text;
        }
    }
}

/// A self-edge task whose separation is a twentieth of a slow task's deadline.
fn often(random: &mut Random) -> String {
    let p = between(random, 20, 50);
    let e = between(random, 1, p / 6);
    self_edge(e as u32, p as u32, p as u32)
}

/// A task of one to eight vertices, fan-out up to 2, d 400 to 1,000, and separations up to the largest: no path has more than three vertices
/// by tick 1,000, so that there are at most 8 x 2 x 2.
fn slow_task(random: &mut Random) -> String {
    let count = between(random, 1, 8);
    let mut vertices = Vec::new();
    let mut edges = Vec::new();
    for from in 0..count {
        let d = between(random, 400, 1_000);
        vertices.push((between(random, 1, d / 8) as u32, d as u32));
        let mut ends: Vec<_> = (0..random.below(3)).map(|_| random.below(count)).collect();
        ends.sort_unstable();
        ends.dedup();
        for to in ends {
            let most = [d + 50, 1_200, 60_000][random.below(3)];
            edges.push((from, to, between(random, d, most) as u32));
        }
    }
    task(&vertices, &edges)
}

/// Is every search of a table finished within the desk's budget, that for the worst finish, too?
fn is_finished(text: &str) -> bool {
    let Ok(table) = read(text.as_bytes()) else {
        return false;
    };
    let mut work = vec![0; MOST_WORK_CELLS];
    let mut witness = [0; WITNESS_CELLS];
    let mut numbers = table.numbers();
    numbers.all(|(task, vertex)| {
        let bytes = text.as_bytes();
        let verdict = judge(bytes, task, vertex, BUDGET, &mut work, &mut witness);
        let lateness = latest(bytes, task, vertex, BUDGET, &mut work, &mut witness);
        [verdict, lateness.verdict()]
            .iter()
            .all(|verdict| matches!(verdict, Verdict::Meets { .. } | Verdict::Misses { .. }))
    })
}

/// The longest path: a release at every tick, above a vertex of the longest deadline.
fn long() -> String {
    text(&[self_edge(1, 1, 1), task(&[(1, 1_000)], &[])])
}
