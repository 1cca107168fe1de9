//! The writer against the reader and against the list of all faults: the example tables, and random tables, whole and broken.

use crate::common::random::{damage, table, Random, Size};
use crate::common::sheet::tasks_or_refusal;
use crate::common::vendors::has_vendor_task;
use crate::common::writing::{expected, record, said, written_back, Said};
use crate::common::{text, Task};
use second::record::Record;
use second::text::read;
use second::write::text_of;
use std::fs;
use std::path::Path;

/// Tables of the document's full bounds.
const LARGE: Size = Size {
    tasks: 8,
    vertices: 12,
    edges: 32,
    e: 1_000,
    d: 1_000,
    p: 60_000,
};

/// Tables of few tasks.
const SMALL: Size = Size {
    tasks: 3,
    vertices: 4,
    edges: 6,
    ..LARGE
};

/// Tables so small that many are alike.
const TINY: Size = Size {
    tasks: 2,
    vertices: 2,
    edges: 2,
    e: 2,
    d: 3,
    p: 3,
};

#[test]
fn the_example_tables_written_back() {
    let folder = Path::new(env!("CARGO_MANIFEST_DIR")).join("../tables");
    let mut written = 0;
    for entry in fs::read_dir(folder).unwrap() {
        let file = entry.unwrap().path();
        if file.extension().is_some_and(|kind| kind == "table") {
            let text = fs::read(&file).unwrap();
            if let Ok(table) = read(&text) {
                let back = written_back(&text);
                // A ring or a gear table is written as the plain task that it stands for.
                let name = file.display();
                assert_eq!(back != text, has_vendor_task(&text), "{name}");
                assert_eq!(read(&back), Ok(table), "{name}");
                written += 1;
            }
        }
    }
    assert!(written >= 1);
}

#[test]
fn what_was_written_reads_as_the_same_table() {
    let mut random = Random(40);
    for number in 0..3_000 {
        let tasks = table(&mut random, [&SMALL, &LARGE][usize::from(number % 4 == 0)]);
        let needed = text(&tasks).len();
        assert_eq!(said(&tasks, needed - 1), Err((10, needed)));
        assert_eq!(said(&tasks, needed + random.below(9)), Ok(needed));
        let written = text_of(&record(&tasks)).unwrap();
        let table = read(written.as_bytes()).unwrap();
        assert_eq!(Record::from(&table), record(&tasks));
    }
}

#[test]
fn valid_texts_written_back() {
    let mut random = Random(41);
    let mut damaged = 0;
    for _ in 0..10_000 {
        let mut bytes = text(&table(&mut random, &SMALL)).into_bytes();
        assert_eq!(written_back(&bytes), bytes);
        // A damaged text that is still valid is written back like any other.
        damage(&mut random, &mut bytes);
        if read(&bytes).is_ok() {
            assert_eq!(written_back(&bytes), bytes);
            damaged += 1;
        }
    }
    assert!(damaged > 500, "{damaged}");
}

#[test]
fn different_texts_are_different_tables() {
    let mut random = Random(42);
    let texts = (0..3_000).map(|_| text(&table(&mut random, &TINY)));
    let mut texts: Vec<_> = texts.collect();
    texts.sort();
    texts.dedup();
    let tables: Vec<_> = texts.iter().map(|t| read(t.as_bytes()).unwrap()).collect();
    for (number, table) in tables.iter().enumerate() {
        assert!(tables[..number].iter().all(|other| other != table));
    }
    assert!(tables.len() > 500, "{}", tables.len());
    // One damaged byte or line of a larger one.
    let mut other = 0;
    for _ in 0..10_000 {
        let whole = text(&table(&mut random, &SMALL)).into_bytes();
        let mut bytes = whole.clone();
        damage(&mut random, &mut bytes);
        if let (Ok(table), false) = (read(&bytes), bytes == whole) {
            assert_ne!(read(&whole), Ok(table));
            other += 1;
        }
    }
    assert!(other > 300, "{other}");
}

/// A number of a line that a rule may refuse, at times too large for its bytes.
fn any_number(random: &mut Random) -> u32 {
    let near = [0, 1, 2, 12, 13, 32, 33, 201, 1_000, 1_001, 60_000, 60_001];
    let far = [255, 256, 65_535, 65_536, 65_537, u32::MAX];
    match random.below(6) {
        0 => far[random.below(far.len())],
        1 => random.below(65_536) as u32,
        2 => random.below(300) as u32,
        _ => near[random.below(near.len())],
    }
}

/// Breaks a table in one random way: a number, how many vertices, edges or tasks there are, or the order of the edges.
fn break_table(random: &mut Random, tasks: &mut Vec<Task>) {
    if tasks.is_empty() {
        return;
    }
    let at = random.below(tasks.len());
    let whole = tasks[at].clone();
    let task = &mut tasks[at];
    let vertices = task.vertices.len();
    match random.below(12) {
        0 => task.m = any_number(random),
        1 => task.vertices.truncate(random.below(vertices + 1)),
        2 => task
            .vertices
            .resize(any_number(random) as usize % 300, (1, 1)),
        3 => task
            .edges
            .resize(any_number(random) as usize % 300, (0, 0, 9)),
        4 => tasks.resize(random.below(12), whole),
        5 | 6 if vertices > 0 => task.vertices[random.below(vertices)].0 = any_number(random),
        7 if vertices > 0 => task.vertices[random.below(vertices)].1 = any_number(random),
        _ if task.edges.is_empty() => task.m = task.m.wrapping_add(1),
        kind => break_edge(random, kind, task, &whole),
    }
}

/// Breaks one of the task's edges, of which there is one: its p, an end, the order, or p against d of the vertex that it leaves.
fn break_edge(random: &mut Random, kind: usize, task: &mut Task, whole: &Task) {
    let edge = random.below(task.edges.len());
    match kind {
        8 => task.edges[edge].2 = any_number(random),
        9 => {
            let number = any_number(random) as usize % 65_536;
            let (from, to, _) = &mut task.edges[edge];
            *[from, to][random.below(2)] = number;
        }
        10 => {
            let other = random.below(task.edges.len());
            task.edges.swap(edge, other);
        }
        _ => {
            let (from, _, p) = &mut task.edges[edge];
            let d = whole.vertices.get(*from).map_or(1, |vertex| vertex.1);
            *p = d.saturating_sub(1);
        }
    }
}

/// Do all numbers of the table fit into their bytes?
fn fits(tasks: &[Task]) -> bool {
    let two = |number: u32| number < 65_536;
    tasks.iter().all(|task| {
        let counts = task.vertices.len() < 256 && task.edges.len() < 256;
        let vertices = task.vertices.iter().all(|&(e, d)| two(e) && two(d));
        let edge = |&(from, to, p): &(usize, usize, u32)| from < 256 && to < 256 && two(p);
        counts && two(task.m) && vertices && task.edges.iter().all(edge)
    })
}

/// What the reader says of the frames of these tasks, written without any check, and what the sheet's rows say of them.
fn read_unchecked(tasks: &[Task]) -> Said {
    let unchecked = text(tasks);
    let sheet = tasks_or_refusal(unchecked.as_bytes());
    let read = read(unchecked.as_bytes());
    let read = read.map_err(|refusal| (refusal.number(), refusal.place));
    assert_eq!(read.clone().err(), sheet.err());
    read.map(|_| unchecked.len())
}

#[test]
fn broken_tables_are_refused_as_the_reader_would() {
    let mut random = Random(43);
    let mut numbers = [0; 14];
    let mut compared = 0;
    for number in 0..40_000 {
        let mut tasks = table(&mut random, [&SMALL, &LARGE][usize::from(number % 8 == 0)]);
        for _ in 0..=random.below(3) {
            break_table(&mut random, &mut tasks);
        }
        let bytes = [0, 50, 200, 4_000, 4_000][random.below(5)];
        let found = said(&tasks, bytes);
        assert_eq!(found, expected(&tasks, bytes));
        numbers[found.map_or_else(|(number, _)| usize::from(number), |_| 0)] += 1;
        if fits(&tasks) {
            compared += 1;
            match found {
                // 10 is only for a table that breaks no rule.
                Err((10, needed)) => assert_eq!(read_unchecked(&tasks), Ok(needed)),
                found => assert_eq!(read_unchecked(&tasks), found),
            }
        }
    }
    assert!(compared > 20_000, "{compared}");
    let seen = [0, 2, 3, 4, 5, 10, 13].map(|number| numbers[number]);
    assert!(seen.iter().all(|&n| n > 500), "{numbers:?}");
    assert_eq!(seen.iter().sum::<i32>(), 40_000);
}
