//! Jobs longer than their own deadline in random tables: refused at their line, read and written; and what is judged without one.

use crate::common::definitions::{complete_paths, e_plus_b, masked_time};
use crate::common::lateness::{latest_in, meets, misses};
use crate::common::random::{table, Random, Size};
use crate::common::refused::check;
use crate::common::vendors::random_vendor_task;
use crate::common::writing::said;
use crate::common::{judged, open_text, text, Task};
use second::judge::Verdict;
use std::slice;

/// Small tables, with both verdicts.
const SMALL: Size = Size {
    tasks: 4,
    vertices: 3,
    edges: 5,
    e: 3,
    d: 9,
    p: 9,
};

/// Tables of the document's full bounds.
const LARGE: Size = Size {
    tasks: 5,
    vertices: 12,
    edges: 32,
    e: 1_000,
    d: 1_000,
    p: 60_000,
};

/// The lines of a random valid text of plain tasks and up to three rings or gear tables.
fn random_lines(random: &mut Random, size: &Size) -> Vec<String> {
    let plain = table(random, size);
    let mut tasks: Vec<_> = plain.iter().map(slice::from_ref).map(open_text).collect();
    for _ in 0..random.below(4) {
        let at = random.below(tasks.len() + 1);
        let most = (size.e, size.d, size.p);
        tasks.insert(at, random_vendor_task(random, most).0);
    }
    let text = tasks.concat() + "00\n";
    text.split_inclusive('\n').map(String::from).collect()
}

/// An e that is longer than this deadline: by one tick, by any number, or as long as may be.
fn longer_than(random: &mut Random, d: u32) -> u32 {
    [d + 1, random.between(d + 1, 1_000), 1_000][random.below(3)]
}

/// The line of a vertex with a job that is longer than its own deadline; at times the p that it may have is below its d.
fn with_slip(random: &mut Random, line: &str) -> String {
    let number = |first| u32::from_str_radix(&line[first..first + 4], 16).unwrap();
    let (kind, d) = (&line[..2], number(6));
    let e = longer_than(random, d);
    if kind == "02" {
        return format!("02{e:04x}{d:04x}\n");
    }
    let p = match random.below(2) {
        // A p of 0 would be refusal 3.
        0 if d > 1 => d - 1,
        _ => number(10),
    };
    format!("06{e:04x}{d:04x}{p:04x}\n")
}

#[test]
fn the_first_one_decides_whatever_lies_behind_it() {
    let mut random = Random(60);
    let (mut plain, mut vendor, mut later_faults) = (0, 0, 0);
    for number in 0..4_000 {
        let mut lines = random_lines(&mut random, [&SMALL, &LARGE][number % 2]);
        assert_eq!(check(lines.concat().as_bytes()), (0, 0));
        let is_vertex = |&at: &usize| lines[at].starts_with("02") || lines[at].starts_with("06");
        let vertices: Vec<_> = (0..lines.len()).filter(is_vertex).collect();
        let first = vertices[random.below(vertices.len())];
        for at in vertices {
            if at == first || (at > first && random.below(4) == 0) {
                lines[at] = with_slip(&mut random, &lines[at]);
            }
        }
        plain += u32::from(lines[first].starts_with("02"));
        vendor += u32::from(lines[first].starts_with("06"));
        if random.below(2) == 0 {
            let behind = first + 1 + random.below(lines.len() - first - 1);
            lines[behind] = ["zz\n", "ff\n", "0200000000\n"][random.below(3)].into();
            later_faults += 1;
        }
        // Lines count from 1.
        assert_eq!(check(lines.concat().as_bytes()), (13, first + 1));
    }
    let seen = [plain, vendor, later_faults];
    assert!(seen.iter().all(|&n| n > 1_000), "{seen:?}");
}

#[test]
fn written_as_it_is_read_whatever_the_area_and_m() {
    let mut random = Random(61);
    let (mut with_m, mut last) = (0, 0);
    for number in 0..4_000 {
        let mut tasks = table(&mut random, [&SMALL, &LARGE][number % 2]);
        let at = random.below(tasks.len());
        let frames = |task: &Task| 1 + task.vertices.len() + task.edges.len();
        let before: usize = tasks[..at].iter().map(frames).sum();
        let vertices = tasks[at].vertices.len();
        let vertex = random.below(vertices);
        let (e, d) = &mut tasks[at].vertices[vertex];
        *e = longer_than(&mut random, *d);
        // Above every e, in the same task, so that its refusal would be at the last vertex's line.
        if random.below(2) == 0 {
            tasks[at].m = 1_000;
            with_m += 1;
            last += u32::from(vertex + 1 == vertices);
        }
        // Behind the task's own line.
        let expected = (13, before + 2 + vertex);
        assert_eq!(check(text(&tasks).as_bytes()), expected);
        let bytes = [0, random.below(4_000), 4_000][random.below(3)];
        assert_eq!(said(&tasks, bytes), Err(expected));
    }
    assert!(with_m > 1_000 && last > 500, "{with_m} {last}");
}

/// The steps from a range of so many paths down to its first: each takes the first n/2, rounded up.
fn steps_to_the_first(paths: usize) -> u32 {
    match paths {
        1 => 0,
        _ => 1 + steps_to_the_first(paths.div_ceil(2)),
    }
}

#[test]
fn only_masked_time_or_higher_tasks_make_a_job_miss() {
    let mut random = Random(62);
    let (mut alone, mut too_long) = (0, 0);
    for _ in 0..2_000 {
        let tasks = table(&mut random, &SMALL);
        for (number, task) in tasks.iter().enumerate() {
            for (vertex, &(e, d)) in task.vertices.iter().enumerate() {
                let numbers = (number as u16, vertex as u16);
                if number == 0 && masked_time(&tasks, 0) == 0 {
                    let found = latest_in(&tasks, numbers, 1, (0, 0));
                    assert_eq!(found, meets(e, 1, (0, 0), 0, &[]));
                    alone += 1;
                }
                if e_plus_b(&tasks, number, vertex) > d {
                    too_long += u32::from(check_misses(&tasks, numbers, d));
                }
            }
        }
    }
    assert!(alone > 500 && too_long > 500, "{alone} {too_long}");
}

/// Checks that a vertex whose e + B exceeds its d misses by the first path of each higher task, unless one has too many: is it judged?
fn check_misses(tasks: &[Task], numbers: (u16, u16), d: u32) -> bool {
    let higher = tasks[..usize::from(numbers.0)].iter();
    let lists: Vec<_> = higher.map(|task| complete_paths(task, d)).collect();
    if lists.iter().any(|paths| paths.len() > 64) {
        return false;
    }
    let mut witness = Vec::new();
    for paths in &lists {
        witness.push(paths[0].len() as u16);
        witness.extend(paths[0].iter().map(|&vertex| vertex as u16));
    }
    let rows: usize = lists.iter().map(|paths| 2 * paths.len() - 1).sum();
    let needed = d as usize * rows;
    let lent = (needed, lists.len() * (1 + d as usize));
    // Every group overloads, so that only the first of each part is examined.
    let steps = lists.iter().map(|paths| steps_to_the_first(paths.len()));
    let count = 1 + steps.sum::<u32>();
    let found = latest_in(tasks, numbers, count, lent);
    assert_eq!(found, misses(count, lent, needed, &witness));
    let cells = witness.len();
    let verdict = judged(&text(tasks), numbers, count, lent);
    assert_eq!(verdict, Verdict::Misses { count, cells });
    true
}
