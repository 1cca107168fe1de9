//! The words of random tables against the desk's frames, their numbers worked out by the definitions of document 01 and wishes 1 and 3.

use crate::common::definitions::{
    complete_paths, count_paths, e_plus_b, first_latest, load, loads, masked_time, spans,
    worst_finish,
};
use crate::common::random::{table, Random, Size};
use crate::common::{text, Task};
use second::desk;
use second::words::{words, words_with_why};

/// Tables in which every verdict of the desk but unfinished is frequent.
const SIZE: Size = Size {
    tasks: 8,
    vertices: 8,
    edges: 12,
    e: 9,
    d: 200,
    p: 200,
};

/// Tables of slower cradles, with long paths among theirs.
const SLOW: Size = Size {
    tasks: 4,
    vertices: 3,
    edges: 4,
    e: 250,
    d: 1_000,
    p: 4_000,
};

#[test]
fn words_say_what_the_frames_say() {
    let mut random = Random(6);
    let mut said = String::new();
    let mut masked_tables = 0;
    let mut long = 0;
    for number in 0..1_200 {
        let tasks = table(&mut random, [&SIZE, &SLOW][usize::from(number % 6 == 0)]);
        masked_tables += u32::from(tasks.iter().any(|task| task.m > 0));
        let found = words(text(&tasks).as_bytes());
        assert_eq!(found, expected(&tasks, false));
        let found = words_with_why(text(&tasks).as_bytes());
        assert_eq!(found, expected(&tasks, true));
        said += &found;
        // Paths of more vertices than one byte counts, in the frames of a miss.
        let frames = desk::output(text(&tasks).as_bytes());
        let is_long = |line: &&str| line.starts_with("12") && &line[4..8] > "00ff";
        long += frames.lines().filter(is_long).count();
    }
    assert!(masked_tables >= 600);
    let often = |part: &str| assert!(said.matches(part).count() > 100, "{part}");
    often(", at worst after ");
    often("examined), with nothing above it");
    often("examined), by these releases:\n    task 0: vertex 1 ");
    often("examined), shown by");
    often("examined), with nothing above it:");
    often(" (1 tick of it is task 1's masked time), ");
    often(" (1 tick of it is task 1's masked time) are due ");
    often(" ticks of it are task 2's masked time), ");
    often(" ticks of it are task 2's masked time) are due ");
    often(" ticks of work are due ");
    often("REFUSED (9): task 0");
    often("REFUSED (9): task 1");
    often("REFUSED (10): ");
    often(", vertex 5 at tick ");
    often(" ticks up to tick ");
    assert!(long >= 5, "{long}");
    often("This may go out");
}

/// The words that the desk's frames for these tasks amount to, with what makes each meets so late or without.
fn expected(tasks: &[Task], why: bool) -> String {
    let output = desk::output(text(tasks).as_bytes());
    let frames: Vec<Vec<usize>> = output.lines().map(numbers).collect();
    let mut words = String::new();
    let mut rest = &frames[..];
    while let [frame, next @ ..] = rest {
        let misses = frame[0] == 0x10 && frame[3] == 1;
        let paths = if misses { frame[1] } else { 0 };
        words += &match frame[0] {
            0x10 => vertex_words(tasks, frame, &next[..paths], why),
            _ => last_words(frame),
        };
        rest = &next[paths..];
    }
    words
}

/// The bytes of a frame's line.
fn numbers(line: &str) -> Vec<usize> {
    let byte = |at: usize| usize::from_str_radix(&line[at..at + 2], 16).unwrap();
    (0..line.len()).step_by(2).map(byte).collect()
}

/// The words for a vertex's frame and, after a miss, the frames of the paths.
fn vertex_words(tasks: &[Task], frame: &[usize], paths: &[Vec<usize>], why: bool) -> String {
    let (number, vertex) = (frame[1], frame[2]);
    let (own, d) = tasks[number].vertices[vertex];
    let e_plus_b = e_plus_b(tasks, number, vertex);
    let masked = masked_words(tasks, number);
    let count = frame[4..].iter().fold(0, |n, byte| n * 256 + byte);
    let start = format!("task {number}, vertex {vertex}: ");
    let (ticks, groups) = (plural(d, "tick"), plural(count as u32, "group"));
    let deadline = format!("its deadline of {ticks} ({groups} examined)");
    let higher = &tasks[..number];
    match (frame[3], count, number) {
        (0, ..) => start + &meets_words(higher, (e_plus_b, d), &masked, &groups, why),
        (1, _, 0) => {
            let due = due_words(e_plus_b, &masked, own, d);
            format!("{start}MISSES {deadline}, with nothing above it:\n{due}")
        }
        (1, ..) => {
            let releases = paths_words(higher, paths);
            let load = |path: &Vec<usize>| load(&tasks[path[1]], &path[4..], d);
            let loads = paths.iter().map(load).sum::<u32>();
            let due = due_words(e_plus_b + loads, &masked, own, d);
            format!("{start}MISSES {deadline}, shown by these releases:\n{releases}{due}")
        }
        (3, 9, _) => {
            let many = higher.iter().position(|task| count_paths(task, d) > 64);
            let many = many.unwrap();
            format!("{start}REFUSED (9): task {many} has more than 64 complete paths, so this was not judged\n")
        }
        (3, 10, _) => {
            let ranges = |task| 2 * count_paths(task, d) - 1;
            let cells = u128::from(d) * higher.iter().map(ranges).sum::<u128>();
            format!("{start}REFUSED (10): {cells} work cells are needed and there are 8192, so this was not judged\n")
        }
        _ => panic!("{frame:?}"),
    }
}

/// How much masked time holds a task up, and the lowest-numbered task that masks so long, in brackets; nothing if none does.
fn masked_words(tasks: &[Task], number: usize) -> String {
    let b = masked_time(tasks, number);
    let lower = number + 1..tasks.len();
    let longest: Vec<_> = lower.filter(|&lower| tasks[lower].m == b).collect();
    match (b, longest.first()) {
        (0, _) | (_, None) => String::new(),
        (1, Some(first)) => format!(" (1 tick of it is task {first}'s masked time)"),
        (_, Some(first)) => format!(" ({b} ticks of it are task {first}'s masked time)"),
    }
}

/// The words for a vertex (e + B, d) that meets, behind its numbers.
fn meets_words(
    higher: &[Task],
    vertex: (u32, u32),
    masked: &str,
    groups: &str,
    why: bool,
) -> String {
    let (e_plus_b, d) = vertex;
    let worst = worst_finish(e_plus_b, d, &rows(higher, d)).unwrap();
    let (ticks, spare) = (plural(d, "tick"), d - worst);
    let cause = match why {
        true => cause_words(higher, e_plus_b, d),
        false => "\n".into(),
    };
    format!("meets its deadline of {ticks}, at worst after {worst}{masked}, {spare} to spare ({groups} examined){cause}")
}

/// What makes a vertex that meets so late, behind its line.
fn cause_words(higher: &[Task], e_plus_b: u32, d: u32) -> String {
    let choice = first_latest(e_plus_b, d, &rows(higher, d)).unwrap();
    if choice.is_empty() {
        return ", with nothing above it\n".into();
    }
    let path = |task: usize| complete_paths(&higher[task], d)[choice[task]].clone();
    let lines = (0..choice.len()).map(|task| path_words(higher, task, &path(task)));
    format!(", by these releases:\n{}", lines.collect::<String>())
}

/// The loads at t = 1 to d of each path of each higher task.
fn rows(higher: &[Task], d: u32) -> Vec<Vec<Vec<u32>>> {
    let rows = |task| {
        let paths = complete_paths(task, d).into_iter();
        paths.map(|path| loads(task, &path, d)).collect()
    };
    higher.iter().map(rows).collect()
}

/// The lines of the paths of a miss, from their frames.
fn paths_words(higher: &[Task], paths: &[Vec<usize>]) -> String {
    let line = |frame: &Vec<usize>| path_words(higher, frame[1], &frame[4..]);
    paths.iter().map(line).collect()
}

/// The line of a task's path: a run of four or more releases of one vertex is said once, with the p of its edge to itself.
fn path_words(higher: &[Task], task: usize, path: &[usize]) -> String {
    let spans = spans(&higher[task], path).unwrap();
    let mut parts = Vec::new();
    let mut first = 0;
    while first < path.len() {
        let vertex = path[first];
        let others = path[first..].iter().position(|&other| other != vertex);
        let mut end = first + others.unwrap_or(path.len() - first);
        let mut part = format!("vertex {vertex} at tick {}", spans[first]);
        if end - first < 4 {
            end = first + 1;
        } else {
            let is_own = |edge: &&(usize, usize, u32)| (edge.0, edge.1) == (vertex, vertex);
            let every = match higher[task].edges.iter().find(is_own).unwrap().2 {
                1 => "tick".to_string(),
                p => format!("{p} ticks"),
            };
            part += &format!(" and every {every} up to tick {}", spans[end - 1]);
        }
        parts.push(part);
        first = end;
    }
    format!("    task {task}: {}\n", parts.join(", "))
}

/// The line of the work that is due by the deadline.
fn due_words(due: u32, masked: &str, own: u32, d: u32) -> String {
    let over = plural(due - d, "tick");
    format!(
        "    {due} ticks of work{masked} are due by the deadline, {own} of them its own: {over} too many\n"
    )
}

/// The last two lines, from the frame of the counts.
fn last_words(frame: &[usize]) -> String {
    let [0x1f, meets, misses, unfinished, refused] = *frame else {
        panic!("{frame:?}");
    };
    let sentence = match (misses, unfinished + refused) {
        (0, 0) => "may go out: every job type meets its deadline",
        (0, _) => "may NOT go out: not every job type was shown to meet its deadline",
        _ => "may NOT go out: a job type misses its deadline",
    };
    format!("meets {meets}, misses {misses}, unfinished {unfinished}, refused {refused}\nThis {sentence}.\n")
}

/// A number and what it counts.
fn plural(number: u32, name: &str) -> String {
    match number {
        1 => format!("1 {name}"),
        _ => format!("{number} {name}s"),
    }
}
