//! Random and damaged texts, each checked against the definitions of document 01 and wish 3 tried out in full, and the refusal sheet.

use crate::common::definitions::*;
use crate::common::random::{damage, frames, noise, table, Random, Size};
use crate::common::sheet::tasks_or_refusal;
use crate::common::{text, Task};
use second::desk;

/// Up to this many choices are tried one by one.
const CHOICES: u128 = 3_000;

/// How often each kind of answer was met, so that no check is empty by accident.
#[derive(Debug, Default)]
struct Seen {
    refused_texts: [u32; 14],
    m_out_of_bounds: u32,
    m_too_large: u32,
    tables: u32,
    masked_tables: u32,
    missed_by_b_alone: u32,
    meets: u32,
    misses: u32,
    refused_by_9: u32,
    refused_by_10: u32,
    exact: u32,
    several_groups: u32,
    later_paths: u32,
    /// Of a miss, with more vertices than one byte counts.
    long_paths: u32,
}

/// Small tables, for which every choice can be tried.
const SMALL: Size = Size {
    tasks: 4,
    vertices: 3,
    edges: 5,
    e: 3,
    d: 9,
    p: 9,
};

/// Tables of the document's full bounds.
const LARGE: Size = Size {
    tasks: 8,
    vertices: 12,
    edges: 32,
    e: 30,
    d: 200,
    p: 400,
};

/// Tables of slower cradles, with long paths among theirs.
const SLOW: Size = Size {
    tasks: 4,
    vertices: 3,
    edges: 4,
    e: 250,
    d: 1_000,
    p: 4_000,
};

#[test]
fn slow_tables() {
    let mut random = Random(4);
    let mut seen = Seen::default();
    for _ in 0..1_500 {
        check_desk(text(&table(&mut random, &SLOW)).as_bytes(), &mut seen);
    }
    let Seen { meets, misses, .. } = seen;
    assert!(meets > 500 && misses > 500 && seen.exact > 500, "{seen:?}");
    assert!(
        seen.several_groups > 1_000 && seen.later_paths > 100,
        "{seen:?}"
    );
    assert!(
        seen.refused_by_9 > 50 && seen.refused_by_10 > 50,
        "{seen:?}"
    );
    assert!(seen.long_paths > 20, "{seen:?}");
    check_masked(&seen);
}

#[test]
fn small_tables() {
    let mut random = Random(1);
    let mut seen = Seen::default();
    for _ in 0..10_000 {
        check_desk(text(&table(&mut random, &SMALL)).as_bytes(), &mut seen);
    }
    let Seen { meets, misses, .. } = seen;
    assert!(meets > 1_000 && misses > 1_000, "{seen:?}");
    assert!(
        seen.several_groups > 300 && seen.later_paths > 100,
        "{seen:?}"
    );
    assert!(seen.exact > 3_000 && seen.refused_by_9 > 5, "{seen:?}");
    check_masked(&seen);
}

#[test]
fn large_tables() {
    let mut random = Random(2);
    let mut seen = Seen::default();
    for _ in 0..600 {
        check_desk(text(&table(&mut random, &LARGE)).as_bytes(), &mut seen);
    }
    let Seen { meets, misses, .. } = seen;
    assert!(meets > 100 && misses > 100 && seen.exact > 100, "{seen:?}");
    assert!(
        seen.refused_by_9 > 10 && seen.refused_by_10 > 10,
        "{seen:?}"
    );
    check_masked(&seen);
}

/// Checks that at least half of the tables had a masked length, and that it decided some verdicts.
fn check_masked(seen: &Seen) {
    assert!(2 * seen.masked_tables >= seen.tables, "{seen:?}");
    assert!(seen.missed_by_b_alone > 100, "{seen:?}");
}

#[test]
fn damaged_texts() {
    let mut random = Random(3);
    let mut seen = Seen::default();
    for _ in 0..10_000 {
        let mut bytes = text(&table(&mut random, &SMALL)).into_bytes();
        for _ in 0..=random.below(3) {
            damage(&mut random, &mut bytes);
        }
        check_desk(&bytes, &mut seen);
    }
    for _ in 0..6_000 {
        check_desk(&frames(&mut random), &mut seen);
        check_desk(&noise(&mut random), &mut seen);
    }
    let often = |number: usize| seen.refused_texts[number] > 30;
    assert!((1..=7).chain([13]).all(often), "{seen:?}");
    assert!(
        seen.m_out_of_bounds > 100 && seen.m_too_large > 100,
        "{seen:?}"
    );
    assert!(seen.meets > 100 && seen.misses > 100, "{seen:?}");
}

/// Checks the desk's output for any bytes.
fn check_desk(input: &[u8], seen: &mut Seen) {
    let output = desk::output(input);
    match tasks_or_refusal(input) {
        Err((number, line)) => {
            assert_eq!(output, format!("1e{number:02x}{line:04x}\n"));
            seen.refused_texts[usize::from(number)] += 1;
            if number == 3 {
                see_masked_length(input, line, seen);
            }
        }
        Ok(tasks) => {
            seen.tables += 1;
            seen.masked_tables += u32::from(tasks.iter().any(|task| task.m > 0));
            check_frames(&tasks, &output, seen);
        }
    }
}

/// Counts a line that row 3 refuses for the masked length: in its own frame, or at a vertex whose own numbers are within their bounds.
fn see_masked_length(input: &[u8], line: usize, seen: &mut Seen) {
    let line = input.split(|&byte| byte == b'\n').nth(line - 1).unwrap();
    let line = std::str::from_utf8(line).unwrap();
    let number = |at| u32::from_str_radix(&line[at..at + 4], 16).unwrap();
    seen.m_out_of_bounds += u32::from(line.starts_with("04") && !(1..=1_000).contains(&number(6)));
    if line.starts_with("02") {
        let own = (1..=1_000).contains(&number(2)) && (1..=1_000).contains(&number(6));
        seen.m_too_large += u32::from(own);
    }
}

/// The bytes of the output's frames.
fn output_frames(output: &str) -> Vec<Vec<u32>> {
    let byte = |line: &str, at| u32::from_str_radix(&line[at..at + 2], 16).unwrap();
    let bytes = |line: &str| {
        (0..line.len())
            .step_by(2)
            .map(|at| byte(line, at))
            .collect()
    };
    assert!(output.ends_with('\n') && !output.contains(char::is_uppercase));
    output.lines().map(bytes).collect()
}

/// Checks the frames of a valid text: every vertex, then the counts.
fn check_frames(tasks: &[Task], output: &str, seen: &mut Seen) {
    let mut frames = output_frames(output).into_iter();
    let mut counts = [0; 4];
    for number in 0..tasks.len() {
        for vertex in 0..tasks[number].vertices.len() {
            let frame = frames.next().unwrap();
            assert_eq!(frame[..3], [0x10, number as u32, vertex as u32]);
            assert_eq!(frame.len(), 8);
            let count = frame[4..].iter().fold(0, |sum, byte| sum * 256 + byte);
            counts[frame[3] as usize] += 1;
            let paths = match frame[3] {
                1 => frames.by_ref().take(number).collect(),
                _ => Vec::new(),
            };
            let asked = Asked {
                e_plus_b: e_plus_b(tasks, number, vertex),
                b: masked_time(tasks, number),
                d: tasks[number].vertices[vertex].1,
                higher: &tasks[..number],
            };
            asked.check(frame[3], count, &paths, seen);
        }
    }
    let last = [&[0x1f], &counts[..]].concat();
    assert_eq!(frames.next(), Some(last));
    assert_eq!(frames.next(), None);
}

/// A vertex of which a verdict is checked.
struct Asked<'a> {
    e_plus_b: u32,
    b: u32,
    d: u32,
    higher: &'a [Task],
}

impl Asked<'_> {
    /// The number of each higher task's complete paths.
    fn path_counts(&self) -> Vec<u128> {
        let counts = self.higher.iter().map(|task| count_paths(task, self.d));
        counts.collect()
    }

    /// The refusal number that the desk has to give, if any.
    fn refusal(&self) -> Option<u32> {
        let counts = self.path_counts();
        if counts.iter().any(|&paths| paths > 64) {
            return Some(9);
        }
        let rows: u128 = counts.iter().map(|paths| 2 * paths - 1).sum();
        (rows * u128::from(self.d) > 8_192).then_some(10)
    }

    /// Checks a verdict with its count and path frames.
    fn check(&self, verdict: u32, count: u32, paths: &[Vec<u32>], seen: &mut Seen) {
        if let Some(number) = self.refusal() {
            assert_eq!((verdict, count), (3, number));
            seen.refused_by_9 += u32::from(number == 9);
            seen.refused_by_10 += u32::from(number == 10);
            return;
        }
        let product: u128 = self.path_counts().iter().product();
        match verdict {
            0 => seen.meets += 1,
            1 => {
                self.check_paths(paths);
                seen.misses += 1;
                seen.long_paths += u32::from(paths.iter().any(|frame| frame[2] > 0));
            }
            2 => {
                assert!(count == 100_000 && product > 50_000);
                return;
            }
            _ => panic!("refused without reason"),
        }
        assert!(count >= 1 && u128::from(count) < 2 * product);
        seen.several_groups += u32::from(count > 1);
        if product <= CHOICES {
            self.check_exactly(verdict, count, paths, seen);
        }
    }

    /// Checks that the paths of a miss are legal, complete, and overload every tick.
    fn check_paths(&self, frames: &[Vec<u32>]) {
        let mut rows = Vec::new();
        for (number, (task, frame)) in self.higher.iter().zip(frames).enumerate() {
            assert_eq!(frame[..2], [0x12, number as u32]);
            assert_eq!((256 * frame[2] + frame[3]) as usize, frame.len() - 4);
            let path = path_of(frame);
            assert!(is_complete(task, &path, self.d));
            rows.push(loads(task, &path, self.d));
        }
        assert_eq!(frames.len(), self.higher.len());
        let rows: Vec<&[u32]> = rows.iter().map(|row| &row[..]).collect();
        assert!(overload(self.e_plus_b, &rows, self.d));
    }

    /// Checks verdict, witness and count by trying every choice and every group.
    fn check_exactly(&self, verdict: u32, count: u32, frames: &[Vec<u32>], seen: &mut Seen) {
        let lists: Vec<_> = self
            .higher
            .iter()
            .map(|task| complete_paths(task, self.d))
            .collect();
        let rows = self.rows(&lists);
        let least = least_overloading(self.e_plus_b, self.d, &rows);
        assert_eq!(least.is_some(), verdict == 1);
        assert_eq!(groups_to_examine(self.e_plus_b, self.d, &rows), count);
        for (place, frame) in least.iter().flatten().enumerate().zip(frames) {
            assert_eq!(lists[place.0][*place.1], path_of(frame));
        }
        let alone = least_overloading(self.e_plus_b - self.b, self.d, &rows);
        seen.missed_by_b_alone += u32::from(least.is_some() && alone.is_none());
        seen.later_paths += u32::from(least.is_some_and(|places| places.iter().any(|&n| n > 0)));
        seen.exact += 1;
        self.check_all_paths(verdict);
    }

    /// Checks a verdict over all legal paths, complete or not; longer ones have the same loads.
    fn check_all_paths(&self, verdict: u32) {
        let lists: Vec<_> = self
            .higher
            .iter()
            .map(|task| all_paths(task, self.d))
            .collect();
        if lists
            .iter()
            .map(|list| list.len() as u128)
            .product::<u128>()
            <= CHOICES
        {
            let least = least_overloading(self.e_plus_b, self.d, &self.rows(&lists));
            assert_eq!(least.is_some(), verdict == 1);
        }
    }

    /// The loads at t = 1 to d of every path of every list.
    fn rows(&self, lists: &[Vec<Path>]) -> Vec<Vec<Vec<u32>>> {
        let rows = |(task, list): (&Task, &Vec<Path>)| -> Vec<Vec<u32>> {
            list.iter().map(|path| loads(task, path, self.d)).collect()
        };
        self.higher.iter().zip(lists).map(rows).collect()
    }
}

/// The vertices of a path frame.
fn path_of(frame: &[u32]) -> Path {
    frame[4..].iter().map(|&vertex| vertex as usize).collect()
}
