//! The tables that the cost of judging is counted with: each family is what it says.

use crate::common::{answered_lines, judged, texts_of};
use second::bounds::{BUDGET, MOST_WORK_CELLS, WITNESS_CELLS};
use second::case::{FINISHES, UNMARKED};
use second::paths::complete_paths;
use second::sequence::MOST_BYTES;
use second::table::{Table, Task, Ticks, Vertex};
use second::text;
use std::process::{Command, Output};

/// What the generator does with these arguments.
fn generated(arguments: &[&str]) -> Output {
    let mut generator = Command::new(env!("CARGO_BIN_EXE_tables_for_cost"));
    generator.args(arguments).output().unwrap()
}

/// The family's texts and tables.
fn family(name: &str) -> Vec<(Vec<u8>, Table)> {
    let written = generated(&[name]);
    assert!(written.status.success() && written.stderr.is_empty());
    // Twice the sequence fits in the program that is counted.
    assert!(2 * written.stdout.len() <= MOST_BYTES);
    let texts = texts_of(UNMARKED, &written.stdout).into_iter();
    texts
        .map(|text| (text.clone(), text::read(&text).unwrap()))
        .collect()
}

/// How many groups are examined for the last vertex of a table.
fn last_count(text: &[u8], table: &Table) -> u32 {
    let text = std::str::from_utf8(text).unwrap();
    let (task, vertex) = table.numbers().last().unwrap();
    let lent = (MOST_WORK_CELLS, WITNESS_CELLS);
    judged(text, (task.0, vertex.0), BUDGET, lent).value()
}

/// Can every vertex be reached from this one?
fn reaches_all(task: &Task, from: usize) -> bool {
    let mut reached = vec![from];
    let mut next = 0;
    while let Some(&vertex) = reached.get(next) {
        for edge in &task.vertices[vertex].edges {
            let to = usize::from(edge.to.0);
            if !reached.contains(&to) {
                reached.push(to);
            }
        }
        next += 1;
    }
    reached.len() == task.vertices.len()
}

/// Is it a vertex of source document 001, section 8.1, in the scale of two thirds, with two and a half times the e?
fn as_in_the_paper(vertex: &Vertex) -> bool {
    let least = vertex.edges.iter().map(|edge| edge.p.0).min().unwrap();
    let most = vertex.edges.iter().map(|edge| edge.p.0).max().unwrap();
    let (e, d) = (vertex.e.0, vertex.d.0);
    (1..=3).contains(&vertex.edges.len())
        && (67 <= least && most <= 200)
        && (least <= 2 * d && d <= least)
        && 1_000 * e <= 175 * d
}

#[test]
fn small_tables() {
    let family = family("small");
    assert_eq!(family.len(), 400);
    for (_, table) in &family {
        assert!((1..=3).contains(&table.tasks.len()));
        assert!(table.tasks.iter().all(|task| task.vertices.len() <= 3));
    }
}

#[test]
fn paper_like_tables() {
    let family = family("paper");
    assert_eq!(family.len(), 60);
    for (_, table) in &family {
        assert!((3..=8).contains(&table.tasks.len()));
        for task in &table.tasks {
            assert!((5..=10).contains(&task.vertices.len()));
            assert!(task.vertices.iter().all(as_in_the_paper));
            assert!((0..task.vertices.len()).all(|from| reaches_all(task, from)));
        }
    }
}

#[test]
fn heavy_tables() {
    let counts = family("heavy")
        .into_iter()
        .map(|(text, table)| last_count(&text, &table));
    let counts: Vec<_> = counts.collect();
    assert!(counts.len() == 8 && counts.iter().all(|&count| count > 10_000));
    assert!((50_000..=500_000).contains(&counts.iter().sum::<u32>()));
}

/// The numbers of complete paths of a table's tasks by a tick, none above 64, and the vertices of the longest path.
fn paths_by(table: &Table, d: Ticks) -> (Vec<usize>, usize) {
    let paths = |task: &Task| complete_paths(task, d, 64).unwrap();
    let lists: Vec<_> = table.tasks.iter().map(paths).collect();
    let lengths = lists.iter().flatten().map(|path| path.steps.len());
    let longest = lengths.max().unwrap();
    (lists.iter().map(Vec::len).collect(), longest)
}

#[test]
fn slow_tables() {
    let family = family("slow");
    assert_eq!(family.len(), 40);
    let (mut often, mut tasks, mut several, mut long, mut far) = (0, 0, 0, 0, 0);
    for (_, table) in &family {
        assert!((2..=6).contains(&table.tasks.len()));
        for task in &table.tasks {
            assert!((1..=8).contains(&task.vertices.len()));
            // A vertex of a slow task, or the only one of a task whose separation is a twentieth of its deadline.
            let is_slow = |vertex: &Vertex| (400..=1_000).contains(&vertex.d.0);
            let is_often = |vertex: &Vertex| {
                let d = vertex.d;
                (20..=50).contains(&d.0) && vertex.edges.iter().all(|edge| edge.p == d)
            };
            let all_slow = task.vertices.iter().all(is_slow);
            assert!(all_slow || (task.vertices.len() == 1 && is_often(&task.vertices[0])));
            often += u32::from(!all_slow);
            tasks += 1;
            let mut edges = task.vertices.iter().flat_map(|vertex| &vertex.edges);
            far += u32::from(edges.any(|edge| edge.p > Ticks(1_000)));
        }
        let (counts, longest) = paths_by(table, Ticks(1_000));
        several += u32::from(counts.iter().filter(|&&paths| paths > 2).count() > 1);
        long += u32::from(longest >= 20);
    }
    assert!(5 * often >= tasks && 2 * often <= tasks, "{often} {tasks}");
    assert!(several >= 25 && long >= 20, "{several} {long}");
    assert!(3 * far >= tasks, "{far} {tasks}");
}

/// The four counts of each line that a family is answered with.
fn counts_of(family: &[&str]) -> Vec<[u32; 4]> {
    let lines = answered_lines(&generated(family).stdout);
    let byte = |line: &str, at: usize| u32::from_str_radix(&line[at..at + 2], 16).unwrap();
    let counts = |line: &str| [2, 4, 6, 8].map(|at| byte(line, at));
    lines.lines().map(counts).collect()
}

#[test]
fn verdicts_of_slow_tables() {
    for arguments in [&["slow"][..], &["slow", "1"], &["latest", "slow"]] {
        let counts = counts_of(arguments);
        let sum = |at: usize| counts.iter().map(|counts| counts[at]).sum::<u32>();
        assert_eq!((sum(2), sum(3)), (0, 0));
        assert!(
            sum(0) >= 8 * sum(1) && sum(1) >= 10,
            "{} {}",
            sum(0),
            sum(1)
        );
    }
    // Some have several groups to examine.
    let counts = family("slow")
        .into_iter()
        .map(|(text, table)| last_count(&text, &table));
    let counts: Vec<_> = counts.collect();
    assert!(
        counts.iter().filter(|&&count| count > 1).count() >= 3,
        "{counts:?}"
    );
}

#[test]
fn the_longest_path() {
    let family = family("long");
    assert_eq!(family.len(), 1);
    let (counts, longest) = paths_by(&family[0].1, Ticks(1_000));
    assert_eq!((counts, longest), (vec![1, 1], 1_000));
    // 1 + t exceeds every t; the first task's job finishes at 1.
    let lines = ["1f01010000\n", "1f0101000000000001\n"];
    let arguments = [&["long"][..], &["latest", "long"]];
    let found = arguments.map(|arguments| answered_lines(&generated(arguments).stdout));
    assert_eq!(found, lines);
}

#[test]
fn some_of_each_begin_with_the_bench() {
    let sequence = generated(&["few"]).stdout;
    let lines = answered_lines(&sequence);
    let lines: Vec<_> = lines.lines().collect();
    assert_eq!(lines.len(), texts_of(UNMARKED, &sequence).len());
    // R1 to R7, R10 and R11.
    let bench = [
        "1f02010000",
        "1f03000000",
        "1f01010000",
        "1f01010000",
        "1e0d0002",
        "1f03000000",
        "1f02010000",
        "1f04000000",
        "1f05000000",
        "1f04010000",
        "1f04000001",
        "1f05000001",
        "1f06000000",
        "1e060001",
        "1e020001",
        "1e010001",
    ];
    assert_eq!(lines[..bench.len()], bench);
    assert!(lines.len() > bench.len() + 20);
    // The longest path comes last.
    assert_eq!(lines.last(), Some(&"1f01010000"));
}

#[test]
fn the_same_tables_asked_how_late() {
    for family in [
        &["small"][..],
        &["paper", "1"],
        &["heavy"],
        &["slow"],
        &["slow", "1"],
        &["long"],
        &["few"],
    ] {
        let asked = generated(&[&["latest"], family].concat());
        assert!(asked.status.success());
        assert!(2 * asked.stdout.len() <= MOST_BYTES);
        let texts = texts_of(UNMARKED, &generated(family).stdout);
        assert_eq!(texts_of(FINISHES, &asked.stdout), texts);
    }
}

#[test]
fn the_sums_of_the_worst_finishes() {
    let lines = answered_lines(&generated(&["latest", "few"]).stdout);
    let lines: Vec<_> = lines.lines().collect();
    // R1: 2 and 4, and the last misses; in R2 it finishes at 5.
    assert_eq!(lines[..2], ["1f0201000000000006", "1f030000000000000b"]);
    assert!(lines.contains(&"1e060001"));
    // Both calls say the same of a vertex where neither is cut short.
    let plain = answered_lines(&generated(&["few"]).stdout);
    let fronts = lines.iter().map(|line| &line[..line.len().min(10)]);
    assert!(fronts.eq(plain.lines()));
}

#[test]
fn another_seed_gives_other_tables() {
    let families =
        ["small", "paper", "slow"].map(|family| [generated(&[family]), generated(&[family, "1"])]);
    for [own, first] in families {
        assert!(first.status.success() && own.stdout != first.stdout);
        assert_eq!(
            texts_of(UNMARKED, &own.stdout).len(),
            texts_of(UNMARKED, &first.stdout).len()
        );
    }
    assert_eq!(
        generated(&["paper", "1"]).stdout,
        generated(&["paper", "1"]).stdout
    );
}

#[test]
fn wrong_arguments() {
    for arguments in [
        &[][..],
        &["large"],
        &["small", "one"],
        &["small", "1", "2"],
        &["latest"],
        &["latest", "large"],
        &["latest", "small", "1", "2"],
    ] {
        let found = generated(arguments);
        assert!(!found.status.success() && found.stdout.is_empty());
    }
}
