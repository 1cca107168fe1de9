//! The page on writing tables has the bounds and the refusals as the judge has them, and with README what is said without a worst finish.

use crate::common::*;
use second::bounds::*;
use second::refusal::Row;
use second::words::words;

/// The rows of the table under a heading of the page, each as its cells.
fn rows(heading: &str) -> Vec<Vec<&'static str>> {
    let page = include_str!("../../docs/TABLES.md");
    let (_, section) = page.split_once(&format!("\n## {heading}\n")).unwrap();
    let section = section.split("\n## ").next().unwrap();
    let rows = section.lines().filter(|line| line.starts_with("| "));
    rows.skip(1)
        .map(|row| row.trim_matches('|').split('|').map(str::trim).collect())
        .collect()
}

/// A number with commas, as the page writes it.
fn grouped(number: usize) -> String {
    match number {
        0..=999 => number.to_string(),
        _ => format!("{},{:03}", grouped(number / 1_000), number % 1_000),
    }
}

#[test]
fn bounds() {
    let expected = [
        ("tasks in a table", 1, TASKS),
        (
            "vertices in a task",
            (*VERTICES.start()).into(),
            (*VERTICES.end()).into(),
        ),
        (
            "edges in a task",
            (*EDGES.start()).into(),
            (*EDGES.end()).into(),
        ),
        ("e, in ticks", (*E.start()).into(), (*E.end()).into()),
        ("d, in ticks", (*D.start()).into(), (*D.end()).into()),
        ("p, in ticks", (*P.start()).into(), (*P.end()).into()),
        ("m, in ticks", (*M.start()).into(), (*M.end()).into()),
    ];
    let expected = expected.map(|(what, least, most)| [what.into(), grouped(least), grouped(most)]);
    assert_eq!(rows("The bounds"), expected);
}

#[test]
fn rounding() {
    let rounding = format!("largest_d = {}; largest_p = {} }}", D.end(), P.end());
    assert!(include_str!("../../tables/frames.awk").contains(&rounding));
}

#[test]
fn bytes() {
    let edges: Vec<_> = (0..usize::from(*EDGES.end()))
        .map(|n| (n / 12, n % 12, 1))
        .collect();
    let longest = masked(1, task(&vec![(1, 1); (*VERTICES.end()).into()], &edges));
    let longest = text(&vec![longest; TASKS]).len();
    let said = format!(
        "`./judge` reads a file of at most {} bytes; the longest valid text has {}.",
        grouped(INPUT_BYTES),
        grouped(longest)
    );
    assert!(
        include_str!("../../docs/TABLES.md").contains(&said),
        "{said}"
    );
}

#[test]
fn limits_of_a_search() {
    let rows = rows("Too many paths: 9, 10 and unfinished");
    let most: Vec<_> = rows.iter().map(|row| row[1]).collect();
    assert_eq!(most, [PATHS, WORK_CELLS, BUDGET as usize].map(grouped));
}

#[test]
fn a_worst_finish_that_is_not_found() {
    let said = format!("`its worst finish wasn't found within {BUDGET} groups`");
    let pages = [
        include_str!("../../docs/TABLES.md"),
        include_str!("../../README.md"),
    ];
    assert!(pages.iter().all(|page| page.contains(&said)), "{said}");
}

/// What a refusal says behind its number and its line.
fn rule(text: &str, number: usize) -> String {
    let words = words(text.as_bytes());
    let (_, refusal) = words
        .split_once(&format!("REFUSED ({number})"))
        .expect(&words);
    let (_, rule) = refusal.lines().next().unwrap().split_once(": ").unwrap();
    rule.to_string()
}

#[test]
fn refusals() {
    let first = "010202\n0200020005\n0200010006\n";
    let many = text(&[r10(), task(&[(1, 31)], &[])]);
    // 4 x 127 x 21 cells.
    let cells = text(&[r10(), r10(), r10(), r10(), task(&[(1, 21)], &[])]);
    let mut said = vec![String::new(); 14];
    for (number, text) in [
        (1, "\n"),
        (2, "00\n"),
        (3, &format!("{first}0300020005\n")),
        (4, &format!("{first}0300000004\n")),
        (5, &format!("{first}0301010006\n0300000005\n")),
        (6, first),
        (7, "010100\n0200010001\n00\n\n"),
        (9, &many),
        (10, &cells),
        (12, &"0".repeat(INPUT_BYTES + 1)),
        (13, "010100\n0200030002\n"),
    ] {
        said[number] = format!("`{}`", rule(text, number));
    }
    said[9] = said[9].replace("task 0", "task N");
    said[10] = said[10].replace("10668", "N");
    let rows = rows("The refusals");
    let numbers: Vec<_> = rows.iter().map(|row| row[0].parse().unwrap()).collect();
    assert_eq!(numbers, (1..=Row::LongJob as usize).collect::<Vec<_>>());
    for (number, row) in numbers.into_iter().zip(rows) {
        match number {
            // No call of the program asks for these.
            8 | 11 => assert!(row[3].starts_with("never; "), "{row:?}"),
            _ => assert_eq!(row[3], said[number]),
        }
    }
}
