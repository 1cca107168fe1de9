//! Writes the cases that the writer is checked with: a sequence as `second cases` reads it.
//!
//! The first argument says what is written: `records` of the fixed layout, `texts` to be read and written back, or `cells`. Each has the
//! bench examples and the longest table; every bound and one past it, several faults, counts beyond every bound; areas around what is
//! needed; and random tables, whole and broken. The sequence is the same from run to run. With a seed and a count behind it, only so many
//! random cases are written.

#![forbid(unsafe_code)]

mod made;

use made::drafts::{Draft, TaskDraft};
use made::vendors::{damage_vendor_line, mix_in};
use made::{bench, broken, masked_task, random_task, refusals, slips, task, text};
use made::{vendor_refusals, Random, Size};
use second::case::{Case, BACK, CELLS, RECORD};
use second::record::Record;
use second::sequence::write_cases;
use second::text::read;
use second::write::text_of;
use std::env;
use std::io;

/// Where the random part starts from.
const SEED: u64 = 20_261_116;
/// More bytes than the longest text has.
const PLENTY: u32 = 4_000;

/// Random tasks of the texts.
const SIZE: Size = Size {
    vertices: 4,
    e: 1_000,
    d: (1, 1_000),
    p: 59_001,
};

/// What is written: the fixed cases, how a random one is made, and how many of those there are.
type Kind = (fn() -> Vec<Case>, fn(&mut Random) -> Case, u64);

/// Writes the cases that the arguments ask for.
fn main() -> io::Result<()> {
    let arguments: Vec<_> = env::args().skip(1).collect();
    let words: Vec<_> = arguments.iter().map(String::as_str).collect();
    let Some(cases) = asked_for(&words) else {
        return Err(io::Error::other(
            "usage: tables_for_writer records | texts | cells [SEED COUNT]",
        ));
    };
    write_cases(cases)
}

/// The cases of these words, if they are right.
fn asked_for(words: &[&str]) -> Option<Vec<Case>> {
    let (&word, numbers) = words.split_first()?;
    let (fixed, random, count): Kind = match word {
        "records" => (records, random_record, 60),
        "texts" => (texts, random_text, 100),
        "cells" => (cells, random_cells, 100),
        _ => return None,
    };
    let random_cases = |seed: u64, count: u64| {
        let mut source = Random::seeded(seed);
        (0..count).map(|_| random(&mut source)).collect::<Vec<_>>()
    };
    match numbers {
        [] => Some([fixed(), random_cases(SEED, count)].concat()),
        [seed, count] => Some(random_cases(seed.parse().ok()?, count.parse().ok()?)),
        _ => None,
    }
}

/// A case of this mode, with a byte area of so many bytes.
fn case(mode: u8, text: Vec<u8>, area: u32) -> Case {
    let work = area;
    Case {
        work,
        ..Case::plain(mode, text)
    }
}

/// The bytes that the case's table needs; none if it is refused.
fn needed(mode: u8, text: &[u8]) -> Option<u32> {
    let record = match mode {
        RECORD => Record::laid_out(text),
        CELLS => Record::of_cells(text),
        _ => Record::from(&read(text).ok()?),
    };
    Some(text_of(&record).ok()?.len() as u32)
}

/// The case with areas of none, one byte short, exactly the bytes needed, and more; of a refused table, of none and more.
fn around(mode: u8, text: &[u8]) -> Vec<Case> {
    let areas = match needed(mode, text) {
        Some(bytes) => vec![0, bytes - 1, bytes, bytes + 1, bytes + 100],
        None => vec![0, PLENTY],
    };
    areas
        .into_iter()
        .map(|area| case(mode, text.to_vec(), area))
        .collect()
}

/// The case with an area that is one byte short of what a sound table needs.
fn one_short(mode: u8, text: &[u8]) -> Case {
    let bytes = needed(mode, text).unwrap_or(1);
    case(mode, text.to_vec(), bytes - 1)
}

/// The cases with areas of the bytes needed or a few more in turn; of a refused table, of any.
fn in_turn(mode: u8, texts: Vec<Vec<u8>>) -> Vec<Case> {
    let mut cases = Vec::new();
    for (number, text) in texts.into_iter().enumerate() {
        let area = match needed(mode, &text) {
            Some(bytes) => bytes + [0, 1, 30][number % 3],
            None => [PLENTY, 0, 50][number % 3],
        };
        cases.push(case(mode, text, area));
    }
    cases
}

/// The case with a random area; three in four suffice for a table that is not refused.
fn by_chance(random: &mut Random, mode: u8, text: Vec<u8>) -> Case {
    let bytes = needed(mode, &text).unwrap_or(100);
    let area = match random.below(8) {
        0 => bytes - 1,
        1 => random.below(bytes as usize) as u32,
        2 | 3 => bytes,
        _ => bytes + random.below(300) as u32,
    };
    case(mode, text, area)
}

/// The bench examples that are readable, and R2 with a masked length.
fn bench_texts() -> Vec<String> {
    let mut texts = bench::texts();
    texts.retain(|text| read(text.as_bytes()).is_ok());
    texts.extend(bench::masked_texts());
    texts
}

/// The longest texts: without masked lengths, and with them.
fn longest_texts() -> [String; 2] {
    let edges: Vec<_> = (0..32).map(|n| (n / 12, n % 12, 60_000)).collect();
    let vertices = [(1_000, 1_000); 12];
    let plain = task(&vertices, &edges);
    let masked = masked_task(1_000, &vertices, &edges);
    [plain, masked].map(|task| text(&vec![task; 8]))
}

/// The fixed records.
fn records() -> Vec<Case> {
    let bench = bench_texts();
    let bench: Vec<_> = bench.iter().map(|t| Draft::of_text(t).record()).collect();
    let [plain, masked] = longest_texts().map(|text| Draft::of_text(&text).record());
    let mut cases = [around(RECORD, &bench[0]), around(RECORD, &masked)].concat();
    cases.extend(bench[1..].iter().map(|record| one_short(RECORD, record)));
    cases.extend(in_turn(RECORD, [&bench[1..], &[plain]].concat()));
    let tables = [task_counts(), broken::tables(), behind_the_counts()].concat();
    let tables = tables.iter().map(Draft::record);
    cases.extend(in_turn(RECORD, tables.collect()));
    cases
}

/// No task, the most, and more than there are places for, these also with a fault in the first line and in the eighth task's last.
fn task_counts() -> Vec<Draft> {
    let whole = Draft::of(vec![TaskDraft::of(0, &[(1, 5)], &[(0, 0, 5)]); 8]);
    let mut tables = vec![Draft::of(Vec::new())];
    for n in [0, 7, 8, 9, 10, 1_000, 65_535, 256, 264] {
        let whole = Draft { n, ..whole.clone() };
        let mut faulty = [whole.clone(), whole.clone()];
        faulty[0].tasks[0].nv = 13;
        faulty[1].tasks[7].edges[0].2 = 4;
        tables.push(whole);
        if [9, 1_000, 65_535].contains(&n) {
            tables.extend(faulty);
        }
    }
    tables
}

/// Numbers behind the counts, which are no part of the table, whatever they are; and a fault before them.
fn behind_the_counts() -> Vec<Draft> {
    let mut random = Random::seeded(SEED);
    let mut tables = Vec::new();
    for text in bench_texts().iter().step_by(3) {
        let mut table = Draft::of_text(text);
        table.add_junk(&mut random);
        tables.push(table.clone());
        table.tasks[0].vertices[0].0 = 0;
        tables.push(table);
    }
    let mut none = Draft::of(Vec::new());
    none.tasks = tables[0].tasks.clone();
    tables.push(none);
    tables
}

/// A random record: whole or broken in one number, with random numbers behind the counts.
fn random_record(random: &mut Random) -> Case {
    let mut table = Draft::random(random);
    table.add_junk(random);
    if random.below(2) == 0 {
        table.break_one(random);
    }
    by_chance(random, RECORD, table.record())
}

/// The fixed lists of cells.
fn cells() -> Vec<Case> {
    let mut cases = Vec::new();
    for text in bench_texts() {
        cases.extend(around(CELLS, &Draft::of_text(&text).cells()));
    }
    for text in longest_texts() {
        cases.extend(around(CELLS, &Draft::of_text(&text).cells()));
    }
    let mut tables = broken::tables();
    for place in 0..3 {
        broken::ends(&mut tables, place, &[256, 257, 65_535]);
    }
    let mut lists: Vec<_> = tables.iter().map(Draft::cells).collect();
    cut(&mut lists);
    many_tasks(&mut lists);
    cases.extend(in_turn(CELLS, lists));
    cases
}

/// Lists that end at every byte.
fn cut(lists: &mut Vec<Vec<u8>>) {
    let masked = TaskDraft::of(3, &[(2, 5), (3, 5)], &[(0, 1, 5), (1, 1, 9)]);
    let plain = TaskDraft::of(0, &[(2, 5)], &[(0, 0, 5)]);
    let mut faulty = masked.clone();
    faulty.edges[0].2 = 4;
    for tasks in [vec![masked, plain.clone()], vec![plain, faulty]] {
        let whole = Draft::of(tasks).cells();
        lists.extend((0..=whole.len()).map(|end| whole[..end].to_vec()));
    }
}

/// Lists of eight tasks, nine, and far more; the ninth whole, faulty, and cut off; and a fault before it.
fn many_tasks(lists: &mut Vec<Vec<u8>>) {
    let one = TaskDraft::of(0, &[(1, 5)], &[(0, 0, 5)]);
    for count in [7, 8, 9, 10, 400] {
        let mut table = Draft::of(vec![one.clone(); count]);
        lists.push(table.cells());
        table.tasks[6].edges[0].2 = 4;
        lists.push(table.cells());
    }
    let eight = Draft::of(vec![one.clone(); 8]).cells();
    for ninth in [&[0, 0][..], &[255; 6], &[0, 1], &[0, 13, 0, 0], &[1]] {
        lists.push([&eight, ninth].concat());
    }
}

/// A random list of cells: whole, broken in one number, or cut off.
fn random_cells(random: &mut Random) -> Case {
    let mut table = Draft::random(random);
    if random.below(2) == 0 {
        table.break_one(random);
    }
    let mut list = table.cells();
    if random.below(8) == 0 {
        list.truncate(random.below(list.len()));
    }
    by_chance(random, CELLS, list)
}

/// The fixed texts: written once, and several times.
fn texts() -> Vec<Case> {
    let mut cases = Vec::new();
    for text in bench_texts().into_iter().chain(bench::vendor_texts()) {
        cases.extend(around(BACK, text.as_bytes()));
    }
    for text in longest_texts() {
        let bytes = text.len() as u32;
        cases.push(case(BACK, text.clone().into_bytes(), bytes));
        cases.push(case(BACK, text.into_bytes(), bytes - 1));
    }
    let mut refused = Vec::new();
    refusals::add(&mut refused);
    vendor_refusals::add(&mut refused);
    slips::add(&mut refused);
    let refused = refused.into_iter().step_by(13);
    cases.extend(in_turn(
        BACK,
        refused.filter(|text| text.len() < 900).collect(),
    ));
    for (number, case) in (0..).zip(&mut cases) {
        case.budget = number % 4;
    }
    cases
}

/// A random text, with rings and gear tables or without, written once or several times; one in eight is damaged, one in eight in the
/// lines of a ring or a gear table, if it has one, and one in sixteen by a job longer than its own deadline.
fn random_text(random: &mut Random) -> Case {
    let mut tasks: Vec<_> = (0..=random.below(3))
        .map(|_| random_task(random, &SIZE))
        .collect();
    mix_in(random, &mut tasks, &SIZE);
    let mut text = text(&tasks).into_bytes();
    match random.below(16) {
        0 | 1 => made::damage(random, &mut text),
        2 | 3 => damage_vendor_line(random, &mut text),
        4 => slips::slip(random, &mut text),
        _ => (),
    }
    Case {
        budget: random.below(4) as u32,
        ..by_chance(random, BACK, text)
    }
}
