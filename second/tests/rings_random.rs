//! Random rings and gear tables beside plain tasks: against the plain tasks that they stand for, against the refusal sheet's rows, and written back.

use crate::common::random::{damage, table, Random, Size};
use crate::common::sheet::tasks_or_refusal;
use crate::common::vendors::{has_vendor_task, random_vendor_task};
use crate::common::writing::{record, written_back};
use crate::common::{open_text, text, Task};
use second::desk;
use second::record::Record;
use second::text::read;
use second::words::words_with_why;
use std::slice;

/// Small tables, in which every verdict but unfinished is frequent.
const SMALL: Size = Size {
    tasks: 3,
    vertices: 3,
    edges: 5,
    e: 3,
    d: 30,
    p: 40,
};

/// Tables of slower cradles, with long paths among theirs.
const SLOW: Size = Size {
    tasks: 3,
    vertices: 3,
    edges: 4,
    e: 250,
    d: 1_000,
    p: 4_000,
};

/// Tables of the document's full bounds.
const LARGE: Size = Size {
    tasks: 4,
    vertices: 12,
    edges: 32,
    e: 1_000,
    d: 1_000,
    p: 60_000,
};

/// A random text with rings and gear tables, and the tasks that it means: up to four among the plain ones, and at times none.
fn random_text(random: &mut Random, size: &Size) -> (String, Vec<Task>) {
    let plain = table(random, size);
    let mut drawn: Vec<_> = plain
        .into_iter()
        .map(|task| (open_text(slice::from_ref(&task)), task))
        .collect();
    for _ in 0..random.below(5) {
        let at = random.below(drawn.len() + 1);
        let most = (size.e, size.d, size.p);
        drawn.insert(at, random_vendor_task(random, most));
    }
    let (lines, tasks): (Vec<_>, Vec<_>) = drawn.into_iter().unzip();
    (lines.concat() + "00\n", tasks)
}

#[test]
fn read_and_judged_as_the_plain_tasks() {
    let mut random = Random(50);
    let mut frames = String::new();
    let mut with_rings = 0;
    for number in 0..3_600 {
        let size = [&SMALL, &SLOW][usize::from(number % 6 == 0)];
        let (mixed, tasks) = random_text(&mut random, size);
        let plain = text(&tasks);
        let table = read(mixed.as_bytes()).unwrap();
        assert_eq!(Record::from(&table), record(&tasks));
        assert_eq!(Ok(table), read(plain.as_bytes()));
        let [output, plainly] = [&mixed, &plain].map(|text| desk::output(text.as_bytes()));
        assert_eq!(output, plainly);
        let [words, plainly] = [&mixed, &plain].map(|text| words_with_why(text.as_bytes()));
        assert_eq!(words, plainly);
        if has_vendor_task(mixed.as_bytes()) {
            frames += &output;
            with_rings += 1;
        }
    }
    assert!(with_rings > 2_000, "{with_rings}");
    // Meets and misses by one group and by several, which are rare for a meets.
    let is_vertex = |line: &&str, verdict: &str| line.starts_with("10") && &line[6..8] == verdict;
    for (verdict, least) in [("00", 30), ("01", 500)] {
        let counts = frames.lines().filter(|line| is_vertex(line, verdict));
        let counts: Vec<_> = counts.map(|line| &line[8..]).collect();
        let single = counts.iter().filter(|&&count| count == "00000001").count();
        let several = counts.len() - single;
        assert!(single > 500 && several > least, "{single} {several}");
    }
}

#[test]
fn written_back_as_the_plain_tasks() {
    let mut random = Random(51);
    let mut same = 0;
    for number in 0..4_000 {
        let size = [&SMALL, &LARGE][number % 2];
        let (mixed, tasks) = random_text(&mut random, size);
        let written = written_back(mixed.as_bytes());
        assert_eq!(written, text(&tasks).as_bytes());
        assert!(!has_vendor_task(&written));
        assert_eq!(read(&written), read(mixed.as_bytes()));
        assert_eq!(written_back(&written), written);
        // The same bytes exactly if there is no ring and no gear table.
        assert_eq!(
            written != mixed.as_bytes(),
            has_vendor_task(mixed.as_bytes())
        );
        same += u32::from(written == mixed.as_bytes());
    }
    assert!(same > 500, "{same}");
}

/// Puts another number, count or kind into a random line of a ring or a gear table, if there is one.
fn damage_vendor_line(random: &mut Random, text: &mut [u8]) {
    let lines = text.split_mut(|&byte| byte == b'\n');
    let is_vendor_line = |line: &&mut [u8]| {
        [b"05", b"06", b"07"]
            .iter()
            .any(|kind| line.starts_with(*kind))
    };
    let mut lines: Vec<_> = lines.filter(is_vendor_line).collect();
    if lines.is_empty() {
        return;
    }
    let at = random.below(lines.len());
    let line = &mut lines[at];
    if random.below(4) == 0 {
        line[1] = b"01234567"[random.below(8)];
    } else if line.len() == 4 {
        let count = [0, 1, 2, 3, 4, 5, 12, 13, 255][random.below(9)];
        line[2..].copy_from_slice(format!("{count:02x}").as_bytes());
    } else if line.len() == 14 {
        let number = [0, 1, 3, 30, 1_000, 1_001, 60_000, 60_001, 65_535][random.below(9)];
        let first = 2 + 4 * random.below(3);
        line[first..first + 4].copy_from_slice(format!("{number:04x}").as_bytes());
    }
}

/// Lines that look like frames of rings and gear tables, in no sensible order.
fn frames(random: &mut Random) -> Vec<u8> {
    let mut text = format!("0{}0{}\n", [5, 7][random.below(2)], random.below(4));
    for _ in 0..random.below(8) {
        let small = random.below(3);
        text += &match random.below(9) {
            0 => format!("0{}0{small}\n", random.between(4, 8)),
            1 => format!("010{small}00\n"),
            2 => format!("040{small}00000{}\n", random.below(3)),
            3 => format!("02000100{small}0\n"),
            4 => format!("06000{small}000{}\n", random.below(3)),
            _ => format!("06000{}000{small}000{}\n", random.below(5), random.below(5)),
        };
    }
    (text + ["00\n", "00\n", ""][random.below(3)]).into_bytes()
}

/// Checks what is read of any bytes against the sheet's rows: the number of the refusal, and the kind of the line that it is at.
fn checked(bytes: &[u8]) -> (u8, Vec<u8>) {
    let expected = tasks_or_refusal(bytes);
    match (read(bytes), expected) {
        (Ok(table), Ok(tasks)) => {
            assert_eq!(Record::from(&table), record(&tasks));
            (0, Vec::new())
        }
        (Err(refusal), Err(expected)) => {
            assert_eq!((refusal.number(), refusal.place), expected);
            let line = bytes.split(|&byte| byte == b'\n').nth(expected.1 - 1);
            let kind = line.unwrap_or_default().iter().copied().take(2);
            (expected.0, kind.collect())
        }
        (found, expected) => panic!("{found:?}, {expected:?}"),
    }
}

#[test]
fn damaged_texts_against_the_sheet() {
    let mut random = Random(52);
    let (mut rows, mut at_vertex, mut at_task) = ([0; 14], [0; 14], [0; 14]);
    for _ in 0..20_000 {
        let mut bytes = random_text(&mut random, &SMALL).0.into_bytes();
        for _ in 0..=random.below(2) {
            match random.below(3) {
                0 => damage(&mut random, &mut bytes),
                _ => damage_vendor_line(&mut random, &mut bytes),
            }
        }
        for bytes in [bytes, frames(&mut random)] {
            let (row, kind) = checked(&bytes);
            rows[usize::from(row)] += 1;
            at_vertex[usize::from(row)] += u32::from(kind == b"06");
            at_task[usize::from(row)] += u32::from(kind == b"05" || kind == b"07");
        }
    }
    // No edge is written there, so that row 5 is for plain tasks alone.
    let often = |row: usize| rows[row] > 200;
    let all = [0, 1, 2, 3, 4, 6, 7, 13];
    assert!(all.into_iter().all(often), "{rows:?}");
    let often = |row: usize| at_vertex[row] > 200;
    assert!([1, 2, 3, 4, 13].into_iter().all(often), "{at_vertex:?}");
    assert_eq!(at_vertex[5], 0);
    assert!(at_task[2] > 200 && at_task[3] > 200, "{at_task:?}");
    assert_eq!(at_task[4] + at_task[5] + at_task[13], 0);
}
