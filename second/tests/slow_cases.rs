//! What the generators write of slower cradles (wish 7): enough of them, each bound, and every answer to them.

use crate::common::generators::written_by;
use crate::common::sheet::tasks_or_refusal;
use crate::common::writing::{tasks_of_cells, tasks_of_record};
use crate::common::{answered, answered_lines, cases_of, outputs_of, texts_of, Task};
use second::case::{BACK, CHECK, DESK, LIST, TABLE};
use second::sequence::MOST_BYTES;

/// The number of four digits from this place of a line on, if there are such.
fn number_at(line: &[u8], first: usize) -> Option<u32> {
    let digits = std::str::from_utf8(line.get(first..first + 4)?).ok()?;
    u32::from_str_radix(digits, 16).ok()
}

/// Has the text a line of a vertex with a d above 200, within its bounds?
fn has_slow_vertex(text: &[u8]) -> bool {
    let is_vertex = |line: &[u8]| match line.len() {
        10 => line.starts_with(b"02"),
        14 => line.starts_with(b"06"),
        _ => false,
    };
    let is_slow = |line: &[u8]| number_at(line, 6).is_some_and(|d| (201..=1_000).contains(&d));
    let mut lines = text.split(|&byte| byte == b'\n');
    lines.any(|line| is_vertex(line) && is_slow(line))
}

/// Has some task an edge with a p above 1,000?
fn has_far_edge(tasks: &[Task]) -> bool {
    let mut edges = tasks.iter().flat_map(|task| &task.edges);
    edges.any(|edge| edge.2 > 1_000)
}

/// Checks that a third of the texts, and of those that can be read, have a d above 200, and that a share of the latter has a p above 1,000.
fn check_shares(texts: &[Vec<u8>], far_of: usize) {
    let slow = texts.iter().filter(|text| has_slow_vertex(text)).count();
    assert!(3 * slow >= texts.len(), "{slow} of {}", texts.len());
    let readable = texts.iter().filter_map(|text| tasks_or_refusal(text).ok());
    let readable: Vec<_> = readable.collect();
    let is_slow = |task: &Task| task.vertices.iter().any(|vertex| vertex.1 > 200);
    let slow = readable.iter().filter(|tasks| tasks.iter().any(is_slow));
    let slow = slow.count();
    assert!(3 * slow >= readable.len(), "{slow} of {}", readable.len());
    let far = readable.iter().filter(|tasks| has_far_edge(tasks)).count();
    assert!(far_of * far >= readable.len(), "{far}");
}

#[test]
fn random_texts_for_the_desk() {
    for arguments in [&["5", "2000"], &["1", "2000"]] {
        let sequence = written_by(env!("CARGO_BIN_EXE_texts_for_desk"), arguments);
        let texts = texts_of(DESK, &sequence);
        check_shares(&texts, 5);
        // Batches of 1,000 can be read by the program that is checked.
        assert!(sequence.len() * 10 <= MOST_BYTES * 18);
        let mut verdicts = [0; 4];
        let mut refused = [0; 11];
        let (mut long, mut slow_misses) = (0, 0);
        for (text, output) in texts.iter().zip(outputs_of(&answered(&sequence))) {
            let output = String::from_utf8(output).unwrap();
            let number = |line: &str, first: usize| number_at(line.as_bytes(), first).unwrap();
            for line in output.lines().filter(|line| line.starts_with("10")) {
                let verdict = usize::from(line.as_bytes()[7] - b'0');
                verdicts[verdict] += 1;
                if verdict == 3 {
                    refused[number(line, 12) as usize] += 1;
                }
            }
            let paths = output.lines().filter(|line| line.starts_with("12"));
            let longest = paths.map(|line| number(line, 4)).max().unwrap_or(0);
            long += u32::from(longest > 255);
            slow_misses += u32::from(longest > 0 && has_slow_vertex(text));
        }
        assert!(verdicts[0] > 2_000 && verdicts[1] > 1_000, "{verdicts:?}");
        assert!(verdicts[2] > 3, "{verdicts:?}");
        assert!(refused[9] > 30 && refused[10] > 100, "{refused:?}");
        assert!(long > 30 && slow_misses > 100, "{long} {slow_misses}");
    }
}

#[test]
fn fixed_texts_for_the_desk() {
    let sequence = written_by(env!("CARGO_BIN_EXE_texts_for_desk"), &[]);
    let outputs = outputs_of(&answered(&sequence));
    // The last 310 are random; `tests/slow.rs` works the thirteen before them out.
    let fixed = &outputs[outputs.len() - 323..outputs.len() - 310];
    let ends = |number: usize, end: &str| {
        let output = String::from_utf8(fixed[number].clone()).unwrap();
        assert!(output.ends_with(end), "{number}: {output}");
    };
    let long =
        |task: u8, length: usize| format!("12{task:02x}{length:04x}{}\n", "00".repeat(length));
    let seven: String = (0..7).map(|task| long(task, 1_000)).collect();
    ends(0, &format!("\n1007000100000001\n{seven}1f01070000\n"));
    for (number, d) in [(1, 255), (2, 256), (3, 257), (4, 999)] {
        let paths = long(0, d) + &long(1, 1);
        ends(number, &format!("\n1002000100000001\n{paths}1f01020000\n"));
    }
    ends(5, "\n1001000000000001\n1f05000000\n");
    ends(6, "\n1001000000000001\n1f06000000\n");
    ends(7, "\n100100030000000a\n1f05000001\n");
    ends(8, "\n100100030000000a\n1f05000001\n");
    ends(9, "\n1001000000000005\n1f04000000\n");
    let two = "12000002000112010002000110030001";
    let output = String::from_utf8(fixed[10].clone()).unwrap();
    assert!(output
        .replace('\n', "")
        .contains(&format!("1002000100000003{two}")));
    ends(11, "\n1001000000000001\n1f02000000\n");
    ends(12, "\n1001000100000001\n1200000100\n1f01010000\n");
}

#[test]
fn random_texts_for_the_writer_and_the_reader() {
    let writer = env!("CARGO_BIN_EXE_tables_for_writer");
    let texts = texts_of(BACK, &written_by(writer, &["texts", "5", "1000"]));
    check_shares(&texts, 2);
    let reader = written_by(env!("CARGO_BIN_EXE_texts_for_reader"), &[]);
    let reader = texts_of(CHECK, &reader);
    // The last 60 tables, each whole and damaged.
    check_shares(&reader[reader.len() - 120..], 2);
    for word in ["records", "cells"] {
        let cases = cases_of(&written_by(writer, &[word, "5", "1000"]));
        let tasks = |case: &second::case::Case| match word {
            "records" => tasks_of_record(&case.text),
            _ => tasks_of_cells(&case.text),
        };
        let tables: Vec<_> = cases.iter().map(tasks).collect();
        let is_slow = |task: &Task| task.vertices.iter().any(|v| (201..=1_000).contains(&v.1));
        let slow = tables.iter().filter(|tasks| tasks.iter().any(is_slow));
        assert!(3 * slow.count() >= tables.len());
        assert!(tables.iter().filter(|tasks| has_far_edge(tasks)).count() * 2 >= tables.len());
    }
}

/// The texts for the reader, each with its line of answer.
fn reader_answers() -> Vec<(Vec<u8>, String)> {
    let sequence = written_by(env!("CARGO_BIN_EXE_texts_for_reader"), &[]);
    let answers = answered_lines(&sequence);
    let texts = texts_of(CHECK, &sequence).into_iter();
    texts.zip(answers.lines().map(String::from)).collect()
}

#[test]
fn bounds_among_the_texts_for_the_reader() {
    let answered = reader_answers();
    // A text with this line, refused at it by the number, or refused by none at it.
    let check = |line: &str, number: u8| {
        let found = answered.iter().any(|(text, answer)| {
            let text = String::from_utf8_lossy(text);
            let at = text.split_inclusive('\n').position(|found| found == line);
            at.is_some_and(|at| match number {
                0 => answer == "00",
                _ => *answer == format!("1e{number:02x}{:04x}", at + 1),
            })
        });
        assert!(found, "{line:?} {number}");
    };
    for (d, number) in [
        (200, 0),
        (201, 0),
        (999, 0),
        (1_000, 0),
        (1_001, 3),
        (65_535, 3),
    ] {
        check(&format!("020001{d:04x}\n"), number);
    }
    for (p, number) in [
        (1_000, 0),
        (1_001, 0),
        (59_999, 0),
        (60_000, 0),
        (60_001, 3),
    ] {
        check(&format!("030101{p:04x}\n"), number);
    }
    for (numbers, number) in [
        ("03e803e8", 0),
        ("03e903e8", 3),
        ("03e803e7", 13),
        ("03e703e7", 0),
    ] {
        check(&format!("02{numbers}\n"), number);
    }
    for (numbers, number) in [
        ("000100c9ea60", 0),
        ("000103e8ea60", 0),
        ("000103e9ea60", 3),
        ("00010001ea60", 0),
        ("00010001ea61", 3),
        ("03e803e803e8", 0),
        ("000103e803e7", 4),
    ] {
        check(&format!("06{numbers}\n"), number);
    }
    check("0403020002\n", 0);
    check("04010003e8\n", 0);
    check("04010003e9\n", 3);
}

#[test]
fn foreign_digits_among_the_texts_for_the_reader() {
    let answered = reader_answers();
    for (valid, first, line) in [
        ("010101\n02000103e8\n030000ea60\n00\n", 13, 2),
        ("010101\n02000103e8\n030000ea60\n00\n", 24, 3),
        ("0501\n06000103e8ea60\n00\n", 11, 2),
        ("0501\n06000103e8ea60\n00\n", 15, 2),
    ] {
        assert!(answered.contains(&(valid.into(), "00".into())));
        for digit in first..first + 4 {
            for foreign in [b'g', b'A', b' ', 0xe9] {
                let mut text = valid.as_bytes().to_vec();
                text[digit] = foreign;
                assert!(answered.contains(&(text, format!("1e01{line:04x}"))));
            }
        }
    }
}

#[test]
fn long_horizons_for_the_lister() {
    let sequence = written_by(env!("CARGO_BIN_EXE_tasks_for_lister"), &[]);
    let lines = answered_lines(&sequence);
    let is_path = |line: &&str, vertices: usize| line.split(' ').count() == vertices;
    for vertices in [255, 256, 257, 999, 1_000] {
        let path = vec!["0"; vertices].join(" ");
        assert!(lines.lines().any(|line| line == path), "{vertices}");
        assert!(lines.lines().any(|line| is_path(&line, vertices)));
    }
    // The sum of t x t for t from 1 to 1,000.
    assert!(lines.contains("\n333833500\n"));
    let texts = texts_of(LIST, &sequence);
    let tables = texts.iter().filter_map(|text| tasks_or_refusal(text).ok());
    let tables: Vec<_> = tables.collect();
    let horizon = |tasks: &Vec<Task>| tasks.last().unwrap().vertices[0].1;
    assert!(tables.iter().filter(|&t| horizon(t) > 200).count() >= 60);
    assert!(tables.iter().filter(|&t| horizon(t) == 1_000).count() >= 30);
    assert!(tables.iter().filter(|&t| has_far_edge(t)).count() >= 20);
}

#[test]
fn long_horizons_for_the_judge_and_the_worst_finish() {
    for (generator, behind) in [
        (env!("CARGO_BIN_EXE_cases_for_judge"), 0),
        (env!("CARGO_BIN_EXE_cases_for_latest"), 8),
    ] {
        let sequence = written_by(generator, &[]);
        let mut cases = cases_of(&sequence);
        cases.retain(|case| case.mode != TABLE && case.mode != b'z');
        let lines: Vec<_> = cases
            .iter()
            .map(|case| String::from_utf8(case.answer(&mut [], &mut [])).unwrap())
            .collect();
        let judged_d = |case: &second::case::Case| {
            let tasks = tasks_or_refusal(&case.text).ok()?;
            let vertices = &tasks.get(usize::from(case.task))?.vertices;
            Some(vertices.get(usize::from(case.vertex))?.1)
        };
        let slow: Vec<_> = cases
            .iter()
            .zip(&lines)
            .filter(|(case, _)| judged_d(case).is_some_and(|d| d > 200))
            .map(|(_, line)| line)
            .collect();
        for (kind, least) in [
            ("00", 10),
            ("01", 10),
            ("02", 10),
            ("030000000a", 3),
            ("030000000b", 2),
        ] {
            let count = slow.iter().filter(|line| line.starts_with(kind)).count();
            assert!(count >= least, "{kind}: {count}");
        }
        // The longest witness: the count 1, 7,007 cells written; 7,000 work cells are zero, and no other cell has changed. One cell less.
        let longest = "03e8".to_string() + &"0000".repeat(1_000);
        let finish = "0".repeat(behind);
        let longest = format!(
            "010000000100001b5f{finish}00001b580100001b5f01{}\n",
            longest.repeat(7)
        );
        assert!(lines.contains(&longest));
        assert!(lines
            .iter()
            .any(|line| line.starts_with("030000000b00001b5f")));
        assert!(lines
            .iter()
            .any(|line| line.starts_with("030000000a00001b58")));
    }
}
