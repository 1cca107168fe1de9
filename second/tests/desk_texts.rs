//! The texts that the desk is checked with: every answer occurs among them.

use crate::common::{answered, outputs_of, r1, text, texts_of};
use second::case::DESK;
use second::sequence::MOST_BYTES;
use std::process::Command;

/// What the generator writes with these arguments.
fn sequence(arguments: &[&str]) -> Vec<u8> {
    let mut generator = Command::new(env!("CARGO_BIN_EXE_texts_for_desk"));
    let written = generator.args(arguments).output().unwrap();
    assert!(written.status.success() && written.stderr.is_empty());
    written.stdout
}

/// The texts of a sequence.
fn texts(sequence: &[u8]) -> Vec<Vec<u8>> {
    texts_of(DESK, sequence)
}

/// The lines of the desk's output for each text.
fn answers(sequence: &[u8]) -> Vec<Vec<String>> {
    let outputs = outputs_of(&answered(sequence));
    assert_eq!(outputs.len(), texts(sequence).len());
    let lines = |output| {
        let output = String::from_utf8(output).unwrap();
        output.lines().map(String::from).collect()
    };
    outputs.into_iter().map(lines).collect()
}

/// How many texts have a line that begins and ends like this.
fn texts_with(answers: &[Vec<String>], start: &str, end: &str) -> usize {
    let fits = |line: &String| line.starts_with(start) && line.ends_with(end);
    answers
        .iter()
        .filter(|lines| lines.iter().any(fits))
        .count()
}

/// How many vertices have this verdict, and a count between these.
fn vertices(answers: &[Vec<String>], verdict: &str, counts: (u32, u32)) -> usize {
    let fits = |line: &&String| {
        let count = || u32::from_str_radix(&line[8..], 16).unwrap();
        line.starts_with("10") && &line[6..8] == verdict && (counts.0..=counts.1).contains(&count())
    };
    answers.iter().flatten().filter(fits).count()
}

#[test]
fn every_refusal_of_a_text_or_input_is_there() {
    let answers = answers(&sequence(&[]));
    let least = [150, 100, 30, 20, 10, 10, 10, 30];
    for (number, least) in (1..=7).chain([13]).zip(least) {
        let texts = texts_with(&answers, &format!("1e{number:02x}"), "");
        assert!(texts >= least, "refusal {number}: {texts}");
    }
    // Two texts of each length past the longest.
    assert_eq!(texts_with(&answers, "1e0c", "0000"), 4);
}

#[test]
fn every_verdict_is_there() {
    let answers = answers(&sequence(&[]));
    let count = |verdict, counts| vertices(&answers, verdict, counts);
    assert!(count("00", (1, 1)) > 500 && count("01", (1, 1)) > 50);
    assert!(count("00", (2, 999)) > 20 && count("01", (2, 999)) > 200);
    assert!(count("00", (1_000, 99_999)) > 5 && count("01", (1_000, 99_999)) > 0);
    // 6 n^4 - 1 groups for n = 11 and 12, of which only the first are within the budget.
    assert_eq!(count("00", (87_845, 87_845)), 1);
    assert!((2..=12).contains(&count("02", (100_000, 100_000))));
    assert!(count("03", (9, 9)) > 10 && count("03", (10, 10)) > 20);
    assert_eq!(count("03", (0, 8)) + count("03", (11, u32::MAX)), 0);
}

#[test]
fn the_bench_comes_first() {
    let answers = answers(&sequence(&[]));
    let frames = |number: usize| answers[number].concat();
    let last = |number: usize| answers[number].iter().rev().nth(1).unwrap().as_str();
    assert_eq!(texts(&sequence(&[]))[0], text(&r1(2)).as_bytes());
    assert!(frames(0).ends_with("100200010000000112000002000012010001001f02010000"));
    // R2, R3 at horizon 5 and 6, R4, R5, R6, R7.
    assert_eq!(last(1), "1002000000000001");
    assert_eq!((last(2), last(3)), ("1200000100", "120000020000"));
    assert_eq!(frames(4), "1e0d0002");
    assert_eq!((last(5), last(6)), ("1001000000000001", "1200000101"));
    assert_eq!(last(7), "1001000000000005");
    // R10 with 64 paths, 64 and a miss, 256, 65 and 17; R11.
    assert_eq!((last(8), last(9)), ("1001000000000001", "12000003000000"));
    assert_eq!(
        (last(10), last(11)),
        ("1001000300000009", "1001000300000009")
    );
    assert_eq!(last(12), "1001000000000001");
    assert_eq!(
        (frames(13), frames(14), frames(15)),
        ("1e060001".into(), "1e020001".into(), "1e010001".into())
    );
    // R2 above a masked tick and without it, then below one and without it.
    assert!(frames(16).contains("1002000100000001120000020000120100010010030000"));
    assert!(frames(16).ends_with("1f03010000") && frames(17).ends_with("1f04000000"));
    assert_eq!((last(18), last(19)), ("1202000100", "1202000100"));
    assert_eq!(answers[18], answers[19]);
}

#[test]
fn they_are_many_and_fit_in_the_checked_program() {
    let sequence = sequence(&[]);
    assert!(texts(&sequence).len() >= 600);
    assert!(sequence.len() <= MOST_BYTES);
}

#[test]
fn another_seed_gives_other_random_texts() {
    let (own, first, again) = (sequence(&[]), sequence(&["1"]), sequence(&["1"]));
    assert!(first == again && first != own);
    assert_eq!(texts(&first).len(), texts(&own).len());
    let (own, first) = (texts(&own), texts(&first));
    let alike = own.iter().zip(&first).take_while(|(a, b)| a == b).count();
    assert!(alike > 300 && alike < own.len());
    let random = texts(&sequence(&["1", "20"]));
    assert_eq!(random.len(), 20);
    assert_ne!(random, texts(&sequence(&["2", "20"])));
}

#[test]
fn wrong_arguments() {
    for arguments in [&["one"][..], &["1", "2", "3"], &["-1"], &[""]] {
        let mut generator = Command::new(env!("CARGO_BIN_EXE_texts_for_desk"));
        let found = generator.args(arguments).output().unwrap();
        assert!(!found.status.success() && found.stdout.is_empty());
    }
}
