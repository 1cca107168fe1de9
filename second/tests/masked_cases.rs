//! The random tables that the generators write: at least half of them have a masked length.

use crate::common::generators::{texts_for_words, written_by};
use crate::common::{answered_lines, cases_of, texts_of};
use second::case::{CHECK, DESK};
use second::text;

/// Can the text be read, and has it a task with a masked length from this one on?
fn is_masked_from(task: usize, bytes: &[u8]) -> bool {
    let table = text::read(bytes);
    table.is_ok_and(|table| table.tasks.iter().skip(task).any(|task| task.m.0 > 0))
}

#[test]
fn texts_for_the_desk() {
    let sequence = written_by(env!("CARGO_BIN_EXE_texts_for_desk"), &["1", "1000"]);
    let texts = texts_of(DESK, &sequence);
    assert_eq!(texts.len(), 1_000);
    let is_masked_task = |line: &[u8]| line.len() == 10 && line.starts_with(b"04");
    let has_frame = |text: &&Vec<u8>| text.split(|&byte| byte == b'\n').any(is_masked_task);
    assert!(texts.iter().filter(has_frame).count() >= 500);
    // Many are damaged; still, a third can be read and have a task that holds up another.
    let holds_up = |text: &&Vec<u8>| is_masked_from(1, text);
    assert!(texts.iter().filter(holds_up).count() >= 334);
}

#[test]
fn texts_for_the_reader() {
    let sequence = written_by(env!("CARGO_BIN_EXE_texts_for_reader"), &[]);
    let texts = texts_of(CHECK, &sequence);
    // The last 60 tables, each whole and damaged.
    let whole = texts[texts.len() - 120..].iter().step_by(2);
    assert!(whole.filter(|text| is_masked_from(0, text)).count() >= 30);
    // m out of its bounds, above the e of one vertex, and above those of three.
    let answers = answered_lines(&sequence);
    for refused in ["1e030001\n", "1e030002\n", "1e030004\n"] {
        let mut answered = texts.iter().zip(answers.split_inclusive('\n'));
        assert!(answered.any(|(text, answer)| text.starts_with(b"04") && answer == refused));
    }
    for bytes in [3_931, 3_963] {
        assert!(texts.iter().any(|text| text.len() == bytes));
    }
}

#[test]
fn cases_for_the_judge_and_the_worst_finish() {
    for (generator, random) in [
        (env!("CARGO_BIN_EXE_cases_for_judge"), 38),
        (env!("CARGO_BIN_EXE_cases_for_latest"), 52),
    ] {
        let mut cases = Vec::new();
        for case in cases_of(&written_by(generator, &[])) {
            if !cases.iter().any(|(_, text)| *text == case.text) {
                cases.push((case.task, case.text));
            }
        }
        // Each text comes first with a vertex to judge, and the random ones come last.
        let cases = &cases[cases.len() - random..];
        let masked = cases.iter().filter(|(_, text)| is_masked_from(0, text));
        assert!(2 * masked.count() >= random);
        let held_up = |(task, text): &&(u8, Vec<u8>)| is_masked_from(usize::from(*task) + 1, text);
        assert!(3 * cases.iter().filter(held_up).count() >= random);
    }
}

#[test]
fn texts_for_the_words() {
    let texts = texts_for_words("masked_texts");
    let random = texts[texts.len() - 20..].iter();
    assert!(random.filter(|text| is_masked_from(0, text)).count() >= 10);
}
