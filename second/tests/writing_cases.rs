//! The cases that the writer is checked with: every answer occurs among them, and each is as the rules say.

use crate::common::writing::{expected, tasks_of_cells, tasks_of_record};
use crate::common::{answered, cases_of, r1, text, Task};
use second::case::{Case, BACK, CELLS, RECORD};
use second::desk;
use second::sequence::MOST_BYTES;
use std::process::{Command, Output};

/// The words that the generator knows, the mode of each, and the most bytes of its sequence.
const KINDS: [(&str, u8, usize); 3] = [
    ("records", RECORD, 230_000),
    ("texts", BACK, 60_000),
    ("cells", CELLS, 120_000),
];

/// What the generator does with these arguments.
fn generated(arguments: &[&str]) -> Output {
    let mut generator = Command::new(env!("CARGO_BIN_EXE_tables_for_writer"));
    generator.args(arguments).output().unwrap()
}

/// The cases that the generator writes with these arguments.
fn cases(arguments: &[&str]) -> Vec<Case> {
    let written = generated(arguments);
    assert!(written.status.success() && written.stderr.is_empty());
    cases_of(&written.stdout)
}

/// The tasks of a case; none of a text that is refused.
fn tasks(case: &Case) -> Option<Vec<Task>> {
    match case.mode {
        RECORD => Some(tasks_of_record(&case.text)),
        CELLS => Some(tasks_of_cells(&case.text)),
        _ => crate::common::sheet::tasks_or_refusal(&case.text).ok(),
    }
}

/// The number that the rules say of a case; checks its whole answer.
fn checked(case: &Case) -> u8 {
    let Some(tasks) = tasks(case) else {
        let check = desk::check(&case.text).into_bytes();
        assert!(check.starts_with(b"1e") && case.answer(&mut [], &mut []) == check);
        return 1;
    };
    let (number, place, text) = match expected(&tasks, case.work as usize) {
        Ok(bytes) => (0, bytes, text(&tasks)),
        Err((number, place)) => (number, place, String::new()),
    };
    let front = text.len();
    let answer = format!("{number:02x}{place:08x}{front:08x}01\n{text}");
    assert_eq!(case.answer(&mut [], &mut []), answer.as_bytes());
    number
}

/// How many cases have each number.
fn numbers(cases: &[Case]) -> [usize; 14] {
    let mut numbers = [0; 14];
    for case in cases {
        numbers[usize::from(checked(case))] += 1;
    }
    numbers
}

#[test]
fn every_answer_is_there() {
    for (word, mode, most) in KINDS {
        let cases = cases(&[word]);
        assert!(cases.iter().all(|case| case.mode == mode));
        let bytes: usize = cases.iter().map(|case| case.bytes().len()).sum();
        assert!(bytes <= most && most <= MOST_BYTES, "{word}: {bytes}");
        let numbers = numbers(&cases);
        assert!(numbers[0] >= 80 && numbers[10] >= 20, "{numbers:?}");
        match mode {
            BACK => assert!(numbers[1] >= 15, "{numbers:?}"),
            _ => {
                assert!(numbers[2] >= 8 && numbers[3] >= 100, "{numbers:?}");
                let seen = [4, 5, 13].map(|number| numbers[number]);
                assert!(seen.iter().all(|&n| n >= 15), "{numbers:?}");
            }
        }
    }
}

#[test]
fn random_cases() {
    for (word, mode, _) in KINDS {
        let cases = cases(&[word, "1", "3000"]);
        assert_eq!(cases.len(), 3_000);
        assert!(cases.iter().all(|case| case.mode == mode));
        let numbers = numbers(&cases);
        assert!(numbers[0] >= 1_000 && numbers[10] >= 100, "{numbers:?}");
        // At least half of the tables have a masked length.
        let is_masked = |task: &Task| task.m > 0;
        let has_masked = |case: &&Case| tasks(case).is_some_and(|t| t.iter().any(is_masked));
        assert!(cases.iter().filter(has_masked).count() >= 1_500);
        let refused = if mode == BACK { numbers[1] } else { numbers[3] };
        assert!(refused >= 200, "{numbers:?}");
        if mode != BACK {
            let seen = [4, 5, 13].map(|number| numbers[number]);
            assert!(seen.iter().all(|&n| n >= 30), "{numbers:?}");
        }
    }
}

#[test]
fn the_program_answers_them_one_after_the_other() {
    for (word, _, _) in KINDS {
        let sequence = generated(&[word]).stdout;
        let cases = cases_of(&sequence);
        let answers = cases.iter().flat_map(|case| case.answer(&mut [], &mut []));
        assert_eq!(answered(&sequence), answers.collect::<Vec<_>>());
    }
}

#[test]
fn r1_comes_first_in_each() {
    for (word, ..) in KINDS {
        let cases = cases(&[word]);
        // No byte, one short, the 90 bytes of R1, and more.
        let areas: Vec<_> = cases[..5].iter().map(|case| case.work).collect();
        assert_eq!(areas, [0, 89, 90, 91, 190]);
        for case in &cases[..5] {
            assert_eq!(tasks(case), Some(r1(2)));
        }
    }
}

#[test]
fn they_reach_what_they_are_made_for() {
    let records = cases(&["records"]);
    // Counts beyond the record's places, the longest record, and no zeros at the end of any.
    for n in [0, 9, 1_000, 65_535] {
        let says = |case: &&Case| tasks(case).is_some_and(|tasks| tasks.len() == n);
        assert!(records.iter().filter(says).count() >= 2);
    }
    assert!(records.iter().all(|case| case.text.last() != Some(&0)));
    assert!(records.iter().any(|case| case.text.len() == 1_458));
    let all = [records, cases(&["cells"])].concat();
    let is_longest = |case: &&Case| case.work == 3_963 && checked(case) == 0;
    assert_eq!(all.iter().filter(is_longest).count(), 2);
    // Refused by a rule although there is no area at all.
    let before_10 = all.iter().filter(|case| case.work == 0).map(checked);
    let before_10: Vec<_> = before_10
        .filter(|&number| ![0, 10].contains(&number))
        .collect();
    assert!(before_10.len() >= 50);
    assert!(before_10.iter().filter(|&&number| number == 13).count() >= 10);
    // A list that ends inside a task, in an odd byte too.
    let cells = cases(&["cells"]);
    assert!(cells.iter().any(|case| case.text.len() % 2 == 1));
    let names = |number: usize| {
        let named = |task: &Task| task.edges.iter().any(|e| e.0 == number || e.1 == number);
        let named = |case: &&Case| tasks(case).is_some_and(|tasks| tasks.iter().any(named));
        cells.iter().filter(named).count()
    };
    assert!(names(256) >= 9 && names(65_535) >= 9);
    // Texts with and without masked lengths, written once and several times.
    let texts = cases(&["texts"]);
    let is_masked = |case: &&Case| case.text.starts_with(b"04") && checked(case) == 0;
    assert!(texts.iter().filter(is_masked).count() >= 20);
    for budget in 0..4 {
        assert!(texts.iter().any(|case| case.budget == budget));
    }
}

#[test]
fn the_same_from_run_to_run_and_other_with_another_seed() {
    for (word, ..) in KINDS {
        assert_eq!(generated(&[word]).stdout, generated(&[word]).stdout);
        let [first, again, second] =
            ["1", "1", "2"].map(|seed| generated(&[word, seed, "20"]).stdout);
        assert!(first == again && first != second);
        assert_eq!(cases_of(&first).len(), 20);
    }
}

#[test]
fn wrong_arguments() {
    for arguments in [
        &[][..],
        &["tables"],
        &["records", "1"],
        &["records", "one", "2"],
        &["cells", "1", "two"],
        &["texts", "1", "2", "3"],
        &["1", "2"],
    ] {
        let found = generated(arguments);
        assert!(!found.status.success() && found.stdout.is_empty());
    }
}
