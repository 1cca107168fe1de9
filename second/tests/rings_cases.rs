//! The rings and gear tables that the generators write: enough of them, every refusal of them, and their answers by hand.

use crate::common::generators::{texts_for_words, written_by};
use crate::common::vendors::{has_vendor_task, vendor_task, vendor_vertex_line, KINDS};
use crate::common::{answered, answered_lines, cases_of, outputs_of, sequence_of, texts_of};
use second::case::{BACK, CHECK, DESK};
use second::text::read;

/// How many of the texts have a ring or a gear table, and how many of those can be read.
fn shares(texts: &[Vec<u8>]) -> (usize, usize) {
    let with_rings = texts.iter().filter(|text| has_vendor_task(text));
    let readable = with_rings.clone().filter(|text| read(text).is_ok());
    (with_rings.count(), readable.count())
}

/// What the text check says of each text.
fn checks(texts: &[Vec<u8>]) -> Vec<String> {
    let texts: Vec<_> = texts.iter().map(Vec::as_slice).collect();
    let answers = answered_lines(&sequence_of(CHECK, &texts));
    answers.lines().map(String::from).collect()
}

#[test]
fn texts_for_the_desk() {
    let random = written_by(env!("CARGO_BIN_EXE_texts_for_desk"), &["5", "1000"]);
    let all = written_by(env!("CARGO_BIN_EXE_texts_for_desk"), &[]);
    let (random, all) = (texts_of(DESK, &random), texts_of(DESK, &all));
    // The last 310 are random.
    for texts in [&random, &all[all.len() - 310..]] {
        let (with_rings, readable) = shares(texts);
        assert!(3 * with_rings >= texts.len(), "{with_rings}");
        // Many are damaged; still, a third can be read.
        assert!(3 * readable >= texts.len(), "{readable}");
    }
    for kind in KINDS {
        let frame = |line: &[u8]| line.len() == 4 && line.starts_with(kind.as_bytes());
        let has_frame = |text: &&Vec<u8>| text.split(|&byte| byte == b'\n').any(frame);
        assert!(random.iter().filter(has_frame).count() >= 200);
    }
    // Each of rows 1 to 4 and 13 refuses some.
    let with_rings: Vec<_> = random.into_iter().filter(|t| has_vendor_task(t)).collect();
    let answers = checks(&with_rings);
    for (row, least) in [1, 2, 3, 4, 13].into_iter().zip([30, 30, 30, 3, 30]) {
        let start = format!("1e{row:02x}");
        let refused = answers.iter().filter(|answer| answer.starts_with(&start));
        assert!(refused.count() >= least, "row {row}");
    }
}

#[test]
fn what_the_desk_says_of_the_fixed_ones() {
    let sequence = written_by(env!("CARGO_BIN_EXE_texts_for_desk"), &[]);
    let outputs = outputs_of(&answered(&sequence));
    // Behind the bench's 16 texts and the four with a masked length.
    let frames = |number: usize| {
        let output = String::from_utf8(outputs[20 + number].clone()).unwrap();
        output.replace('\n', "")
    };
    let r1 = "10000000000000011001000000000001100200010000000112000002000012010001001f02010000";
    assert_eq!((frames(0), frames(1)), (r1.into(), r1.into()));
    // A ring of three above e 2 and e 3, then a gear table; `tests/rings.rs` works them out.
    let own = "100000000000000110000100000000011000020000000001";
    let rest = [
        "10010000000000051f04000000",
        "10010001000000041200000201021f03010000",
        "10010000000000011f04000000",
        "10010001000000041200000201011f03010000",
    ];
    for (number, rest) in (2..).zip(rest) {
        assert_eq!(frames(number), format!("{own}{rest}"));
    }
}

/// Vertices (e, d, p) of rings and gear tables at each bound and one past it, each with its row, 0 for a readable text.
const VERTICES: [(u32, u32, u32, u8); 23] = [
    (0, 5, 7, 3),
    (1, 5, 7, 0),
    (1_000, 5, 7, 13),
    (1_001, 5, 7, 3),
    (1, 0, 60_000, 3),
    (1, 1, 60_000, 0),
    (1, 201, 60_000, 0),
    (1, 1_000, 60_000, 0),
    (1, 1_001, 60_000, 3),
    (1, 1, 0, 3),
    (1, 1, 1, 0),
    (1, 1, 1_001, 0),
    (1, 1, 60_001, 3),
    (1, 7, 7, 0),
    (1, 8, 7, 4),
    (1, 1_000, 1_000, 0),
    (1, 1_000, 999, 4),
    (0, 8, 7, 3),
    (1, 1_001, 1_000, 3),
    (1, 8, 0, 3),
    (1, 9, 5, 4),
    (1, 9, 20, 0),
    (1, 5, 5, 2),
];

/// The texts for the reader.
fn reader_texts() -> Vec<Vec<u8>> {
    let sequence = written_by(env!("CARGO_BIN_EXE_texts_for_reader"), &[]);
    texts_of(CHECK, &sequence)
}

/// Counts of a ring or a gear table and the row that refuses the line, 0 if none does; the last as a ninth task.
const COUNTS: [(&str, u8); 6] = [
    ("00", 3),
    ("01", 0),
    ("0c", 0),
    ("0d", 3),
    ("ff", 3),
    ("01", 2),
];

#[test]
fn every_refusal_is_among_the_texts_for_the_reader() {
    let mut texts = reader_texts();
    texts.retain(|text| has_vendor_task(text));
    let answers = checks(&texts);
    // A text with this line, refused at it by the row, or readable.
    let check = |line: &str, row: u8| {
        let answered = |(text, answer): (&Vec<u8>, &String)| {
            let text = String::from_utf8_lossy(text);
            let number = text.split_inclusive('\n').position(|found| found == line);
            number.is_some_and(|number| match row {
                0 => answer == "00",
                _ => *answer == format!("1e{row:02x}{:04x}", number + 1),
            })
        };
        let found = texts.iter().zip(&answers).any(answered);
        assert!(found, "{line:?} {row}");
    };
    for kind in KINDS {
        for (rest, row) in COUNTS {
            check(&format!("{kind}{rest}\n"), row);
        }
        check(&format!("{kind}\n"), 2);
    }
    for (e, d, p, row) in VERTICES {
        check(&vendor_vertex_line(e, d, p), row);
    }
    for line in ["0200010005\n", "0300000005\n", "0300010005\n", "0602\n"] {
        check(line, 2);
    }
    for (line, row) in [("0501\n", 7), ("05020g\n", 1), ("0701\r\n", 1)] {
        check(line, row);
    }
}

#[test]
fn texts_for_the_reader() {
    let texts = reader_texts();
    // The last 60 tables, each whole and damaged.
    let whole = texts[texts.len() - 120..].iter().step_by(2);
    let whole: Vec<_> = whole.cloned().collect();
    let (with_rings, readable) = shares(&whole);
    assert!(3 * with_rings >= whole.len() && readable == with_rings);
    for kind in KINDS {
        let longest = vendor_task(kind, &[(1_000, 1_000, 60_000); 12]).repeat(8) + "00\n";
        assert!(texts.contains(&longest.into_bytes()));
    }
}

#[test]
fn texts_for_the_writer() {
    let random = written_by(
        env!("CARGO_BIN_EXE_tables_for_writer"),
        &["texts", "5", "1000"],
    );
    let all = written_by(env!("CARGO_BIN_EXE_tables_for_writer"), &["texts"]);
    let all = texts_of(BACK, &all);
    // The last 100 are random.
    for texts in [&texts_of(BACK, &random), &all[all.len() - 100..]] {
        let (_, readable) = shares(texts);
        assert!(3 * readable >= texts.len(), "{readable}");
    }
    // An area that the text itself would fill is too short for its table.
    let cases = cases_of(&random);
    let is_short = |text: &[u8], area: u32| has_vendor_task(text) && area as usize >= text.len();
    let short = cases.iter().filter(|case| is_short(&case.text, case.work));
    let refused = short.filter(|case| case.answer(&mut [], &mut []).starts_with(b"0a"));
    assert!(refused.count() >= 20);
}

#[test]
fn texts_for_the_words() {
    let texts = texts_for_words("texts_with_rings");
    let (others, random) = texts.split_at(texts.len() - 20);
    let (with_rings, readable) = shares(random);
    assert!(with_rings >= 7 && readable == with_rings, "{with_rings}");
    // Six before them: R1, and rings and gear tables above a vertex.
    assert_eq!(shares(&others[others.len() - 6..]), (6, 6));
}
