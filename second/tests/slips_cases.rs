//! The jobs longer than their own deadline that the generators write: at each bound, beside other faults, and by chance; and what they judge without one.

use crate::common::generators::written_by;
use crate::common::sheet::tasks_or_refusal;
use crate::common::vendors::{vendor_task, KINDS};
use crate::common::writing::{tasks_of_cells, tasks_of_record};
use crate::common::{answered_lines, cases_of, definitions, masked, task, text, texts_of};
use second::case::{BACK, CHECK, DESK, LIST};
use second::text::read;

/// The texts for the reader, each with its line of answer.
fn reader_answers() -> Vec<(String, String)> {
    let sequence = written_by(env!("CARGO_BIN_EXE_texts_for_reader"), &[]);
    let texts = texts_of(CHECK, &sequence).into_iter();
    let texts = texts.map(|text| String::from_utf8_lossy(&text).into_owned());
    let answers = answered_lines(&sequence);
    texts.zip(answers.lines().map(String::from)).collect()
}

#[test]
fn texts_for_the_reader() {
    let answered = reader_answers();
    // This text is there, and refused by this number at this line, or readable.
    let check = |text: String, number: u8, line: usize| {
        let answer = match number {
            0 => "00".into(),
            _ => format!("1e{number:02x}{line:04x}"),
        };
        assert!(answered.contains(&(text.clone(), answer)), "{text:?}");
    };
    for place in 0..3 {
        for (e, d, number) in [
            (5, 5, 0),
            (6, 5, 13),
            (201, 200, 13),
            (999, 999, 0),
            (1_000, 999, 13),
            (1_000, 1_000, 0),
            (1_001, 1_000, 3),
            (1_000, 201, 13),
            (1, 0, 3),
            (0, 0, 3),
            (1_000, 1_001, 3),
        ] {
            let mut vertices = [(1, 9); 3];
            vertices[place] = (e, d);
            check(text(&[task(&vertices, &[])]), number, 2 + place);
        }
        for (e, d, p, number) in [
            (5, 5, 5, 0),
            (6, 5, 5, 13),
            (201, 200, 200, 13),
            (1_000, 1_000, 1_000, 0),
            (1_000, 999, 60_000, 13),
            (1_001, 1_000, 60_000, 3),
            (6, 5, 0, 3),
            (6, 5, 60_001, 3),
            (6, 5, 4, 13),
            (5, 5, 4, 4),
        ] {
            let mut vertices = [(1, 9, 9); 3];
            vertices[place] = (e, d, p);
            let [ring, gears] = KINDS.map(|kind| vendor_task(kind, &vertices) + "00\n");
            check(ring, number, 2 + place);
            if place == 1 {
                check(gears, number, 3);
            }
        }
    }
    for (m, last, number) in [
        (4, (2, 1), 13),
        (4, (4, 3), 13),
        (4, (3, 3), 3),
        (4, (4, 4), 0),
        (1_000, (201, 200), 13),
        (1_000, (999, 1_000), 3),
        (1_000, (1_000, 999), 13),
        (1_000, (1_000, 1_000), 0),
    ] {
        let tasks = [masked(m, task(&[(3, 9), (3, 9), last], &[]))];
        check(text(&tasks), number, 4);
    }
}

/// How many of some texts are refused by 13, and how: in which vertices of a task, and beside which other faults.
#[derive(Debug, Default)]
struct Seen {
    plain: u32,
    vendor: u32,
    first: u32,
    middle: u32,
    last: u32,
    /// p is below d.
    beside_4: u32,
    /// It is the last vertex of a task whose masked length exceeds every e.
    beside_m: u32,
    /// Refused by 3 at a line whose e exceeds its d.
    behind_3: u32,
}

/// The number of four digits from this place of a line on.
fn number_at(line: &str, first: usize) -> u32 {
    u32::from_str_radix(&line[first..first + 4], 16).unwrap()
}

impl Seen {
    /// Looks at a text.
    fn see(&mut self, text: &[u8]) {
        let Err((number, line)) = tasks_or_refusal(text) else {
            return;
        };
        let text = String::from_utf8_lossy(text);
        let lines: Vec<_> = text.lines().collect();
        match number {
            13 => self.see_slip(&lines, line - 1),
            3 => {
                let line = lines[line - 1];
                let is_vertex = line.starts_with("02") || line.starts_with("06");
                let is_slip = is_vertex && number_at(line, 2) > number_at(line, 6);
                self.behind_3 += u32::from(is_slip);
            }
            _ => (),
        }
    }

    /// Looks at the line that is refused by 13, from 0: up to it every line is sound.
    fn see_slip(&mut self, lines: &[&str], at: usize) {
        let is_task = |line: &&str| ["01", "04", "05", "07"].contains(&&line[..2]);
        let own = lines[..at].iter().rposition(is_task).unwrap();
        let count = usize::from_str_radix(&lines[own][2..4], 16).unwrap();
        let is_last = at == own + count;
        self.first += u32::from(at == own + 1);
        self.last += u32::from(is_last);
        self.middle += u32::from(at != own + 1 && !is_last);
        let is_plain = lines[at].starts_with("02");
        self.plain += u32::from(is_plain);
        self.vendor += u32::from(!is_plain);
        if !is_plain {
            let below = number_at(lines[at], 10) < number_at(lines[at], 6);
            self.beside_4 += u32::from(below);
        }
        if lines[own].starts_with("04") && is_last {
            let mut e = lines[own + 1..=at].iter().map(|line| number_at(line, 2));
            let m = number_at(lines[own], 6);
            self.beside_m += u32::from(e.all(|e| e < m));
        }
    }

    /// Are there so many of each, in plain tasks alone or in rings and gear tables too?
    fn check(&self, least: u32, vendors: bool) {
        let mut seen = vec![self.plain, self.first, self.middle, self.last];
        seen.push(self.behind_3);
        if vendors {
            seen.push(self.vendor);
        }
        assert!(seen.iter().all(|&n| n >= least), "{self:?}");
    }
}

#[test]
fn random_texts_for_the_desk_and_the_writer() {
    let [desk, writer] = [
        env!("CARGO_BIN_EXE_texts_for_desk"),
        env!("CARGO_BIN_EXE_tables_for_writer"),
    ];
    let desk = texts_of(DESK, &written_by(desk, &["9", "4000"]));
    let writer = texts_of(BACK, &written_by(writer, &["texts", "9", "4000"]));
    for texts in [desk, writer] {
        let mut seen = Seen::default();
        texts.iter().for_each(|text| seen.see(text));
        seen.check(40, true);
        assert!(seen.beside_4 >= 5 && seen.beside_m >= 5, "{seen:?}");
    }
}

#[test]
fn tables_for_the_writer() {
    let tables_for_writer = env!("CARGO_BIN_EXE_tables_for_writer");
    for (arguments, least) in [
        (&["records"][..], 10),
        (&["cells"], 10),
        (&["records", "9", "1000"], 3),
        (&["cells", "9", "1000"], 3),
    ] {
        let mut seen = Seen::default();
        for case in cases_of(&written_by(tables_for_writer, arguments)) {
            let tasks = match arguments[0] {
                "records" => tasks_of_record(&case.text),
                _ => tasks_of_cells(&case.text),
            };
            // Their frames written without a check are refused as they are; a ninth task isn't read.
            seen.see(text(&tasks[..tasks.len().min(9)]).as_bytes());
        }
        seen.check(least, false);
        assert!(arguments.len() > 1 || seen.beside_m >= 3, "{seen:?}");
    }
}

#[test]
fn the_tasks_for_the_lister_are_readable() {
    let sequence = written_by(env!("CARGO_BIN_EXE_tasks_for_lister"), &[]);
    let texts = texts_of(LIST, &sequence);
    // Behind the bench's 16 texts, the four with a masked length and the twelve with long paths.
    let tables: Vec<_> = texts[32..].iter().map(|text| read(text).unwrap()).collect();
    assert_eq!(tables.len(), 203);
    let e = |table: &second::table::Table| -> Vec<_> {
        let vertices = table.tasks.iter().flat_map(|task| &task.vertices);
        vertices.map(|vertex| vertex.e.0).collect()
    };
    let e: Vec<_> = tables.iter().flat_map(e).collect();
    assert!(e.iter().filter(|&&e| e >= 10).count() * 4 >= e.len());
}

#[test]
fn vertices_that_are_too_long_with_masked_time() {
    for generator in [
        env!("CARGO_BIN_EXE_cases_for_judge"),
        env!("CARGO_BIN_EXE_cases_for_latest"),
    ] {
        let (mut first, mut below) = (0, 0);
        for case in cases_of(&written_by(generator, &[])) {
            let (number, vertex) = (usize::from(case.task), usize::from(case.vertex));
            let Ok(tasks) = tasks_or_refusal(&case.text) else {
                continue;
            };
            let judged = tasks.get(number).and_then(|task| task.vertices.get(vertex));
            let Some(&(_, d)) = judged else {
                continue;
            };
            if definitions::e_plus_b(&tasks, number, vertex) > d {
                first += u32::from(number == 0);
                below += u32::from(number > 0);
            }
        }
        assert!(first >= 4 && below >= 2, "{first} {below}");
    }
}
