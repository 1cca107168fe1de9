//! What is asked of a text, with all that is lent for it, and what is answered.

use crate::area::written;
use crate::bounds::BUDGET;
use crate::desk::{self, counts, write_bytes, write_number};
use crate::judge::{judge, Counts, Verdict};
use crate::latest::latest;
use crate::list::list;
use crate::record::Record;
use crate::table::{TaskNo, Ticks, VertexNo};
use crate::text;
use crate::words::{words, words_with_why};

/// The bytes of a case before its text: mode (1), the text's length (4), task (1), vertex (1), budget (4), work cells (4) and witness cells (4).
pub const HEADER_BYTES: usize = 19;

/// The text check.
pub const CHECK: u8 = b'c';
/// The paths of every task.
pub const LIST: u8 = b'l';
/// The desk program's output, preceded by its length in 4 bytes.
pub const DESK: u8 = b'd';
/// One vertex, on marked areas.
pub const VERTEX: u8 = b'v';
/// One vertex and its worst finish, on marked areas.
pub const FINISH: u8 = b'f';
/// The whole table, on a marked area.
pub const TABLE: u8 = b't';
/// The whole table, with the desk's budget, on an area that isn't looked at.
pub const UNMARKED: u8 = b'u';
/// Every vertex of the table with its worst finish, with the desk's budget, on areas that aren't looked at.
pub const FINISHES: u8 = b'g';
/// The words for people, and an empty line.
pub const WORDS: u8 = b'w';
/// The words for people with the releases that make each meets so late, and an empty line.
pub const WHY: u8 = b'y';
/// A record of the fixed layout, written to a marked area.
pub const RECORD: u8 = b'r';
/// A list of cells, written to a marked area.
pub const CELLS: u8 = b'k';
/// The text's table, written back to a marked area.
pub const BACK: u8 = b'b';

/// The first work cell's mark; the next ones count on. No load is as large.
const WORK_MARK: u32 = 0xa5a5_0000;
/// The first witness cell's mark; the next ones count on. No length or vertex number is as large.
const WITNESS_MARK: u16 = 0x5a00;

/// A text, and what is asked of it.
#[derive(Clone, Debug, PartialEq, Eq)]
pub struct Case {
    /// What is asked.
    pub mode: u8,
    /// The task's number.
    pub task: u8,
    /// The vertex's number.
    pub vertex: u8,
    /// The budget.
    pub budget: u32,
    /// The cells of the work area; of what is written, the bytes of its area.
    pub work: u32,
    /// The cells of the witness area.
    pub witness: u32,
    /// The text.
    pub text: Vec<u8>,
}

impl Case {
    /// The case of this header, its text still empty.
    pub fn headed(header: [u8; HEADER_BYTES]) -> Case {
        let number = |at: usize| {
            header[at..at + 4]
                .iter()
                .fold(0, |n, &b| n << 8 | u32::from(b))
        };
        Case {
            mode: header[0],
            task: header[5],
            vertex: header[6],
            budget: number(7),
            work: number(11),
            witness: number(15),
            text: Vec::new(),
        }
    }

    /// What is asked of a text where no number matters.
    pub fn plain(mode: u8, text: Vec<u8>) -> Case {
        Case {
            mode,
            task: 0,
            vertex: 0,
            budget: 0,
            work: 0,
            witness: 0,
            text,
        }
    }

    /// The case's header and text.
    pub fn bytes(&self) -> Vec<u8> {
        // A text is far shorter than 4 bytes can count.
        let mut bytes = vec![self.mode];
        bytes.extend((self.text.len() as u32).to_be_bytes());
        bytes.extend([self.task, self.vertex]);
        for number in [self.budget, self.work, self.witness] {
            bytes.extend(number.to_be_bytes());
        }
        bytes.extend(&self.text);
        bytes
    }

    /// The answer, by the mode. The areas, of enough cells for any vertex, are for what is asked unmarked.
    pub fn answer(&self, work: &mut [u32], witness: &mut [u16]) -> Vec<u8> {
        let answer = match self.mode {
            CHECK => desk::check(&self.text),
            LIST => list(&self.text),
            DESK => return with_length(desk::output(&self.text).as_bytes()),
            VERTEX => self.judged(),
            FINISH => self.finished(),
            TABLE => self.tabled(),
            UNMARKED => counts(&self.text, BUDGET, work) + "\n",
            FINISHES => finishes(&self.text, work, witness) + "\n",
            WORDS => words(&self.text) + "\n",
            WHY => words_with_why(&self.text) + "\n",
            RECORD => return written(&Record::laid_out(&self.text), self.work, 1),
            CELLS => return written(&Record::of_cells(&self.text), self.work, 1),
            BACK => return self.written_back(),
            mode => format!("no such mode: {mode:02x}\n"),
        };
        answer.into_bytes()
    }

    /// Judges the vertex on marked areas: a line with the verdict and what both areas hold after it.
    ///
    /// The verdict byte; the count, budget or refusal number (4 bytes); the cells or place (4); then the two areas.
    pub fn judged(&self) -> String {
        self.on_marked(|work, witness| {
            let (task, vertex) = self.numbers();
            let verdict = judge(&self.text, task, vertex, self.budget, work, witness);
            verdict_line(&verdict, verdict.place())
        })
    }

    /// Asks how late the vertex's latest is, on marked areas: a line like that of judging it, with the worst finish (4 bytes, zero unless the vertex meets) before the two areas.
    pub fn finished(&self) -> String {
        self.on_marked(|work, witness| {
            let (task, vertex) = self.numbers();
            let lateness = latest(&self.text, task, vertex, self.budget, work, witness);
            let mut line = verdict_line(&lateness.verdict(), lateness.place());
            write_bytes(&mut line, &lateness.finish().0.to_be_bytes());
            line
        })
    }

    /// The numbers of the task and the vertex.
    fn numbers(&self) -> (TaskNo, VertexNo) {
        (TaskNo(self.task.into()), VertexNo(self.vertex.into()))
    }

    /// Makes a call on marked areas: the line that it gives, and then what both areas hold after it.
    fn on_marked(&self, call: impl FnOnce(&mut [u32], &mut [u16]) -> String) -> String {
        let mut work = self.marked_work();
        let mut witness: Vec<u16> = (WITNESS_MARK..).take(self.witness as usize).collect();
        let mut line = call(&mut work, &mut witness);
        write_work(&mut line, &work);
        write_witness(&mut line, &witness);
        line.push('\n');
        line
    }

    /// Judges the whole table on a marked work area: a line with the four counts or the refusal, as the desk's frames have them, and what the area holds after it.
    pub fn tabled(&self) -> String {
        let mut work = self.marked_work();
        let mut line = counts(&self.text, self.budget, &mut work);
        write_work(&mut line, &work);
        line.push('\n');
        line
    }

    /// Writes the text's table to a marked area, as many times as the budget says; of a refused text, the line of its check.
    fn written_back(&self) -> Vec<u8> {
        match text::read(&self.text) {
            Ok(table) => written(&Record::from(&table), self.work, self.budget),
            Err(_) => desk::check(&self.text).into_bytes(),
        }
    }

    /// A work area of the case's length, each cell with its mark.
    fn marked_work(&self) -> Vec<u32> {
        (WORK_MARK..).take(self.work as usize).collect()
    }
}

/// Asks how late each vertex's latest is: the four counts of these verdicts as the desk's last frame has them, and the sum of the worst finishes (4 bytes); or the frame of a refused text.
fn finishes(text: &[u8], work: &mut [u32], witness: &mut [u16]) -> String {
    let mut line = String::new();
    let table = match text::read(text) {
        Ok(table) => table,
        Err(refusal) => {
            desk::write_refusal(&mut line, &refusal);
            return line;
        }
    };
    let mut counts = Counts::default();
    let mut sum = Ticks(0);
    for (task, vertex) in table.numbers() {
        let lateness = latest(text, task, vertex, BUDGET, work, witness);
        counts.add(&lateness.verdict());
        sum = sum + lateness.finish();
    }
    desk::write_counts(&mut line, &counts);
    write_bytes(&mut line, &sum.0.to_be_bytes());
    line
}

/// Bytes preceded by their number in 4 bytes.
fn with_length(bytes: &[u8]) -> Vec<u8> {
    // An output is far shorter than 4 bytes can count.
    [&(bytes.len() as u32).to_be_bytes(), bytes].concat()
}

/// A verdict's first numbers: its byte; the count, budget or refusal number (4 bytes); and the cells or place (4).
fn verdict_line(verdict: &Verdict, place: usize) -> String {
    let mut line = String::new();
    write_bytes(&mut line, &[verdict.kind()]);
    write_bytes(&mut line, &verdict.value().to_be_bytes());
    write_number(&mut line, place);
    line
}

/// Writes the zeros at the work area's front (4 bytes), and 1 if all cells behind them hold their marks.
fn write_work(line: &mut String, work: &[u32]) {
    let front = work.iter().take_while(|&&cell| cell == 0).count();
    write_number(line, front);
    let kept = (WORK_MARK..)
        .zip(work)
        .skip(front)
        .all(|(mark, &cell)| cell == mark);
    write_bytes(line, &[u8::from(kept)]);
}

/// Writes the cells before the witness area's first that holds its mark (4 bytes), 1 if all cells behind them hold theirs, and those cells (2 each).
fn write_witness(line: &mut String, witness: &[u16]) {
    let marked = || (WITNESS_MARK..).zip(witness);
    let front = marked().take_while(|&(mark, &cell)| cell != mark).count();
    write_number(line, front);
    let kept = marked().skip(front).all(|(mark, &cell)| cell == mark);
    write_bytes(line, &[u8::from(kept)]);
    for cell in &witness[..front] {
        write_bytes(line, &cell.to_be_bytes());
    }
}
