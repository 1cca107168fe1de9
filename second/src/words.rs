//! What the desk's answer says, in words for people, with the worst finish beside each meets and, if asked for, the releases that make it so late.

use crate::bounds::{BUDGET, INPUT_BYTES, PATHS, WITNESS_CELLS, WORK_CELLS};
use crate::desk;
use crate::judge::{judge_vertex, Counts, Verdict};
use crate::latest::{latest_of_vertex, Lateness};
use crate::refusal::{Refusal, Row};
use crate::table::{Table, Task, TaskNo, Ticks, Vertex};

/// How many bytes of a faulty line are shown, at most.
const SHOWN_BYTES: usize = 60;

/// What is said in the place of the releases where there is no higher task.
const NOTHING_ABOVE: &str = ", with nothing above it";

/// The last line where no table was read.
const UNREAD: &str = "This may NOT go out: the table can't be read, so nothing was judged.\n";

/// The words for an input: a line for each vertex and what follows from them, or why nothing was judged.
pub fn words(input: &[u8]) -> String {
    input_words(input, false)
}

/// The same words, and below each meets the releases that make it so late.
pub fn words_with_why(input: &[u8]) -> String {
    input_words(input, true)
}

/// The words for an input, with the releases below a meets or without.
fn input_words(input: &[u8], why: bool) -> String {
    match desk::read(input) {
        Ok(table) => table_words(&table, why),
        Err(refusal) => refusal_words(input, &refusal),
    }
}

/// The words for a refused text or input; where a line is refused, it is shown.
fn refusal_words(input: &[u8], refusal: &Refusal) -> String {
    let mut words = refused(refusal) + "\n";
    if refusal.row != Row::LongInput {
        words += &format!("    {}\n", shown_line(input, refusal.place));
    }
    words + UNREAD
}

/// A refusal's number, and the row of the refusal sheet in words, with what it returns.
fn refused(refusal: &Refusal) -> String {
    let (number, place) = (refusal.number(), refusal.place);
    let at_line = |rule| format!(" at line {place}: {rule}");
    let row = match refusal.row {
        Row::Line => at_line(
            "a line must be pairs of the digits 0-9a-f, at least one pair, and end in a line feed",
        ),
        Row::Frame => {
            at_line("this kind of frame isn't allowed here, or its length is wrong for its kind")
        }
        Row::Number => at_line(
            "a number is outside its bounds, an edge names a vertex that the task hasn't, or the task's masked length exceeds its largest e",
        ),
        Row::Deadline => {
            at_line("the deadline of the edge's starting vertex exceeds the separation")
        }
        Row::EdgeOrder => at_line("the edge doesn't come after the one before it in its task"),
        Row::NoEnd => at_line("the text ends and no end frame was read"),
        Row::AfterEnd => at_line("there are bytes after the end frame"),
        Row::NoVertex => ": there is no such task or vertex".into(),
        Row::ManyPaths => format!(": task {place} has more than {PATHS} complete paths"),
        Row::WorkArea => format!(": {place} work cells are needed and there are {WORK_CELLS}"),
        Row::WitnessArea => {
            format!(": {place} witness cells are needed and there are {WITNESS_CELLS}")
        }
        Row::LongInput => format!(": the input is longer than {INPUT_BYTES} bytes"),
        Row::LongJob => at_line("the job is longer than its own deadline"),
    };
    format!("REFUSED ({number}){row}")
}

/// A line of a text, from 1, as far as it is shown.
fn shown_line(text: &[u8], line: usize) -> String {
    let mut lines = text.split_inclusive(|&byte| byte == b'\n');
    let Some(bytes) = lines.nth(line - 1) else {
        return "(the text ends before this line)".into();
    };
    let bytes = bytes.strip_suffix(b"\n").unwrap_or(bytes);
    if bytes.is_empty() {
        return "(an empty line)".into();
    }
    let first = &bytes[..bytes.len().min(SHOWN_BYTES)];
    let more = if bytes.len() > SHOWN_BYTES { "..." } else { "" };
    first.iter().copied().map(shown_byte).collect::<String>() + more
}

/// A byte as it is, if it can be seen and isn't the backslash, and else by its two digits.
fn shown_byte(byte: u8) -> String {
    match byte {
        b'\\' => r"\x5c".into(),
        b' '..=b'~' => char::from(byte).into(),
        _ => format!("\\x{byte:02x}"),
    }
}

/// The words for a table: each vertex, the four counts, and whether it may go out.
fn table_words(table: &Table, why: bool) -> String {
    let mut work = [0; WORK_CELLS];
    let mut witness = [0; WITNESS_CELLS];
    let mut counts = Counts::default();
    let mut words = String::new();
    for (task, number) in table.numbers() {
        let verdict = judge_vertex(table, task, number, BUDGET, &mut work, &mut witness);
        counts.add(&verdict);
        // Every number that the table lists has its vertex.
        let vertex = &table.tasks[usize::from(task.0)].vertices[usize::from(number.0)];
        words += &format!("task {}, vertex {}: ", task.0, number.0);
        words += &match verdict {
            Verdict::Meets { count } => {
                let lateness =
                    latest_of_vertex(table, task, number, BUDGET, &mut work, &mut witness);
                let cause = match (why, &lateness) {
                    (true, Lateness::Meets { .. }) => cause_words(table, task, &witness),
                    _ => "\n".into(),
                };
                let masked = masked_words(table, task);
                meets_line(vertex, count, &lateness, &masked) + &cause
            }
            Verdict::Misses { count, .. } => {
                misses_line(task, vertex, count) + &miss_words(table, task, vertex, &witness)
            }
            Verdict::Unfinished { budget } => unfinished_line(budget),
            Verdict::Refused(refusal) => refused(&refusal) + ", so this was not judged\n",
        };
    }
    words + &counts_words(&counts)
}

/// The line of a vertex that meets, up to where the cause may follow: the groups of its verdict, and its worst finish, with the words on masked time, unless the search for that was cut short.
fn meets_line(vertex: &Vertex, count: u32, lateness: &Lateness, masked: &str) -> String {
    let (d, groups) = (ticks(vertex.d.0), number_of(count, "group"));
    match lateness {
        Lateness::Meets { finish, .. } => {
            let (finish, spare) = (finish.0, vertex.d.0 - finish.0);
            format!("meets its deadline of {d}, at worst after {finish}{masked}, {spare} to spare ({groups} examined)")
        }
        _ => format!("meets its deadline of {d} ({groups} examined; its worst finish wasn't found within {BUDGET} groups)"),
    }
}

/// What makes a vertex so late, behind its line: the releases in the witness area, if there are higher tasks.
fn cause_words(table: &Table, task: TaskNo, witness: &[u16]) -> String {
    match task {
        TaskNo(0) => format!("{NOTHING_ABOVE}\n"),
        _ => {
            let lines = witnessed(table, task, witness)
                .map(|(number, higher, path)| release_line(number, higher, path));
            format!(", by these releases:\n{}", lines.collect::<String>())
        }
    }
}

/// The line of a vertex that misses. No job is longer than its deadline, so that with nothing above it masked time makes it late.
fn misses_line(task: TaskNo, vertex: &Vertex, count: u32) -> String {
    let (d, groups) = (ticks(vertex.d.0), number_of(count, "group"));
    let cause = match task {
        TaskNo(0) => NOTHING_ABOVE,
        _ => ", shown by these releases",
    };
    format!("MISSES its deadline of {d} ({groups} examined){cause}:\n")
}

/// The line of a vertex whose search was cut short.
fn unfinished_line(budget: u32) -> String {
    let groups = number_of(budget, "group");
    format!("UNFINISHED: the search was cut short after {groups}; this is neither a yes nor a no\n")
}

/// The lines below a miss: the releases in the witness area, and the work that is due by the deadline, masked time among it.
fn miss_words(table: &Table, task: TaskNo, vertex: &Vertex, witness: &[u16]) -> String {
    let mut words = String::new();
    let mut due = vertex.e + table.masked_time(task);
    for (number, higher, path) in witnessed(table, task, witness) {
        words += &release_line(number, higher, path);
        // The whole path is released before the deadline, so its load there is all of it.
        for &cell in path {
            due = due + higher.vertices[usize::from(cell)].e;
        }
    }
    let (due, own, d) = (due.0, vertex.e.0, vertex.d.0);
    let (all, masked, over) = (ticks(due), masked_words(table, task), ticks(due - d));
    words
        + &format!(
            "    {all} of work{masked} are due by the deadline, {own} of them its own: {over} too many\n"
        )
}

/// How much of a vertex's time is masked time, and the first task that has so much of it, in brackets; nothing if none is.
fn masked_words(table: &Table, task: TaskNo) -> String {
    let b = table.masked_time(task);
    let tasks = table.tasks.iter().enumerate();
    let mut lower = tasks.skip(usize::from(task.0) + 1);
    match lower.find(|(_, lower)| lower.m == b) {
        Some((number, _)) if b > Ticks(0) => {
            let verb = if b == Ticks(1) { "is" } else { "are" };
            format!(" ({} of it {verb} task {number}'s masked time)", ticks(b.0))
        }
        _ => String::new(),
    }
}

/// The paths in the witness area: each higher task's number, the task, and its path.
fn witnessed<'a>(
    table: &'a Table,
    task: TaskNo,
    witness: &'a [u16],
) -> impl Iterator<Item = (usize, &'a Task, &'a [u16])> {
    let mut front = witness;
    let higher = table.tasks[..usize::from(task.0)].iter().enumerate();
    higher.map(move |(number, higher)| {
        let (path, rest) = front[1..].split_at(usize::from(front[0]));
        front = rest;
        (number, higher, path)
    })
}

/// The line of a higher task's releases.
fn release_line(number: usize, task: &Task, path: &[u16]) -> String {
    format!("    task {number}: {}\n", releases(task, path))
}

/// The vertices of a path with their ticks: the first at 0, the next ones by the separations.
fn releases(task: &Task, path: &[u16]) -> String {
    let mut tick = Ticks(0);
    let mut released = vec![(path[0], tick)];
    for pair in path.windows(2) {
        let edges = &task.vertices[usize::from(pair[0])].edges;
        // A path goes by edges, and at most one leads to each vertex.
        for edge in edges.iter().filter(|edge| edge.to.0 == pair[1]) {
            tick = tick + edge.p;
        }
        released.push((pair[1], tick));
    }
    let runs = released.chunk_by(|one, next| one.0 == next.0);
    runs.map(run_words).collect::<Vec<_>>().join(", ")
}

/// A run of neighbouring releases of one vertex, each with its tick: four or more are said once, fewer one by one.
fn run_words(run: &[(u16, Ticks)]) -> String {
    let one = |&(vertex, tick): &(u16, Ticks)| format!("vertex {vertex} at tick {}", tick.0);
    match run {
        [first, (_, second), _, .., (_, last)] => {
            // All but the first come by the vertex's edge to itself, and so at its separation.
            let every = match second.0 - first.1 .0 {
                1 => "tick".into(),
                p => ticks(p),
            };
            format!("{} and every {every} up to tick {}", one(first), last.0)
        }
        few => few.iter().map(one).collect::<Vec<_>>().join(", "),
    }
}

/// The four counts, and the sentence that they decide.
fn counts_words(counts: &Counts) -> String {
    let Counts {
        meets,
        misses,
        unfinished,
        refused,
    } = counts;
    let sentence = if *misses > 0 {
        "This may NOT go out: a job type misses its deadline."
    } else if unfinished + refused > 0 {
        "This may NOT go out: not every job type was shown to meet its deadline."
    } else {
        "This may go out: every job type meets its deadline."
    };
    format!(
        "meets {meets}, misses {misses}, unfinished {unfinished}, refused {refused}\n{sentence}\n"
    )
}

/// So many ticks.
fn ticks(number: u32) -> String {
    number_of(number, "tick")
}

/// A number with the name of what it counts.
fn number_of(number: u32, name: &str) -> String {
    let more = if number == 1 { "" } else { "s" };
    format!("{number} {name}{more}")
}
