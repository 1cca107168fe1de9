//! What the tests share: texts by hand, the document's definitions, a pseudo-random generator, and the program run.

pub mod definitions;
pub mod generators;
pub mod lateness;
pub mod random;
pub mod refused;
pub mod sheet;
pub mod vendors;
pub mod writing;

use second::case::Case;
use second::judge::{judge, Verdict};
use second::sequence::next_case;
use second::table::{TaskNo, VertexNo};
use std::io::Write;
use std::process::{Command, Output, Stdio};
use std::thread;

/// A task as the tests write it down.
#[derive(Clone, Debug, Default, PartialEq, Eq)]
pub struct Task {
    /// (e, d) of each vertex.
    pub vertices: Vec<(u32, u32)>,
    /// (from, to, p) of each edge.
    pub edges: Vec<(usize, usize, u32)>,
    /// The masked length; 0 if there is none.
    pub m: u32,
}

impl Task {
    /// The largest e of its vertices.
    pub fn largest_e(&self) -> u32 {
        self.vertices.iter().map(|vertex| vertex.0).max().unwrap()
    }
}

/// A task of these vertices (e, d) and edges (from, to, p), without a masked length.
pub fn task(vertices: &[(u32, u32)], edges: &[(usize, usize, u32)]) -> Task {
    Task {
        vertices: vertices.to_vec(),
        edges: edges.to_vec(),
        m: 0,
    }
}

/// The task with this masked length.
pub fn masked(m: u32, task: Task) -> Task {
    Task { m, ..task }
}

/// A self-edge task (e, d, p).
pub fn self_edge(e: u32, d: u32, p: u32) -> Task {
    task(&[(e, d)], &[(0, 0, p)])
}

/// The line of a task frame without a masked length.
pub fn task_line(vertices: usize, edges: usize) -> String {
    format!("01{vertices:02x}{edges:02x}\n")
}

/// The line of a task frame with a masked length.
pub fn masked_task_line(vertices: usize, edges: usize, m: u32) -> String {
    format!("04{vertices:02x}{edges:02x}{m:04x}\n")
}

/// A vertex frame's line.
pub fn vertex_line(e: u32, d: u32) -> String {
    format!("02{e:04x}{d:04x}\n")
}

/// An edge frame's line.
pub fn edge_line(from: usize, to: usize, p: u32) -> String {
    format!("03{from:02x}{to:02x}{p:04x}\n")
}

/// The text of these tasks without the end frame.
pub fn open_text(tasks: &[Task]) -> String {
    let mut text = String::new();
    for task in tasks {
        let (vertices, edges) = (task.vertices.len(), task.edges.len());
        text += &match task.m {
            0 => task_line(vertices, edges),
            m => masked_task_line(vertices, edges, m),
        };
        for &(e, d) in &task.vertices {
            text += &vertex_line(e, d);
        }
        for &(from, to, p) in &task.edges {
            text += &edge_line(from, to, p);
        }
    }
    text
}

/// The whole text of these tasks.
pub fn text(tasks: &[Task]) -> String {
    open_text(tasks) + "00\n"
}

/// R1's tasks, with the last e.
pub fn r1(last_e: u32) -> Vec<Task> {
    vec![
        self_edge(2, 5, 5),
        self_edge(2, 7, 7),
        self_edge(last_e, 6, 7),
    ]
}

/// R5's tasks, with the judged d.
pub fn r5(d: u32) -> Vec<Task> {
    vec![task(&[(1, 5), (3, 5)], &[]), task(&[(2, d)], &[])]
}

/// R7's tasks.
pub fn r7() -> Vec<Task> {
    let above = task(&[(3, 10), (1, 2), (4, 10)], &[(1, 2, 2)]);
    vec![above, task(&[(1, 5)], &[])]
}

/// R10's task of four vertices and all 16 edges with p 10.
pub fn r10() -> Task {
    let pairs = (0..4).flat_map(|from| (0..4).map(move |to| (from, to, 10)));
    task(&[(1, 10); 4], &pairs.collect::<Vec<_>>())
}

/// R10's task with an edgeless fifth vertex.
pub fn r10_with_fifth() -> Task {
    let mut task = r10();
    task.vertices.push((1, 10));
    task
}

/// Cells filled with 1, 2, 3 and so on, so that any change shows.
pub fn work_area(cells: usize) -> Vec<u32> {
    (1..).take(cells).collect()
}

/// Cells filled with 1, 2, 3 and so on, so that any change shows.
pub fn witness_area(cells: usize) -> Vec<u16> {
    (1..).take(cells).collect()
}

/// A work area whose front cells are zero and whose rest is unchanged.
pub fn zeroed(front: usize, cells: usize) -> Vec<u32> {
    let mut work = work_area(cells);
    work[..front].fill(0);
    work
}

/// A witness area whose front holds these cells and whose rest is unchanged.
pub fn written(front: &[u16], cells: usize) -> Vec<u16> {
    let mut witness = witness_area(cells);
    witness[..front.len()].copy_from_slice(front);
    witness
}

/// A verdict without its areas: what the judge says with these lengths lent.
pub fn judged(text: &str, numbers: (u16, u16), budget: u32, lent: (usize, usize)) -> Verdict {
    let (task, vertex) = (TaskNo(numbers.0), VertexNo(numbers.1));
    let (mut work, mut witness) = (work_area(lent.0), witness_area(lent.1));
    judge(
        text.as_bytes(),
        task,
        vertex,
        budget,
        &mut work,
        &mut witness,
    )
}

/// The number and place of a refused verdict.
pub fn refusal(verdict: Verdict) -> Option<(u8, usize)> {
    match verdict {
        Verdict::Refused(refusal) => Some((refusal.number(), refusal.place)),
        _ => None,
    }
}

/// Bytes preceded by their length in 4 bytes.
pub fn with_length(bytes: &[u8]) -> Vec<u8> {
    let length = u32::try_from(bytes.len()).unwrap();
    [&length.to_be_bytes(), bytes].concat()
}

/// The bytes of many outputs, each preceded by its length.
pub fn outputs_of(written: &[u8]) -> Vec<Vec<u8>> {
    let mut outputs = Vec::new();
    let mut rest = written;
    while let Some((length, behind)) = rest.split_first_chunk() {
        let (output, next) = behind.split_at(u32::from_be_bytes(*length) as usize);
        outputs.push(output.to_vec());
        rest = next;
    }
    assert!(rest.is_empty());
    outputs
}

/// The same question about each text, as a sequence of cases.
pub fn sequence_of(mode: u8, texts: &[&[u8]]) -> Vec<u8> {
    let cases = texts.iter().map(|text| Case::plain(mode, text.to_vec()));
    cases.flat_map(|case| case.bytes()).collect()
}

/// The cases of a sequence.
pub fn cases_of(sequence: &[u8]) -> Vec<Case> {
    let mut rest = sequence;
    std::iter::from_fn(|| next_case(&mut rest).unwrap()).collect()
}

/// The texts of a sequence of cases that all ask the same.
pub fn texts_of(mode: u8, sequence: &[u8]) -> Vec<Vec<u8>> {
    let cases = cases_of(sequence);
    assert!(cases.iter().all(|case| case.mode == mode));
    cases.into_iter().map(|case| case.text).collect()
}

/// What the program answers to a sequence of cases.
pub fn answered(sequence: &[u8]) -> Vec<u8> {
    let found = run(&["cases"], sequence);
    assert_eq!(found.status.code(), Some(0));
    assert!(found.stderr.is_empty());
    found.stdout
}

/// What the program answers to a sequence of cases, as lines.
pub fn answered_lines(sequence: &[u8]) -> String {
    String::from_utf8(answered(sequence)).unwrap()
}

/// Runs the program with these arguments and this standard input.
pub fn run(arguments: &[&str], input: &[u8]) -> Output {
    let mut program = Command::new(env!("CARGO_BIN_EXE_second"))
        .args(arguments)
        .stdin(Stdio::piped())
        .stdout(Stdio::piped())
        .stderr(Stdio::piped())
        .spawn()
        .unwrap();
    let mut stdin = program.stdin.take().unwrap();
    // Side by side, since the program may answer more than a pipe holds before it has read everything.
    thread::scope(|scope| {
        scope.spawn(move || {
            // A program that is used wrongly may end before it has read everything.
            let _ = stdin.write_all(input);
        });
        program.wait_with_output().unwrap()
    })
}
