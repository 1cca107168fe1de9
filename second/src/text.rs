//! Reading a text into a table, or into one of the refusals 1 to 7 and 13.

use crate::bounds::{EDGE_FRAME, END_FRAME, MASKED_TASK_FRAME, TASK_FRAME, VERTEX_FRAME};
use crate::bounds::{GEAR_TABLE_FRAME, RING_FRAME, VENDOR_VERTEX_FRAME};
use crate::record::{EdgeRecord, VertexRecord};
use crate::refusal::{Refusal, Row};
use crate::rules::{self, Kept};
use crate::table::{Edge, Table, Task, Ticks, Vertex, VertexNo};
use crate::vendor::Vendor;

/// Reads a text: its table, or the refusal of its first faulty line.
pub fn read(text: &[u8]) -> Result<Table, Refusal> {
    let mut lines = Lines::of(text);
    let mut tasks = Vec::new();
    while lines.next_frame()? != [END_FRAME] {
        // Row 2 refuses a ninth task, whatever else its line is.
        lines.keep(rules::another_task(tasks.len()))?;
        tasks.push(read_task(&mut lines)?);
    }
    lines.keep(rules::end(tasks.len()))?;
    lines.nothing_more()?;
    Ok(Table { tasks })
}

/// Reads a task from the line just read on, by the kind of its frame.
fn read_task(lines: &mut Lines) -> Result<Task, Refusal> {
    match lines.frame[..] {
        [TASK_FRAME, vertices, edges] => read_plain_task(lines, vertices, edges, Ticks(0)),
        [MASKED_TASK_FRAME, vertices, edges, m_high, m_low] => {
            let m = ticks(m_high, m_low);
            lines.keep(rules::masked_length(m))?;
            read_plain_task(lines, vertices, edges, m)
        }
        [RING_FRAME, count] => read_vendor_task(lines, count, Vendor::Ring),
        [GEAR_TABLE_FRAME, count] => read_vendor_task(lines, count, Vendor::GearTable),
        _ => Err(lines.refuse(Row::Frame)),
    }
}

/// Reads on after a plain task's counts and m: its vertices, which decide whether m is too large, then its edges.
fn read_plain_task(lines: &mut Lines, vertices: u8, edges: u8, m: Ticks) -> Result<Task, Refusal> {
    lines.keep(rules::counts(usize::from(vertices), usize::from(edges)))?;
    let mut task = Task {
        m,
        vertices: Vec::with_capacity(usize::from(vertices)),
    };
    for _ in 0..vertices {
        task.vertices.push(read_vertex(lines)?);
    }
    let e = task.vertices.iter().map(|vertex| vertex.e);
    lines.keep(rules::largest_e(m, e))?;
    let mut before = None;
    for _ in 0..edges {
        before = Some(read_edge(lines, &mut task, before)?);
    }
    Ok(task)
}

/// Reads a vertex frame: a vertex that has no edges yet.
fn read_vertex(lines: &mut Lines) -> Result<Vertex, Refusal> {
    let &[VERTEX_FRAME, e_high, e_low, d_high, d_low] = lines.next_frame()? else {
        return Err(lines.refuse(Row::Frame));
    };
    let [e, d] = [ticks(e_high, e_low), ticks(d_high, d_low)];
    lines.keep(rules::vertex(VertexRecord { e, d }))?;
    let edges = Vec::new();
    Ok(Vertex { e, d, edges })
}

/// Reads an edge frame into its task; gives the edge.
fn read_edge(
    lines: &mut Lines,
    task: &mut Task,
    before: Option<EdgeRecord>,
) -> Result<EdgeRecord, Refusal> {
    let &[EDGE_FRAME, from, to, p_high, p_low] = lines.next_frame()? else {
        return Err(lines.refuse(Row::Frame));
    };
    let edge = EdgeRecord {
        from: VertexNo(u16::from(from)),
        to: VertexNo(u16::from(to)),
        p: ticks(p_high, p_low),
    };
    let d = |number: VertexNo| Some(task.vertices.get(usize::from(number.0))?.d);
    lines.keep(rules::edge(edge, before, d))?;
    let EdgeRecord { to, p, .. } = edge;
    task.vertices[usize::from(from)].edges.push(Edge { to, p });
    Ok(edge)
}

/// Reads on after a ring's or a gear table's task frame: the plain task that it stands for.
fn read_vendor_task(lines: &mut Lines, count: u8, vendor: Vendor) -> Result<Task, Refusal> {
    // Each vertex has one edge.
    let [vertices, edges] = [usize::from(count); 2];
    lines.keep(rules::counts(vertices, edges))?;
    let mut task = Task {
        m: Ticks(0),
        vertices: Vec::with_capacity(vertices),
    };
    for number in 0..u16::from(count) {
        let to = vendor.leads_to(VertexNo(number), u16::from(count));
        task.vertices.push(read_vendor_vertex(lines, to)?);
    }
    Ok(task)
}

/// Reads a vertex frame with a separation: a vertex whose only edge leads to this one.
fn read_vendor_vertex(lines: &mut Lines, to: VertexNo) -> Result<Vertex, Refusal> {
    let &[VENDOR_VERTEX_FRAME, e_high, e_low, d_high, d_low, p_high, p_low] = lines.next_frame()?
    else {
        return Err(lines.refuse(Row::Frame));
    };
    let [e, d] = [ticks(e_high, e_low), ticks(d_high, d_low)];
    let p = ticks(p_high, p_low);
    lines.keep(rules::vendor_vertex(VertexRecord { e, d }, p))?;
    let edges = vec![Edge { to, p }];
    Ok(Vertex { e, d, edges })
}

/// The ticks of two bytes.
fn ticks(high: u8, low: u8) -> Ticks {
    Ticks(u32::from(u16::from_be_bytes([high, low])))
}

/// The lines of a text, read from the first.
struct Lines<'a> {
    /// What is not read yet.
    rest: &'a [u8],
    /// The line just read, from 1.
    line: usize,
    /// The bytes of the frame just read.
    frame: Vec<u8>,
}

impl<'a> Lines<'a> {
    /// The lines of this text, none of them read.
    fn of(text: &'a [u8]) -> Lines<'a> {
        Lines {
            rest: text,
            line: 0,
            frame: Vec::new(),
        }
    }

    /// Reads the next line as a frame; refusals 6 and 1.
    fn next_frame(&mut self) -> Result<&[u8], Refusal> {
        self.line += 1;
        if self.rest.is_empty() {
            return Err(self.refuse(Row::NoEnd));
        }
        let Some(digits) = self.rest.iter().position(|&byte| byte == b'\n') else {
            return Err(self.refuse(Row::Line));
        };
        let line = &self.rest[..digits];
        self.rest = &self.rest[digits + 1..];
        if decode(line, &mut self.frame).is_none() {
            return Err(self.refuse(Row::Line));
        }
        Ok(&self.frame)
    }

    /// Sees that the text ends after the line just read; refusal 7.
    fn nothing_more(&mut self) -> Result<(), Refusal> {
        self.line += 1;
        if !self.rest.is_empty() {
            return Err(self.refuse(Row::AfterEnd));
        }
        Ok(())
    }

    /// Goes on if the line just read keeps a rule, and else refuses it.
    fn keep(&self, kept: Kept) -> Result<(), Refusal> {
        kept.map_err(|row| self.refuse(row))
    }

    /// A refusal at the line just read.
    fn refuse(&self, row: Row) -> Refusal {
        Refusal::at(row, self.line)
    }
}

/// Puts a line's bytes into the frame; none if it isn't an even number of digits, at least two.
fn decode(line: &[u8], frame: &mut Vec<u8>) -> Option<()> {
    if line.is_empty() || !line.len().is_multiple_of(2) {
        return None;
    }
    frame.clear();
    for pair in line.chunks_exact(2) {
        frame.push(16 * digit(pair[0])? + digit(pair[1])?);
    }
    Some(())
}

/// The value of a digit 0-9a-f; none for a foreign character.
fn digit(character: u8) -> Option<u8> {
    match character {
        b'0'..=b'9' => Some(character - b'0'),
        b'a'..=b'f' => Some(character - b'a' + 10),
        _ => None,
    }
}
