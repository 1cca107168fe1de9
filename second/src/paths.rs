//! Complete paths and their loads.

use crate::table::{Task, Ticks, VertexNo};

/// A path: a list of at least one vertex, each next one by an edge.
#[derive(Clone, Debug, Default, PartialEq, Eq)]
pub struct Path {
    /// The vertices, each with what is known of the prefix that it ends.
    pub steps: Vec<Step>,
}

/// One vertex of a path, with the prefix that it ends.
#[derive(Clone, Copy, Debug, PartialEq, Eq)]
pub struct Step {
    /// The vertex.
    pub vertex: VertexNo,
    /// The prefix's span.
    pub span: Ticks,
    /// The prefix's total e.
    pub total: Ticks,
}

impl Path {
    /// Writes the path's loads at t = 1, 2 and so on into the row's cells.
    pub fn write_loads(&self, row: &mut [u32]) {
        let mut prefixes = self.steps.iter().peekable();
        let mut load = 0;
        for (cell, t) in row.iter_mut().zip(1..) {
            // Spans and totals both rise along a path, so the longest prefix is the largest.
            while let Some(prefix) = prefixes.next_if(|prefix| prefix.span < Ticks(t)) {
                load = prefix.total.0;
            }
            *cell = load;
        }
    }
}

/// The task's complete paths for a deadline d, in order; none if there are more than the limit.
pub fn complete_paths(task: &Task, d: Ticks, limit: usize) -> Option<Vec<Path>> {
    let paths = first_paths(task, d, limit + 1);
    (paths.len() <= limit).then_some(paths)
}

/// The first of the task's complete paths for a deadline d, in order: so many, at least one, or all.
pub fn first_paths(task: &Task, d: Ticks, most: usize) -> Vec<Path> {
    let mut lister = Lister {
        task,
        d,
        most,
        path: Path::default(),
        listed: Vec::new(),
    };
    for (number, _) in (0..).zip(&task.vertices) {
        if lister.list(VertexNo(number), Ticks(0), Ticks(0)).is_none() {
            break;
        }
    }
    lister.listed
}

/// A listing under way.
struct Lister<'a> {
    task: &'a Task,
    d: Ticks,
    most: usize,
    /// The path that is being extended.
    path: Path,
    /// The complete paths so far, in order.
    listed: Vec<Path>,
}

impl Lister<'_> {
    /// Lists the complete paths that go on with this vertex at this span, after this total e.
    fn list(&mut self, vertex: VertexNo, span: Ticks, before: Ticks) -> Option<()> {
        let task = self.task;
        let last = &task.vertices[usize::from(vertex.0)];
        let total = before + last.e;
        self.path.steps.push(Step {
            vertex,
            span,
            total,
        });
        let mut complete = true;
        for edge in &last.edges {
            let longer = span + edge.p;
            if longer < self.d {
                complete = false;
                self.list(edge.to, longer, total)?;
            }
        }
        if complete {
            self.keep()?;
        }
        self.path.steps.pop();
        Some(())
    }

    /// Keeps the path as the next complete one; none if it is the last to be listed.
    fn keep(&mut self) -> Option<()> {
        self.listed.push(self.path.clone());
        (self.listed.len() < self.most).then_some(())
    }
}
