//! A table of tasks in priority order, and the three kinds of number that can't be mixed.

use std::ops::Add;

/// A count of ticks.
#[derive(Clone, Copy, Debug, Default, PartialEq, Eq, PartialOrd, Ord)]
pub struct Ticks(pub u32);

/// A task's number; task 0 has the highest priority.
#[derive(Clone, Copy, Debug, PartialEq, Eq, PartialOrd, Ord)]
pub struct TaskNo(pub u16);

/// A vertex's number in its task, from 0.
#[derive(Clone, Copy, Debug, Default, PartialEq, Eq, PartialOrd, Ord)]
pub struct VertexNo(pub u16);

/// The tasks, in priority order.
#[derive(Clone, Debug, PartialEq, Eq)]
pub struct Table {
    /// The tasks, by task number.
    pub tasks: Vec<Task>,
}

/// A task graph.
#[derive(Clone, Debug, PartialEq, Eq)]
pub struct Task {
    /// The masked length: for so long the task can hold up every higher one; 0 if it masks nothing.
    pub m: Ticks,
    /// The vertices, by vertex number.
    pub vertices: Vec<Vertex>,
}

/// A job type with the edges that start from it.
#[derive(Clone, Debug, PartialEq, Eq)]
pub struct Vertex {
    /// The execution time.
    pub e: Ticks,
    /// The deadline.
    pub d: Ticks,
    /// The edges out of this vertex, in rising order of the vertex they lead to.
    pub edges: Vec<Edge>,
}

/// An edge out of a vertex.
#[derive(Clone, Copy, Debug, PartialEq, Eq)]
pub struct Edge {
    /// The vertex it leads to.
    pub to: VertexNo,
    /// The separation.
    pub p: Ticks,
}

impl Add for Ticks {
    type Output = Ticks;

    fn add(self, other: Ticks) -> Ticks {
        Ticks(self.0 + other.0)
    }
}

impl Table {
    /// The vertex of these numbers, if there is one.
    pub fn vertex(&self, task: TaskNo, vertex: VertexNo) -> Option<&Vertex> {
        let task = self.tasks.get(usize::from(task.0))?;
        task.vertices.get(usize::from(vertex.0))
    }

    /// The masked time B that can hold up a task's vertices: the largest m among the lower tasks, 0 if there are none.
    pub fn masked_time(&self, task: TaskNo) -> Ticks {
        let lower = self.tasks.iter().skip(usize::from(task.0) + 1);
        lower.map(|task| task.m).max().unwrap_or(Ticks(0))
    }

    /// The numbers of all vertices, in rising order of task and then vertex.
    pub fn numbers(&self) -> impl Iterator<Item = (TaskNo, VertexNo)> + '_ {
        (0..).zip(&self.tasks).flat_map(|(number, task)| {
            let vertices = (0..).zip(&task.vertices);
            vertices.map(move |(vertex, _)| (TaskNo(number), VertexNo(vertex)))
        })
    }
}
