//! The refusal sheet.

/// The rows of the refusal sheet; each one's value is its number there.
#[derive(Clone, Copy, Debug, PartialEq, Eq)]
pub enum Row {
    /// A line is empty, has an odd count of digits, a foreign character, or no line feed.
    Line = 1,
    /// A frame's kind isn't allowed here, or its length is wrong for its kind.
    Frame = 2,
    /// A number outside its bounds, an edge naming a vertex that the task hasn't, or a masked length that exceeds its task's largest e.
    Number = 3,
    /// d of the starting vertex exceeds p.
    Deadline = 4,
    /// An edge not after the one before it in its task.
    EdgeOrder = 5,
    /// The text ends after a line feed, or is empty, and no end frame was read.
    NoEnd = 6,
    /// Bytes after the end frame.
    AfterEnd = 7,
    /// No such task or vertex.
    NoVertex = 8,
    /// Some higher task has too many complete paths.
    ManyPaths = 9,
    /// The work area, or the byte area lent to the writer, is too short.
    WorkArea = 10,
    /// The witness area is too short.
    WitnessArea = 11,
    /// Program only: the input is too long.
    LongInput = 12,
    /// A job longer than its own deadline (wish 6): "when e exceeds d, after 3, before 4 and before wish 3's test of m".
    LongJob = 13,
}

/// A refusal: its row and what is returned with it.
#[derive(Clone, Copy, Debug, PartialEq, Eq)]
pub struct Refusal {
    /// The row of the sheet.
    pub row: Row,
    /// The line, the task, the cells or bytes needed, or zero.
    pub place: usize,
}

impl Refusal {
    /// A refusal by this row, at this place.
    pub fn at(row: Row, place: usize) -> Refusal {
        Refusal { row, place }
    }

    /// The refusal's number on the sheet.
    pub fn number(&self) -> u8 {
        self.row as u8
    }
}
