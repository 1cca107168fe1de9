//! The refusal sheet's rows 1 to 7, with what wishes 3, 5 and 7 add to them, and wish 6's row 13, once more, line by line and without a reader's structure.

use super::Task;

/// What the lines before a line leave expected.
#[derive(Default)]
struct Expected {
    tasks: Vec<Task>,
    vertices: u32,
    edges: u32,
    /// Vertices of a ring or a gear table.
    vendor_vertices: u32,
    in_gears: bool,
}

/// The tasks of a valid text, or the number and line of its refusal.
pub fn tasks_or_refusal(text: &[u8]) -> Result<Vec<Task>, (u8, usize)> {
    let mut expected = Expected::default();
    let mut last = 0;
    let mut read = 0;
    for line in text.split_inclusive(|&byte| byte == b'\n') {
        last += 1;
        read += line.len();
        let frame = numbers(line).ok_or((1, last))?;
        let ended = expected.take(&frame).map_err(|number| (number, last))?;
        if ended && read < text.len() {
            return Err((7, last + 1));
        }
        if ended {
            return Ok(expected.tasks);
        }
    }
    Err((6, last + 1))
}

/// The bytes of a line that row 1 has nothing against.
fn numbers(line: &[u8]) -> Option<Vec<u32>> {
    let line = std::str::from_utf8(line).ok()?.strip_suffix('\n')?;
    let digits = |c: char| "0123456789abcdef".find(c).map(|value| value as u32);
    let values: Vec<u32> = line.chars().map(digits).collect::<Option<_>>()?;
    let bytes = values.chunks(2).map(|pair| match pair {
        [high, low] => Some(high * 16 + low),
        _ => None,
    });
    bytes.collect::<Option<Vec<_>>>().filter(|b| !b.is_empty())
}

impl Expected {
    /// Takes a frame: whether it is the end, or the first of rows 2, 3, 13, 4 and 5 that holds.
    fn take(&mut self, frame: &[u32]) -> Result<bool, u8> {
        let inside = self.vertices + self.edges + self.vendor_vertices > 0;
        let allowed = match frame[0] {
            0 => !inside && !self.tasks.is_empty() && frame.len() == 1,
            1 => !inside && self.tasks.len() < 8 && frame.len() == 3,
            4 => !inside && self.tasks.len() < 8 && frame.len() == 5,
            2 => self.vertices > 0 && frame.len() == 5,
            3 => self.vertices == 0 && self.edges > 0 && frame.len() == 5,
            5 | 7 => !inside && self.tasks.len() < 8 && frame.len() == 2,
            6 => self.vendor_vertices > 0 && frame.len() == 7,
            _ => false,
        };
        if !allowed {
            return Err(2);
        }
        match frame[0] {
            0 => return Ok(true),
            1 => self.take_task(frame[1], frame[2])?,
            4 => self.take_masked_task(frame[1], frame[2], frame[3] * 256 + frame[4])?,
            2 => self.take_vertex(frame[1] * 256 + frame[2], frame[3] * 256 + frame[4])?,
            6 => self.take_vendor_vertex(
                frame[1] * 256 + frame[2],
                frame[3] * 256 + frame[4],
                frame[5] * 256 + frame[6],
            )?,
            5 | 7 => self.take_vendor_task(frame[1], frame[0] == 7)?,
            _ => self.take_edge(
                frame[1] as usize,
                frame[2] as usize,
                frame[3] * 256 + frame[4],
            )?,
        }
        Ok(false)
    }

    fn take_task(&mut self, vertices: u32, edges: u32) -> Result<(), u8> {
        if vertices == 0 || vertices > 12 || edges > 32 {
            return Err(3);
        }
        (self.vertices, self.edges) = (vertices, edges);
        self.tasks.push(Task::default());
        Ok(())
    }

    fn take_masked_task(&mut self, vertices: u32, edges: u32, m: u32) -> Result<(), u8> {
        self.take_task(vertices, edges)?;
        if m == 0 || m > 1000 {
            return Err(3);
        }
        self.tasks.last_mut().unwrap().m = m;
        Ok(())
    }

    fn take_vertex(&mut self, e: u32, d: u32) -> Result<(), u8> {
        if e == 0 || e > 1000 || d == 0 || d > 1000 {
            return Err(3);
        }
        if e > d {
            return Err(13);
        }
        self.vertices -= 1;
        let task = self.tasks.last_mut().unwrap();
        task.vertices.push((e, d));
        if self.vertices == 0 && task.m > task.largest_e() {
            return Err(3);
        }
        Ok(())
    }

    fn take_edge(&mut self, from: usize, to: usize, p: u32) -> Result<(), u8> {
        let task = self.tasks.last_mut().unwrap();
        let count = task.vertices.len();
        if from >= count || to >= count || p == 0 || p > 60000 {
            return Err(3);
        }
        if task.vertices[from].1 > p {
            return Err(4);
        }
        if let Some(&(f, t, _)) = task.edges.last() {
            if f > from || (f == from && t >= to) {
                return Err(5);
            }
        }
        self.edges -= 1;
        task.edges.push((from, to, p));
        Ok(())
    }

    fn take_vendor_task(&mut self, count: u32, in_gears: bool) -> Result<(), u8> {
        if count == 0 || count > 12 {
            return Err(3);
        }
        (self.vendor_vertices, self.in_gears) = (count, in_gears);
        self.tasks.push(Task::default());
        Ok(())
    }

    fn take_vendor_vertex(&mut self, e: u32, d: u32, p: u32) -> Result<(), u8> {
        if e == 0 || e > 1000 || d == 0 || d > 1000 || p == 0 || p > 60000 {
            return Err(3);
        }
        if e > d {
            return Err(13);
        }
        if d > p {
            return Err(4);
        }
        self.vendor_vertices -= 1;
        let task = self.tasks.last_mut().unwrap();
        let number = task.vertices.len();
        let to = match (self.in_gears, self.vendor_vertices) {
            (true, _) => number,
            (false, 0) => 0,
            (false, _) => number + 1,
        };
        task.vertices.push((e, d));
        task.edges.push((number, to, p));
        Ok(())
    }
}
