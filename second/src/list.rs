//! The complete paths of a text's tasks, as lines that are compared with the proved lister's.

use crate::bounds::PATHS;
use crate::paths::{first_paths, Path};
use crate::table::{Task, Ticks};
use crate::text;
use crate::walk::first_part;

/// How many paths are counted, at most.
const COUNTED: usize = 4 * PATHS + 1;
/// How many paths are written, at most.
const WRITTEN: usize = 8;

/// The lines of each task, for the d of vertex 0 of the last task; `-` for an unreadable text.
pub fn list(text: &[u8]) -> String {
    let Ok(table) = text::read(text) else {
        return "-\n".into();
    };
    // A readable text has a task, and a task a vertex.
    let d = table.tasks[table.tasks.len() - 1].vertices[0].d;
    table.tasks.iter().map(|task| list_task(task, d)).collect()
}

/// The number of paths, as far as they are counted; the first paths; and the loads' sum, unless there are more than allowed.
fn list_task(task: &Task, d: Ticks) -> String {
    let paths = first_paths(task, d, COUNTED);
    let mut lines = line([paths.len()]);
    for path in paths.iter().take(WRITTEN) {
        lines += &line(path.steps.iter().map(|step| step.vertex.0));
    }
    if paths.len() <= PATHS {
        lines += &line([sum_of_loads(&paths, d)]);
    }
    lines
}

/// The sum of the cells of a task's stretch, each times its place there, from 1.
fn sum_of_loads(paths: &[Path], d: Ticks) -> u64 {
    let cells = rows(paths, d).into_iter().zip(1..);
    cells.map(|(load, place)| u64::from(load) * place).sum()
}

/// The loads at 1 to d of a range and of its parts: first the first part's rows, then the range's own, then the rest's.
fn rows(paths: &[Path], d: Ticks) -> Vec<u32> {
    let own = largest(paths, d);
    if paths.len() == 1 {
        return own;
    }
    let (first, rest) = paths.split_at(first_part(paths.len()));
    [rows(first, d), own, rows(rest, d)].concat()
}

/// The largest load of the paths at each tick from 1 to d.
fn largest(paths: &[Path], d: Ticks) -> Vec<u32> {
    let mut largest = vec![0; d.0 as usize];
    let mut loads = largest.clone();
    for path in paths {
        path.write_loads(&mut loads);
        for (most, &load) in largest.iter_mut().zip(&loads) {
            *most = load.max(*most);
        }
    }
    largest
}

/// Numbers, with a space between each two, as a line.
fn line(numbers: impl IntoIterator<Item = impl ToString>) -> String {
    let numbers: Vec<_> = numbers.into_iter().map(|n| n.to_string()).collect();
    numbers.join(" ") + "\n"
}
