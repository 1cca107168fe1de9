//! Ranges, groups, and the walk through the groups.

use crate::bounds::HIGHER_TASKS;
use crate::paths::Path;
use crate::table::Ticks;

/// How a walk ends.
#[derive(Clone, Debug, PartialEq, Eq)]
pub enum Outcome {
    /// All groups to examine were examined, and none is the witness.
    Meets {
        /// The number of groups examined.
        count: u32,
        /// The bar after the walk.
        bar: Ticks,
        /// Per higher task, the place of the path of the choice that raised the bar last; empty if none did.
        latest: Vec<usize>,
    },
    /// The walk reached the witness.
    Misses {
        /// The number of groups examined, the witness among them.
        count: u32,
        /// Per higher task, the place of the witness's path in the order.
        witness: Vec<usize>,
    },
    /// The budget was used up before the walk's end.
    Unfinished,
}

/// The cells of a task's stretch: a row of d loads for each of its 2 x paths - 1 ranges.
pub fn stretch_cells(paths: usize, d: Ticks) -> usize {
    d.0 as usize * (2 * paths - 1)
}

/// Walks the groups of a vertex's higher tasks, within the budget, in just the needed work cells.
///
/// A group that finishes no later than the bar is passed over; a single choice that finishes later raises the bar to its finish. With the bar at d from the start, only overloading groups are not passed over; with the bar at 0, it is the latest finish of any single choice examined so far.
pub fn walk(
    e_plus_b: Ticks,
    d: Ticks,
    higher: &[Vec<Path>],
    bar: Ticks,
    budget: u32,
    work: &mut [u32],
) -> Outcome {
    let mut stretches = &mut *work;
    for paths in higher {
        let (stretch, rest) = stretches.split_at_mut(stretch_cells(paths.len(), d));
        fill(stretch, paths, d);
        stretches = rest;
    }
    Walk::from_top(e_plus_b, d, higher, bar, work).run(budget)
}

/// Fills a stretch for a range: first the range's own row, then the stretches of its two parts.
fn fill(stretch: &mut [u32], paths: &[Path], d: Ticks) {
    let (row, parts) = stretch.split_at_mut(d.0 as usize);
    if let [path] = paths {
        path.write_loads(row);
        return;
    }
    let (first_paths, rest_paths) = paths.split_at(first_part(paths.len()));
    let (first, rest) = parts.split_at_mut(stretch_cells(first_paths.len(), d));
    fill(first, first_paths, d);
    fill(rest, rest_paths, d);
    for (cell, (a, b)) in row.iter_mut().zip(first.iter().zip(rest.iter())) {
        *cell = *a.max(b);
    }
}

/// The length of the first part of a range of n paths: n/2, rounded up.
pub fn first_part(n: usize) -> usize {
    n.div_ceil(2)
}

/// A run of neighbours in one task's ordered complete paths.
#[derive(Clone, Copy)]
struct Range {
    /// The place of its first path.
    first: usize,
    /// How many paths it has.
    paths: usize,
    /// Where its row of loads begins in the work area.
    row: usize,
}

impl Range {
    /// Splits a range of more than one path into its first part and the rest.
    fn split(self, d: Ticks) -> (Range, Range) {
        let paths = first_part(self.paths);
        let first = Range {
            first: self.first,
            paths,
            row: self.row + d.0 as usize,
        };
        let rest = Range {
            first: self.first + paths,
            paths: self.paths - paths,
            row: first.row + stretch_cells(paths, d),
        };
        (first, rest)
    }
}

/// One range from each higher task; the places beyond the last higher task are not used.
type Group = [Range; HIGHER_TASKS];

/// A place of a group that is not used; never split.
const NOT_USED: Range = Range {
    first: 0,
    paths: 1,
    row: 0,
};

/// A walk under way.
struct Walk<'a> {
    e_plus_b: Ticks,
    d: Ticks,
    /// How many higher tasks there are.
    higher: usize,
    /// The ranges' loads.
    work: &'a [u32],
    /// The groups to examine, the next one last.
    waiting: Vec<Group>,
    /// A group that finishes no later is passed over.
    bar: Ticks,
    /// The single choice that raised the bar last.
    latest: Option<Group>,
}

impl<'a> Walk<'a> {
    /// A walk that has only the top group to examine yet.
    fn from_top(
        e_plus_b: Ticks,
        d: Ticks,
        higher: &[Vec<Path>],
        bar: Ticks,
        work: &'a [u32],
    ) -> Walk<'a> {
        let mut top = [NOT_USED; HIGHER_TASKS];
        let mut row = 0;
        let mut splits = 0;
        for (range, paths) in top.iter_mut().zip(higher) {
            let paths = paths.len();
            let first = 0;
            *range = Range { first, paths, row };
            row += stretch_cells(paths, d);
            splits += paths.next_power_of_two().trailing_zeros() as usize;
        }
        // Each split on the way down leaves one group waiting.
        let mut waiting = Vec::with_capacity(1 + splits);
        waiting.push(top);
        Walk {
            e_plus_b,
            d,
            higher: higher.len(),
            work,
            waiting,
            bar,
            latest: None,
        }
    }

    /// Takes at most as many steps as the budget.
    fn run(mut self, budget: u32) -> Outcome {
        let mut count = 0;
        while let Some(group) = self.waiting.pop() {
            if count == budget {
                return Outcome::Unfinished;
            }
            count += 1;
            self.step(group);
            if self.bar > self.d {
                let witness = self.latest_places();
                return Outcome::Misses { count, witness };
            }
        }
        Outcome::Meets {
            count,
            bar: self.bar,
            latest: self.latest_places(),
        }
    }

    /// Examines one group: unless it is passed over, a single choice raises the bar, and another group's children wait.
    fn step(&mut self, mut group: Group) {
        let finish = self.finish(&group);
        if finish <= self.bar {
            return;
        }
        let Some(task) = group.iter().position(|range| range.paths > 1) else {
            self.bar = finish;
            self.latest = Some(group);
            return;
        };
        let (first, rest) = group[task].split(self.d);
        group[task] = rest;
        self.waiting.push(group);
        group[task] = first;
        self.waiting.push(group);
    }

    /// The first t from 1 to d at which e + B and the ranges' loads are at most t; one past d if the group overloads.
    fn finish(&self, group: &Group) -> Ticks {
        let ranges = &group[..self.higher];
        let free = (1..=self.d.0).find(|&t| {
            let cell = t as usize - 1;
            let loads: u32 = ranges.iter().map(|range| self.work[range.row + cell]).sum();
            self.e_plus_b.0 + loads <= t
        });
        Ticks(free.unwrap_or(self.d.0 + 1))
    }

    /// Per higher task, the place of the path of the choice that raised the bar last; empty if none did.
    fn latest_places(&self) -> Vec<usize> {
        let ranges = self.latest.iter().flat_map(|group| &group[..self.higher]);
        ranges.map(|range| range.first).collect()
    }
}
