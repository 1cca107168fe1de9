//! How late is the latest: random tables, with masked lengths, against the definitions tried out in full.

use crate::common::definitions::{complete_paths, count_paths, e_plus_b, loads, masked_time, Path};
use crate::common::lateness::{assert_refused, latest_in, meets, misses, unfinished, Found};
use crate::common::random::{table, Random, Size};
use crate::common::*;
use second::judge::{judge, Verdict};
use second::table::{TaskNo, VertexNo};

/// How often what matters was met, so that no check is empty by accident.
#[derive(Debug, Default)]
struct Seen {
    tables: u32,
    masked_tables: u32,
    held_up: u32,
    meets: u32,
    misses: u32,
    nothing_above: u32,
    groups_left_out: u32,
    equally_late: u32,
    not_the_first: u32,
    late_groups: u32,
    more_than_the_old: u32,
}

/// Up to this many choices are tried one by one.
const CHOICES: u128 = 100;

/// Small tables with many misses.
const SMALL: Size = Size {
    tasks: 4,
    vertices: 3,
    edges: 5,
    e: 3,
    d: 9,
    p: 9,
};

/// Tables with longer paths and later finishes.
const LONGER: Size = Size {
    tasks: 5,
    vertices: 4,
    edges: 6,
    e: 4,
    d: 30,
    p: 25,
};

/// Tables of slower cradles, with long paths among theirs.
const SLOW: Size = Size {
    tasks: 4,
    vertices: 3,
    edges: 4,
    e: 250,
    d: 1_000,
    p: 4_000,
};

/// So many work cells are needed at most where a vertex is tried.
const CELLS: u128 = 20_000;

/// Checks every vertex of so many random tables of a size.
fn check_tables(seed: u64, tables: u32, size: &Size) -> Seen {
    let mut random = Random(seed);
    let mut seen = Seen::default();
    for _ in 0..tables {
        let tasks = table(&mut random, size);
        seen.tables += 1;
        seen.masked_tables += u32::from(tasks.iter().any(|task| task.m > 0));
        for number in 0..tasks.len() {
            for vertex in 0..tasks[number].vertices.len() {
                if let Some(asked) = Asked::within(&tasks, number, vertex) {
                    asked.check(&mut seen);
                    seen.held_up += u32::from(masked_time(&tasks, number) > 0);
                }
            }
        }
    }
    assert!(2 * seen.masked_tables >= seen.tables, "{seen:?}");
    assert!(seen.held_up > tables / 4, "{seen:?}");
    seen
}

#[test]
fn slow_tables() {
    let seen = check_tables(13, 1_000, &SLOW);
    assert!(seen.meets > 300 && seen.misses > 300, "{seen:?}");
    assert!(seen.groups_left_out > 30, "{seen:?}");
    assert!(
        seen.equally_late > 30 && seen.not_the_first > 30,
        "{seen:?}"
    );
    assert!(seen.more_than_the_old > 30, "{seen:?}");
}

#[test]
fn small_tables() {
    let seen = check_tables(11, 4_000, &SMALL);
    assert!(seen.meets > 1_000 && seen.misses > 1_000, "{seen:?}");
    assert!(seen.nothing_above > 1_000, "{seen:?}");
    assert!(seen.more_than_the_old > 500, "{seen:?}");
}

#[test]
fn longer_tables() {
    let seen = check_tables(12, 2_500, &LONGER);
    assert!(seen.meets > 1_000 && seen.misses > 1_000, "{seen:?}");
    assert!(seen.groups_left_out > 500, "{seen:?}");
    assert!(
        seen.equally_late > 500 && seen.not_the_first > 500,
        "{seen:?}"
    );
    assert!(seen.late_groups > 100, "{seen:?}");
    assert!(seen.more_than_the_old > 500, "{seen:?}");
}

/// A vertex that is asked about, and all that the definitions say of it.
struct Asked<'a> {
    tasks: &'a [Task],
    numbers: (u16, u16),
    d: u32,
    /// The complete paths of each higher task.
    lists: Vec<Vec<Path>>,
    /// The work and witness cells needed.
    needed: (usize, usize),
    /// All choices in path order, task 0 compared first: the place of each task's path, and the finish.
    choices: Vec<(Vec<usize>, u32)>,
    /// All groups in the walk's order.
    groups: Vec<Group>,
}

/// A group, somewhere in the walk's order.
struct Group {
    /// First and end of each range.
    ranges: Vec<(usize, usize)>,
    /// The places of its parents, up to the top, in the walk's order.
    parents: Vec<usize>,
    /// The group's own finish.
    finish: u32,
}

impl Group {
    /// Is it of single paths?
    fn is_single(&self) -> bool {
        self.ranges.iter().all(|(first, end)| end - first == 1)
    }
}

/// The first t from 1 to d at which e + B plus the loads is at most t; d + 1 if there is none.
fn finish(e_plus_b: u32, d: u32, loads: impl Fn(u32) -> u32) -> u32 {
    (1..=d).find(|&t| e_plus_b + loads(t) <= t).unwrap_or(d + 1)
}

/// The loads at t = 1 to d of each path of each higher task.
type Rows = Vec<Vec<Vec<u32>>>;

/// All choices in path order, each with its finish.
fn all_choices(e_plus_b: u32, d: u32, rows: &Rows) -> Vec<(Vec<usize>, u32)> {
    let mut choices = vec![vec![]];
    for paths in rows {
        let longer = |choice: Vec<usize>| {
            (0..paths.len()).map(move |place| [&choice[..], &[place]].concat())
        };
        choices = choices.into_iter().flat_map(longer).collect();
    }
    let load = |choice: &[usize], t: u32| {
        let paths = rows.iter().zip(choice);
        paths.map(|(rows, &n)| rows[n][t as usize - 1]).sum::<u32>()
    };
    let with_finish = |choice: Vec<usize>| {
        let finish = finish(e_plus_b, d, |t| load(&choice, t));
        (choice, finish)
    };
    choices.into_iter().map(with_finish).collect()
}

/// Adds a group and all groups below it, in the walk's order, whatever they finish at.
fn add_groups(
    groups: &mut Vec<Group>,
    ranges: Vec<(usize, usize)>,
    parents: Vec<usize>,
    finish: &impl Fn(&[(usize, usize)]) -> u32,
) {
    let here = groups.len();
    groups.push(Group {
        finish: finish(&ranges),
        ranges: ranges.clone(),
        parents: parents.clone(),
    });
    let Some(task) = ranges.iter().position(|(first, end)| end - first > 1) else {
        return;
    };
    let (first, end) = ranges[task];
    let middle = end - (end - first) / 2;
    for part in [(first, middle), (middle, end)] {
        let mut child = ranges.clone();
        child[task] = part;
        let parents = [&parents[..], &[here]].concat();
        add_groups(groups, child, parents, finish);
    }
}

/// All groups in the walk's order.
fn all_groups(e_plus_b: u32, d: u32, rows: &Rows) -> Vec<Group> {
    let largest = |paths: &[Vec<u32>], t: u32| -> u32 {
        let loads = paths.iter().map(|row| row[t as usize - 1]);
        loads.max().unwrap()
    };
    let group_finish = |ranges: &[(usize, usize)]| {
        let load = |t| {
            let ranges = rows.iter().zip(ranges);
            ranges.map(|(rows, r)| largest(&rows[r.0..r.1], t)).sum()
        };
        finish(e_plus_b, d, load)
    };
    let top = rows.iter().map(|paths| (0, paths.len())).collect();
    let mut groups = Vec::new();
    add_groups(&mut groups, top, vec![], &group_finish);
    groups
}

impl Asked<'_> {
    /// A vertex whose choices are few enough to be tried one by one, and that isn't refused by 9.
    fn within(tasks: &[Task], number: usize, vertex: usize) -> Option<Asked<'_>> {
        let e_plus_b = e_plus_b(tasks, number, vertex);
        let d = tasks[number].vertices[vertex].1;
        let higher = &tasks[..number];
        let counts: Vec<_> = higher.iter().map(|task| count_paths(task, d)).collect();
        if counts.iter().any(|&n| n > 64) || counts.iter().product::<u128>() > CHOICES {
            return None;
        }
        let ranges: u128 = counts.iter().map(|paths| 2 * paths - 1).sum();
        if u128::from(d) * ranges > CELLS {
            return None;
        }
        let lists: Vec<_> = higher.iter().map(|task| complete_paths(task, d)).collect();
        let rows: Rows = higher
            .iter()
            .zip(&lists)
            .map(|(task, list)| list.iter().map(|path| loads(task, path, d)).collect())
            .collect();
        let ranges: usize = lists.iter().map(|list| 2 * list.len() - 1).sum();
        let d_cells = d as usize;
        Some(Asked {
            tasks,
            numbers: (number as u16, vertex as u16),
            d,
            needed: (d_cells * ranges, number * (1 + d_cells)),
            choices: all_choices(e_plus_b, d, &rows),
            groups: all_groups(e_plus_b, d, &rows),
            lists,
        })
    }

    /// The largest finish over all choices, and the first choice that reaches it.
    fn worst(&self) -> (&[usize], u32) {
        let finishes = self.choices.iter().map(|choice| choice.1);
        let worst = finishes.max().unwrap();
        let first = self.choices.iter().find(|choice| choice.1 == worst);
        (&first.unwrap().0, worst)
    }

    /// Did the group at this place finish later than every single choice before it?
    fn is_later(&self, place: usize) -> bool {
        let mut before = self.groups[..place].iter().filter(|g| g.is_single());
        before.all(|single| self.groups[place].finish > single.finish)
    }

    /// C: the groups not after a witness whose parents each finished later than every single choice before that parent.
    fn count(&self) -> u32 {
        let later: Vec<bool> = (0..self.groups.len()).map(|n| self.is_later(n)).collect();
        let mut groups = self.groups.iter();
        let witness = groups.position(|group| group.is_single() && group.finish > self.d);
        let last = witness.unwrap_or(self.groups.len() - 1);
        let counted = |group: &&Group| group.parents.iter().all(|&parent| later[parent]);
        self.groups[..=last].iter().filter(counted).count() as u32
    }

    /// A choice's paths in the witness layout.
    fn layout(&self, choice: &[usize]) -> Vec<u16> {
        let mut cells = Vec::new();
        for (list, &place) in self.lists.iter().zip(choice) {
            let path = &list[place];
            cells.push(path.len() as u16);
            cells.extend(path.iter().map(|&vertex| vertex as u16));
        }
        cells
    }

    /// What the call says, with areas of these lengths.
    fn found(&self, budget: u32, lent: (usize, usize)) -> Found {
        latest_in(self.tasks, self.numbers, budget, lent)
    }

    /// Checks the answer, the areas, the budgets around the count, and the old call.
    fn check(&self, seen: &mut Seen) {
        let (choice, worst) = self.worst();
        let (front, count) = (self.layout(choice), self.count());
        let needed = self.needed.0;
        for (budget, more) in [(count, 0), (count + 1, 3), (u32::MAX, 1)] {
            let lent = (needed + more, self.needed.1 + more);
            let expected = match worst > self.d {
                true => misses(count, lent, needed, &front),
                false => meets(worst, count, lent, needed, &front),
            };
            assert_eq!(self.found(budget, lent), expected);
        }
        for budget in [0, count / 2, count - 1] {
            let expected = unfinished(budget, self.needed, needed);
            assert_eq!(self.found(budget, self.needed), expected);
        }
        self.check_short_areas();
        self.check_old(&front, count, seen);
        self.see(seen);
    }

    /// Checks refusals 10 and 11 at one cell less than needed.
    fn check_short_areas(&self) {
        let (work, witness) = self.needed;
        if self.lists.is_empty() {
            return;
        }
        for (lent, number, place) in [
            ((work - 1, witness), 10, work),
            ((work, witness - 1), 11, witness),
            ((work - 1, witness - 1), 10, work),
        ] {
            let found = self.found(u32::MAX, lent);
            assert_refused(number, place, &found, lent);
        }
    }

    /// Checks that the old call says the same with no larger count, and on a miss writes the same paths.
    fn check_old(&self, front: &[u16], count: u32, seen: &mut Seen) {
        let (mut work, mut witness) = (work_area(self.needed.0), witness_area(self.needed.1));
        let old = judge(
            text(self.tasks).as_bytes(),
            TaskNo(self.numbers.0),
            VertexNo(self.numbers.1),
            count,
            &mut work,
            &mut witness,
        );
        match old {
            Verdict::Misses { cells, .. } => {
                assert!(self.worst().1 > self.d && cells == front.len());
                assert_eq!(witness, written(front, self.needed.1));
                seen.misses += 1;
            }
            Verdict::Meets { .. } => {
                assert!(self.worst().1 <= self.d);
                seen.meets += 1;
            }
            other => panic!("{other:?}"),
        }
        assert!(old.value() <= count);
        seen.more_than_the_old += u32::from(old.value() < count);
    }

    /// Counts what a vertex that meets has to show.
    fn see(&self, seen: &mut Seen) {
        let (choice, worst) = self.worst();
        seen.nothing_above += u32::from(self.lists.is_empty());
        if worst > self.d {
            return;
        }
        let count = self.count() as usize;
        seen.groups_left_out += u32::from(count < self.groups.len());
        seen.not_the_first += u32::from(choice.iter().any(|&place| place > 0));
        let equal = self.choices.iter().filter(|choice| choice.1 == worst);
        seen.equally_late += u32::from(equal.count() > 1);
        let mut groups = self.groups.iter();
        seen.late_groups += u32::from(groups.any(|g| g.finish > worst && g.finish <= self.d));
    }
}
