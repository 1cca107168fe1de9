//! Document 01's definitions, wish 1's finish and wish 3's masked time, tried out in full: slow, and sharing nothing with the program.

use super::Task;

/// Vertex numbers, each next one by an edge.
pub type Path = Vec<usize>;

/// The span of each prefix of a path; none if some step isn't an edge of the task.
pub fn spans(task: &Task, path: &[usize]) -> Option<Vec<u32>> {
    let first = *path.first()?;
    let mut spans = vec![0];
    task.vertices.get(first)?;
    for step in path.windows(2) {
        let edge = task
            .edges
            .iter()
            .find(|edge| (edge.0, edge.1) == (step[0], step[1]))?;
        spans.push(spans.last().unwrap() + edge.2);
    }
    Some(spans)
}

/// The load at t: the largest total e over the prefixes with span strictly below t.
pub fn load(task: &Task, path: &[usize], t: u32) -> u32 {
    let spans = spans(task, path).unwrap();
    let prefixes = (1..=path.len()).filter(|&length| spans[length - 1] < t);
    let total = |length| {
        path[..length]
            .iter()
            .map(|&vertex| task.vertices[vertex].0)
            .sum()
    };
    prefixes.map(total).max().unwrap()
}

/// The loads at t = 1 to d, the spans and totals of all prefixes worked out once.
pub fn loads(task: &Task, path: &[usize], d: u32) -> Vec<u32> {
    let spans = spans(task, path).unwrap();
    let mut totals = Vec::new();
    let mut total = 0;
    for &vertex in path {
        total += task.vertices[vertex].0;
        totals.push(total);
    }
    let load = |t: u32| {
        let prefixes = spans.iter().zip(&totals);
        let below = prefixes.filter(|(&span, _)| span < t);
        *below.map(|(_, total)| total).max().unwrap()
    };
    (1..=d).map(load).collect()
}

/// Is the path legal, its span below d, and no edge out of its last vertex keeps it there?
pub fn is_complete(task: &Task, path: &[usize], d: u32) -> bool {
    let Some(spans) = spans(task, path) else {
        return false;
    };
    let span = *spans.last().unwrap();
    let last = *path.last().unwrap();
    let mut out = task.edges.iter().filter(|edge| edge.0 == last);
    span < d && out.all(|edge| span + edge.2 >= d)
}

/// Every path with span below d, complete or not, shorter ones first.
pub fn all_paths(task: &Task, d: u32) -> Vec<Path> {
    let mut all: Vec<Path> = (0..task.vertices.len())
        .map(|vertex| vec![vertex])
        .collect();
    let mut at = 0;
    while at < all.len() {
        let path = all[at].clone();
        let span = *spans(task, &path).unwrap().last().unwrap();
        for edge in &task.edges {
            if edge.0 == *path.last().unwrap() && span + edge.2 < d {
                all.push([path.clone(), vec![edge.1]].concat());
            }
        }
        at += 1;
    }
    all
}

/// The complete paths, in order.
pub fn complete_paths(task: &Task, d: u32) -> Vec<Path> {
    let mut paths = all_paths(task, d);
    paths.retain(|path| is_complete(task, path, d));
    paths.sort();
    paths
}

/// How many complete paths there are, without listing them.
pub fn count_paths(task: &Task, d: u32) -> u128 {
    // At place r: the number of ways on from each vertex with r ticks left before d.
    let mut ways: Vec<Vec<u128>> = vec![vec![]];
    for left in 1..=d {
        let from = |vertex| {
            let out = task
                .edges
                .iter()
                .filter(|edge| edge.0 == vertex && edge.2 < left);
            let on = out.map(|edge| ways[(left - edge.2) as usize][edge.1]);
            on.fold(0u128, u128::saturating_add).max(1)
        };
        let row = (0..task.vertices.len()).map(from).collect();
        ways.push(row);
    }
    ways[d as usize]
        .iter()
        .fold(0, |sum, &n| sum.saturating_add(n))
}

/// B of a task's vertices: the largest m among the tasks of lower priority, 0 if there are none.
pub fn masked_time(tasks: &[Task], number: usize) -> u32 {
    let mut largest = 0;
    for (other, task) in tasks.iter().enumerate() {
        if other > number && task.m > largest {
            largest = task.m;
        }
    }
    largest
}

/// What the overload rule takes for a vertex's e: e + B.
pub fn e_plus_b(tasks: &[Task], number: usize, vertex: usize) -> u32 {
    tasks[number].vertices[vertex].0 + masked_time(tasks, number)
}

/// Do e + B and the loads exceed t at every t?
pub fn overload(e_plus_b: u32, loads: &[&[u32]], d: u32) -> bool {
    let load = |t: u32| loads.iter().map(|row| row[t as usize - 1]).sum::<u32>();
    (1..=d).all(|t| e_plus_b + load(t) > t)
}

/// The overloading choice that is least in path order, as places in the lists of loads.
pub fn least_overloading(e_plus_b: u32, d: u32, higher: &[Vec<Vec<u32>>]) -> Option<Vec<usize>> {
    let mut choice = vec![0; higher.len()];
    loop {
        let rows: Vec<&[u32]> = higher
            .iter()
            .zip(&choice)
            .map(|(rows, &n)| &rows[n][..])
            .collect();
        if overload(e_plus_b, &rows, d) {
            return Some(choice);
        }
        // The next choice in order: count up like a number whose last digit is the last task's.
        let at = (0..higher.len())
            .rev()
            .find(|&at| choice[at] + 1 < higher[at].len())?;
        choice[at] += 1;
        choice[at + 1..].fill(0);
    }
}

/// The first t from 1 to d at which e + B and the loads are at most t; none if they overload.
pub fn finish(e_plus_b: u32, loads: &[u32], d: u32) -> Option<u32> {
    (1..=d).find(|&t| e_plus_b + loads[t as usize - 1] <= t)
}

/// The largest finish over all choices of one path from each task; none if some choice overloads.
///
/// More load never finishes earlier, so of the sums so far only those matter that no other reaches at every tick.
pub fn worst_finish(e_plus_b: u32, d: u32, higher: &[Vec<Vec<u32>>]) -> Option<u32> {
    let mut sums = vec![vec![0; d as usize]];
    for rows in higher {
        let all = sums
            .iter()
            .flat_map(|sum| rows.iter().map(|row| add(sum, row)));
        sums = undominated(all.collect());
    }
    let finishes: Option<Vec<u32>> = sums.iter().map(|sum| finish(e_plus_b, sum, d)).collect();
    finishes?.into_iter().max()
}

/// The first choice in path order that reaches the largest finish, as places in the lists of loads; none if some choice overloads.
///
/// Task by task, the first path with which some choice of the others is as late.
pub fn first_latest(e_plus_b: u32, d: u32, higher: &[Vec<Vec<u32>>]) -> Option<Vec<usize>> {
    let worst = worst_finish(e_plus_b, d, higher)?;
    let mut left = higher.to_vec();
    let mut choice = Vec::new();
    for (task, rows) in higher.iter().enumerate() {
        let mut is_latest = |row: &Vec<u32>| {
            left[task] = vec![row.clone()];
            worst_finish(e_plus_b, d, &left) == Some(worst)
        };
        choice.push(rows.iter().position(&mut is_latest)?);
    }
    Some(choice)
}

/// Two rows of loads, tick by tick.
fn add(a: &[u32], b: &[u32]) -> Vec<u32> {
    a.iter().zip(b).map(|(a, b)| a + b).collect()
}

/// The rows without those that another one reaches at every tick; of equal ones the first.
fn undominated(mut rows: Vec<Vec<u32>>) -> Vec<Vec<u32>> {
    // A row that reaches another one has no smaller total, so it is kept first.
    rows.sort_by_key(|row| std::cmp::Reverse(row.iter().sum::<u32>()));
    let mut kept: Vec<Vec<u32>> = Vec::new();
    for row in rows {
        let reaches = |other: &Vec<u32>| other.iter().zip(&row).all(|(a, b)| a >= b);
        if !kept.iter().any(reaches) {
            kept.push(row);
        }
    }
    kept
}

/// C by its definition: the groups all of whose parents overload, not after the witness.
pub fn groups_to_examine(e_plus_b: u32, d: u32, higher: &[Vec<Vec<u32>>]) -> u32 {
    let top = higher.iter().map(|rows| (0, rows.len())).collect();
    let mut groups = Groups {
        e_plus_b,
        d,
        higher,
        count: 0,
        witness: false,
    };
    groups.visit(top, true);
    groups.count
}

/// All groups in the walk's order, of which some are counted.
struct Groups<'a> {
    e_plus_b: u32,
    d: u32,
    higher: &'a [Vec<Vec<u32>>],
    count: u32,
    witness: bool,
}

impl Groups<'_> {
    /// Visits a group (first, end of each range) and then all groups below it, overloading or not.
    fn visit(&mut self, group: Vec<(usize, usize)>, parents_overload: bool) {
        if self.witness {
            return;
        }
        self.count += u32::from(parents_overload);
        let overloads = self.overloads(&group);
        let Some(task) = group.iter().position(|range| range.1 - range.0 > 1) else {
            self.witness = overloads;
            return;
        };
        let (first, end) = group[task];
        let middle = end - (end - first) / 2;
        for part in [(first, middle), (middle, end)] {
            let mut child = group.clone();
            child[task] = part;
            self.visit(child, parents_overload && overloads);
        }
    }

    /// Does the group overload by its ranges' largest loads?
    fn overloads(&self, group: &[(usize, usize)]) -> bool {
        let largest = |(rows, range): (&Vec<Vec<u32>>, &(usize, usize))| -> Vec<u32> {
            let rows = &rows[range.0..range.1];
            (0..self.d as usize)
                .map(|cell| rows.iter().map(|row| row[cell]).max().unwrap())
                .collect()
        };
        let ranges: Vec<Vec<u32>> = self.higher.iter().zip(group).map(largest).collect();
        let rows: Vec<&[u32]> = ranges.iter().map(|row| &row[..]).collect();
        overload(self.e_plus_b, &rows, self.d)
    }
}
