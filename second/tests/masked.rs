//! The masked time B that lower tasks add to a vertex's e: by hand, and on random tables.

use crate::common::definitions::{e_plus_b, masked_time};
use crate::common::lateness::{assert_refused, latest_in, meets, misses, unfinished, Found};
use crate::common::random::{random_m, table, Random, Size};
use crate::common::*;
use second::judge::{judge, Verdict};
use second::list::list;
use second::table::{TaskNo, VertexNo};

/// More cells than the tables here need.
const PLENTY: (usize, usize) = (2_000, 200);

/// A task that masks so many ticks.
fn masking(m: u32) -> Task {
    masked(m, task(&[(m, 50)], &[]))
}

/// What the judge says, and both areas after it.
fn judge_in(tasks: &[Task], numbers: (u16, u16), budget: u32) -> (Verdict, Vec<u32>, Vec<u16>) {
    let (mut work, mut witness) = (work_area(PLENTY.0), witness_area(PLENTY.1));
    let (task, vertex) = (TaskNo(numbers.0), VertexNo(numbers.1));
    let bytes = text(tasks).into_bytes();
    let verdict = judge(&bytes, task, vertex, budget, &mut work, &mut witness);
    (verdict, work, witness)
}

/// What both calls say of a vertex, with all areas after them.
fn answers(tasks: &[Task], numbers: (u16, u16)) -> ((Verdict, Vec<u32>, Vec<u16>), Found) {
    let old = judge_in(tasks, numbers, u32::MAX);
    (old, latest_in(tasks, numbers, u32::MAX, PLENTY))
}

#[test]
fn nothing_above_and_e_plus_b_around_d() {
    let tasks = [task(&[(1, 5), (3, 5), (4, 5)], &[]), masking(2)];
    let found = |vertex, budget| latest_in(&tasks, (0, vertex), budget, (0, 0));
    assert_eq!(found(0, 1), meets(3, 1, (0, 0), 0, &[]));
    assert_eq!(found(1, 1), meets(5, 1, (0, 0), 0, &[]));
    assert_eq!(found(2, 1), misses(1, (0, 0), 0, &[]));
    assert_eq!(found(2, 0), unfinished(0, (0, 0), 0));
    let verdict = |vertex| judge_in(&tasks, (0, vertex), 1).0;
    assert_eq!(verdict(1), Verdict::Meets { count: 1 });
    assert_eq!(verdict(2), Verdict::Misses { count: 1, cells: 0 });
}

#[test]
fn the_largest_of_the_lower_ones_and_not_their_sum() {
    let plain = task(&[(9, 50)], &[]);
    let judged = task(&[(1, 9)], &[]);
    for (lower, b) in [
        (vec![], 0),
        (vec![plain.clone()], 0),
        (vec![masking(1), masking(3), plain.clone(), masking(2)], 3),
        (vec![masking(2), masking(2)], 2),
        (vec![plain, masked(4, task(&[(1, 50), (7, 50)], &[]))], 4),
    ] {
        let tasks = [vec![judged.clone()], lower].concat();
        let found = latest_in(&tasks, (0, 0), 1, (0, 0));
        assert_eq!(found, meets(1 + b, 1, (0, 0), 0, &[]));
    }
}

#[test]
fn the_largest_m_there_is() {
    // It is an e, which is at most a d.
    let tasks = |m| {
        let first = task(&[(1, 1_000), (1_000, 1_000)], &[]);
        [first, masked(m, task(&[(1_000, 1_000)], &[]))]
    };
    let verdict = |m, vertex| judge_in(&tasks(m), (0, vertex), 1).0;
    let misses = Verdict::Misses { count: 1, cells: 0 };
    assert_eq!([verdict(1_000, 0), verdict(1_000, 1)], [misses; 2]);
    assert_eq!(verdict(999, 0), Verdict::Meets { count: 1 });
    assert_eq!(verdict(999, 1), misses);
}

#[test]
fn r5_and_r6_with_one_tick_of_e_masked_instead() {
    // The judged e is 1, and with B 1 all is as with e 2.
    let tasks = |d| {
        [
            task(&[(1, 5), (3, 5)], &[]),
            task(&[(1, d)], &[]),
            masking(1),
        ]
    };
    let (old, latest) = answers(&tasks(5), (1, 0));
    let untouched = (zeroed(15, PLENTY.0), witness_area(PLENTY.1));
    assert_eq!(old, (Verdict::Meets { count: 1 }, untouched.0, untouched.1));
    assert_eq!(latest, meets(5, 3, PLENTY, 15, &[1, 1]));
    let (old, latest) = answers(&tasks(4), (1, 0));
    let found = (zeroed(12, PLENTY.0), written(&[1, 1], PLENTY.1));
    let misses_3 = Verdict::Misses { count: 3, cells: 2 };
    assert_eq!(old, (misses_3, found.0, found.1));
    assert_eq!(latest, misses(3, PLENTY, 12, &[1, 1]));
}

#[test]
fn b_alters_the_count_and_the_worst_choice() {
    let above = task(&[(3, 10), (1, 4), (4, 10)], &[(1, 2, 4)]);
    let tasks = |m| [above.clone(), task(&[(1, 9)], &[]), masking(m)];
    // Paths (0), (1,2) and (2). With B 1 they finish at 2 + 3, 2 + 1 and 2 + 4.
    // All three together: 2 + 4 up to tick 4, then 2 + 5, free at tick 7; (0) and (1,2) the same.
    let found = latest_in(&tasks(1), (1, 0), 9, PLENTY);
    assert_eq!(found, meets(6, 5, PLENTY, 45, &[1, 2]));
    // With B 3 they finish at 4 + 3, 4 + 5 and 4 + 4: the second is the latest, and (2) is passed over.
    let found = latest_in(&tasks(3), (1, 0), 9, PLENTY);
    assert_eq!(found, meets(9, 5, PLENTY, 45, &[2, 1, 2]));
    // With B 4 (1,2) has 5 + 5, and is the witness: the top, (0) and (1,2), (0), (1,2).
    let (old, latest) = answers(&tasks(4), (1, 0));
    assert_eq!(old.0, Verdict::Misses { count: 4, cells: 3 });
    assert_eq!(latest, misses(4, PLENTY, 45, &[2, 1, 2]));
}

/// Small tables with both verdicts, and counts above one.
const SMALL: Size = Size {
    tasks: 4,
    vertices: 3,
    edges: 4,
    e: 3,
    d: 9,
    p: 9,
};

/// Every vertex of some random tables that isn't refused: the table's tasks, and the vertex's task and number.
fn for_each_vertex(seed: u64, mut check: impl FnMut(&mut Random, &[Task], (usize, usize))) {
    let mut random = Random(seed);
    for _ in 0..600 {
        let tasks = table(&mut random, &SMALL);
        for number in 0..tasks.len() {
            for vertex in 0..tasks[number].vertices.len() {
                let verdict = judge_in(&tasks, (number as u16, vertex as u16), 0).0;
                if refusal(verdict).is_none() {
                    check(&mut random, &tasks, (number, vertex));
                }
            }
        }
    }
}

/// What both calls say of a vertex.
fn answers_of(tasks: &[Task], (number, vertex): (usize, usize)) -> (Verdict, Found) {
    let (old, latest) = answers(tasks, (number as u16, vertex as u16));
    assert!(refusal(old.0).is_none());
    (old.0, latest)
}

#[test]
fn the_own_m_and_those_of_higher_tasks_play_no_part() {
    let mut altered = 0;
    for_each_vertex(21, |random, tasks, numbers| {
        let mut others = tasks.to_vec();
        for task in &mut others[..=numbers.0] {
            task.m = [0, random_m(random, task)][random.below(2)];
        }
        assert_eq!(answers_of(tasks, numbers), answers_of(&others, numbers));
        altered += u32::from(others != tasks);
    });
    assert!(altered > 500, "{altered}");
}

#[test]
fn the_lower_tasks_play_no_part_but_by_the_largest_m() {
    let (mut held_up, mut missed) = (0, 0);
    for_each_vertex(22, |_, tasks, numbers| {
        let found = answers_of(tasks, numbers);
        let (number, b) = (numbers.0, masked_time(tasks, numbers.0));
        let mut alone = tasks[..=number].to_vec();
        let without = answers_of(&alone, numbers);
        if b > 0 {
            alone.push(masking(b));
        }
        assert_eq!(found, answers_of(&alone, numbers));
        held_up += u32::from(found.1 != without.1);
        missed += u32::from(found.0.kind() > without.0.kind());
    });
    assert!(held_up > 300 && missed > 100, "{held_up} {missed}");
}

#[test]
fn b_counts_as_so_much_more_e() {
    let (mut held_up, mut too_long) = (0, 0);
    for_each_vertex(23, |_, tasks, numbers| {
        let (number, vertex) = numbers;
        let mut alone = tasks[..=number].to_vec();
        let (e, d) = &mut alone[number].vertices[vertex];
        *e = e_plus_b(tasks, number, vertex);
        if *e > *d {
            // No job may have so much e, but with masked time it is judged, and misses.
            too_long += 1;
            assert_eq!(answers_of(tasks, numbers).0.kind(), 1);
            return;
        }
        held_up += u32::from(alone[number] != tasks[number]);
        assert_eq!(answers_of(tasks, numbers), answers_of(&alone, numbers));
    });
    assert!(held_up > 400 && too_long > 400, "{held_up} {too_long}");
}

/// Tables with refusals 9 and 10.
const LARGE: Size = Size {
    tasks: 8,
    vertices: 8,
    edges: 12,
    e: 9,
    d: 1_000,
    p: 1_000,
};

/// The refusals of a vertex by both calls, alike, as the areas grow to what each one asks for and are then one cell short of it.
fn refusals(tasks: &[Task], numbers: (u16, u16)) -> Vec<(u8, usize)> {
    let text = text(tasks);
    let mut refusals = Vec::new();
    let mut lent = (0, 0);
    while let Some(found) = refusal(judged(&text, numbers, 0, lent)) {
        assert_refused(found.0, found.1, &latest_in(tasks, numbers, 0, lent), lent);
        refusals.push(found);
        match found {
            (10, cells) => lent.0 = cells,
            (11, cells) => lent.1 = cells,
            _ => return refusals,
        }
    }
    if lent.0 > 0 {
        for short in [(lent.0 - 1, lent.1), (lent.0, lent.1 - 1)] {
            refusals.extend(refusal(judged(&text, numbers, 0, short)));
        }
    }
    refusals
}

#[test]
fn path_counts_needs_and_refusals_8_to_11_do_not_change_with_m() {
    let mut random = Random(24);
    let mut seen = [0; 12];
    for _ in 0..300 {
        let tasks = table(&mut random, &LARGE);
        let plain: Vec<_> = tasks.iter().map(|task| masked(0, task.clone())).collect();
        let [listed, plainly] = [&tasks, &plain].map(|tasks| list(text(tasks).as_bytes()));
        assert_eq!(listed, plainly);
        for (number, task) in (0..).zip(&tasks) {
            // The last number is one too many.
            for vertex in 0..=task.vertices.len() as u16 {
                let found = refusals(&tasks, (number, vertex));
                assert_eq!(found, refusals(&plain, (number, vertex)));
                found.iter().for_each(|row| seen[usize::from(row.0)] += 1);
            }
        }
        let beyond = (tasks.len() as u16, 0);
        assert_eq!(refusals(&tasks, beyond), [(8, 0)]);
    }
    assert!(seen[8..].iter().all(|&refused| refused > 200), "{seen:?}");
}
