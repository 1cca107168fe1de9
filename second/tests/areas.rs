//! The lent areas and the budgets: what they hold after each verdict.

use crate::common::*;
use second::judge::{judge, judge_table, Counts, Verdict};
use second::table::{TaskNo, VertexNo};

/// Judges with areas of these lengths and gives the verdict with both areas.
fn judge_in(
    tasks: &[Task],
    numbers: (u16, u16),
    budget: u32,
    lent: (usize, usize),
) -> (Verdict, Vec<u32>, Vec<u16>) {
    let (mut work, mut witness) = (work_area(lent.0), witness_area(lent.1));
    let verdict = judge(
        text(tasks).as_bytes(),
        TaskNo(numbers.0),
        VertexNo(numbers.1),
        budget,
        &mut work,
        &mut witness,
    );
    (verdict, work, witness)
}

/// The four counts.
fn counts(meets: u16, misses: u16, unfinished: u16, refused: u16) -> Counts {
    Counts {
        meets,
        misses,
        unfinished,
        refused,
    }
}

#[test]
fn a_miss_at_the_need_and_around_it() {
    // R6 needs 4 x 3 work cells and 1 + 4 witness cells; its witness is the path (1).
    let tasks = r5(4);
    for work in [12, 13, 40] {
        for witness in [5, 6, 40] {
            let found = judge_in(&tasks, (1, 0), 3, (work, witness));
            let misses = Verdict::Misses { count: 3, cells: 2 };
            assert_eq!(found, (misses, zeroed(12, work), written(&[1, 1], witness)));
        }
    }
    for (work, witness) in [(11, 5), (0, 5), (12, 4), (12, 0), (11, 4), (0, 0)] {
        let found = judge_in(&tasks, (1, 0), 3, (work, witness));
        let expected = if work < 12 { (10, 12) } else { (11, 5) };
        assert_eq!(refusal(found.0), Some(expected));
        assert_eq!((found.1, found.2), (work_area(work), witness_area(witness)));
    }
}

#[test]
fn meets_and_unfinished_leave_the_witness_area() {
    for budget in [0, 1, 4, 5, 6] {
        for (work, witness) in [(25, 6), (26, 7)] {
            let found = judge_in(&r7(), (1, 0), budget, (work, witness));
            let verdict = match budget {
                5 | 6 => Verdict::Meets { count: 5 },
                _ => Verdict::Unfinished { budget },
            };
            let expected = (verdict, zeroed(25, work), witness_area(witness));
            assert_eq!(found, expected);
        }
    }
}

#[test]
fn budgets_around_the_count_of_a_miss() {
    for budget in [0, 1, 2] {
        let found = judge_in(&r5(4), (1, 0), budget, (12, 5));
        let expected = (
            Verdict::Unfinished { budget },
            zeroed(12, 12),
            witness_area(5),
        );
        assert_eq!(found, expected);
    }
    for budget in [3, 4, u32::MAX] {
        let found = judge_in(&r5(4), (1, 0), budget, (12, 5));
        assert_eq!(found.0, Verdict::Misses { count: 3, cells: 2 });
    }
}

#[test]
fn refusals_come_before_the_budget() {
    let found = judge_in(&r7(), (1, 0), 0, (24, 6));
    assert_eq!(refusal(found.0), Some((10, 25)));
}

#[test]
fn no_higher_task_needs_no_cells() {
    // One tick below them is masked: 2 + 1 and 1 + 1.
    let tasks = [
        task(&[(2, 2), (1, 2)], &[]),
        masked(1, task(&[(1, 9)], &[])),
    ];
    for cells in [0, 1, 9] {
        let lent = (cells, cells);
        let unchanged = |verdict| (verdict, work_area(cells), witness_area(cells));
        let misses = Verdict::Misses { count: 1, cells: 0 };
        assert_eq!(judge_in(&tasks, (0, 0), 1, lent), unchanged(misses));
        let meets = Verdict::Meets { count: 1 };
        assert_eq!(judge_in(&tasks, (0, 1), 1, lent), unchanged(meets));
        let unfinished = Verdict::Unfinished { budget: 0 };
        assert_eq!(judge_in(&tasks, (0, 1), 0, lent), unchanged(unfinished));
    }
}

#[test]
fn r1s_witness_is_one_path_after_the_other() {
    // Needs 6 x (1 + 1) and 2 x (1 + 6).
    let found = judge_in(&r1(2), (2, 0), 1, (15, 16));
    let misses = Verdict::Misses { count: 1, cells: 5 };
    let front = [2, 0, 0, 1, 0];
    assert_eq!(found, (misses, zeroed(12, 15), written(&front, 16)));
}

#[test]
fn the_largest_witness_fills_7_007_cells() {
    let mut tasks = vec![self_edge(1, 1, 1); 7];
    tasks.push(task(&[(1, 1_000)], &[]));
    let path = [&[1_000][..], &[0; 1_000]].concat();
    let found = judge_in(&tasks, (7, 0), 1, (7_000, 7_007));
    let misses = Verdict::Misses {
        count: 1,
        cells: 7_007,
    };
    assert_eq!(found, (misses, zeroed(7_000, 7_000), path.repeat(7)));
    let short = judge_in(&tasks, (7, 0), 1, (7_000, 7_006));
    assert_eq!(refusal(short.0), Some((11, 7_007)));
}

#[test]
fn the_whole_table_zeroes_the_largest_need() {
    // R1 needs 0, 7 x 1 and 6 x (1 + 1) cells.
    let text = text(&r1(2));
    let cases = [
        (20, counts(2, 1, 0, 0), 12),
        (12, counts(2, 1, 0, 0), 12),
        (11, counts(2, 0, 0, 1), 7),
        (7, counts(2, 0, 0, 1), 7),
        (6, counts(1, 0, 0, 2), 0),
        (0, counts(1, 0, 0, 2), 0),
    ];
    for (cells, expected, front) in cases {
        let mut work = work_area(cells);
        assert_eq!(judge_table(text.as_bytes(), 1, &mut work), Ok(expected));
        assert_eq!(work, zeroed(front, cells));
    }
    let mut work = work_area(12);
    let unfinished = Ok(counts(0, 0, 3, 0));
    assert_eq!(judge_table(text.as_bytes(), 0, &mut work), unfinished);
    assert_eq!(work, zeroed(12, 12));
}

#[test]
fn the_whole_table_counts_refusal_9_and_gives_the_budget_afresh() {
    let mut tasks = r7();
    tasks[1].vertices = vec![(1, 5); 3];
    let text_of = |tasks: &[Task]| text(tasks).into_bytes();
    // Task 0's three vertices meet with 1, the three others with 5.
    for (budget, expected) in [
        (0, counts(0, 0, 6, 0)),
        (1, counts(3, 0, 3, 0)),
        (4, counts(3, 0, 3, 0)),
        (5, counts(6, 0, 0, 0)),
        (u32::MAX, counts(6, 0, 0, 0)),
    ] {
        let found = judge_table(&text_of(&tasks), budget, &mut work_area(25));
        assert_eq!(found, Ok(expected));
    }
    let tasks = [r10(), task(&[(1, 31), (1, 21)], &[])];
    let mut work = work_area(3_000);
    let found = judge_table(&text_of(&tasks), 1, &mut work);
    assert_eq!(found, Ok(counts(5, 0, 0, 1)));
    assert_eq!(work, zeroed(127 * 21, 3_000));
}
