//! How late is the latest: tables worked out by hand.

use crate::common::lateness::{assert_refused, latest_in, meets, misses, unfinished, Found};
use crate::common::*;
use second::judge::Verdict;
use second::latest::latest;
use second::refusal::Row;
use second::table::{TaskNo, Ticks, VertexNo};

/// A task of vertices without edges: each is a path by itself.
fn edgeless(e: &[u32]) -> Task {
    let vertices: Vec<_> = e.iter().map(|&e| (e, 50)).collect();
    task(&vertices, &[])
}

/// Tasks with this vertex (e, d) below them.
fn above(tasks: &[Task], judged: (u32, u32)) -> Vec<Task> {
    [tasks, &[task(&[judged], &[])]].concat()
}

/// More cells than the tables worked out by hand need.
const PLENTY: (usize, usize) = (400, 60);

#[test]
fn r1_and_r2() {
    let found = |e, number| latest_in(&r1(e), (number, 0), 1, PLENTY);
    // Nothing above: the finish is e.
    assert_eq!(found(2, 0), meets(2, 1, PLENTY, 0, &[]));
    // The only path above is (0,0), with load 2 up to tick 5: 2 + 2 at tick 4.
    assert_eq!(found(2, 1), meets(4, 1, PLENTY, 7, &[2, 0, 0]));
    let front = [2, 0, 0, 1, 0];
    assert_eq!(found(2, 2), misses(1, PLENTY, 12, &front));
    // R2, tick 5: 1 + 2 + 2.
    assert_eq!(found(1, 2), meets(5, 1, PLENTY, 12, &front));
}

#[test]
fn r3_the_path_up_to_the_horizon_is_written() {
    let tasks = |d| above(&[self_edge(2, 5, 5)], (1, d));
    // The first release alone decides: 1 + 2 at tick 3.
    let found = latest_in(&tasks(5), (1, 0), 1, PLENTY);
    assert_eq!(found, meets(3, 1, PLENTY, 5, &[1, 0]));
    let found = latest_in(&tasks(6), (1, 0), 1, PLENTY);
    assert_eq!(found, meets(3, 1, PLENTY, 6, &[2, 0, 0]));
}

#[test]
fn r4_is_a_typing_slip() {
    let r4 = [task(&[(3, 2)], &[])];
    for lent in [(0, 0), (3, 4)] {
        for (vertex, budget) in [(0, 0), (0, 1), (1, 1)] {
            let found = latest_in(&r4, (0, vertex), budget, lent);
            assert_refused(13, 2, &found, lent);
        }
    }
}

#[test]
fn nothing_above() {
    let first = task(&[(1, 5), (5, 5), (200, 200)], &[]);
    let masking = masked(1, task(&[(1, 50)], &[]));
    for lent in [(0, 0), (3, 4)] {
        let alone = [first.clone()];
        let found = |vertex, budget| latest_in(&alone, (0, vertex), budget, lent);
        assert_eq!(found(0, 1), meets(1, 1, lent, 0, &[]));
        assert_eq!(found(1, 1), meets(5, 1, lent, 0, &[]));
        assert_eq!(found(2, u32::MAX), meets(200, 1, lent, 0, &[]));
        assert_eq!(found(2, 0), unfinished(0, lent, 0));
        assert_refused(8, 0, &found(3, 1), lent);
        // Only with masked time does a job miss, and it may be as long as its deadline.
        let held_up = [first.clone(), masking.clone()];
        let found = |vertex, budget| latest_in(&held_up, (0, vertex), budget, lent);
        assert_eq!(found(0, 1), meets(2, 1, lent, 0, &[]));
        assert_eq!(found(1, 1), misses(1, lent, 0, &[]));
        assert_eq!(found(2, u32::MAX), misses(1, lent, 0, &[]));
        assert_eq!(found(2, 0), unfinished(0, lent, 0));
    }
}

#[test]
fn r5_and_r6() {
    // The top group finishes at 5, later than no choice; (0) at 2 + 1, (1) at 2 + 3.
    let found = latest_in(&r5(5), (1, 0), 3, PLENTY);
    assert_eq!(found, meets(5, 3, PLENTY, 15, &[1, 1]));
    let found = latest_in(&r5(5), (1, 0), 2, PLENTY);
    assert_eq!(found, unfinished(2, PLENTY, 15));
    let found = latest_in(&r5(4), (1, 0), 3, PLENTY);
    assert_eq!(found, misses(3, PLENTY, 12, &[1, 1]));
}

#[test]
fn r7_r8_and_r9() {
    // The top group and the one of (0) and (1,2) overload; (0) finishes at 1 + 3, (1,2) at 1 + 1, (2) at 1 + 4.
    for budget in [5, 6, u32::MAX] {
        let found = latest_in(&r7(), (1, 0), budget, (25, 6));
        assert_eq!(found, meets(5, 5, (25, 6), 25, &[1, 2]));
    }
    for budget in [0, 1, 4] {
        let found = latest_in(&r7(), (1, 0), budget, (26, 7));
        assert_eq!(found, unfinished(budget, (26, 7), 25));
    }
    for (lent, number, place) in [((24, 6), 10, 25), ((25, 5), 11, 6), ((24, 5), 10, 25)] {
        let found = latest_in(&r7(), (1, 0), 0, lent);
        assert_refused(number, place, &found, lent);
    }
}

#[test]
fn r10_equal_paths() {
    // All finish at 1 + 1: 7 groups down to the first path, and the 6 beside them are passed over.
    let lent = (21 * 127, 22);
    let found = latest_in(&above(&[r10()], (1, 21)), (1, 0), 13, lent);
    assert_eq!(found, meets(2, 13, lent, 21 * 127, &[3, 0, 0, 0]));
    // With e 20 every group overloads, and the first path is the witness.
    let found = latest_in(&above(&[r10()], (20, 21)), (1, 0), 7, lent);
    assert_eq!(found, misses(7, lent, 21 * 127, &[3, 0, 0, 0]));
    // 17 paths: 17, 9, 5, 3, 2, 1 and the five beside them.
    let found = latest_in(&above(&[r10_with_fifth()], (1, 20)), (1, 0), 11, lent);
    assert_eq!(found, meets(2, 11, lent, 20 * 33, &[2, 0, 0]));
    for (tasks, d) in [(r10(), 31), (r10_with_fifth(), 21)] {
        let found = latest_in(&above(&[tasks], (1, d)), (1, 0), 100, lent);
        assert_refused(9, 0, &found, lent);
    }
}

#[test]
fn an_unreadable_text_is_refused() {
    for (bytes, number) in [("", 6), ("00\n", 2), ("00", 1)] {
        let (mut work, mut witness) = (work_area(9), witness_area(9));
        let numbers = (TaskNo(9), VertexNo(9));
        let bytes = bytes.as_bytes();
        let lateness = latest(bytes, numbers.0, numbers.1, 0, &mut work, &mut witness);
        assert_refused(number, 1, &(lateness, work, witness), (9, 9));
    }
}

/// The worst finish, count and witness cells of a vertex (1, 10) below one task of edgeless vertices.
fn below_edgeless(e: &[u32]) -> Found {
    let found = latest_in(&above(&[edgeless(e)], (1, 10)), (1, 0), 100, PLENTY);
    let needed = 10 * (2 * e.len() - 1);
    assert_eq!(found.1, zeroed(needed, PLENTY.0));
    found
}

#[test]
fn passed_over_because_earlier() {
    // {5,1,2,3} 6, {5,1} 6, 5: 6, 1: 2 is passed over, {2,3} 4 is passed over with both below it.
    let found = below_edgeless(&[5, 1, 2, 3]);
    assert_eq!(found, meets(6, 5, PLENTY, 70, &[1, 0]));
    // Falling: down to the first, 8, 4, 2, 1 paths, and the three groups beside them.
    let found = below_edgeless(&[8, 7, 6, 5, 4, 3, 2, 1]);
    assert_eq!(found, meets(9, 7, PLENTY, 150, &[1, 0]));
    // Rising: every group is examined.
    let found = below_edgeless(&[1, 2, 3, 4, 5, 6, 7, 8]);
    assert_eq!(found, meets(9, 15, PLENTY, 150, &[1, 7]));
}

#[test]
fn passed_over_because_equal() {
    // {1,3,3,3} 4, {1,3} 4, 1: 2, 3: 4, {3,3} 4 is passed over.
    let found = below_edgeless(&[1, 3, 3, 3]);
    assert_eq!(found, meets(4, 5, PLENTY, 70, &[1, 1]));
    // Other loads, the same finish 3: (0) has 2 at once, (1,2) has 1 and from tick 2 on 2.
    let same = task(&[(2, 9), (1, 1), (1, 9)], &[(1, 2, 1)]);
    let found = latest_in(&above(&[same], (1, 9)), (1, 0), 5, PLENTY);
    // {(0),(1,2),(2)} 3, {(0),(1,2)} 3, (0) 3, (1,2) and (2) are passed over.
    assert_eq!(found, meets(3, 5, PLENTY, 45, &[1, 0]));
    let swapped = task(&[(1, 1), (1, 9), (2, 9)], &[(0, 1, 1)]);
    let found = latest_in(&above(&[swapped], (1, 9)), (1, 0), 5, PLENTY);
    assert_eq!(found, meets(3, 5, PLENTY, 45, &[2, 0, 1]));
}

#[test]
fn a_miss_behind_groups_passed_over() {
    // The top overloads; {3,3,1,2} 4, {3,3} 4, 3: 4, 3: 4, {1,2} 3; {1,1,1,20} overloads, {1,1} 2, {1,20} overloads, 1: 2, 20.
    let found = below_edgeless(&[3, 3, 1, 2, 1, 1, 1, 20]);
    assert_eq!(found, misses(11, PLENTY, 150, &[1, 7]));
    // The old call doesn't look below {3,3,1,2}.
    let tasks = above(&[edgeless(&[3, 3, 1, 2, 1, 1, 1, 20])], (1, 10));
    let old = judged(&text(&tasks), (1, 0), 100, PLENTY);
    assert_eq!(old, Verdict::Misses { count: 7, cells: 2 });
}

#[test]
fn the_first_of_equally_late_choices_of_two_tasks() {
    let tasks = above(&[edgeless(&[2, 1, 2]), edgeless(&[1, 2, 2])], (1, 5));
    // {2,1,2}{1,2,2} 5; {2,1}{..} 5; 2{..} 5; 2{1,2} 5; 2,1: 4; 2,2: 5; passed over are 2,2; 1{..} 4; and 2{..} 5.
    let found = latest_in(&tasks, (2, 0), 9, PLENTY);
    assert_eq!(found, meets(5, 9, PLENTY, 50, &[1, 0, 1, 1]));
}

#[test]
fn the_latest_finish_that_there_is() {
    // Half of the ticks are taken: 100 + 100 at tick 200, 99 + 99 at tick 198.
    let tasks = |e| above(&[self_edge(1, 2, 2)], (e, 200));
    let front = [&[100][..], &[0; 100]].concat();
    let lent = (200, 201);
    for (e, finish) in [(100, 200), (99, 198)] {
        let found = latest_in(&tasks(e), (1, 0), 1, lent);
        assert_eq!(found, meets(finish, 1, lent, 200, &front));
    }
    let found = latest_in(&tasks(101), (1, 0), 1, lent);
    assert_eq!(found, misses(1, lent, 200, &front));
}

#[test]
fn the_numbers_of_each_answer() {
    let answers = [
        latest_in(&r7(), (1, 0), 9, (25, 6)).0,
        latest_in(&r5(4), (1, 0), 9, (12, 5)).0,
        latest_in(&r7(), (1, 0), 4, (25, 6)).0,
        latest_in(&r7(), (1, 0), 9, (24, 6)).0,
    ];
    let numbers = answers.map(|lateness| {
        let verdict = lateness.verdict();
        let Ticks(finish) = lateness.finish();
        (verdict.kind(), verdict.value(), lateness.place(), finish)
    });
    let expected = [
        (0, 5, 2, 5),
        (1, 3, 2, 0),
        (2, 4, 0, 0),
        (3, Row::WorkArea as u32, 25, 0),
    ];
    assert_eq!(numbers, expected);
}
