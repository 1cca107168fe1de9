//! The bench examples R1 to R11 of document 01, R4 as wish 6 and the path frames as wish 7 has them, R2 with a masked length, and a few tables worked out by hand.

use crate::common::{self, *};
use second::desk;
use second::judge::{judge_table, Verdict};
use second::paths::{complete_paths, Path};
use second::table::Ticks;
use second::text;

/// More than enough cells of each area for the tables here.
const PLENTY: (usize, usize) = (10_000, 1_500);

/// The lists of vertices of a task's complete paths; none if there are more than the limit.
fn lists(task: &Task, d: u32, limit: usize) -> Option<Vec<Vec<u16>>> {
    let table = text::read(common::text(std::slice::from_ref(task)).as_bytes()).unwrap();
    let vertices = |path: &Path| path.steps.iter().map(|step| step.vertex.0).collect();
    let paths = complete_paths(&table.tasks[0], Ticks(d), limit)?;
    Some(paths.iter().map(vertices).collect())
}

/// A verdict of meets with this count.
fn meets(count: u32) -> Verdict {
    Verdict::Meets { count }
}

#[test]
fn r1_whole_input_to_whole_output() {
    let input = "010101\n0200020005\n0300000005\n010101\n0200020007\n0300000007\n\
                 010101\n0200020006\n0300000007\n00\n";
    let output = "1000000000000001\n1001000000000001\n1002000100000001\n\
                  120000020000\n1201000100\n1f02010000\n";
    assert_eq!(text(&r1(2)), input);
    assert_eq!(desk::output(input.as_bytes()), output);
}

#[test]
fn r2_an_earlier_tick_is_the_free_one() {
    assert_eq!(judged(&text(&r1(1)), (2, 0), 100, PLENTY), meets(1));
}

/// A task that masks 1 tick: one vertex e 1 d 100, no edges.
fn masking() -> Task {
    masked(1, task(&[(1, 100)], &[]))
}

#[test]
fn r2_misses_above_a_masked_length() {
    let above = |fourth: Task| text(&[r1(1), vec![fourth]].concat());
    // Tick 5: 1 + 1 + 2 + 2, and tick 6: 1 + 1 + 4 + 2.
    let misses = Verdict::Misses { count: 1, cells: 5 };
    assert_eq!(judged(&above(masking()), (2, 0), 100, PLENTY), misses);
    // The others meet: 2 + 1, 2 + 1 + 2, and the last, which nothing holds up, at tick 13: 1 + 6 + 4 + 2.
    let output = "1000000000000001\n1001000000000001\n1002000100000001\n\
                  120000020000\n1201000100\n1003000000000001\n1f03010000\n";
    assert_eq!(desk::output(above(masking()).as_bytes()), output);
    let plain = above(masked(0, masking()));
    assert_eq!(judged(&plain, (2, 0), 100, PLENTY), meets(1));
}

#[test]
fn r2_below_a_masked_length() {
    let below = |first: Task| text(&[vec![first], r1(1)].concat());
    // By its e alone: R2's vertex has 1 + 1 + 2 + 2 at tick 5, and 1 + 1 + 4 + 2 at tick 6.
    let output = "1000000000000001\n1001000000000001\n1002000000000001\n1003000100000001\n\
                  1200000100\n120100020000\n1202000100\n1f03010000\n";
    for first in [masking(), masked(0, masking())] {
        assert_eq!(desk::output(below(first).as_bytes()), output);
    }
}

#[test]
fn r3_a_release_at_the_horizon_is_not_in_the_path() {
    let task = self_edge(1, 5, 5);
    assert_eq!(lists(&task, 5, 64), Some(vec![vec![0]]));
    assert_eq!(lists(&task, 6, 64), Some(vec![vec![0, 0]]));
}

#[test]
fn r4_is_a_typing_slip() {
    let text = text(&[task(&[(3, 2)], &[])]);
    for lent in [(0, 0), PLENTY] {
        let verdict = judged(&text, (0, 0), 1, lent);
        assert_eq!(refusal(verdict), Some((13, 2)));
    }
    assert_eq!(desk::output(text.as_bytes()), "1e0d0002\n");
}

#[test]
fn nothing_above_misses_exactly_if_e_and_masked_time_exceed_d() {
    let first = task(&[(4, 5), (5, 5)], &[]);
    let alone = "1000000000000001\n1000010000000001\n1f02000000\n";
    let output = desk::output(text(std::slice::from_ref(&first)).as_bytes());
    assert_eq!(output, alone);
    // 4 + 1 and 5 + 1; below them 1 + 5 by tick 6.
    let held_up = "1000000000000001\n1000010100000001\n1001000000000001\n1f02010000\n";
    let output = desk::output(text(&[first, masking()]).as_bytes());
    assert_eq!(output, held_up);
}

#[test]
fn r5_meets_and_r6_misses() {
    assert_eq!(judged(&text(&r5(5)), (1, 0), 100, PLENTY), meets(1));
    let misses = Verdict::Misses { count: 3, cells: 2 };
    assert_eq!(judged(&text(&r5(4)), (1, 0), 100, PLENTY), misses);
    let output = desk::output(text(&r5(4)).as_bytes());
    assert!(output.ends_with("1001000100000003\n1200000101\n1f02010000\n"));
}

#[test]
fn r7_meets_although_the_top_group_overloads() {
    let paths = vec![vec![0], vec![1, 2], vec![2]];
    assert_eq!(lists(&r7()[0], 5, 64), Some(paths));
    assert_eq!(judged(&text(&r7()), (1, 0), 100, PLENTY), meets(5));
}

#[test]
fn r8_budgets() {
    let verdict = |budget| judged(&text(&r7()), (1, 0), budget, PLENTY);
    assert_eq!(verdict(0), Verdict::Unfinished { budget: 0 });
    assert_eq!(verdict(4), Verdict::Unfinished { budget: 4 });
    assert_eq!(verdict(5), meets(5));
    assert_eq!(verdict(6), meets(5));
    assert_eq!(verdict(u32::MAX), meets(5));
}

#[test]
fn r9_cells_needed() {
    let verdict = |lent| judged(&text(&r7()), (1, 0), 100, lent);
    assert_eq!(verdict((25, 6)), meets(5));
    assert_eq!(refusal(verdict((24, 6))), Some((10, 25)));
    assert_eq!(refusal(verdict((25, 5))), Some((11, 6)));
    assert_eq!(refusal(verdict((24, 5))), Some((10, 25)));
}

#[test]
fn r10_path_counts() {
    let count = |task: &Task, d| lists(task, d, 1_000).unwrap().len();
    assert_eq!(count(&r10(), 21), 64);
    assert_eq!(count(&r10(), 31), 256);
    assert_eq!(count(&r10_with_fifth(), 21), 65);
    assert_eq!(lists(&r10(), 31, 255), None);
    assert_eq!(lists(&r10(), 31, 256).unwrap().len(), 256);
}

#[test]
fn r10_paths_are_in_order() {
    let paths = lists(&r10_with_fifth(), 21, 65).unwrap();
    assert_eq!(paths[0], [0, 0, 0]);
    assert_eq!(paths[1], [0, 0, 1]);
    assert_eq!(paths[63], [3, 3, 3]);
    assert_eq!(paths[64], [4]);
    assert!(paths.windows(2).all(|pair| pair[0] < pair[1]));
}

#[test]
fn r10_judged() {
    let below = |d| task(&[(1, d)], &[]);
    let verdict = |above: Task, d| judged(&text(&[above, below(d)]), (1, 0), 9, PLENTY);
    // At tick 2 the top group has 1 + 1, which doesn't exceed it.
    assert_eq!(verdict(r10(), 21), meets(1));
    assert_eq!(refusal(verdict(r10(), 31)), Some((9, 0)));
    assert_eq!(refusal(verdict(r10_with_fifth(), 21)), Some((9, 0)));
    let output = desk::output(text(&[r10(), below(31)]).as_bytes());
    assert!(output.ends_with("\n1001000300000009\n1f04000001\n"));
}

#[test]
fn r11_short_texts() {
    assert_eq!(desk::output(b""), "1e060001\n");
    assert_eq!(desk::output(b"00\n"), "1e020001\n");
    assert_eq!(desk::output(b"00"), "1e010001\n");
}

#[test]
fn the_longest_path_has_1_000_vertices() {
    let tasks = [self_edge(1, 1, 1), task(&[(1, 1_000)], &[])];
    assert_eq!(lists(&tasks[0], 1_000, 64), Some(vec![vec![0; 1_000]]));
    // One release a tick above: the load at t is t, and 1 + t exceeds t.
    let path = format!("120003e8{}", "00".repeat(1_000));
    let output = format!("1000000000000001\n1001000100000001\n{path}\n1f01010000\n");
    assert_eq!(desk::output(text(&tasks).as_bytes()), output);
}

#[test]
fn the_desks_work_area_can_be_too_short() {
    // Each R10 task needs 127 x 21 = 2,667 cells: three of them fit in 8,192, four don't.
    let mut tasks = vec![r10(), r10(), r10(), task(&[(1, 21)], &[])];
    let output = desk::output(text(&tasks).as_bytes());
    assert!(output.ends_with("\n1003000000000001\n1f0d000000\n"));
    tasks.insert(3, r10());
    let output = desk::output(text(&tasks).as_bytes());
    assert!(output.ends_with("\n100400030000000a\n1f10000001\n"));
}

#[test]
fn the_desks_work_area_exactly() {
    // n edgeless vertices are n paths, and need d x (2n - 1) cells.
    let above = |paths: &[usize]| -> Vec<Task> {
        let equal = |&n: &usize| task(&vec![(1, 10); n], &[]);
        paths.iter().map(equal).collect()
    };
    // 128 x (15 + 15 + 17 + 17) = 8,192 cells.
    let fitting = [above(&[8, 8, 9, 9]), vec![task(&[(1, 128)], &[])]].concat();
    let output = desk::output(text(&fitting).as_bytes());
    assert!(output.ends_with("\n1004000000000001\n1f23000000\n"));
    // 55 x (6 x 23 + 11) = 8,195 cells.
    let paths = [12, 12, 12, 12, 12, 12, 6];
    let longer = [above(&paths), vec![task(&[(1, 55)], &[])]].concat();
    let output = desk::output(text(&longer).as_bytes());
    assert!(output.ends_with("\n100700030000000a\n1f4e000001\n"));
}

#[test]
fn the_desks_witness_area_is_never_too_short() {
    let mut tasks = vec![self_edge(1, 1, 1); 7];
    tasks.push(task(&[(1, 1_000)], &[]));
    // At tick 1, task 0 has its own 1, and each other task more than that.
    let mut output = String::from("1000000000000001\n");
    for number in 1..8 {
        output += &format!("100{number}000100000001\n");
        let length = if number < 7 { 1 } else { 1_000 };
        for higher in 0..number {
            output += &format!("120{higher}{length:04x}{}\n", "00".repeat(length));
        }
    }
    output += "1f01070000\n";
    assert_eq!(desk::output(text(&tasks).as_bytes()), output);
    let counts = judge_table(text(&tasks).as_bytes(), 1, &mut [0; 7_000]).unwrap();
    assert_eq!((counts.meets, counts.misses), (1, 7));
}

/// Four tasks of n equal vertices, then one whose three paths overload only together.
///
/// The four always add 4. With e 1 the fifth task's paths give: (0) 1+4+3, free at tick 8;
/// (1,2) 1+4+1 up to tick 6, free there; (2) 1+4+4, free at tick 9. Two or three of them
/// together leave no tick free. So all 2P - 1 groups are examined, with P = 3 n^4.
fn every_group_is_examined(n: usize) -> Vec<Task> {
    let mut tasks = vec![task(&vec![(1, 9); n], &[]); 4];
    tasks.push(task(&[(3, 9), (1, 6), (4, 9)], &[(1, 2, 6)]));
    tasks.push(task(&[(1, 9)], &[]));
    tasks
}

#[test]
fn the_count_reaches_twice_the_product_less_one() {
    let output = desk::output(text(&every_group_is_examined(11)).as_bytes());
    // 2 x 3 x 11^4 - 1 = 87,845; 44 + 3 + 1 vertices meet.
    let last = format!("\n10050000{:08x}\n1f30000000\n", 87_845);
    assert!(output.ends_with(&last));
}

#[test]
fn the_desk_says_unfinished_with_its_budget() {
    // 2 x 3 x 12^4 - 1 = 124,415 is above 100,000; 48 + 3 vertices meet.
    let tasks = every_group_is_examined(12);
    let output = desk::output(text(&tasks).as_bytes());
    assert!(output.ends_with("\n10050002000186a0\n1f33000100\n"));
    let verdict = |budget| judged(&text(&tasks), (5, 0), budget, PLENTY);
    assert_eq!(verdict(124_414), Verdict::Unfinished { budget: 124_414 });
    assert_eq!(verdict(124_415), meets(124_415));
    assert_eq!(verdict(u32::MAX), meets(124_415));
}

#[test]
fn a_task_with_astronomically_many_paths_is_refused_soon() {
    let edges: Vec<_> = (0..32).map(|n| (n / 12, n % 12, 1)).collect();
    let above = task(&[(1, 1); 12], &edges);
    let text = text(&[above, task(&[(1, 1_000)], &[])]);
    assert_eq!(
        refusal(judged(&text, (1, 0), u32::MAX, PLENTY)),
        Some((9, 0))
    );
}
