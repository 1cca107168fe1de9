//! Slower cradles (wish 7): long paths, their frames and areas, and far separations, by hand.

use crate::common::lateness::{assert_refused, latest_in, meets, misses};
use crate::common::*;
use second::case::{Case, FINISHES, LIST, UNMARKED};
use second::desk;
use second::judge::Verdict;
use second::paths::complete_paths;
use second::table::Ticks;
use second::text::read;
use second::words::{words, words_with_why};

/// The vertices and the loads at 1 to d of a task's complete paths.
fn paths(task: &Task, d: u32) -> Vec<(Vec<u16>, Vec<u32>)> {
    let table = read(text(std::slice::from_ref(task)).as_bytes()).unwrap();
    let listed = complete_paths(&table.tasks[0], Ticks(d), 64).unwrap();
    let one = |path: &second::paths::Path| {
        let mut loads = vec![0; d as usize];
        path.write_loads(&mut loads);
        let vertices = path.steps.iter().map(|step| step.vertex.0).collect();
        (vertices, loads)
    };
    listed.iter().map(one).collect()
}

/// The desk's output for these tasks.
fn output(tasks: &[Task]) -> String {
    desk::output(text(tasks).as_bytes())
}

/// A task that releases a job of one tick at every tick.
fn every_tick() -> Task {
    self_edge(1, 1, 1)
}

#[test]
fn r1_with_the_new_frames() {
    let input = "010101\n0200020005\n0300000005\n010101\n0200020007\n0300000007\n\
                 010101\n0200020006\n0300000007\n00\n";
    let expected = "1000000000000001\n1001000000000001\n1002000100000001\n\
                    120000020000\n1201000100\n1f02010000\n";
    assert_eq!(desk::output(input.as_bytes()), expected);
    assert_eq!(run(&[], input.as_bytes()).stdout, expected.as_bytes());
}

#[test]
fn one_path_of_1_000_vertices() {
    // A release at 0, 1 and so on up to 999: the load at t is t.
    let loads: Vec<_> = (1..=1_000).collect();
    assert_eq!(paths(&every_tick(), 1_000), [(vec![0; 1_000], loads)]);
    // It needs 1,000 x 1 work cells and 1 x 1,001 witness cells.
    let tasks = [every_tick(), task(&[(1, 1_000)], &[])];
    let front = [&[1_000][..], &[0; 1_000]].concat();
    let lent = (1_001, 1_003);
    let found = latest_in(&tasks, (1, 0), 1, lent);
    assert_eq!(found, misses(1, lent, 1_000, &front));
    let short = latest_in(&tasks, (1, 0), 1, (999, 1_001));
    assert_refused(10, 1_000, &short, (999, 1_001));
    let short = latest_in(&tasks, (1, 0), 1, (1_000, 1_000));
    assert_refused(11, 1_001, &short, (1_000, 1_000));
    let verdict = |lent| judged(&text(&tasks), (1, 0), 1, lent);
    let cells = 1_001;
    assert_eq!(verdict((1_000, 1_001)), Verdict::Misses { count: 1, cells });
    assert_eq!(refusal(verdict((999, 0))), Some((10, 1_000)));
    // The length is 03e8.
    let frame = format!("120003e8{}\n", "00".repeat(1_000));
    let expected = format!("1000000000000001\n1001000100000001\n{frame}1f01010000\n");
    assert_eq!(output(&tasks), expected);
    // The sum of t x t for t from 1 to 1,000 is 1,000 x 1,001 x 2,001 / 6; the judged task's load is 1 at every tick: 1,000 x 1,001 / 2.
    let path = ["0"; 1_000].join(" ");
    let listed = answered_lines(&sequence_of(LIST, &[text(&tasks).as_bytes()]));
    assert_eq!(listed, format!("1\n{path}\n333833500\n1\n0\n500500\n"));
}

#[test]
fn both_bytes_of_a_length() {
    for (length, digits) in [(255, "00ff"), (256, "0100"), (257, "0101"), (513, "0201")] {
        // Below it a task of two paths of one vertex each, whose frame follows on the long one.
        let other = task(&[(1, length), (2, length)], &[(0, 1, length)]);
        let tasks = [every_tick(), other, task(&[(1, length)], &[])];
        let long = format!("1200{digits}{}\n", "00".repeat(length as usize));
        // Task 1's own two vertices and the last one miss: at every tick task 0 has that much. The last has the paths (0) and (1), since a
        // release at d doesn't count; both overload, so that the top group and the first path are examined.
        let expected = format!(
            "1000000000000001\n1001000100000001\n{long}1001010100000001\n{long}\
             1002000100000002\n{long}1201000100\n1f01030000\n"
        );
        assert_eq!(output(&tasks), expected, "{length}");
        // With the long path in the second place.
        let tasks = [
            task(&[(1, length)], &[]),
            every_tick(),
            task(&[(1, length)], &[]),
        ];
        let long = format!("1201{digits}{}\n", "00".repeat(length as usize));
        // Task 1's d is 1: 1 + 1 by tick 1.
        let expected = format!(
            "1000000000000001\n1001000100000001\n1200000100\n1002000100000001\n1200000100\n{long}1f01020000\n"
        );
        assert_eq!(output(&tasks), expected, "{length}");
    }
}

#[test]
fn the_largest_witness() {
    let mut tasks = vec![every_tick(); 7];
    tasks.push(task(&[(1, 1_000)], &[]));
    // 7 x 1,001 cells, all of them filled; 7 x 1,000 work cells.
    let front = [&[1_000][..], &[0; 1_000]].concat().repeat(7);
    assert_eq!(front.len(), 7_007);
    let lent = (7_000, 7_007);
    let found = latest_in(&tasks, (7, 0), 1, lent);
    assert_eq!(found, misses(1, lent, 7_000, &front));
    for short in [(7_000, 7_006), (8_192, 0)] {
        let found = latest_in(&tasks, (7, 0), 1, short);
        assert_refused(11, 7_007, &found, short);
        let verdict = judged(&text(&tasks), (7, 0), 1, short);
        assert_eq!(refusal(verdict), Some((11, 7_007)));
    }
    // The desk's areas suffice: 7,000 of 8,192 and 7,007 of 7,007.
    let found = output(&tasks);
    let frames: Vec<_> = found.lines().rev().take(9).collect();
    assert_eq!((frames[0], frames[8]), ("1f01070000", "1007000100000001"));
    for (number, frame) in (0..7).zip(frames[1..8].iter().rev()) {
        assert_eq!(*frame, format!("120{number}03e8{}", "00".repeat(1_000)));
    }
}

#[test]
fn the_desks_work_area_on_a_large_table() {
    // Four paths have seven ranges and five have nine: 7,000 and 9,000 cells; 910 x 9 = 8,190 and 911 x 9 = 8,199.
    let with = |paths: usize, d: u32| {
        let above = task(&vec![(1, 10); paths], &[]);
        [above, task(&[(1, d)], &[])]
    };
    for (paths, d) in [(4, 1_000), (5, 910)] {
        let expected = format!("\n1001000000000001\n1f{:02x}000000\n", paths + 1);
        assert!(output(&with(paths, d)).ends_with(&expected));
    }
    for (d, cells) in [(911, 8_199), (1_000, 9_000)] {
        assert!(output(&with(5, d)).ends_with("\n100100030000000a\n1f05000001\n"));
        let line = format!(
            "task 1, vertex 0: REFUSED (10): {cells} work cells are needed and there are 8192, so this was not judged\n"
        );
        assert!(words(text(&with(5, d)).as_bytes()).contains(&line));
        let verdict = judged(&text(&with(5, d)), (1, 0), 1, (8_192, 7_007));
        assert_eq!(refusal(verdict), Some((10, cells)));
    }
    // Eight tasks of one path each, and d 1,000: seven of them are above the last one.
    let eight = vec![task(&[(1, 1_000)], &[]); 8];
    assert!(output(&eight).ends_with("\n1007000000000001\n1f08000000\n"));
}

/// R10's task with the separation 330: three vertices of a path are released by 660, and a fourth at 990.
fn four_by_four() -> Task {
    let edges: Vec<_> = (0..16).map(|n| (n / 4, n % 4, 330)).collect();
    task(&[(1, 330); 4], &edges)
}

#[test]
fn the_most_work_cells() {
    // 64 paths at 990 and 256 at 1,000.
    let tasks = |d| [four_by_four(), task(&[(1, d)], &[])];
    let verdict = |d| refusal(judged(&text(&tasks(d)), (1, 0), 1, (0, 0)));
    assert_eq!(verdict(990), Some((10, 127 * 990)));
    assert_eq!(verdict(991), Some((9, 0)));
    assert_eq!(verdict(1_000), Some((9, 0)));
    // With the separation 400, 64 paths at 1,000, seven times: 7 x 127 x 1,000 cells.
    let edges: Vec<_> = (0..16).map(|n| (n / 4, n % 4, 400)).collect();
    let mut tasks = vec![task(&[(1, 400); 4], &edges); 7];
    tasks.push(task(&[(1, 1_000)], &[]));
    let text = text(&tasks);
    let verdict = |work| judged(&text, (7, 0), 1, (work, 7_007));
    assert_eq!(refusal(verdict(888_999)), Some((10, 889_000)));
    // Each task has 1 up to tick 400, and 1 + 7 by tick 8.
    assert_eq!(verdict(889_000), Verdict::Meets { count: 1 });
    // The modes that are judged unmarked have the cells. Task k's four vertices finish at 1 + k, and the last one at 8: 4 x 28 + 8.
    let sequence = |mode| Case::plain(mode, text.clone().into_bytes()).bytes();
    let both = [UNMARKED, FINISHES, UNMARKED, FINISHES].map(sequence);
    let lines = answered_lines(&both.concat());
    assert_eq!(lines, "1f1d000000\n1f1d00000000000078\n".repeat(2));
    // The desk hasn't: below three tasks of 4 paths, 3 x 7 x 400 cells are needed, so that task 3 and all below it are refused.
    assert!(desk::output(text.as_bytes()).ends_with("\n100700030000000a\n1f0c000011\n"));
}

#[test]
fn an_edge_that_never_counts() {
    // 300 at once, and again after 60,000.
    let above = self_edge(300, 1_000, 60_000);
    for (e, finish) in [(700, Some(1_000)), (699, Some(999)), (701, None)] {
        let tasks = [above.clone(), task(&[(e, 1_000)], &[])];
        let lent = (1_000, 1_001);
        let expected = match finish {
            Some(finish) => meets(finish, 1, lent, 1_000, &[1, 0]),
            None => misses(1, lent, 1_000, &[1, 0]),
        };
        assert_eq!(latest_in(&tasks, (1, 0), 1, lent), expected);
    }
}

#[test]
fn spans_beyond_16_bits() {
    // 60,000 + 5,536 is 65,536, and 999 + 60,000 is 60,999: in no order of the edges is a third vertex reached.
    let task = task(
        &[(1, 999), (2, 1_000), (4, 1_000), (8, 1_000)],
        &[
            (0, 1, 999),
            (1, 2, 60_000),
            (1, 3, 5_536),
            (2, 3, 5_536),
            (3, 3, 60_000),
        ],
    );
    // At 1,000 the edge of 999 counts, and its vertex has the last tick; at 999 it doesn't.
    let ones = |e: u32, d: usize| vec![e; d];
    let first = [ones(1, 999), vec![3]].concat();
    let expected = [
        (vec![0, 1], first),
        (vec![1], ones(2, 1_000)),
        (vec![2], ones(4, 1_000)),
        (vec![3], ones(8, 1_000)),
    ];
    assert_eq!(paths(&task, 1_000), expected);
    let found: Vec<_> = paths(&task, 999).into_iter().map(|path| path.0).collect();
    assert_eq!(found, [[0], [1], [2], [3]]);
}

/// A job of 999 and after it one of 1,000: e is at most d, and d at most p, so that no load at 1,000 is above 999 + 1,000.
fn heaviest() -> Task {
    task(&[(999, 999), (1_000, 1_000)], &[(0, 1, 999)])
}

#[test]
fn the_largest_sums() {
    // The path (0,1) has 999 up to tick 999 and then 1,999; (1) has 1,000.
    let first = [vec![999; 999], vec![1_999]].concat();
    let expected = [(vec![0, 1], first), (vec![1], vec![1_000; 1_000])];
    assert_eq!(paths(&heaviest(), 1_000), expected);
    // The rows of (0,1), of both and of (1), each cell times its place: 999 x 499,500 + 1,999 x 1,000, then 1,000 x 1,498,500 + 1,999 x 2,000,
    // then 1,000 x 2,500,500. That is more than 32 bits hold.
    let sum = 499_000_500 + 1_999_000 + 1_498_500_000 + 3_998_000 + 2_500_500_000_u64;
    assert_eq!(sum, 4_503_997_500);
    let tasks = [heaviest(), task(&[(1, 1_000)], &[])];
    let listed = answered_lines(&sequence_of(LIST, &[text(&tasks).as_bytes()]));
    assert_eq!(listed, format!("2\n0 1\n1\n{sum}\n1\n0\n500500\n"));
    // Seven of them above e 1,000 have 14,993 by tick 1,000. With e alone no tick before the last is free, so every group overloads: the top
    // one, and one more for each of the seven splits.
    let mut tasks = vec![heaviest(); 7];
    tasks.push(task(&[(1_000, 1_000)], &[]));
    let lent = (7 * 3 * 1_000, 7_007);
    let front = [2, 0, 1].repeat(7);
    let found = latest_in(&tasks, (7, 0), 8, lent);
    assert_eq!(found, misses(8, lent, 21_000, &front));
    // Two above, in words: 1,000 + 2 x 1,999, and 1,000 more that a lower task masks.
    let masking = masked(1_000, task(&[(1_000, 1_000)], &[]));
    let judged = task(&[(1_000, 1_000)], &[]);
    let tasks = [heaviest(), heaviest(), judged, masking];
    let expected = "
task 2, vertex 0: MISSES its deadline of 1000 ticks (3 groups examined), shown by these releases:
    task 0: vertex 0 at tick 0, vertex 1 at tick 999
    task 1: vertex 0 at tick 0, vertex 1 at tick 999
    5998 ticks of work (1000 ticks of it are task 3's masked time) are due by the deadline, 1000 of them its own: 4998 ticks too many
";
    let found = words(text(&tasks).as_bytes());
    assert!(found.contains(expected), "{found}");
}

#[test]
fn r7_two_hundred_times_as_long() {
    // Every number of R7 times 200, but for the d that play no part: the group that is free at tick t there is free at 200 t here.
    let above = task(&[(600, 1_000), (200, 400), (800, 1_000)], &[(1, 2, 400)]);
    let tasks = [above, task(&[(200, 1_000)], &[])];
    let vertices: Vec<_> = paths(&tasks[0], 1_000).into_iter().map(|p| p.0).collect();
    assert_eq!(vertices, [vec![0], vec![1, 2], vec![2]]);
    let verdict = |budget, lent| judged(&text(&tasks), (1, 0), budget, lent);
    let lent = (5_000, 1_001);
    assert_eq!(verdict(0, lent), Verdict::Unfinished { budget: 0 });
    assert_eq!(verdict(4, lent), Verdict::Unfinished { budget: 4 });
    assert_eq!(verdict(5, lent), Verdict::Meets { count: 5 });
    assert_eq!(verdict(6, lent), Verdict::Meets { count: 5 });
    assert_eq!(refusal(verdict(5, (4_999, 1_001))), Some((10, 5_000)));
    assert_eq!(refusal(verdict(5, (5_000, 1_000))), Some((11, 1_001)));
    // (0) at 200 + 600, (1,2) at 200 + 200, (2) at 200 + 800.
    let found = latest_in(&tasks, (1, 0), 5, lent);
    assert_eq!(found, meets(1_000, 5, lent, 5_000, &[1, 2]));
}

#[test]
fn releases_up_to_tick_999_in_words() {
    // Half of the ticks are taken, by 500 jobs at 0, 2 and so on up to 998: with 500 more the last tick is free, and with 501 none.
    let tasks = |e| [self_edge(1, 2, 2), task(&[(e, 1_000)], &[])];
    let releases = "    task 0: vertex 0 at tick 0 and every 2 ticks up to tick 998\n";
    let expected = format!(
        "task 1, vertex 0: meets its deadline of 1000 ticks, at worst after 1000, 0 to spare (1 group examined), by these releases:\n{releases}"
    );
    assert!(words_with_why(text(&tasks(500)).as_bytes()).contains(&expected));
    let expected = format!(
        "MISSES its deadline of 1000 ticks (1 group examined), shown by these releases:\n{releases}    \
         1001 ticks of work are due by the deadline, 501 of them its own: 1 tick too many\n"
    );
    assert!(words(text(&tasks(501)).as_bytes()).contains(&expected));
    // 499 + 499 by tick 998.
    let found = latest_in(&tasks(499), (1, 0), 1, (1_000, 1_001));
    assert_eq!(found.0.finish(), Ticks(998));
}

#[test]
fn masked_time_up_to_1_000() {
    let masking = |m| masked(m, task(&[(1_000, 1_000)], &[]));
    for (e, m, finish) in [(1, 999, Some(1_000)), (1, 1_000, None), (1_000, 1, None)] {
        let tasks = [task(&[(e, 1_000)], &[]), masking(m)];
        let expected = match finish {
            Some(finish) => meets(finish, 1, (0, 0), 0, &[]),
            None => misses(1, (0, 0), 0, &[]),
        };
        assert_eq!(latest_in(&tasks, (0, 0), 1, (0, 0)), expected);
    }
}
