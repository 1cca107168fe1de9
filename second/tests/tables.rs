//! The example tables say what their pages work out by hand.

use crate::common::{self, judged, witness_area, work_area};
use second::judge::Verdict;
use second::latest::{latest, Lateness};
use second::table::{TaskNo, Ticks, VertexNo};
use second::words::{words, words_with_why};

/// The words for an example table.
fn table_words(table: &str) -> String {
    words(table.as_bytes())
}

/// The worst finishes that the words say, in order.
fn worst_finishes(words: &str) -> Vec<u32> {
    let behind = words.split(", at worst after ").skip(1);
    behind
        .map(|rest| rest.split([',', ' ']).next().unwrap().parse().unwrap())
        .collect()
}

#[test]
fn cradle_meets() {
    let words = table_words(include_str!("../../tables/cradle_meets.table"));
    let line =
        "task 3, vertex 0: meets its deadline of 11 ticks, at worst after 10, 1 to spare (5 groups examined)\n";
    assert!(words.contains(line), "{words}");
    // The radio: 2 + 2 and 3 + 2, below a scan handed on; the beeper: 1 + 2 + 3. The display: 3 + 3 + 3 + 1, and 8 + 5 + 5 + 1 with a
    // scan handed on at 0 and 16, an acknowledgement at 8, a packet received at 0 and decoded at 8.
    assert_eq!(worst_finishes(&words), [1, 2, 4, 5, 6, 6, 10, 19]);
    let last = "\nmeets 8, misses 0, unfinished 0, refused 0\nThis may go out: every job type meets its deadline.\n";
    assert!(words.ends_with(last), "{words}");
}

#[test]
fn cradle_display_masks() {
    let table = include_str!("../../tables/cradle_display_masks.table");
    let words = table_words(table);
    let miss = "
task 2, vertex 0: MISSES its deadline of 8 ticks (4 groups examined), shown by these releases:
    task 0: vertex 1 at tick 0
    task 1: vertex 0 at tick 0
    9 ticks of work (4 ticks of it are task 3's masked time) are due by the deadline, 1 of them its own: 1 tick too many
";
    assert!(words.contains(miss), "{words}");
    let finishes = [
        2 + 4,
        3 + 4,
        1 + 4 + 3,
        1 + 4 + 3,
        2 + 4 + 1 + 5,
        4 + 4 + 1 + 5,
        16,
        18,
        9,
    ];
    assert_eq!(worst_finishes(&words), finishes);
    // One tick less of masked time, and no masked time at all.
    let yes = "\nThis may go out: every job type meets its deadline.\n";
    let shorter = table.replace("0403040004", "0403040003");
    assert!(table_words(&shorter).ends_with(yes));
    assert!(table_words(&table.replace("0403040004", "010304")).ends_with(yes));
    let sooner = include_str!("../../tables/cradle_display_sooner.table");
    assert_eq!(table.replace("0403040004", "010304"), sooner);
}

#[test]
fn second_path() {
    let words = table_words(include_str!("../../tables/second_path.table"));
    let last = "
task 1, vertex 0: MISSES its deadline of 6 ticks (4 groups examined), shown by these releases:
    task 0: vertex 1 at tick 0, vertex 2 at tick 4
    7 ticks of work are due by the deadline, 3 of them its own: 1 tick too many
meets 3, misses 1, unfinished 0, refused 0
This may NOT go out: a job type misses its deadline.
";
    assert!(words.ends_with(last), "{words}");
}

#[test]
fn unfinished() {
    let table = include_str!("../../tables/unfinished.table");
    let last = "\nmeets 51, misses 0, unfinished 1, refused 0\n\
                This may NOT go out: not every job type was shown to meet its deadline.\n";
    assert!(table_words(table).ends_with(last));
    let verdict = |budget| judged(table, (5, 0), budget, (8_192, 7_007));
    assert_eq!(verdict(124_414), Verdict::Unfinished { budget: 124_414 });
    assert_eq!(verdict(124_415), Verdict::Meets { count: 124_415 });
}

#[test]
fn unfinished_by_tick_10() {
    let table = include_str!("../../tables/unfinished.table");
    let table = table.replace("0200010009\n00\n", "020001000a\n00\n");
    let line = "meets its deadline of 10 ticks (1 group examined; its worst finish wasn't found within 100000 groups)";
    let words = table_words(&table);
    assert!(
        words.contains(&format!("task 5, vertex 0: {line}\n")),
        "{words}"
    );
    assert!(include_str!("../../tables/unfinished.md").contains(&format!("`{line}`")));
    let lateness = |budget| {
        let (mut work, mut witness) = (work_area(8_192), witness_area(7_007));
        let (task, vertex) = (TaskNo(5), VertexNo(0));
        latest(
            table.as_bytes(),
            task,
            vertex,
            budget,
            &mut work,
            &mut witness,
        )
    };
    assert_eq!(lateness(124_414), Lateness::Unfinished { budget: 124_414 });
    assert_eq!(lateness(124_415).finish(), Ticks(9));
}

#[test]
fn refused() {
    let words = table_words(include_str!("../../tables/refused.table"));
    let first = "REFUSED (4) at line 12: the deadline of the edge's starting vertex exceeds the separation\n    030100000c\n";
    assert!(words.starts_with(first), "{words}");
}

#[test]
fn slip() {
    let table = include_str!("../../tables/slip.table");
    let words = table_words(table);
    let first =
        "REFUSED (13) at line 20: the job is longer than its own deadline\n    02003c0008\n";
    assert!(words.starts_with(first), "{words}");
    let right = include_str!("../../tables/cradle_meets.table");
    assert_eq!(table.replace("02003c0008", "020008003c"), right);
}

#[test]
fn cradle_display() {
    let words = table_words(include_str!("../../tables/cradle_display.table"));
    for line in [
        "task 2, vertex 2: REFUSED (9): task 0 has more than 64 complete paths, so this was not judged",
        "    10 ticks of work are due by the deadline, 1 of them its own: 2 ticks too many",
        "    14 ticks of work are due by the deadline, 2 of them its own: 2 ticks too many",
        "meets 7, misses 2, unfinished 0, refused 1",
    ] {
        assert!(words.lines().any(|found| found == line), "{words}");
    }
}

#[test]
fn cradle_display_last() {
    let words = table_words(include_str!("../../tables/cradle_display_last.table"));
    let last = "
task 3, vertex 1: REFUSED (9): task 2 has more than 64 complete paths, so this was not judged
task 3, vertex 2: REFUSED (9): task 0 has more than 64 complete paths, so this was not judged
meets 8, misses 0, unfinished 0, refused 2
This may NOT go out: not every job type was shown to meet its deadline.
";
    assert!(words.ends_with(last), "{words}");
}

#[test]
fn cradle_display_sooner() {
    let words = table_words(include_str!("../../tables/cradle_display_sooner.table"));
    // The beeper: 1 + 3. The cable: 1 + 3 + 1, 2 + 3 + 1 and 4 + 3 + 1. The display, with 4 from the cable and 1 from the beeper: 6 and 8,
    // with 2 + 3 from the radio by tick 9; 1, with 3 at once.
    assert_eq!(worst_finishes(&words), [2, 3, 4, 4, 5, 6, 8, 16, 18, 9]);
    let last = "\nmeets 10, misses 0, unfinished 0, refused 0\nThis may go out: every job type meets its deadline.\n";
    assert!(words.ends_with(last), "{words}");
}

#[test]
fn unfinished_merged() {
    let words = table_words(include_str!("../../tables/unfinished_merged.table"));
    let line =
        "task 5, vertex 0: meets its deadline of 9 ticks, at worst after 9, 0 to spare (5 groups examined)\n";
    assert!(words.contains(line), "{words}");
}

#[test]
fn one_job() {
    let table = include_str!("../../tables/one_job.table");
    assert_eq!(table, common::text(&[common::task(&[(2, 5)], &[])]));
}

#[test]
fn branch() {
    let table = include_str!("../../tables/branch.table");
    let words = table_words(table);
    let line = "task 1, vertex 0: meets its deadline of 10 ticks, at worst after 9, 1 to spare (3 groups examined)";
    assert!(words.contains(&format!("{line}\n")), "{words}");
    // The second of the radio's paths.
    let releases = ", by these releases:\n    task 0: vertex 1 at tick 0\n";
    let words = words_with_why(table.as_bytes());
    assert!(words.contains(&format!("{line}{releases}")), "{words}");
}

#[test]
fn r1() {
    let table = include_str!("../../tables/r1.table");
    assert_eq!(table, common::text(&common::r1(2)));
}

#[test]
fn heavy() {
    let words = table_words(include_str!("../../tables/heavy.table"));
    let last = "
task 7, vertex 0: REFUSED (10): 74200 work cells are needed and there are 8192, so this was not judged
meets 10, misses 18, unfinished 0, refused 1
This may NOT go out: a job type misses its deadline.
";
    assert!(words.ends_with(last), "{words}");
}

#[test]
fn vendor_ring() {
    let table = include_str!("../../tables/vendor_ring.table");
    let words = table_words(table);
    // From the answer on, round the ring's end: 7 + 3 + 1 + 1 + 2 + 4 + 3 + 3 + 1.
    let miss = "
task 4, vertex 0: MISSES its deadline of 24 ticks (9 groups examined), shown by these releases:
    task 0: vertex 0 at tick 0, vertex 0 at tick 8, vertex 0 at tick 16
    task 1: vertex 3 at tick 0, vertex 0 at tick 4, vertex 1 at tick 8, vertex 2 at tick 16
    task 2: vertex 1 at tick 0, vertex 1 at tick 16
    task 3: vertex 0 at tick 0
    25 ticks of work are due by the deadline, 7 of them its own: 1 tick too many
";
    assert!(words.contains(miss), "{words}");
    // The radio: 1 more each, for a transfer. The mirror, with decoding first: 4 + 2 + 4, 3 + 1 + 4 and 2 + 1 + 4. The beeper: 1 + 2 + 4 + 4,
    // the mirror turning slowly. The count: 8 + 4 + 8 + 8 + 1, the mirror turning fast.
    let finishes = [1, 2, 3, 5, 2, 10, 8, 7, 11, 11, 29];
    assert_eq!(worst_finishes(&words), finishes);
    assert!(words.contains("\nmeets 11, misses 1, unfinished 0, refused 0\n"));
    // With 6 ticks to show a scan, and with the mirror turning slowly only.
    let yes = "\nThis may go out: every job type meets its deadline.\n";
    let shorter = table_words(&table.replace("0200070018", "0200060018"));
    assert!(shorter.ends_with(yes) && worst_finishes(&shorter)[10] == 24);
    let gears = "0703\n06000400200020\n06000300100010\n06000200080008\n";
    let slowly = table_words(&table.replace(gears, "0701\n06000400200020\n"));
    assert!(slowly.ends_with(yes) && worst_finishes(&slowly)[8] == 23);
}

#[test]
fn vendor_ring_as_plain_tasks() {
    let table = include_str!("../../tables/vendor_ring.table");
    let ring = "0504\n06000100040004\n06000200080008\n06000400100010\n06000100040004\n";
    let gears = "0703\n06000400200020\n06000300100010\n06000200080008\n";
    assert!(table.contains(&format!("{ring}{gears}")));
    let radio = common::task(
        &[(1, 4), (2, 8), (4, 16), (1, 4)],
        &[(0, 1, 4), (1, 2, 8), (2, 3, 16), (3, 0, 4)],
    );
    let mirror = common::task(
        &[(4, 32), (3, 16), (2, 8)],
        &[(0, 0, 32), (1, 1, 16), (2, 2, 8)],
    );
    let plain = table.replace(ring, &common::open_text(&[radio]));
    let plain = plain.replace(gears, &common::open_text(&[mirror]));
    assert_eq!(table_words(&plain), table_words(table));
    assert_eq!(
        common::writing::written_back(table.as_bytes()),
        plain.as_bytes()
    );
}

#[test]
fn cold_store() {
    let table = include_str!("../../tables/cold_store.table");
    let tasks = [
        common::task(&[(80, 320), (40, 300)], &[(0, 1, 320), (1, 0, 400)]),
        common::self_edge(150, 400, 800),
        common::self_edge(60, 500, 8_000),
        common::self_edge(300, 1_000, 4_000),
        common::self_edge(250, 1_000, 60_000),
    ];
    assert_eq!(table, common::text(&tasks));
    let words = table_words(table);
    // By tick 720 the receive windows at 0 and 720 and the send window at 320 have 80, then 120, and 200 behind it; decoding has 150, and 300
    // behind tick 800. The flush: 250 + 300 + 60 + 150 + 120 = 880 by tick 720, with 200 it is 960 by tick 800, and 1,110 by tick 1,000. All
    // paths of the radio together overload, and so do these: two groups.
    let miss = "
task 4, vertex 0: MISSES its deadline of 1000 ticks (2 groups examined), shown by these releases:
    task 0: vertex 0 at tick 0, vertex 1 at tick 320, vertex 0 at tick 720
    task 1: vertex 0 at tick 0, vertex 0 at tick 800
    task 2: vertex 0 at tick 0
    task 3: vertex 0 at tick 0
    1110 ticks of work are due by the deadline, 250 of them its own: 110 ticks too many
meets 5, misses 1, unfinished 0, refused 0
This may NOT go out: a job type misses its deadline.
";
    assert!(words.ends_with(miss), "{words}");
    // The radio: its own. Decoding: 150 + 80 by tick 320. The sensors: 60 + 80 + 150. The display: 300 + 60 + 150 and 120 by tick 720.
    assert_eq!(worst_finishes(&words), [80, 40, 230, 290, 630]);
    let frames = "1000000000000001\n1000010000000001\n1001000000000001\n1002000000000001\n1003000000000001\n\
                  1004000100000002\n12000003000100\n120100020000\n1202000100\n1203000100\n1f05010000\n";
    assert_eq!(second::desk::output(table.as_bytes()), frames);
    // A flush of 140 has 1,000 by tick 1,000, and one of 141 a tick too many.
    let yes = "\nThis may go out: every job type meets its deadline.\n";
    let shorter = table_words(&table.replace("0200fa03e8", "02008c03e8"));
    assert!(shorter.ends_with(yes) && worst_finishes(&shorter)[5] == 1_000);
    let longer = table_words(&table.replace("0200fa03e8", "02008d03e8"));
    assert!(longer.contains("141 of them its own: 1 tick too many\n"));
    // With 1,000 between two scans, only one is decoded: 250 + 300 + 60 + 150 + 200.
    let seldom = table_words(&table.replace("0300000320", "03000003e8"));
    assert!(seldom.ends_with(yes) && worst_finishes(&seldom)[5] == 960);
}
