//! Rings and gear tables: the plain tasks that they stand for, and what is judged and written of them, worked out by hand.

use crate::common::refused::check;
use crate::common::vendors::{vendor_task, KINDS};
use crate::common::writing::record;
use crate::common::*;
use second::case::{Case, BACK};
use second::desk;
use second::record::Record;
use second::text::read;
use second::words::{words, words_with_why};

/// Checks that a text is read as these tasks, just as their plain text is, and that both are judged alike.
fn check_reads_as(ring: &str, tasks: &[Task]) {
    let table = read(ring.as_bytes()).unwrap();
    assert_eq!(Record::from(&table), record(tasks));
    let plain = text(tasks);
    assert_eq!(Ok(table), read(plain.as_bytes()));
    let (ring, plain) = (ring.as_bytes(), plain.as_bytes());
    assert_eq!(desk::output(ring), desk::output(plain));
    assert_eq!(words(ring), words(plain));
    assert_eq!(words_with_why(ring), words_with_why(plain));
}

#[test]
fn one_vertex_leads_to_itself_in_both() {
    for kind in KINDS {
        let text = format!("{kind}01\n06000200050007\n00\n");
        check_reads_as(&text, &[self_edge(2, 5, 7)]);
    }
}

#[test]
fn two_vertices() {
    let lines = "06000100030004\n06000200050009\n00\n";
    let vertices = [(1, 3), (2, 5)];
    let ring = task(&vertices, &[(0, 1, 4), (1, 0, 9)]);
    check_reads_as(&format!("0502\n{lines}"), &[ring]);
    let gears = task(&vertices, &[(0, 0, 4), (1, 1, 9)]);
    check_reads_as(&format!("0702\n{lines}"), &[gears]);
}

#[test]
fn three_vertices() {
    let lines = "0600010004000a\n06000200050010\n06000300060008\n00\n";
    let vertices = [(1, 4), (2, 5), (3, 6)];
    let ring = task(&vertices, &[(0, 1, 10), (1, 2, 16), (2, 0, 8)]);
    check_reads_as(&format!("0503\n{lines}"), &[ring]);
    let gears = task(&vertices, &[(0, 0, 10), (1, 1, 16), (2, 2, 8)]);
    check_reads_as(&format!("0703\n{lines}"), &[gears]);
}

/// Twelve vertices' lines: e from 1 to 12, d from 21 to 32, p from 101 to 112.
const TWELVE_LINES: &str = "\
06000100150065
06000200160066
06000300170067
06000400180068
06000500190069
060006001a006a
060007001b006b
060008001c006c
060009001d006d
06000a001e006e
06000b001f006f
06000c00200070
";

/// Those vertices.
const TWELVE: [(u32, u32); 12] = [
    (1, 21),
    (2, 22),
    (3, 23),
    (4, 24),
    (5, 25),
    (6, 26),
    (7, 27),
    (8, 28),
    (9, 29),
    (10, 30),
    (11, 31),
    (12, 32),
];

#[test]
fn twelve_vertices_in_a_ring() {
    let edges = [
        (0, 1, 101),
        (1, 2, 102),
        (2, 3, 103),
        (3, 4, 104),
        (4, 5, 105),
        (5, 6, 106),
        (6, 7, 107),
        (7, 8, 108),
        (8, 9, 109),
        (9, 10, 110),
        (10, 11, 111),
        (11, 0, 112),
    ];
    let text = format!("050c\n{TWELVE_LINES}00\n");
    check_reads_as(&text, &[task(&TWELVE, &edges)]);
}

#[test]
fn twelve_vertices_in_a_gear_table() {
    let edges = [
        (0, 0, 101),
        (1, 1, 102),
        (2, 2, 103),
        (3, 3, 104),
        (4, 4, 105),
        (5, 5, 106),
        (6, 6, 107),
        (7, 7, 108),
        (8, 8, 109),
        (9, 9, 110),
        (10, 10, 111),
        (11, 11, 112),
    ];
    let text = format!("070c\n{TWELVE_LINES}00\n");
    check_reads_as(&text, &[task(&TWELVE, &edges)]);
}

#[test]
fn numbers_have_the_high_byte_first() {
    let lines = "06008100c80304\n0603e803e8ea60\n06000100010001\n00\n";
    let vertices = [(129, 200), (1_000, 1_000), (1, 1)];
    let ring = task(&vertices, &[(0, 1, 772), (1, 2, 60_000), (2, 0, 1)]);
    check_reads_as(&format!("0503\n{lines}"), &[ring]);
}

/// A ring, a gear table and a ring beside plain tasks, two with a masked length.
const BESIDE_PLAIN_TASKS: &str = "\
010101
0200020005
0300000005
0502
06000100080008
06000200090014
0401000003
0200040064
0702
06000100140014
06000200280028
0401010002
0200020064
0300000064
0501
06000100640064
00
";

#[test]
fn beside_plain_tasks_with_and_without_a_masked_length() {
    let tasks = [
        self_edge(2, 5, 5),
        task(&[(1, 8), (2, 9)], &[(0, 1, 8), (1, 0, 20)]),
        masked(3, task(&[(4, 100)], &[])),
        // Behind tasks with a masked length, without one.
        task(&[(1, 20), (2, 40)], &[(0, 0, 20), (1, 1, 40)]),
        masked(2, self_edge(2, 100, 100)),
        self_edge(1, 100, 100),
    ];
    check_reads_as(BESIDE_PLAIN_TASKS, &tasks);
    // B is 3 above task 2: 2 + 3; with one or two releases of task 0, 1 + 3 + 4 and 2 + 3 + 4.
    let first = "\
task 0, vertex 0: meets its deadline of 5 ticks, at worst after 5 (3 ticks of it are task 2's masked time), 0 to spare (1 group examined)
task 1, vertex 0: meets its deadline of 8 ticks, at worst after 8 (3 ticks of it are task 2's masked time), 0 to spare (1 group examined)
task 1, vertex 1: meets its deadline of 9 ticks, at worst after 9 (3 ticks of it are task 2's masked time), 0 to spare (1 group examined)
";
    let said = words(BESIDE_PLAIN_TASKS.as_bytes());
    assert!(said.starts_with(first), "{said}");
    // The ring below task 4 masks nothing: 2, 4 releases of task 0, 1 + 2 round the ring, 4, and 2 in the second gear.
    let line = "\ntask 4, vertex 0: meets its deadline of 100 ticks, at worst after 19, 81 to spare (1 group examined)\n";
    assert!(said.contains(line), "{said}");
}

#[test]
fn eight_tasks_in_every_mixture() {
    let ways = [
        ("010101\n0200010064\n0300000064\n", 0),
        ("0401010001\n0200010064\n0300000064\n", 1),
        ("0501\n06000100640064\n", 0),
        ("0701\n06000100640064\n", 0),
    ];
    for first in 0..4 {
        for step in [0, 1, 2, 3] {
            let chosen = |number: usize| ways[(first + step * number) % 4];
            let lines: String = (0..8).map(|number| chosen(number).0).collect();
            let one = |number| masked(chosen(number).1, self_edge(1, 100, 100));
            let tasks: Vec<_> = (0..8).map(one).collect();
            check_reads_as(&(lines + "00\n"), &tasks);
        }
    }
}

#[test]
fn the_longest_text_of_rings() {
    for kind in KINDS {
        // A frame of 5 bytes and twelve of 15, eight times, and the end.
        let mut longest = vendor_task(kind, &[(1_000, 1_000, 60_000); 12]).repeat(8) + "00\n";
        assert_eq!(longest.len(), 8 * (5 + 12 * 15) + 3);
        assert_eq!(check(longest.as_bytes()), (0, 0));
        let table = read(longest.as_bytes()).unwrap();
        assert_eq!(table.numbers().count(), 96);
        longest.push('0');
        assert_eq!(check(longest.as_bytes()), (7, 8 * 13 + 2));
    }
}

#[test]
fn r1_as_rings_and_gear_tables_of_one() {
    let output = "1000000000000001\n1001000000000001\n1002000100000001\n\
                  120000020000\n1201000100\n1f02010000\n";
    for [first, second, third] in [
        ["05", "05", "05"],
        ["07", "07", "07"],
        ["05", "07", "05"],
        ["07", "05", "07"],
    ] {
        let text = format!(
            "{first}01\n06000200050005\n{second}01\n06000200070007\n{third}01\n06000200060007\n00\n"
        );
        assert_eq!(desk::output(text.as_bytes()), output);
        check_reads_as(&text, &r1(2));
    }
}

/// A ring or a gear table of (1,4,4), (3,5,5) and (2,6,6), and below it one vertex (e, 6): the desk's output, without the first three frames.
fn above_one_vertex(kind: &str, e: u32) -> String {
    let vertex = vertex_line(e, 6);
    let text =
        format!("{kind}03\n06000100040004\n06000300050005\n06000200060006\n010100\n{vertex}00\n");
    let output = desk::output(text.as_bytes());
    // Nothing is above the three, and no e exceeds its d.
    let first = "1000000000000001\n1000010000000001\n1000020000000001\n";
    output.strip_prefix(first).unwrap().into()
}

#[test]
fn a_ring_above_a_vertex() {
    // Up to tick 6 the paths are (0,1), with 1 and from tick 5 on 4; (1,2), with 3 and at tick 6 5; and (2), with 2.
    // Each leaves a tick free with e 2: tick 3, 5 and 4. All three together don't, at tick 5 2 + 4 and at tick 6 2 + 5; the first two
    // don't either. So all five groups are examined.
    assert_eq!(above_one_vertex("05", 2), "1001000000000005\n1f04000000\n");
    // With e 3 the first leaves tick 4 free, and the second none.
    let miss = "1001000100000004\n120000020102\n1f03010000\n";
    assert_eq!(above_one_vertex("05", 3), miss);
    // With e 1 all three together leave tick 4 free.
    assert_eq!(above_one_vertex("05", 1), "1001000000000001\n1f04000000\n");
}

#[test]
fn a_gear_table_above_a_vertex() {
    // Up to tick 6 the paths are (0,0), with 1 and from tick 5 on 2; (1,1), with 3 and at tick 6 6; and (2), with 2.
    // All three together leave tick 5 free with e 2.
    assert_eq!(above_one_vertex("07", 2), "1001000000000001\n1f04000000\n");
    // With e 3 the first leaves tick 4 free, and the second none.
    let miss = "1001000100000004\n120000020101\n1f03010000\n";
    assert_eq!(above_one_vertex("07", 3), miss);
}

#[test]
fn round_a_ring_of_two() {
    let check = |ring: &str, judged: &str, miss: &str| {
        let text = format!("0502\n{ring}010100\n{judged}00\n");
        let own = "1000000000000001\n1000010000000001\n";
        let output = format!("{own}{miss}1f02010000\n");
        assert_eq!(desk::output(text.as_bytes()), output);
    };
    // Vertex 0 is released at 0 and 5, vertex 1 at 2: 2, 5 from tick 3 on, 7 at tick 6. With e 1 that exceeds every tick.
    check(
        "06000200020002\n06000300030003\n",
        "0200010006\n",
        "1001000100000002\n12000003000100\n",
    );
    // With e 2 and d 5, (0,1), with 1 and from tick 4 on 4, leaves tick 3 free, and (1,0), with 3 and from tick 4 on 4, none.
    check(
        "06000100020003\n06000300030003\n",
        "0200020005\n",
        "1001000100000003\n120000020100\n",
    );
    // It is the last p that leads to the first: with that one longer and the first one shorter, (0,1) overloads, with 4 from tick 3 on.
    check(
        "06000100020002\n06000300030004\n",
        "0200020005\n",
        "1001000100000002\n120000020001\n",
    );
}

#[test]
fn written_as_a_plain_task() {
    let back = |text: &str, area: u32| {
        let case = Case {
            work: area,
            ..Case::plain(BACK, text.into())
        };
        String::from_utf8(case.answer(&mut [], &mut [])).unwrap()
    };
    let ring = "0503\n0600010004000a\n06000200050010\n06000300060008\n00\n";
    let written = "010303\n0200010004\n0200020005\n0200030006\n\
                   030001000a\n0301020010\n0302000008\n00\n";
    // A frame of 7 bytes, six of 11, and the end: 76, or 4c in digits.
    assert_eq!(written.len(), 76);
    let answer = format!("000000004c0000004c01\n{written}");
    for area in [76, 77, 4_000] {
        assert_eq!(back(ring, area), answer);
    }
    // The ring itself has 5 + 3 x 15 + 3 bytes, which aren't enough.
    for area in [0, 53, 75] {
        assert_eq!(back(ring, area), "0a0000004c0000000001\n");
    }
    let gears = ring.replace("0503", "0703");
    let written = "010303\n0200010004\n0200020005\n0200030006\n\
                   030000000a\n0301010010\n0302020008\n00\n";
    let answer = format!("000000004c0000004c01\n{written}");
    assert_eq!(back(&gears, 76), answer);
}

#[test]
fn words_for_a_refused_line() {
    let refused = |text: &str, row: &str| {
        let last = "This may NOT go out: the table can't be read, so nothing was judged.\n";
        assert_eq!(words(text.as_bytes()), format!("REFUSED {row}\n{last}"));
    };
    refused(
        "0702\n06000100050005\n06000100050004\n",
        "(4) at line 3: the deadline of the edge's starting vertex exceeds the separation\n    06000100050004",
    );
    refused(
        "0501\n0200010005\n",
        "(2) at line 2: this kind of frame isn't allowed here, or its length is wrong for its kind\n    0200010005",
    );
}
