//! The answers to a record, to a list of cells and to a text that is written back, worked out by hand.

use crate::common::{masked, r1, self_edge, task, text};
use second::case::{Case, BACK, CELLS, RECORD};

/// R1's text, of 90 bytes.
const R1: &str = "010101\n0200020005\n0300000005\n010101\n0200020007\n0300000007\n\
                  010101\n0200020006\n0300000007\n00\n";

/// What is answered to these bytes, with an area of so many bytes.
fn answer(mode: u8, bytes: &[u8], area: u32) -> String {
    repeated(mode, bytes, area, 0)
}

/// What is answered to these bytes with an area and a budget.
fn repeated(mode: u8, bytes: &[u8], area: u32, budget: u32) -> String {
    let case = Case {
        budget,
        work: area,
        ..Case::plain(mode, bytes.to_vec())
    };
    String::from_utf8(case.answer(&mut [], &mut [])).unwrap()
}

/// The answer of a text that was written: all else of the area is unchanged.
fn written(text: &str) -> String {
    let bytes = text.len();
    format!("00{bytes:08x}{bytes:08x}01\n{text}")
}

/// The answer of a refusal: all of the area is unchanged.
fn refused(number: u8, place: u32) -> String {
    format!("{number:02x}{place:08x}0000000001\n")
}

/// Numbers of 2 bytes each.
fn cells(numbers: &[u16]) -> Vec<u8> {
    numbers.iter().flat_map(|n| n.to_be_bytes()).collect()
}

/// A task of a record, 182 bytes: m and the counts, one vertex, one edge; zeros in the other places.
fn laid_out(counts: [u16; 3], vertex: [u16; 2], edge: [u16; 2]) -> Vec<u8> {
    let mut bytes = cells(&counts);
    bytes.extend(cells(&vertex));
    bytes.resize(54, 0);
    bytes.extend(cells(&edge));
    bytes.resize(182, 0);
    bytes
}

/// R1 as a record.
fn r1_record() -> Vec<u8> {
    let one = |e, d, p| laid_out([0, 1, 1], [e, d], [0, p]);
    [vec![0, 3], one(2, 5, 5), one(2, 7, 7), one(2, 6, 7)].concat()
}

/// R1 as cells.
fn r1_cells() -> Vec<u8> {
    let one = |e, d, p| cells(&[1, 1, 0, e, d, 0, 0, p]);
    [one(2, 5, 5), one(2, 7, 7), one(2, 6, 7)].concat()
}

#[test]
fn r1_in_each_way() {
    assert_eq!(text(&r1(2)), R1);
    for (mode, bytes) in [
        (RECORD, r1_record()),
        (CELLS, r1_cells()),
        (BACK, R1.into()),
    ] {
        for area in [90, 91, 200, 4_000] {
            assert_eq!(answer(mode, &bytes, area), written(R1));
        }
        for area in [0, 1, 89] {
            assert_eq!(answer(mode, &bytes, area), refused(10, 90));
        }
    }
    // The whole answer once as it stands.
    let first = "000000005a0000005a01\n010101\n0200020005\n";
    assert!(answer(CELLS, &r1_cells(), 90).starts_with(first));
    assert_eq!(
        answer(CELLS, &r1_cells(), 89),
        "0a0000005a0000000001\n".to_string()
    );
}

#[test]
fn records_that_end_early_or_go_on() {
    assert_eq!(answer(RECORD, &[], 9), refused(2, 1));
    assert_eq!(answer(RECORD, &[0], 9), refused(2, 1));
    // One task without vertices, 256 tasks of which the first has none.
    assert_eq!(answer(RECORD, &[0, 1], 9), refused(3, 1));
    assert_eq!(answer(RECORD, &[1], 9), refused(3, 1));
    // R1's last byte but the zeros is the low byte of p.
    let whole = r1_record();
    let end = 2 + 2 * 182 + 58;
    assert_eq!(answer(RECORD, &whole[..end], 90), written(R1));
    assert_eq!(answer(RECORD, &whole[..end - 1], 90), refused(3, 9));
    // p of 256 without its low byte.
    let one = [vec![0, 1], laid_out([0, 1, 1], [1, 5], [0, 256])].concat();
    let expected = "010101\n0200010005\n0300000100\n00\n";
    assert_eq!(answer(RECORD, &one[..2 + 57], 99), written(expected));
    // Bytes behind the eight tasks.
    let mut long = whole;
    long.resize(1_458, 0);
    long.extend([0xff; 200]);
    assert_eq!(answer(RECORD, &long, 90), written(R1));
}

#[test]
fn what_lies_behind_the_counts() {
    let mut junk = r1_record();
    junk.resize(1_458, 0);
    for task in 0..8 {
        let front = 2 + 182 * task;
        let first = if task < 3 { 10 } else { 0 };
        junk[front + first..front + 54].fill(0xff);
        let first = if task < 3 { 58 } else { 54 };
        junk[front + first..front + 182].fill(0xff);
    }
    assert_eq!(answer(RECORD, &junk, 90), written(R1));
    // With one vertex more, the junk is part of the table; with one task more, too; with none, nothing is.
    let with = |at: usize, byte: u8| {
        let mut bytes = junk.clone();
        bytes[at] = byte;
        answer(RECORD, &bytes, 4_000)
    };
    assert_eq!(with(2 + 3, 2), refused(3, 3));
    assert_eq!(with(2 + 5, 2), refused(3, 4));
    assert_eq!(with(1, 4), refused(3, 10));
    assert_eq!(with(1, 0), refused(2, 1));
    assert_eq!(with(1, 1), written("010101\n0200020005\n0300000005\n00\n"));
}

#[test]
fn counts_beyond_the_record() {
    let eight = laid_out([0, 1, 1], [1, 5], [0, 5]).repeat(8);
    let record = |n: u16, change: fn(&mut Vec<u8>)| {
        let mut tasks = eight.clone();
        change(&mut tasks);
        [n.to_be_bytes().to_vec(), tasks].concat()
    };
    let whole = "010101\n0200010005\n0300000005\n".repeat(8) + "00\n";
    assert_eq!(answer(RECORD, &record(8, |_| ()), 4_000), written(&whole));
    // Three lines a task.
    for n in [9, 10, 256, 264, 1_000, 65_535] {
        assert_eq!(answer(RECORD, &record(n, |_| ()), 4_000), refused(2, 25));
        let faulty = record(n, |tasks| tasks[7 * 182 + 57] = 4);
        assert_eq!(answer(RECORD, &faulty, 4_000), refused(4, 24));
        let faulty = record(n, |tasks| tasks[3] = 0);
        assert_eq!(answer(RECORD, &faulty, 0), refused(3, 1));
    }
    for count in [13, 256, 257, 268, 300, 65_535] {
        let many_vertices = [vec![0, 1], laid_out([0, count, 0], [1, 5], [0, 5])].concat();
        assert_eq!(answer(RECORD, &many_vertices, 4_000), refused(3, 1));
    }
    for count in [33, 256, 257, 288, 65_535] {
        let many_edges = [vec![0, 1], laid_out([0, 1, count], [1, 5], [0, 5])].concat();
        assert_eq!(answer(RECORD, &many_edges, 4_000), refused(3, 1));
    }
}

#[test]
fn from_and_to_of_a_record_have_a_byte_each() {
    let record = |ends: u16| [vec![0, 1], laid_out([0, 1, 1], [1, 5], [ends, 5])].concat();
    let one = "010101\n0200010005\n0300000005\n00\n";
    assert_eq!(answer(RECORD, &record(0), 32), written(one));
    for ends in [1, 255, 256, 257, 65_535] {
        assert_eq!(answer(RECORD, &record(ends), 32), refused(3, 3));
    }
}

#[test]
fn lists_of_cells_that_end_inside_a_task() {
    let one = cells(&[1, 1, 0, 2, 5, 0, 0, 5]);
    let whole = "010101\n0200020005\n0300000005\n00\n";
    assert_eq!(answer(CELLS, &one, 50), written(whole));
    // No cell; the counts; e; d; and p, since from and to may be 0.
    for (cells, line) in [(1, 2), (2, 2), (3, 2), (4, 2), (5, 3), (6, 3), (7, 3)] {
        for bytes in [2 * cells, 2 * cells + 1] {
            assert_eq!(answer(CELLS, &one[..bytes], 50), refused(3, line));
        }
    }
    for bytes in [0, 1] {
        assert_eq!(answer(CELLS, &one[..bytes], 50), refused(2, 1));
    }
    // A last odd byte is ignored; a whole cell of 0 is a second task without vertices.
    assert_eq!(
        answer(CELLS, &[&one[..], &[7]].concat(), 50),
        written(whole)
    );
    assert_eq!(
        answer(CELLS, &[&one[..], &[0, 0]].concat(), 50),
        refused(3, 4)
    );
    // A fault before the end comes first.
    let faulty = cells(&[2, 0, 0, 1_001, 5]);
    assert_eq!(answer(CELLS, &faulty, 50), refused(3, 2));
    let faulty = cells(&[1, 2, 0, 2, 5, 0, 0, 4]);
    assert_eq!(answer(CELLS, &faulty, 50), refused(4, 3));
    assert_eq!(answer(CELLS, &cells(&[65_535, 65_535]), 50), refused(3, 1));
}

#[test]
fn cells_of_more_than_a_byte() {
    for (from, to) in [(256, 0), (0, 256), (256, 256), (65_535, 0), (0, 65_535)] {
        let list = cells(&[1, 1, 0, 2, 5, from, to, 5]);
        assert_eq!(answer(CELLS, &list, 50), refused(3, 3));
    }
    for (vertices, edges, m) in [(257, 1, 0), (1, 257, 0), (1, 1, 1_001), (1, 1, 65_535)] {
        let list = cells(&[vertices, edges, m, 2, 5, 0, 0, 5]);
        assert_eq!(answer(CELLS, &list, 50), refused(3, 1));
    }
}

#[test]
fn nine_tasks_of_cells() {
    let one = cells(&[1, 0, 0, 1, 5]);
    let whole = "010100\n0200010005\n".repeat(8) + "00\n";
    assert_eq!(answer(CELLS, &one.repeat(8), 4_000), written(&whole));
    for count in [9, 10, 500] {
        assert_eq!(answer(CELLS, &one.repeat(count), 4_000), refused(2, 17));
    }
    for ninth in [&[0, 0][..], &[0, 1], &[255; 7]] {
        let list = [&one.repeat(8), ninth].concat();
        assert_eq!(answer(CELLS, &list, 4_000), refused(2, 17));
        // The high byte of the eighth task's d, which is 1,029 then.
        let mut faulty = list;
        faulty[7 * 10 + 8] = 4;
        assert_eq!(answer(CELLS, &faulty, 4_000), refused(3, 16));
    }
}

#[test]
fn texts_written_back() {
    let masked = text(&[masked(2, self_edge(2, 5, 5)), task(&[(1, 9)], &[])]);
    for budget in [0, 1, 2, 1_000] {
        let answer = |bytes: &str, area: u32| repeated(BACK, bytes.as_bytes(), area, budget);
        assert_eq!(answer(R1, 100), written(R1));
        assert_eq!(answer(&masked, 54), written(&masked));
        assert_eq!(answer(&masked, 53), refused(10, 54));
        // A refused text's answer is that of its check, whatever the area.
        for area in [0, 100] {
            assert_eq!(answer("", area), "1e060001\n");
            assert_eq!(answer("00\n", area), "1e020001\n");
            assert_eq!(answer("010101\n02", area), "1e010002\n");
            assert_eq!(answer(&(R1.to_string() + "\n"), area), "1e07000b\n");
        }
    }
}
