//! The program itself: its ways to run, and its exit statuses.

use crate::common::{
    answered, answered_lines, r1, run, self_edge, sequence_of, task, text, with_length,
};
use second::case::{CHECK, DESK, FINISHES, LIST, UNMARKED};

/// R1's output.
const R1_OUTPUT: &str = "1000000000000001\n1001000000000001\n1002000100000001\n\
                         120000020000\n1201000100\n1f02010000\n";

#[test]
fn one_input() {
    let found = run(&[], text(&r1(2)).as_bytes());
    assert_eq!(found.status.code(), Some(0));
    assert_eq!(found.stdout, R1_OUTPUT.as_bytes());
    assert!(found.stderr.is_empty());
}

#[test]
fn one_input_around_the_longest() {
    assert_eq!(run(&[], b"").stdout, b"1e060001\n");
    assert_eq!(run(&[], &[b'0'; 8_191]).stdout, b"1e010001\n");
    for bytes in [8_192, 8_193, 300_000] {
        let found = run(&[], &vec![b'0'; bytes]);
        assert_eq!(found.stdout, b"1e0c0000\n");
        assert_eq!(found.status.code(), Some(0));
    }
}

#[test]
fn the_desks_outputs() {
    let r1 = text(&r1(2));
    let texts = [r1.as_bytes(), b"", b"00\n", &[0; 9_000], r1.as_bytes()];
    let outputs = [
        R1_OUTPUT,
        "1e060001\n",
        "1e020001\n",
        "1e0c0000\n",
        R1_OUTPUT,
    ];
    let expected = outputs.map(|output| with_length(output.as_bytes()));
    assert_eq!(answered(&sequence_of(DESK, &texts)), expected.concat());
}

#[test]
fn checked_texts() {
    let r1 = text(&r1(2));
    let texts = [r1.as_bytes(), b"", b"00\n", &[0; 9_000], b"010101\n02"];
    let expected = "00\n1e060001\n1e020001\n1e010001\n1e010002\n";
    assert_eq!(answered_lines(&sequence_of(CHECK, &texts)), expected);
}

#[test]
fn listed_texts() {
    let r3 = text(&[self_edge(2, 5, 5), task(&[(1, 6)], &[])]);
    let r7 = task(&[(3, 10), (1, 2), (4, 10)], &[(1, 2, 2)]);
    let r7 = text(&[r7, task(&[(1, 5)], &[])]);
    let edges: Vec<_> = (0..16).map(|n| (n / 4, n % 4, 10)).collect();
    let r10 = |d| text(&[task(&[(1, 10); 4], &edges), task(&[(1, d)], &[])]);
    let (r10, more) = (r10(31), r10(41));
    let texts = [
        r3.as_bytes(),
        b"00\n",
        r7.as_bytes(),
        r10.as_bytes(),
        more.as_bytes(),
    ];
    // R3's load is 2 up to tick 5 and then 4; the other task's is 1 throughout.
    let mut expected = "1\n0 0\n54\n1\n0\n21\n-\n".to_string();
    // R7's rows, from tick 1: (0) 3 3 3 3 3, (0) and (1,2) 3 3 5 5 5, (1,2) 1 1 5 5 5, all three 4 4 5 5 5, (2) 4 4 4 4 4.
    expected += "3\n0\n1 2\n2\n1329\n1\n0\n15\n";
    let first = |vertices: [&str; 8]| vertices.map(|line| format!("{line}\n")).concat();
    expected += "256\n";
    expected += &first([
        "0 0 0 0", "0 0 0 1", "0 0 0 2", "0 0 0 3", "0 0 1 0", "0 0 1 1", "0 0 1 2", "0 0 1 3",
    ]);
    expected += "1\n0\n496\n";
    // 1,024 paths: more than are counted.
    expected += "257\n";
    expected += &first([
        "0 0 0 0 0",
        "0 0 0 0 1",
        "0 0 0 0 2",
        "0 0 0 0 3",
        "0 0 0 1 0",
        "0 0 0 1 1",
        "0 0 0 1 2",
        "0 0 0 1 3",
    ]);
    expected += "1\n0\n861\n";
    assert_eq!(answered_lines(&sequence_of(LIST, &texts)), expected);
}

#[test]
fn tabled_texts() {
    let r1 = text(&r1(2));
    let edges = |p| (0..16).map(|n| (n / 4, n % 4, p)).collect::<Vec<_>>();
    // The last vertex has 256 paths above it; or 64, which need more work cells than the desk has, and it is free at tick 2.
    let [many, large] = [(10, 31), (70, 200)].map(|(p, d)| {
        let above = task(&[(1, 10); 4], &edges(p));
        text(&[above, task(&[(1, d)], &[])])
    });
    let texts = [&r1, "", "00\n", &many, &large].map(str::as_bytes);
    let expected = "1f02010000\n1e060001\n1e020001\n1f04000001\n1f05000000\n";
    assert_eq!(answered_lines(&sequence_of(UNMARKED, &texts)), expected);
    // The worst finishes: 2 and 4 in R1; 1 of each vertex of the first task, and 2 of the last one that isn't refused.
    let expected =
        "1f0201000000000006\n1e060001\n1e020001\n1f0400000100000004\n1f0500000000000006\n";
    assert_eq!(answered_lines(&sequence_of(FINISHES, &texts)), expected);
}

#[test]
fn a_mode_that_there_is_not() {
    for mode in (0..=255).filter(|mode| !b"cldvftugwyrkb".contains(mode)) {
        let expected = format!("no such mode: {mode:02x}\n");
        assert_eq!(answered_lines(&sequence_of(mode, &[b"00\n"])), expected);
    }
}

#[test]
fn no_cases() {
    assert!(answered(b"").is_empty());
}

#[test]
fn a_broken_sequence() {
    for mode in *b"cldvftugwyrkb" {
        let whole = sequence_of(mode, &[b"00\n"]);
        let beginnings = (1..whole.len()).map(|end| whole[..end].to_vec());
        for broken in beginnings.chain([vec![0xff; 4], vec![0xff; 100]]) {
            for sequence in [broken.clone(), [whole.clone(), broken].concat()] {
                let found = run(&["cases"], &sequence);
                assert_eq!(found.status.code(), Some(1));
                assert!(!found.stderr.is_empty());
            }
        }
    }
}

#[test]
fn wrong_arguments() {
    for arguments in [
        &["one"][..],
        &["cases", "more"],
        &["many"],
        &["--help"],
        &[""],
    ] {
        let found = run(arguments, b"");
        assert_eq!(found.status.code(), Some(2));
        assert!(found.stdout.is_empty());
        assert_eq!(String::from_utf8(found.stderr).unwrap().lines().count(), 1);
    }
}
