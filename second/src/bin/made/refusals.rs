//! Texts with every refusal from 1 to 7, at each bound and one past it. Those of refusal 13 are in `slips`.

use super::{bench, edge_line, masked_task, masked_task_line, task, vertex_line};

/// The lines of a small valid text: two vertices, two edges.
pub const LINES: [&str; 6] = [
    "010202\n",
    "0200020005\n",
    "0200010006\n",
    "0300010005\n",
    "0301000006\n",
    "00\n",
];

/// The lines of a small valid text with a masked length, which is the largest e: three vertices, two edges.
const MASKED_LINES: [&str; 7] = [
    "0403020002\n",
    "0200010005\n",
    "0200020006\n",
    "0200010006\n",
    "0300010005\n",
    "0301000006\n",
    "00\n",
];

/// Adds every text.
pub fn add(texts: &mut Vec<Vec<u8>>) {
    lines(texts);
    frames(texts);
    ninth_tasks(texts);
    counts(texts);
    bounds(texts);
    masked_lengths(texts);
    faults_beside_m(texts);
    edges(texts);
    ends(texts);
    digits(texts, "010101\n02000103e8\n030000ea60\n00\n", [13, 24]);
}

/// Refusal 1: the text with a foreign byte in each of the four digits of the numbers that begin at these bytes.
pub fn digits(texts: &mut Vec<Vec<u8>>, valid: &str, numbers: [usize; 2]) {
    texts.push(valid.into());
    for digit in numbers.into_iter().flat_map(|first| first..first + 4) {
        for foreign in [b'g', b'A', b' ', 0xe9] {
            let mut text = valid.as_bytes().to_vec();
            text[digit] = foreign;
            texts.push(text);
        }
    }
}

/// The valid lines with one of them, from 1, replaced.
pub fn with(line: usize, replacement: &str) -> Vec<u8> {
    replaced(&LINES, line, replacement)
}

/// The text of these lines with one of them, from 1, replaced.
pub fn replaced(lines: &[&str], line: usize, replacement: &str) -> Vec<u8> {
    let mut lines = lines.to_vec();
    lines[line - 1] = replacement;
    lines.concat().into_bytes()
}

/// Refusal 1: every line faulty in every way, and the text cut off at every byte.
fn lines(texts: &mut Vec<Vec<u8>>) {
    let whole = LINES.concat();
    for end in 0..=whole.len() {
        texts.push(whole.as_bytes()[..end].to_vec());
    }
    for (line, good) in (1..).zip(LINES) {
        let digits = good.trim_end();
        for more in ["0", "\r", " ", "0A", "0g", "0/", "0:", "0`", "\0\0", "é"] {
            texts.push(with(line, &format!("{digits}{more}\n")));
        }
        texts.push(with(line, "\n"));
        texts.push(with(line, &format!("{}\n", &digits[1..])));
        texts.push(with(line, &format!(" {digits}\n")));
        texts.push(with(line, &digits.replace('0', "F")));
    }
    for text in ["zz", "\n", "\n\n", "00", "010101", "\u{feff}010101\n"] {
        texts.push(text.into());
    }
    let masked = MASKED_LINES[0].trim_end();
    for end in 1..=masked.len() {
        texts.push(masked[..end].into());
    }
    for more in ["0", "\r", "0A", "0g"] {
        texts.push(format!("{masked}{more}\n").into_bytes());
    }
}

/// Refusal 2: kinds that aren't allowed here, and lengths wrong for their kind.
fn frames(texts: &mut Vec<Vec<u8>>) {
    for line in 1..=LINES.len() {
        for frame in [
            "00\n",
            "010101\n",
            "0200010005\n",
            "0300000006\n",
            "04\n",
            "04010101\n",
            "0401010001\n",
            "040101000100\n",
            "0500010005\n",
            "10\n",
            "1f00000000\n",
            "ff\n",
            "01\n",
            "0102\n",
            "01020200\n",
            "02\n",
            "02000200\n",
            "020002000500\n",
            "03\n",
            "03000100\n",
            "030001000500\n",
            "0000\n",
        ] {
            texts.push(with(line, frame));
        }
    }
}

/// Refusal 2: a ninth task, with or without a masked length, whatever its length and its numbers.
fn ninth_tasks(texts: &mut Vec<Vec<u8>>) {
    let eight = task(&[(1, 1)], &[]).repeat(8);
    for ninth in ["", "00\n", "010100\n", "01\n", "010000\n", "01ffff\n"] {
        texts.push((eight.clone() + ninth).into_bytes());
    }
    for ninth in ["0401000001\n", "04\n", "0400000000\n", "04ffffffff\n"] {
        texts.push((eight.clone() + ninth).into_bytes());
    }
    let [plain, masked] = [task(&[(1, 1)], &[]), masked_task(1, &[(1, 1)], &[])];
    texts.push((eight.clone() + &plain + "00\n").into_bytes());
    texts.push((eight + &masked + "00\n").into_bytes());
    for count in [8, 9] {
        texts.push((masked.repeat(count) + "00\n").into_bytes());
    }
}

/// Refusal 3 in a task frame: the counts of vertices and edges.
fn counts(texts: &mut Vec<Vec<u8>>) {
    for vertices in [0, 1, 12, 13, 255] {
        let lines = task(&vec![(1, 1); vertices], &[]);
        texts.push((lines + "00\n").into_bytes());
    }
    for count in [0, 1, 32, 33, 36] {
        let edges: Vec<_> = (0..count).map(|n| (n / 6, n % 6, 1)).collect();
        texts.push((task(&[(1, 1); 6], &edges) + "00\n").into_bytes());
    }
}

/// Refusal 3 for a masked length: out of its bounds, and above the largest e, wherever that is.
fn masked_lengths(texts: &mut Vec<Vec<u8>>) {
    for m in [0, 1, 201, 999, 1_000, 1_001, 65_535] {
        texts.push((masked_task(m, &[(1_000, 1_000)], &[]) + "00\n").into_bytes());
        let below = masked_task(m, &[(999, 1_000)], &[]) + "00\n";
        texts.push(below.clone().into_bytes());
        texts.push((task(&[(1_000, 1_000)], &[]) + &below).into_bytes());
    }
    for largest in 0..3 {
        let mut vertices = [(3, 9); 3];
        vertices[largest].0 = 7;
        for m in [4, 7, 8] {
            texts.push((masked_task(m, &vertices, &[(0, 0, 9)]) + "00\n").into_bytes());
        }
    }
    for (vertices, edges) in [(0, 0), (13, 0), (1, 33), (0, 255)] {
        texts.push(masked_task_line(vertices, edges, 1).into_bytes());
    }
}

/// Other faults in a task whose masked length is the largest e, and in one whose masked length is too large.
fn faults_beside_m(texts: &mut Vec<Vec<u8>>) {
    for first in [MASKED_LINES[0], "0403020003\n"] {
        let mut push = |line: usize, faulty: &str| {
            let mut lines = MASKED_LINES;
            lines[0] = first;
            lines[line - 1] = faulty;
            texts.push(lines.concat().into_bytes());
        };
        push(1, first);
        for line in [3, 4] {
            for faulty in ["02000200060\n", "02000200\n", "0200000006\n"] {
                push(line, faulty);
            }
            for task in ["010100\n", "0401000001\n"] {
                push(line, task);
            }
        }
        push(4, "02000103e9\n");
        for faulty in [
            "03\r\n",
            "0401000001\n",
            "0300030005\n",
            "0300010004\n",
            "0300000005\n",
        ] {
            push(6, faulty);
        }
        for read in 1..=4 {
            let lines = [&[first], &MASKED_LINES[1..read]].concat();
            texts.push(lines.concat().into_bytes());
        }
    }
}

/// Refusal 3 in the other frames: e, d, p, and the ends of an edge.
fn bounds(texts: &mut Vec<Vec<u8>>) {
    for e in [0, 1, 1_000, 1_001, 65_535] {
        texts.push(with(3, &vertex_line(e, 6)));
        texts.push((task(&[(e, 1_000)], &[]) + "00\n").into_bytes());
    }
    for d in [0, 1, 6, 7, 200, 201, 999, 1_000, 1_001, 65_535] {
        texts.push(with(3, &vertex_line(1, d)));
        texts.push((task(&[(1, d)], &[]) + "00\n").into_bytes());
    }
    for p in [
        0, 1, 5, 6, 1_000, 1_001, 4_096, 59_999, 60_000, 60_001, 65_535,
    ] {
        texts.push(with(5, &edge_line(1, 1, p)));
    }
    for (from, to) in [(2, 0), (1, 2), (0, 255), (255, 0), (255, 255)] {
        texts.push(with(5, &edge_line(from, to, 6)));
    }
}

/// Refusals 4 and 5: d and p, and the order of edges; both with 3 in one line.
fn edges(texts: &mut Vec<Vec<u8>>) {
    for (d, p) in [
        (7, 7),
        (8, 7),
        (1_000, 1_000),
        (1_000, 999),
        (1_000, 60_000),
        (1, 1),
    ] {
        texts.push((task(&[(1, d)], &[(0, 0, p)]) + "00\n").into_bytes());
    }
    for (from, to) in [(0, 1), (1, 0)] {
        texts.push((task(&[(1, 3), (1, 9)], &[(from, to, 5)]) + "00\n").into_bytes());
    }
    for first in [(0, 0), (0, 1), (1, 0), (1, 1)] {
        for second in [(0, 0), (0, 1), (1, 0), (1, 1)] {
            for p in [1, 2] {
                let edges = [(first.0, first.1, 2), (second.0, second.1, p)];
                texts.push((task(&[(1, 2); 2], &edges) + "00\n").into_bytes());
            }
        }
    }
    for edge in [
        "0300000000\n",
        "0300020004\n",
        "0300000004\n",
        "0300000005\n",
    ] {
        texts.push(with(5, edge));
    }
}

/// Refusals 6 and 7, the bench's R1 and R2, and the longest texts.
fn ends(texts: &mut Vec<Vec<u8>>) {
    for more in [
        "\n", "\0", "0", "00", "00\n", "zz\n", "010101\n", "\r\n", " ",
    ] {
        texts.push((LINES.concat() + more).into_bytes());
    }
    for text in ["00\n", "00\n00\n"] {
        texts.push(text.into());
    }
    for last_e in [2, 1] {
        texts.push(bench::r1(last_e).into_bytes());
    }
    let edges: Vec<_> = (0..32).map(|n| (n / 12, n % 12, 60_000)).collect();
    let vertices = [(1_000, 1_000); 12];
    // Without masked lengths, and with them.
    let longest = task(&vertices, &edges).repeat(8) + "00\n";
    texts.push(longest.into_bytes());
    let longest = masked_task(1_000, &vertices, &edges).repeat(8) + "00\n";
    texts.push(longest.clone().into_bytes());
    texts.push((longest + "\n").into_bytes());
}
