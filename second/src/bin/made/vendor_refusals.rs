//! Texts with every refusal of a ring or a gear table, at each bound and one past it.

use super::refusals::{digits, replaced, LINES as PLAIN_LINES};
use super::vendors::{vendor_task, vendor_vertex_line, KINDS};
use super::{masked_task, task};

/// The lines of a small valid text: a ring of two vertices and a gear table of one.
const LINES: [&str; 6] = [
    "0502\n",
    "06000200050007\n",
    "06000100060006\n",
    "0701\n",
    "06000100040004\n",
    "00\n",
];

/// The lines of its vertices, from 1.
const VERTEX_LINES: [usize; 3] = [2, 3, 5];

/// Adds every text.
pub fn add(texts: &mut Vec<Vec<u8>>) {
    lines(texts);
    frames(texts);
    elsewhere(texts);
    counts(texts);
    bounds(texts);
    deadlines(texts);
    ninth_tasks(texts);
    ends(texts);
    digits(texts, "0501\n06000103e8ea60\n00\n", [11, 15]);
}

/// The valid lines with one of them, from 1, replaced.
fn with(line: usize, replacement: &str) -> Vec<u8> {
    replaced(&LINES, line, replacement)
}

/// Refusals 1 and 6: every line faulty, and the text cut off at every byte.
fn lines(texts: &mut Vec<Vec<u8>>) {
    let whole = LINES.concat();
    for end in 1..=whole.len() {
        texts.push(whole.as_bytes()[..end].to_vec());
    }
    for (line, good) in (1..).zip(LINES) {
        let digits = good.trim_end();
        for more in ["0", "\r", "0A", "0g"] {
            texts.push(with(line, &format!("{digits}{more}\n")));
        }
        texts.push(with(line, "\n"));
    }
}

/// Refusal 2: kinds that aren't allowed here, and lengths wrong for their kind.
fn frames(texts: &mut Vec<Vec<u8>>) {
    for line in 1..=LINES.len() {
        for frame in [
            "00\n",
            "010100\n",
            "0200010005\n",
            "0300000009\n",
            "0401000001\n",
            "0501\n",
            "0702\n",
            "06000100050005\n",
            "08000100050005\n",
            "05\n",
            "050202\n",
            "07\n",
            "0701000002\n",
            "0602\n",
            "060001000500\n",
            "0600010005000500\n",
        ] {
            texts.push(with(line, frame));
        }
    }
    for (line, frame) in [(1, "050000\n"), (4, "07ff00\n"), (2, "0600000000\n")] {
        texts.push(with(line, frame));
    }
}

/// Refusal 2 in and behind a plain task; and a plain task behind a ring, whose masked length is its own.
fn elsewhere(texts: &mut Vec<Vec<u8>>) {
    for line in 1..=PLAIN_LINES.len() {
        for frame in ["0501\n", "0701\n", "06000100050005\n"] {
            texts.push(replaced(&PLAIN_LINES, line, frame));
        }
    }
    for kind in KINDS {
        let ring = vendor_task(kind, &[(3, 5, 5); 3]);
        for next in ["0200010005\n", "0300000005\n", "0300010005\n"] {
            texts.push((ring.clone() + next).into_bytes());
        }
        for m in [2, 3] {
            let masked = masked_task(m, &[(2, 9)], &[]);
            texts.push([&masked, &ring, "00\n"].concat().into_bytes());
            texts.push([&ring, &masked, "00\n"].concat().into_bytes());
        }
    }
}

/// Refusal 3 in a task frame: the count; and fewer or more vertices than it says.
fn counts(texts: &mut Vec<Vec<u8>>) {
    for kind in KINDS {
        for count in [0, 1, 12, 13] {
            let lines = vendor_task(kind, &vec![(1, 1, 1); count]);
            texts.push((lines + "00\n").into_bytes());
        }
        for line in ["00\n", "0d\n", "20\n", "ff\n"] {
            texts.push([kind, line].concat().into_bytes());
        }
        for (count, there) in [(1, 2), (2, 1), (3, 2), (3, 4), (12, 11), (12, 13)] {
            let vertices = vendor_vertex_line(1, 1, 1).repeat(there);
            texts.push(format!("{kind}{count:02x}\n{vertices}00\n").into_bytes());
        }
    }
}

/// Refusal 3 in a vertex frame: e, d and p.
fn bounds(texts: &mut Vec<Vec<u8>>) {
    for line in VERTEX_LINES {
        let mut push = |e, d, p| texts.push(with(line, &vendor_vertex_line(e, d, p)));
        for e in [0, 1, 1_000, 1_001, 65_535] {
            push(e, 5, 7);
        }
        for d in [0, 1, 201, 1_000, 1_001, 65_535] {
            push(1, d, 60_000);
        }
        for p in [0, 1, 1_001, 60_000, 60_001, 65_535] {
            push(1, 1, p);
        }
    }
}

/// Refusal 4: d and its own p, whatever the others' are; and 3 before it.
fn deadlines(texts: &mut Vec<Vec<u8>>) {
    for line in VERTEX_LINES {
        let mut push = |e, d, p| texts.push(with(line, &vendor_vertex_line(e, d, p)));
        for (d, p) in [(7, 7), (8, 7), (1_000, 1_000), (1_000, 999), (2, 1)] {
            push(1, d, p);
        }
        for (e, d, p) in [(0, 8, 7), (1_001, 8, 7), (1, 1_001, 1_000), (1, 8, 0)] {
            push(e, d, p);
        }
    }
    for kind in KINDS {
        for place in 0..3 {
            for (other, own) in [((1, 1, 20), (1, 9, 5)), ((1, 5, 5), (1, 9, 20))] {
                let mut vertices = [other; 3];
                vertices[place] = own;
                texts.push((vendor_task(kind, &vertices) + "00\n").into_bytes());
            }
        }
    }
}

/// Refusal 2: a ninth task that is a ring or a gear table, and any ninth behind those.
fn ninth_tasks(texts: &mut Vec<Vec<u8>>) {
    let [ring, gears] = KINDS.map(|kind| vendor_task(kind, &[(1, 1, 1)]));
    let plain = task(&[(1, 1)], &[]);
    let eight = plain.repeat(8);
    for ninth in [
        &ring,
        &gears,
        "0500\n",
        "07ff\n",
        "05\n",
        "06000100010001\n",
    ] {
        texts.push((eight.clone() + ninth).into_bytes());
    }
    let eights = [
        ring.repeat(8),
        gears.repeat(8),
        [&ring, &plain, &gears, &plain]
            .map(String::as_str)
            .concat()
            .repeat(2),
    ];
    for eight in eights {
        texts.push((eight.clone() + "00\n").into_bytes());
        for ninth in [&plain, &ring, &gears] {
            texts.push([&eight, ninth, "00\n"].concat().into_bytes());
        }
    }
}

/// Refusal 7, and the longest texts of rings and of gear tables.
fn ends(texts: &mut Vec<Vec<u8>>) {
    for more in ["\n", "0", "0501\n", "06000100010001\n"] {
        texts.push((LINES.concat() + more).into_bytes());
    }
    for kind in KINDS {
        let longest = vendor_task(kind, &[(1_000, 1_000, 60_000); 12]).repeat(8);
        texts.push((longest + "00\n").into_bytes());
    }
}
