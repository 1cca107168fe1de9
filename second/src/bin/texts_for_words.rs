//! Writes the texts that the words for people are checked with, each to a file of its own in the folder that the argument names.
//!
//! The bench examples, faulty lines of every kind, each verdict, masked time, runs of releases, rings and gear tables, and random tables, most with a masked length,
//! and most with a ring or a gear table. The texts are the same from run to run.

#![forbid(unsafe_code)]

mod made;

use made::refusals::{with, LINES};
use made::vendors::mix_in;
use made::{bench, masked_task, random_task, self_edge, slow, task, text, Random, Size};
use second::bounds::INPUT_BYTES;
use std::path::PathBuf;
use std::{env, fs, io};

/// How many random tables are written.
const RANDOM_TABLES: usize = 20;
/// Random tasks with a few short paths.
const SIZE: Size = Size {
    vertices: 3,
    e: 5,
    d: (2, 18),
    p: 6,
};

/// Writes a file for each text; its name is the text's number.
fn main() -> io::Result<()> {
    let arguments: Vec<_> = env::args_os().skip(1).map(PathBuf::from).collect();
    let [folder] = arguments.as_slice() else {
        return Err(io::Error::other("usage: texts_for_words FOLDER"));
    };
    for (number, text) in texts().into_iter().enumerate() {
        fs::write(folder.join(format!("{number:03}")), text)?;
    }
    Ok(())
}

/// All texts.
fn texts() -> Vec<Vec<u8>> {
    let mut texts: Vec<_> = bench::texts().into_iter().map(String::into_bytes).collect();
    lines(&mut texts);
    rules(&mut texts);
    ends(&mut texts);
    verdicts(&mut texts);
    masked(&mut texts);
    runs(&mut texts);
    texts.extend(bench::vendor_texts().into_iter().map(String::into_bytes));
    random(&mut texts);
    texts
}

/// Refusal 1 with lines that can't be shown as they are: empty, unseen bytes, the backslash, and lines around the longest shown.
fn lines(texts: &mut Vec<Vec<u8>>) {
    for line in [
        "\n",
        "\r\n",
        "0200010006\r\n",
        " \t\0\u{1b}\u{1f}\u{7f}\n",
        "\u{80}é\n",
        "0200\\n0006\n",
        "\\x5c\n",
        "0200 1~006!\"'`\n",
        "020001000A\n",
        "02000100060\n",
    ] {
        texts.push(with(3, line));
    }
    let every_byte: Vec<_> = (0..=255).filter(|&byte| byte != b'\n').collect();
    texts.extend(every_byte.chunks(60).map(<[u8]>::to_vec));
    for bytes in [59, 60, 61, 62, 200] {
        texts.push(with(1, &("0".repeat(bytes - 1) + "g\n")));
        texts.push(vec![b'\\'; bytes]);
    }
}

/// Refusals 2 to 5 and 13.
fn rules(texts: &mut Vec<Vec<u8>>) {
    for (line, faulty) in [
        (1, "00\n"),
        (2, "0300000005\n"),
        (6, "0000\n"),
        (1, "010d02\n"),
        (3, "02000103e9\n"),
        (4, "0300020005\n"),
        (4, "0300010004\n"),
        (4, "030001ea61\n"),
        (5, "0300010006\n"),
        (5, "0300000005\n"),
        (1, "0402020000\n"),
        (1, "0402020003\n"),
        (1, "04020203e9\n"),
        (1, "04020202\n"),
        (1, "050d\n"),
        (1, "050202\n"),
        (3, "06000100050005\n"),
        (2, "0200060005\n"),
        (3, "0203e80001\n"),
    ] {
        texts.push(with(line, faulty));
    }
    texts.push(with(2, &("02".repeat(31) + "\n")));
    let ninth = task(&[(1, 1)], &[]).repeat(9);
    texts.push(ninth.into_bytes());
    for text in [
        "0702\n06000100050005\n06000100060005\n",
        "0501\n06000103e90064\n",
        "0702\n06000500050005\n06000600050004\n",
    ] {
        texts.push(text.into());
    }
}

/// Refusals 6, 7 and 12.
fn ends(texts: &mut Vec<Vec<u8>>) {
    for count in 1..LINES.len() {
        texts.push(LINES[..count].concat().into_bytes());
    }
    for more in ["\n", "\n00\n", "0", "00\n", "\\", "\0"] {
        texts.push((LINES.concat() + more).into_bytes());
    }
    for bytes in [INPUT_BYTES, INPUT_BYTES + 1] {
        let mut text = LINES.concat().into_bytes();
        text.resize(bytes, b'f');
        texts.push(text);
    }
}

/// Refusal 9 of a task that isn't the first, refusal 10, one tick and one group, the longest paths, deadlines and separations of slow cradles, and a worst finish that isn't found.
fn verdicts(texts: &mut Vec<Vec<u8>>) {
    let few = self_edge(1, 5, 5);
    let below = task(&[(1, 31), (20, 21)], &[]);
    let mut longest = vec![self_edge(1, 1, 1); 7];
    longest.push(task(&[(1, 200)], &[]));
    let slow = [self_edge(1, 3, 3), self_edge(1, 1_000, 60_000)];
    let slow_judged = task(&[(500, 1_000), (667, 1_000), (1, 911)], &[]);
    let five = task(&[(1, 1_000); 5], &[]);
    let mut cells = vec![bench::r10(4); 4];
    cells.push(task(&[(1, 21), (1, 20)], &[]));
    let mut not_found = vec![task(&[(1, 9); 12], &[]); 4];
    not_found.push(task(&[(3, 9), (1, 6), (4, 9)], &[(1, 2, 6)]));
    not_found.push(task(&[(1, 10)], &[]));
    let tables = [
        vec![few, bench::r10(4), below],
        cells,
        vec![task(&[(1, 1)], &[]), task(&[(1, 1), (1, 2)], &[])],
        longest,
        [slow.to_vec(), vec![slow_judged.clone()]].concat(),
        vec![five, slow_judged],
        not_found,
    ];
    texts.extend(tables.map(|tasks| text(&tasks).into_bytes()));
}

/// Masked time: R2 with it; a miss with nothing above, by one tick and by more, and none by its own masked length; the first of the lower tasks that mask
/// longest; and a worst finish that isn't found.
fn masked(texts: &mut Vec<Vec<u8>>) {
    texts.extend(bench::masked_texts().map(String::into_bytes));
    let masking = |m: u32| masked_task(m, &[(m, 50)], &[]);
    let late = || task(&[(2, 2), (1, 2)], &[]);
    let own = masked_task(3, &[(3, 3)], &[]);
    let mut not_found = vec![task(&[(1, 9); 12], &[]); 4];
    not_found.push(task(&[(3, 9), (1, 7), (4, 9)], &[(1, 2, 7)]));
    not_found.extend([task(&[(1, 11)], &[]), masked_task(1, &[(1, 1)], &[])]);
    let tables = [
        vec![late(), masking(1)],
        vec![late(), masking(11)],
        vec![own, task(&[(4, 9)], &[])],
        [1, 2, 2, 1, 3, 3].map(masking).into(),
        not_found,
    ];
    texts.extend(tables.map(|tasks| text(&tasks).into_bytes()));
}

/// Runs of three, four and five releases of one vertex, every two ticks and every tick: as a whole path, in a miss and in a meets; between releases of another
/// vertex; before another run; and twice in one path.
fn runs(texts: &mut Vec<Vec<u8>>) {
    let between = task(&[(1, 4), (1, 1)], &[(0, 1, 4), (1, 0, 1), (1, 1, 1)]);
    let before = task(&[(1, 1), (1, 1)], &[(0, 0, 6), (0, 1, 1), (1, 1, 1)]);
    let twice = task(&[(1, 3), (1, 2)], &[(0, 1, 3), (1, 0, 9), (1, 1, 2)]);
    let tables: [(String, &[(u32, u32)]); 5] = [
        (
            self_edge(1, 2, 2),
            &[(6, 6), (8, 8), (10, 10), (3, 6), (4, 8), (1, 10)],
        ),
        (self_edge(1, 1, 1), &[(3, 3), (4, 4), (5, 5), (1, 1_000)]),
        (between, &[(5, 9), (4, 9), (4, 10)]),
        (before, &[(24, 24), (22, 22), (17, 17), (16, 16)]),
        (twice, &[(4, 25), (3, 21)]),
    ];
    for (above, judged) in tables {
        texts.push(text(&[above, task(judged, &[])]).into_bytes());
    }
}

/// Random tables of up to four tasks, one task in three of a slow cradle, and most with one or two rings or gear tables among them.
fn random(texts: &mut Vec<Vec<u8>>) {
    let mut random = Random(20_261_117);
    for _ in 0..RANDOM_TABLES {
        let mut tasks: Vec<_> = (0..=random.below(4))
            .map(|_| {
                let size = [&SIZE, &SIZE, &slow::SIZE][random.below(3)];
                random_task(&mut random, size)
            })
            .collect();
        mix_in(&mut random, &mut tasks, &SIZE);
        texts.push(text(&tasks).into_bytes());
    }
}
