//! Writes the texts that the reader is checked with: a sequence as `second cases` reads it.
//!
//! Every refusal of a text, each bound and one past it, jobs longer than their own deadline beside other faults, and random texts, whole and damaged, most
//! with a masked length, and most with a ring or a gear table. The sequence is the same from run to run.

#![forbid(unsafe_code)]

mod made;

use made::vendors::{damage_vendor_line, mix_in};
use made::{damage, damage_m, random_task, refusals, slips, text, vendor_refusals, Random, Size};
use second::case::CHECK;
use second::sequence::write_sequence;
use std::io;

/// How many random tables are written, each whole and damaged.
const RANDOM_TABLES: usize = 60;

/// Numbers up to the largest.
const SIZE: Size = Size {
    vertices: 4,
    e: 1_000,
    d: (1, 1_000),
    p: 59_001,
};

/// Writes a case for each text.
fn main() -> io::Result<()> {
    let mut texts = Vec::new();
    refusals::add(&mut texts);
    vendor_refusals::add(&mut texts);
    slips::add(&mut texts);
    random(&mut texts);
    write_sequence(CHECK, texts)
}

/// Random tables, each whole and damaged in one way, at times in its masked lengths, in a ring or a gear table, or by a job longer than its own deadline.
fn random(texts: &mut Vec<Vec<u8>>) {
    let mut random = Random(20_261_115);
    for _ in 0..RANDOM_TABLES {
        let mut tasks: Vec<_> = (0..=random.below(2))
            .map(|_| random_task(&mut random, &SIZE))
            .collect();
        mix_in(&mut random, &mut tasks, &SIZE);
        let mut text = text(&tasks).into_bytes();
        texts.push(text.clone());
        match random.below(5) {
            0 => damage_m(&mut random, &mut text),
            1 => damage_vendor_line(&mut random, &mut text),
            2 => slips::slip(&mut random, &mut text),
            _ => damage(&mut random, &mut text),
        }
        texts.push(text);
    }
}
