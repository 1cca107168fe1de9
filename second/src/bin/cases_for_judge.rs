//! Writes the cases that the judge is checked with: a sequence as `second cases` reads it.
//!
//! The bench examples, masked lengths, every refusal, and random tables with budgets and areas around what they need. The sequence is the same from run to run.

#![forbid(unsafe_code)]

mod made;

use made::vertices::Vertices;
use second::case::{Case, TABLE, VERTEX};
use second::sequence::write_cases;
use std::collections::HashSet;
use std::io;

/// Where the random tables start from.
const SEED: u64 = 20_261_116;
/// How many random vertices of each verdict are judged: few of them by the top group alone.
const RANDOM_VERTICES: [usize; 3] = [2, 7, 7];
/// How many of those have a d above 200.
const SLOW_VERTICES: [usize; 3] = [1, 4, 0];

/// Writes each case, and one whose mode there is not.
fn main() -> io::Result<()> {
    let mut vertices = Vertices::of(VERTEX);
    vertices.bench();
    vertices.masked();
    vertices.many_paths();
    vertices.texts();
    vertices.numbers();
    vertices.large();
    vertices.slow();
    vertices.random(SEED, RANDOM_VERTICES, Vertices::around);
    vertices.random_slow(SEED, SLOW_VERTICES, Vertices::around);
    let vertices = vertices.cases;
    let unknown = Case {
        mode: b'z',
        ..vertices[0].clone()
    };
    let tables = whole_tables(&vertices);
    write_cases(vertices.into_iter().chain(tables).chain([unknown]))
}

/// The whole table of each vertex, with the same budget and as many work cells, once.
fn whole_tables(vertices: &[Case]) -> Vec<Case> {
    let mut seen = HashSet::new();
    let mut tables = Vec::new();
    for vertex in vertices {
        if seen.insert((&vertex.text, vertex.budget, vertex.work)) {
            tables.push(Case {
                budget: vertex.budget,
                work: vertex.work,
                ..Case::plain(TABLE, vertex.text.clone())
            });
        }
    }
    tables
}
