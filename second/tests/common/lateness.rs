//! What the tests of the latest finish share: the call, and each of its answers with both areas.

use super::*;
use second::latest::{latest, Lateness};
use second::table::Ticks;

/// What the call says, and both areas after it.
pub type Found = (Lateness, Vec<u32>, Vec<u16>);

/// Asks how late the latest is, with areas of these lengths.
pub fn latest_in(tasks: &[Task], numbers: (u16, u16), budget: u32, lent: (usize, usize)) -> Found {
    let (mut work, mut witness) = (work_area(lent.0), witness_area(lent.1));
    let lateness = latest(
        text(tasks).as_bytes(),
        TaskNo(numbers.0),
        VertexNo(numbers.1),
        budget,
        &mut work,
        &mut witness,
    );
    (lateness, work, witness)
}

/// A meets with this worst finish and count, on areas of these lengths, with so many cells needed and these written.
pub fn meets(finish: u32, count: u32, lent: (usize, usize), needed: usize, front: &[u16]) -> Found {
    let lateness = Lateness::Meets {
        count,
        finish: Ticks(finish),
        cells: front.len(),
    };
    (lateness, zeroed(needed, lent.0), written(front, lent.1))
}

/// A miss with this count, on areas of these lengths, with so many cells needed and these written.
pub fn misses(count: u32, lent: (usize, usize), needed: usize, front: &[u16]) -> Found {
    let cells = front.len();
    let lateness = Lateness::Misses { count, cells };
    (lateness, zeroed(needed, lent.0), written(front, lent.1))
}

/// Unfinished with this budget, on areas of these lengths, with so many cells needed.
pub fn unfinished(budget: u32, lent: (usize, usize), needed: usize) -> Found {
    let lateness = Lateness::Unfinished { budget };
    (lateness, zeroed(needed, lent.0), witness_area(lent.1))
}

/// Checks a refusal's number and place, and that areas of these lengths are unchanged.
pub fn assert_refused(number: u8, place: usize, found: &Found, lent: (usize, usize)) {
    assert_eq!(refusal(found.0.verdict()), Some((number, place)));
    assert_eq!(found.1, work_area(lent.0));
    assert_eq!(found.2, witness_area(lent.1));
}
