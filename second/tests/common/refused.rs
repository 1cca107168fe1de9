//! What the tests of refused texts share: a text's refusal, alike from every call.

use super::{witness_area, work_area, Task};
use second::desk;
use second::judge::{judge, judge_table};
use second::latest::latest;
use second::table::{TaskNo, VertexNo};
use second::text;

/// The refusal number and line of a text, alike from every call; (0, 0) for a readable text.
pub fn check(text: &[u8]) -> (u8, usize) {
    let mut work = work_area(50);
    let mut witness = witness_area(50);
    let Err(refusal) = text::read(text) else {
        assert!(judge_table(text, 0, &mut []).is_ok());
        return (0, 0);
    };
    assert_eq!(judge_table(text, 9, &mut work), Err(refusal));
    let numbers = (TaskNo(0), VertexNo(0));
    let verdict = judge(text, numbers.0, numbers.1, 9, &mut work, &mut witness);
    let lateness = latest(text, numbers.0, numbers.1, 9, &mut work, &mut witness);
    let found = (refusal.number(), refusal.place);
    assert_eq!(super::refusal(verdict), Some(found));
    assert_eq!(super::refusal(lateness.verdict()), Some(found));
    assert_eq!((work, witness), (work_area(50), witness_area(50)));
    if text.len() <= 8_191 {
        let output = format!("1e{:02x}{:04x}\n", found.0, found.1);
        assert_eq!(desk::output(text), output);
    }
    found
}

/// The check of a text put together from its lines.
pub fn check_lines(lines: &[&str]) -> (u8, usize) {
    check(lines.concat().as_bytes())
}

/// The check of a table.
pub fn check_tasks(tasks: &[Task]) -> (u8, usize) {
    check(super::text(tasks).as_bytes())
}
