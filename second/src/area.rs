//! The byte area that a case lends the writer, each byte with a mark, and what is answered of it.

use crate::desk::{write_bytes, write_number};
use crate::record::Record;
use crate::refusal::Refusal;
use crate::write::write;

/// The first byte's mark; the next ones count on, and after so many from the first again. No byte of a text is as large.
const MARK: u8 = 0x80;
/// How many marks there are.
const MARKS: u8 = 97;

/// Writes a table to an area of so many marked bytes, so many times, at least once, each time as the time before left it: the last time's answer.
///
/// A line: 0 or the refusal's number (1 byte), the bytes written or the refusal's place (4), the bytes before the area's first that holds its mark (4), 1 if all bytes behind them hold theirs.
/// Then those bytes, as they are.
pub fn written(table: &Record, bytes: u32, times: u32) -> Vec<u8> {
    let mut area: Vec<u8> = marks().take(bytes as usize).collect();
    let mut answer = write(table, &mut area);
    for _ in 1..times {
        answer = write(table, &mut area);
    }
    let marked = || marks().zip(&area);
    let front = marked().take_while(|&(mark, &byte)| byte != mark).count();
    let kept = marked().skip(front).all(|(mark, &byte)| byte == mark);
    let mut line = first_numbers(answer);
    write_number(&mut line, front);
    write_bytes(&mut line, &[u8::from(kept)]);
    line.push('\n');
    [line.as_bytes(), &area[..front]].concat()
}

/// The marks of an area's bytes, from the first.
fn marks() -> impl Iterator<Item = u8> {
    (0..MARKS).map(|number| MARK + number).cycle()
}

/// What the writer said: 0 and the bytes written, or the refusal's number and place.
fn first_numbers(answer: Result<usize, Refusal>) -> String {
    let (number, place) = match answer {
        Ok(bytes) => (0, bytes),
        Err(refusal) => (refusal.number(), refusal.place),
    };
    let mut line = String::new();
    write_bytes(&mut line, &[number]);
    write_number(&mut line, place);
    line
}
