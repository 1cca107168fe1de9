//! Cases in a sequence: each one's header, and its text.

use crate::case::{Case, HEADER_BYTES};
use std::io::{self, Read, Write};

/// The longest sequence that the programs which are checked with it can read.
pub const MOST_BYTES: usize = 1_048_576;

/// Writes the same question about each text to standard output.
pub fn write_sequence(mode: u8, texts: Vec<Vec<u8>>) -> io::Result<()> {
    write_cases(texts.into_iter().map(|text| Case::plain(mode, text)))
}

/// Writes the cases to standard output.
pub fn write_cases(cases: impl IntoIterator<Item = Case>) -> io::Result<()> {
    let mut target = io::stdout().lock();
    for case in cases {
        target.write_all(&case.bytes())?;
    }
    target.flush()
}

/// The next case of a sequence, or none at its end.
pub fn next_case(source: &mut impl Read) -> io::Result<Option<Case>> {
    let mut header = Vec::new();
    source.take(HEADER_BYTES as u64).read_to_end(&mut header)?;
    if header.is_empty() {
        return Ok(None);
    }
    let Ok(header) = <[u8; HEADER_BYTES]>::try_from(header) else {
        return Err(io::Error::other("the sequence ends inside a header"));
    };
    let length = u32::from_be_bytes([header[1], header[2], header[3], header[4]]);
    let mut case = Case::headed(header);
    source.take(length.into()).read_to_end(&mut case.text)?;
    if case.text.len() < length as usize {
        return Err(io::Error::other("the sequence ends inside a text"));
    }
    Ok(Some(case))
}
