//! The desk program: one input. With the argument `cases`, what each case of a sequence asks.

#![forbid(unsafe_code)]

use second::bounds::{INPUT_BYTES, MOST_WORK_CELLS, WITNESS_CELLS};
use second::desk;
use second::sequence::next_case;
use std::env;
use std::io::{self, BufReader, BufWriter, Read, Write};
use std::process::ExitCode;

/// Runs by the arguments; exit status 1 after a failure, 2 after a wrong use.
fn main() -> ExitCode {
    let arguments: Vec<_> = env::args_os().skip(1).collect();
    let result = match arguments.as_slice() {
        [] => one(),
        [argument] if argument == "cases" => cases(),
        _ => {
            complain("usage: second [cases]");
            return ExitCode::from(2);
        }
    };
    match result {
        Ok(()) => ExitCode::SUCCESS,
        Err(error) => {
            complain(&format!("second: {error}"));
            ExitCode::FAILURE
        }
    }
}

/// Judges the whole standard input as one input.
fn one() -> io::Result<()> {
    let mut source = io::stdin().lock();
    let mut input = Vec::new();
    // One byte more than an input may have shows that it is too long.
    let most = INPUT_BYTES as u64 + 1;
    source.by_ref().take(most).read_to_end(&mut input)?;
    io::copy(&mut source, &mut io::sink())?;
    let mut target = io::stdout().lock();
    target.write_all(desk::output(&input).as_bytes())?;
    target.flush()
}

/// Answers each case of a sequence; one work area and one witness area serve all tables that are judged unmarked.
fn cases() -> io::Result<()> {
    let mut source = BufReader::new(io::stdin().lock());
    let mut target = BufWriter::new(io::stdout().lock());
    let mut work = vec![0; MOST_WORK_CELLS];
    let mut witness = vec![0; WITNESS_CELLS];
    while let Some(case) = next_case(&mut source)? {
        target.write_all(&case.answer(&mut work, &mut witness))?;
    }
    target.flush()
}

/// Writes one line to standard error; there is nobody to tell if that fails.
fn complain(message: &str) {
    let _ = writeln!(io::stderr(), "{message}");
}
