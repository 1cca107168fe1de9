//! What the tests of the generators share: their output.

use std::fs;
use std::path::Path;
use std::process::Command;

/// What a generator writes with these arguments.
pub fn written_by(generator: &str, arguments: &[&str]) -> Vec<u8> {
    let mut generator = Command::new(generator);
    let written = generator.args(arguments).output().unwrap();
    assert!(written.status.success());
    written.stdout
}

/// The texts for the words, written to a folder of this name, in order.
pub fn texts_for_words(folder: &str) -> Vec<Vec<u8>> {
    let folder = Path::new(env!("CARGO_TARGET_TMPDIR")).join(folder);
    let _ = fs::remove_dir_all(&folder);
    fs::create_dir(&folder).unwrap();
    let argument = folder.to_str().unwrap();
    written_by(env!("CARGO_BIN_EXE_texts_for_words"), &[argument]);
    let count = fs::read_dir(&folder).unwrap().count();
    let file = |number: usize| folder.join(format!("{number:03}"));
    (0..count).map(|n| fs::read(file(n)).unwrap()).collect()
}
