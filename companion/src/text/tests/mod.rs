//! Tests of text as a whole: what is written reads back, what is read is what it says, and what is at fault is named.
mod changed;
mod faults;
mod forms;
mod generated;
mod lemma_faults;
mod trips;

use std::fs;
use std::path::PathBuf;

/// The stored shows with this ending, by name.
fn stored(ending: &str) -> Vec<(String, Vec<u8>)> {
    let folder = PathBuf::from(env!("CARGO_MANIFEST_DIR")).join("../shows");
    let files = fs::read_dir(folder)
        .unwrap()
        .map(|file| file.unwrap().path());
    let named = files.filter(|path| path.extension().is_some_and(|found| found == ending));
    let mut all: Vec<_> = named
        .map(|path| {
            let name = path.file_stem().unwrap().to_str().unwrap();
            (name.to_string(), fs::read(&path).unwrap())
        })
        .collect();
    all.sort();
    all
}

/// The stored texts, by name.
fn texts() -> Vec<(String, String)> {
    let all = stored("text").into_iter();
    all.map(|(name, bytes)| (name, String::from_utf8(bytes).unwrap()))
        .collect()
}
