//! Streams in files.

use std::path::{Path, PathBuf};

/// The .in files of a directory, in order of name.
pub fn streams_of(directory: &Path) -> Vec<PathBuf> {
    let mut paths: Vec<PathBuf> = std::fs::read_dir(directory)
        .expect("a directory")
        .map(|file| file.expect("a file").path())
        .filter(|path| path.extension().is_some_and(|end| end == "in"))
        .collect();
    paths.sort();
    paths
}

/// Takes an option out of the arguments; whether it stood there.
pub fn take_option(arguments: &mut Vec<String>, option: &str) -> bool {
    let before = arguments.len();
    arguments.retain(|argument| argument != option);
    arguments.len() < before
}

/// A number of the command line.
pub fn number(text: &str) -> u64 {
    text.parse().unwrap_or_else(|_| {
        eprintln!("not a number: {text}");
        std::process::exit(2);
    })
}
