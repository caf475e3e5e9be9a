//! `model` prints the log of the stream on its standard input.
//! `model --vectors DIR` plays every NAME.in of DIR and compares with NAME.out.

use model::play::log_of;
use std::io::{Read, Write};
use std::path::Path;

fn main() {
    let arguments: Vec<String> = std::env::args().skip(1).collect();
    match arguments.as_slice() {
        [] => {
            let mut input = Vec::new();
            std::io::stdin().read_to_end(&mut input).expect("input");
            let log = log_of(&input);
            std::io::stdout().write_all(log.as_bytes()).expect("output");
        }
        [mode, directory] if mode == "--vectors" => {
            let differing = vectors(Path::new(directory));
            println!("{differing}");
            std::process::exit(if differing == 0 { 0 } else { 1 });
        }
        _ => {
            eprintln!("usage: model < STREAM, or model --vectors DIR");
            std::process::exit(2);
        }
    }
}

/// How many logs differ.
fn vectors(directory: &Path) -> usize {
    let mut differing = 0;
    let names = model::files::streams_of(directory);
    for path in &names {
        let input = std::fs::read(path).expect("a stream");
        let expected = std::fs::read_to_string(path.with_extension("out")).expect("its log");
        if log_of(&input) != expected {
            println!("differs: {}", path.display());
            differing += 1;
        }
    }
    println!("{} streams, differing:", names.len());
    differing
}
