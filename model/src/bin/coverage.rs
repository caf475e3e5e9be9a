//! `coverage DIR` plays the .in files of DIR and prints how often each thing occurs.

use model::files::streams_of;
use model::notes::Notes;
use model::play::play;
use std::path::Path;

fn main() {
    let Some(directory) = std::env::args().nth(1) else {
        eprintln!("usage: coverage DIR");
        std::process::exit(2);
    };
    let mut notes = Notes::default();
    let paths = streams_of(Path::new(&directory));
    for path in &paths {
        notes.add(&play(&std::fs::read(path).expect("a stream")).notes);
    }
    print!("{}", notes.report());
    println!("{:>9}  streams", paths.len());
}
