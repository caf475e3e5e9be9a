//! `generate SEED COUNT DIR [--no-ticks]` writes COUNT streams DIR/NNNN.in.

use model::files::{number, take_option};
use model::generator::stream;
use std::path::Path;

fn main() {
    let mut arguments: Vec<String> = std::env::args().skip(1).collect();
    let ticks = !take_option(&mut arguments, "--no-ticks");
    let [seed, count, directory] = arguments.as_slice() else {
        eprintln!("usage: generate SEED COUNT DIR [--no-ticks]");
        std::process::exit(2);
    };
    let directory = Path::new(directory);
    std::fs::create_dir_all(directory).expect("a directory");
    for index in 0..number(count) {
        let path = directory.join(format!("{index:04}.in"));
        std::fs::write(path, stream(number(seed), index, ticks)).expect("a file");
    }
}
