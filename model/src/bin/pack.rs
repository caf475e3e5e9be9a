//! `pack DIR FILE` writes the .in files of DIR, in order of name, with the model's
//! logs: the number of input bytes and of log bytes (4 bytes each, low byte first),
//! the input, the log.

use model::files::streams_of;
use model::play::log_of;
use std::path::Path;

fn main() {
    let arguments: Vec<String> = std::env::args().skip(1).collect();
    let [directory, file] = arguments.as_slice() else {
        eprintln!("usage: pack DIR FILE");
        std::process::exit(2);
    };
    let mut packed = Vec::new();
    for path in streams_of(Path::new(directory)) {
        let input = std::fs::read(path).expect("a stream");
        let log = log_of(&input);
        packed.extend((input.len() as u32).to_le_bytes());
        packed.extend((log.len() as u32).to_le_bytes());
        packed.extend(input);
        packed.extend(log.as_bytes());
    }
    std::fs::write(file, packed).expect("a file");
}
