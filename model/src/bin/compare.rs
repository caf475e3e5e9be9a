//! `compare PROGRAM SEED COUNT [DIR] [--no-ticks] [--longest]` plays COUNT streams
//! through the model and through PROGRAM. What differs is written to DIR
//! (./differences). With --longest, one more stream has a block that cannot state
//! its place.

use model::files::{number, take_option};
use model::generator::{longest_stream, stream};
use model::play::log_of;
use std::io::{Read, Write};
use std::path::Path;
use std::process::{Command, Stdio};

fn main() {
    let mut arguments: Vec<String> = std::env::args().skip(1).collect();
    let ticks = !take_option(&mut arguments, "--no-ticks");
    let longest = take_option(&mut arguments, "--longest");
    let (program, seed, count, directory) = match arguments.as_slice() {
        [program, seed, count] => (program, seed, count, "./differences"),
        [program, seed, count, directory] => (program, seed, count, directory.as_str()),
        _ => {
            eprintln!("usage: compare PROGRAM SEED COUNT [DIR] [--no-ticks] [--longest]");
            std::process::exit(2);
        }
    };
    let seed = number(seed);
    let usual = number(count);
    let count = usual + longest as u64;
    let mut differences = 0;
    for index in 0..count {
        let input = if index < usual {
            stream(seed, index, ticks)
        } else {
            longest_stream()
        };
        let ours = log_of(&input);
        let (theirs, killed) = log_of_program(program, &input);
        if theirs == ours.as_bytes() && !killed {
            continue;
        }
        differences += 1;
        let theirs = String::from_utf8_lossy(&theirs).into_owned();
        println!(
            "stream {index}: {}",
            first_difference(&ours, &theirs, killed)
        );
        keep(Path::new(directory), index, &input, &ours, &theirs);
    }
    println!("{count} streams, {differences} differences");
    std::process::exit(if differences == 0 { 0 } else { 1 });
}

/// What the program prints, and whether a signal ended it.
fn log_of_program(program: &str, input: &[u8]) -> (Vec<u8>, bool) {
    let mut child = Command::new(program)
        .stdin(Stdio::piped())
        .stdout(Stdio::piped())
        .spawn()
        .unwrap_or_else(|error| {
            eprintln!("cannot run {program}: {error}");
            std::process::exit(2);
        });
    let mut to_child = child.stdin.take().expect("its input");
    let mut from_child = child.stdout.take().expect("its output");
    let mut log = Vec::new();
    std::thread::scope(|scope| {
        // The program may stop reading at a refused block: no fault.
        scope.spawn(move || {
            let _ = to_child.write_all(input);
        });
        from_child.read_to_end(&mut log).expect("its output");
    });
    let status = child.wait().expect("its end");
    (log, status.code().is_none())
}

/// The first line that differs, by its number from 1.
fn first_difference(ours: &str, theirs: &str, killed: bool) -> String {
    let mut our_lines = ours.lines();
    let mut their_lines = theirs.lines();
    for number in 1.. {
        let (our, their) = (our_lines.next(), their_lines.next());
        if our != their {
            let our = our.unwrap_or("(nothing)");
            let their = their.unwrap_or("(nothing)");
            return format!("line {number}: model `{our}`, program `{their}`");
        }
        if our.is_none() {
            break;
        }
    }
    if killed {
        "the program was ended by a signal".to_string()
    } else {
        "only line ends differ".to_string()
    }
}

fn keep(directory: &Path, index: u64, input: &[u8], ours: &str, theirs: &str) {
    std::fs::create_dir_all(directory).expect("a directory");
    let write = |end: &str, bytes: &[u8]| {
        std::fs::write(directory.join(format!("{index:04}.{end}")), bytes).expect("a file");
    };
    write("in", input);
    write("model", ours.as_bytes());
    write("program", theirs.as_bytes());
}
