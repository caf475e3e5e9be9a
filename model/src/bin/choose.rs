//! `choose SEED POOL COUNT DIR [--no-ticks]` makes POOL streams, chooses COUNT short
//! ones that show most, and writes them to DIR/NNNN.in.

use model::block::BLOCK_BYTES;
use model::files::{number, take_option};
use model::generator::{stream, MOST_BLOCKS};
use model::play::play;
use std::collections::BTreeSet;
use std::path::Path;

fn main() {
    let mut arguments: Vec<String> = std::env::args().skip(1).collect();
    let ticks = !take_option(&mut arguments, "--no-ticks");
    let [seed, pool, count, directory] = arguments.as_slice() else {
        eprintln!("usage: choose SEED POOL COUNT DIR [--no-ticks]");
        std::process::exit(2);
    };
    // What each stream shows.
    let mut pool: Vec<(Vec<u8>, BTreeSet<String>)> = (0..number(pool))
        .map(|index| stream(number(seed), index, ticks))
        .filter(|bytes| bytes.len() <= MOST_BLOCKS * BLOCK_BYTES)
        .map(|bytes| {
            let shown = shown_by(&bytes);
            (bytes, shown)
        })
        .collect();

    // Always the stream that shows most new things for its length; when nothing new
    // is left, all things are new again.
    let mut chosen = Vec::new();
    let mut seen = BTreeSet::new();
    while chosen.len() < number(count) as usize && !pool.is_empty() {
        let gain = |item: &(Vec<u8>, BTreeSet<String>)| {
            let new = item.1.difference(&seen).count();
            new * 1_000_000 / (item.0.len() + 2 * BLOCK_BYTES)
        };
        let best = (0..pool.len())
            .max_by_key(|&place| (gain(&pool[place]), usize::MAX - place))
            .expect("the pool is not empty");
        if gain(&pool[best]) == 0 && !seen.is_empty() {
            seen.clear();
            continue;
        }
        let (bytes, shown) = pool.remove(best);
        seen.extend(shown);
        chosen.push(bytes);
    }

    let directory = Path::new(directory);
    std::fs::create_dir_all(directory).expect("a directory");
    for (place, bytes) in chosen.iter().enumerate() {
        std::fs::write(directory.join(format!("{place:04}.in")), bytes).expect("a file");
    }
}

fn shown_by(bytes: &[u8]) -> BTreeSet<String> {
    let notes = play(bytes).notes;
    let mut shown: BTreeSet<String> = notes.counts.keys().cloned().collect();
    for depth in 1..=notes.largest_queue {
        shown.insert(format!("{depth} entries in one channel"));
    }
    for bridges in 1..=notes.longest_read {
        shown.insert(format!("a read over {bridges} bridges"));
    }
    for records in [10, 20, 40, 63] {
        if notes.longest_tick >= records {
            shown.insert(format!("a tick of {records} records and more"));
        }
    }
    if notes.largest_number > 255 {
        shown.insert("numbers above 255".to_string());
    }
    shown
}
