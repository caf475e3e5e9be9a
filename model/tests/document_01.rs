//! "Trials with known outcome" of document 01.

use model::block::{event_block, seal, BLOCK_BYTES, STEPS, TICK};
use model::event::Record;
use model::generator::{longest_stream, stream};
use model::play::log_of;

/// (kind, channel, master, target, number)
type Event = (u8, u8, u8, u8, u16);

fn table(buses: u8, bridges: &[(u8, u8)], agents: &[u8], limits: [u8; 3]) -> Vec<u8> {
    let mut bytes = vec![0; BLOCK_BYTES];
    bytes[0] = 1;
    bytes[4..7].copy_from_slice(&[buses, bridges.len() as u8, agents.len() as u8]);
    bytes[7..10].copy_from_slice(&limits);
    for (i, bridge) in bridges.iter().enumerate() {
        bytes[16 + 2 * i] = bridge.0;
        bytes[17 + 2 * i] = bridge.1;
    }
    bytes[48..48 + agents.len()].copy_from_slice(agents);
    seal(&mut bytes);
    bytes
}

/// Table T, with other limits.
fn t(limits: [u8; 3]) -> Vec<u8> {
    table(2, &[(0, 1)], &[0, 1], limits)
}

fn block(kind: u8, place: usize, events: &[Event]) -> Vec<u8> {
    let records: Vec<Record> = events
        .iter()
        .map(|&(kind, channel, master, target, number)| Record {
            kind,
            channel,
            master,
            target,
            number,
            last: [0, 0],
        })
        .collect();
    event_block(kind, place, &records)
}

/// The last line of a log.
fn last_line(stream: &[u8]) -> String {
    log_of(stream).lines().last().unwrap().to_string()
}

/// The `t` line of a stream whose last block is a tick.
fn tick_line(blocks: &[Vec<u8>]) -> String {
    let log = log_of(&blocks.concat());
    log.lines()
        .find(|l| l.starts_with("t "))
        .unwrap()
        .to_string()
}

#[test]
fn the_ten_records() {
    let table = t([2, 1, 1]);
    assert_eq!(table[508..512], [134, 0, 0, 0]);
    let steps = block(
        STEPS,
        1,
        &[
            (1, 0, 0, 1, 0),
            (2, 0, 0, 1, 0),
            (6, 0, 0, 0, 2),
            (5, 0, 0, 0, 1),
            (6, 0, 0, 0, 2),
            (7, 2, 0, 0, 2),
            (5, 2, 0, 0, 1),
            (7, 2, 0, 0, 2),
            (7, 0, 0, 0, 2),
            (7, 0, 0, 0, 2),
        ],
    );
    let log = "net 2 1 2\ne 1 0 1 0 1\ne 1 1 2 0 2\ne 1 2 6 9 0\ne 1 3 5 0 0\ne 1 4 6 0 0\n\
               e 1 5 7 9 0\ne 1 6 5 0 0\ne 1 7 7 0 0\ne 1 8 7 0 0\ne 1 9 7 6 0\nend 0\n";
    assert_eq!(log_of(&[table, steps].concat()), log);
}

#[test]
fn tables() {
    assert_eq!(
        log_of(&table(1, &[], &[0], [1, 1, 1])),
        "net 1 0 1\nend 0\n"
    );
    assert_eq!(last_line(&table(2, &[], &[0], [1, 1, 1])), "stop 0 27");
    let twice = [(0, 1), (0, 1)];
    assert_eq!(last_line(&table(2, &twice, &[0], [1, 1, 1])), "stop 0 27");
    let chain: Vec<(u8, u8)> = (0..15).map(|bus| (bus, bus + 1)).collect();
    assert_eq!(last_line(&table(16, &chain, &[0], [1, 1, 1])), "end 0");
    assert_eq!(last_line(&table(17, &chain, &[0], [1, 1, 1])), "stop 0 23");
    for place in 0..3 {
        for limit in [0, 9] {
            let mut limits = [1, 1, 1];
            limits[place] = limit;
            assert_eq!(last_line(&t(limits)), "stop 0 23");
        }
    }
    // A loop beside an island has as many bridges as a tree.
    let loop_and_island = [(0, 1), (1, 2), (2, 0)];
    assert_eq!(
        last_line(&table(4, &loop_and_island, &[0], [1, 1, 1])),
        "stop 0 27"
    );
}

#[test]
fn ticks() {
    // Nothing happens.
    assert_eq!(tick_line(&[t([2, 1, 1]), block(TICK, 1, &[])]), "t 1 0 0 0");
    // Two reads completed into channel 3; a complete of the first, a drop of the second.
    let reads = block(
        STEPS,
        1,
        &[
            (2, 0, 0, 1, 0),
            (2, 0, 0, 1, 0),
            (6, 0, 0, 0, 1),
            (6, 0, 0, 0, 2),
            (7, 2, 0, 0, 1),
            (7, 2, 0, 0, 2),
        ],
    );
    let d = block(TICK, 2, &[(7, 0, 0, 0, 1), (9, 3, 0, 0, 2)]);
    assert_eq!(tick_line(&[t([2, 2, 2]), reads, d]), "t 2 15 0 1");
    // Two begins of agent 0.
    let begins = block(TICK, 1, &[(1, 0, 0, 1, 0), (2, 0, 0, 1, 0)]);
    assert_eq!(tick_line(&[t([2, 1, 1]), begins]), "t 1 15 0 1");
    // A begin of agent 0 and the post of the P that stands there.
    let one = block(STEPS, 1, &[(1, 0, 0, 1, 0)]);
    let both = block(TICK, 2, &[(1, 0, 0, 1, 0), (5, 0, 0, 0, 1)]);
    assert_eq!(tick_line(&[t([2, 1, 1]), one, both]), "t 2 0 0 0");
    // Limit P 1: the first post is refused, although the other order would pass.
    let full = block(
        STEPS,
        1,
        &[(1, 0, 0, 1, 0), (5, 0, 0, 0, 1), (1, 0, 0, 1, 0)],
    );
    let posts = block(TICK, 2, &[(5, 0, 0, 0, 2), (5, 2, 0, 0, 1)]);
    assert_eq!(tick_line(&[t([1, 1, 1]), full, posts]), "t 2 5 0 0");
}

#[test]
fn odd_inputs() {
    assert_eq!(log_of(&[]), "stop 0 20\n");
    assert_eq!(log_of(&[0; 512]), "stop 0 22\n");
    assert_eq!(last_line(&longest_stream()), "stop 65536 22");
}

/// An accepted tick whose record is refused on the way would stop the model here.
#[test]
fn random_streams_end() {
    for index in 0..500 {
        let log = log_of(&stream(3, index, true));
        let last = log.lines().last().unwrap();
        assert!(last.starts_with("stop ") || last.starts_with("end "));
    }
}
