//! Random streams, right and damaged. The generator plays its own stream while it
//! makes it, so that it can choose events that are accepted now, or just not.

mod damage;
mod events;
mod network;
mod ticks;

use crate::block::{event_block, MOST_RECORDS, STEPS, TICK};
use crate::event::{step, Record, BEGIN_POSTED, BEGIN_READ, BEGIN_WRITE, COMPLETE, POST};
use crate::random::Random;
use crate::state::State;
use crate::table::Table;
use crate::tick::tick;
use events::Mood;
use network::Network;

/// Most blocks of a stream, the rare one that fills a count left aside.
pub const MOST_BLOCKS: usize = 12;
/// One stream of so many fills an agent's count of begins (ground 4).
pub const FULL_COUNT_EVERY: u64 = 1000;

/// Stream number `index` of a seed; without ticks if so wished.
pub fn stream(seed: u64, index: u64, ticks: bool) -> Vec<u8> {
    let mut random = Random::new(seed, index);
    if index % FULL_COUNT_EVERY == FULL_COUNT_EVERY - 1 {
        return full_count(random, ticks);
    }
    match random.weighted(&[71, 11, 10, 3, 2, 3]) {
        0 => traffic(random, ticks).bytes,
        1 => {
            let mut bytes = network::damaged_table(&mut random);
            // Whatever stands behind a refused block must not be read.
            if random.percent(30) {
                bytes.extend(event_block(STEPS, 1, &[]));
            }
            bytes
        }
        2 => {
            let maker = traffic(random, ticks);
            damage::damaged_end(maker)
        }
        3 => large_numbers(random, ticks),
        4 => damage::not_whole_blocks(&mut random),
        _ => crowd(random, ticks),
    }
}

/// A stream in the making, and the state that it has reached.
struct Maker {
    random: Random,
    ticks: bool,
    bytes: Vec<u8>,
    place: usize,
    state: State,
}

/// A network and some blocks of events.
fn traffic(mut random: Random, ticks: bool) -> Maker {
    let network = Network::random(&mut random);
    let mut maker = Maker::new(random, ticks, &network);
    let most = maker.random.pick(&[2, 2, 3, 3, 4, 5, 6, 8, MOST_BLOCKS]);
    // Some streams have ticks only, so that ticks alone bring an entry far.
    let tick_share = maker.random.pick(&[0, 30, 50, 50, 100]);
    // Traffic comes up in the first block, with long lists of steps.
    if tick_share < 100 && maker.place < most {
        let records = maker.random.within(20, MOST_RECORDS);
        let mood = Mood::random(&mut maker.random);
        maker.steps(records, &mood);
    }
    while maker.place < most {
        let mood = Mood::random(&mut maker.random);
        if ticks && maker.random.percent(tick_share) {
            maker.tick();
        } else {
            let records = match maker.random.weighted(&[5, 40, 35, 15, 5]) {
                0 => 0,
                1 => maker.random.within(1, 8),
                2 => maker.random.within(9, 30),
                3 => maker.random.within(31, 62),
                _ => MOST_RECORDS,
            };
            maker.steps(records, &mood);
        }
    }
    maker
}

/// Queues as deep as they go, and then ticks with all that goes together.
fn crowd(mut random: Random, ticks: bool) -> Vec<u8> {
    let network = Network::crowded(&mut random);
    let mut maker = Maker::new(random, ticks, &network);
    while maker.place < MOST_BLOCKS {
        if ticks && maker.place > 7 && maker.random.percent(60) {
            maker.tick();
        } else {
            maker.steps(MOST_RECORDS, &Mood::fill());
        }
    }
    maker.bytes
}

/// A stream in which the numbers of master 0 rise above 255.
fn large_numbers(mut random: Random, ticks: bool) -> Vec<u8> {
    let mut network = Network::random(&mut random);
    network.put_first_two_together();
    let mut maker = Maker::new(random, ticks, &network);
    let begins = maker.random.within(240, 280);
    maker.many_begins(begins);
    while maker.place < MOST_BLOCKS {
        let mood = Mood::random(&mut maker.random);
        if ticks && maker.random.percent(40) {
            maker.tick();
        } else {
            let records = maker.random.within(10, MOST_RECORDS);
            maker.steps(records, &mood);
        }
    }
    maker.bytes
}

/// A stream that brings master 0 to 65,535 begins, and tries more.
fn full_count(mut random: Random, ticks: bool) -> Vec<u8> {
    let mut network = Network::random(&mut random);
    network.put_first_two_together();
    let mut maker = Maker::new(random, ticks, &network);
    maker.many_begins(65_532);
    let begin = |kind: u8, master: u8, target: u8| Record {
        kind,
        channel: 0,
        master,
        target,
        number: 0,
        last: [0, 0],
    };
    let mut records = Vec::new();
    for _ in 0..3 {
        for kind in [BEGIN_POSTED, BEGIN_READ, BEGIN_WRITE] {
            records.push(begin(kind, 0, 1));
        }
        records.push(begin(POST, 0, 0)); // the bytes of a post of number 0: 6
    }
    // 2 and 3 stand before 4.
    records.push(begin(BEGIN_READ, 0, 0));
    records.push(begin(BEGIN_READ, 0, 200));
    records.push(begin(BEGIN_READ, 1, 0));
    maker.given_steps(&records);
    maker.drain();
    maker.given_steps(&records);
    if ticks {
        for kind in [BEGIN_POSTED, BEGIN_READ, BEGIN_WRITE] {
            maker.given_tick(&[begin(BEGIN_WRITE, 1, 0), begin(kind, 0, 1)]);
        }
    }
    let mood = Mood::random(&mut maker.random);
    maker.steps(MOST_RECORDS, &mood);
    maker.bytes
}

/// One block more than can state its place: it is refused with 22.
pub fn longest_stream() -> Vec<u8> {
    let network = Network::random(&mut Random::new(0, 0));
    let mut bytes = network.block();
    for place in 1..=65_536 {
        bytes.extend(event_block(STEPS, place, &[]));
    }
    bytes
}

impl Maker {
    fn new(random: Random, ticks: bool, network: &Network) -> Maker {
        let bytes = network.block();
        let table = Table::read(&bytes).expect("a right table");
        Maker {
            random,
            ticks,
            bytes,
            place: 1,
            state: State::new(table),
        }
    }

    /// A block of steps, chosen one after the other.
    fn steps(&mut self, count: usize, mood: &Mood) {
        let mut records = Vec::new();
        let mut last = None;
        for _ in 0..count {
            let record = events::choose(&self.state, mood, last, &mut self.random);
            let answer = step(&mut self.state, &record);
            records.push(record);
            if let Ok(value) = answer {
                let mut transaction = record.transaction();
                if record.is_begin() {
                    transaction.number = value;
                }
                last = Some(transaction);
            }
        }
        self.put(STEPS, &records);
    }

    fn given_steps(&mut self, records: &[Record]) {
        for record in records {
            let _ = step(&mut self.state, record);
        }
        self.put(STEPS, records);
    }

    /// A block with one tick.
    fn tick(&mut self) {
        let records = ticks::list(&self.state, &mut self.random);
        self.given_tick(&records);
    }

    fn given_tick(&mut self, records: &[Record]) {
        tick(&mut self.state, records);
        self.put(TICK, records);
    }

    fn put(&mut self, kind: u8, records: &[Record]) {
        self.bytes.extend(event_block(kind, self.place, records));
        self.place += 1;
    }

    /// So many begins of agent 0, each ended at once at agent 1 on the same bus.
    fn many_begins(&mut self, count: usize) {
        let mut records = Vec::new();
        for number in 1..=count {
            let kind = self.random.pick(&[BEGIN_POSTED, BEGIN_READ, BEGIN_WRITE]);
            let begin = Record {
                kind,
                channel: 0,
                master: 0,
                target: 1,
                number: 0,
                last: [0, 0],
            };
            let end = Record {
                kind: if kind == BEGIN_POSTED { POST } else { COMPLETE },
                target: 0,
                number: number as u16,
                ..begin
            };
            for record in [begin, end] {
                records.push(record);
                if records.len() == MOST_RECORDS {
                    self.given_steps(&records);
                    records.clear();
                }
            }
        }
        if !records.is_empty() {
            self.given_steps(&records);
        }
    }

    /// Blocks of steps that begin nothing, until nothing stands in master channel 0.
    fn drain(&mut self) {
        for _ in 0..20 {
            if self.state.channels[0].entries.is_empty() {
                return;
            }
            self.steps(MOST_RECORDS, &Mood::drain());
        }
    }
}
