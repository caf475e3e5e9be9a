//! What happened in a run, counted: the coverage report is made of this.

use crate::event::{Record, BEGIN_POSTED, COMPLETE, DROP_COMPLETION};
use crate::state::{EntryKind, State};
use std::collections::BTreeMap;

/// The grounds that each kind can meet, in their order (place 0 is the unknown kind).
pub const GROUNDS: [&[u8]; 10] = [
    &[1],
    &[1, 2, 3, 4, 5],
    &[1, 2, 3, 4, 5],
    &[1, 2, 3, 4, 5],
    &[1, 2, 6, 8, 9],
    &[1, 2, 6, 9, 5],
    &[1, 2, 6, 11, 9, 10, 5],
    &[1, 2, 6, 9, 12, 14, 5],
    &[1, 2, 6, 7, 8],
    &[1, 2, 6, 13],
];

/// The kinds, the lower first, that can conflict in each case.
const CONFLICTS: [(char, u8, u8); 22] = [
    ('a', 4, 4),
    ('a', 4, 5),
    ('a', 4, 6),
    ('a', 4, 7),
    ('a', 5, 5),
    ('a', 5, 6),
    ('a', 5, 7),
    ('a', 6, 6),
    ('a', 6, 7),
    ('a', 7, 7),
    ('b', 1, 1),
    ('b', 1, 2),
    ('b', 1, 3),
    ('b', 2, 2),
    ('b', 2, 3),
    ('b', 3, 3),
    ('c', 4, 8),
    ('c', 6, 8),
    ('c', 7, 8),
    ('d', 7, 9),
    ('e', 8, 8),
    ('e', 9, 9),
];

#[derive(Default)]
pub struct Notes {
    /// How often each thing occurred, by its name.
    pub counts: BTreeMap<String, u64>,
    /// Most entries in one channel at one time.
    pub largest_queue: usize,
    /// Most bridges between master and target of a read that ended at its master.
    pub longest_read: usize,
    /// Most records in an accepted tick.
    pub longest_tick: usize,
    /// The largest number of a transaction.
    pub largest_number: u16,
}

/// Every name that a report shows, also where it never occurred.
pub fn report_names() -> Vec<String> {
    let mut names = Vec::new();
    for number in 1..=14 {
        names.push(event_refused(number));
    }
    for number in 1..=14 {
        names.push(tick_refused(number));
    }
    for case in 'a'..='e' {
        names.push(tick_conflict(case));
    }
    for (case, one, two) in CONFLICTS {
        names.push(conflict_of(case, one, two));
    }
    for number in 20..=27 {
        names.push(block_refused(number));
    }
    for kind in 1..=9 {
        names.push(kind_accepted(kind));
        names.push(kind_refused(kind));
    }
    names.push(kind_refused(0));
    for form in [
        "net",
        "e",
        "t accepted",
        "t refused",
        "t conflict",
        "stop",
        "end",
    ] {
        names.push(line(form));
    }
    for records in ["no record", "one record", "several records"] {
        names.push(tick_accepted(records));
    }
    for (kind, grounds) in GROUNDS.iter().enumerate() {
        for &number in *grounds {
            names.push(refused_with("step", kind as u8, number));
        }
    }
    for (kind, grounds) in GROUNDS.iter().enumerate() {
        for &number in *grounds {
            names.push(refused_with("tick", kind as u8, number));
        }
    }
    names
}

fn event_refused(number: u8) -> String {
    format!("event refused with {number}")
}
fn tick_refused(number: u8) -> String {
    format!("tick refused with {number}")
}
fn tick_conflict(case: char) -> String {
    format!("tick refused with 15, case ({case})")
}
fn conflict_of(case: char, one: u8, two: u8) -> String {
    let (lower, higher) = (one.min(two), one.max(two));
    format!("tick: case ({case}) of kinds {lower} and {higher}")
}
fn block_refused(number: u8) -> String {
    format!("block refused with {number}")
}
fn kind_accepted(kind: u8) -> String {
    format!("kind {kind} accepted")
}
fn kind_refused(kind: u8) -> String {
    if known(kind) == 0 {
        "unknown kind refused".to_string()
    } else {
        format!("kind {kind} refused")
    }
}
fn line(form: &str) -> String {
    format!("line {form}")
}
fn tick_accepted(records: &str) -> String {
    format!("tick accepted with {records}")
}
fn refused_with(where_: &str, kind: u8, number: u8) -> String {
    match known(kind) {
        0 => format!("{where_}: unknown kind refused with {number}"),
        kind => format!("{where_}: kind {kind} refused with {number}"),
    }
}

/// The kind, with 0 for all unknown kinds.
fn known(kind: u8) -> u8 {
    if (BEGIN_POSTED..=DROP_COMPLETION).contains(&kind) {
        kind
    } else {
        0
    }
}

/// What is wrong in a refused block, in a few words.
fn fault(number: u8, place: usize, bytes: &[u8]) -> String {
    let first_stray = |from: usize| (from..508).find(|&i| bytes[i] != 0).unwrap_or(508);
    let text = match number {
        20 if bytes.is_empty() => "no input",
        20 => "a part of a block",
        21 => "a wrong check",
        22 => return fault_22(place, bytes),
        23 => {
            let i = out_of_range(bytes);
            let side = if bytes[i] == 0 { "0" } else { "too large" };
            return format!("byte {i}, {side}");
        }
        24 if place > 0 => {
            let behind = 4 + 8 * bytes[1] as usize;
            match first_stray(behind) {
                507 => "a stray last byte",
                stray if stray == behind => "a stray first byte",
                _ => "a stray byte",
            }
        }
        24 if first_stray(10) < 16 => "bytes 10 to 15 of a table",
        24 => match first_stray(16 + 2 * bytes[5] as usize) {
            0..=45 => "a bridge too many",
            46 | 47 => "bytes 46 and 47 of a table",
            _ => match first_stray(48 + bytes[6] as usize) {
                0..=79 => "an agent too many",
                507 => "the last byte of a table",
                _ => "bytes 80 to 506 of a table",
            },
        },
        25 => {
            let bridges = &bytes[16..16 + 2 * bytes[5] as usize];
            if bridges.iter().any(|&bus| bus >= bytes[4]) {
                "the bus of a bridge"
            } else {
                "the bus of an agent"
            }
        }
        26 => "a bridge to its own bus",
        // A tree has one bridge less than buses.
        _ => match (bytes[5] + 1).cmp(&bytes[4]) {
            std::cmp::Ordering::Less => "too few bridges",
            std::cmp::Ordering::Equal => "as many bridges as a tree",
            std::cmp::Ordering::Greater => "too many bridges",
        },
    };
    text.to_string()
}

fn fault_22(place: usize, bytes: &[u8]) -> String {
    let stated = u16::from_le_bytes([bytes[2], bytes[3]]) as usize;
    if stated % 256 != place % 256 {
        "the place's low byte".to_string()
    } else if stated != place {
        "the place's high byte".to_string()
    } else if place == 0 && bytes[0] != 1 {
        "no table at place 0".to_string()
    } else if place != 0 && bytes[0] == 1 {
        "a table behind place 0".to_string()
    } else if !(1..=3).contains(&bytes[0]) {
        "an unknown kind".to_string()
    } else if place == 0 {
        "the count of a table".to_string()
    } else if bytes[1] == 64 {
        "count 64".to_string()
    } else {
        "a count above 64".to_string()
    }
}

/// The first count or limit of a table that is out of range.
fn out_of_range(bytes: &[u8]) -> usize {
    let ranges = [(1, 16), (0, 15), (1, 32), (1, 8), (1, 8), (1, 8)];
    let found = (0..6).find(|&i| bytes[4 + i] < ranges[i].0 || bytes[4 + i] > ranges[i].1);
    4 + found.expect("refused with 23")
}

impl Notes {
    fn count(&mut self, name: String) {
        *self.counts.entry(name).or_insert(0) += 1;
    }

    pub fn line(&mut self, form: &str) {
        self.count(line(form));
    }

    pub fn block_refused(&mut self, number: u8, place: usize, bytes: &[u8]) {
        self.count(block_refused(number));
        self.count(format!(
            "block: {number} by {}",
            fault(number, place, bytes)
        ));
    }

    /// Looks at a complete before it is played: does a read end at its master?
    pub fn before(&mut self, state: &State, record: &Record) {
        let n = record.channel as usize;
        let ends = record.kind == COMPLETE
            && n < state.table.agents.len()
            && crate::event::refusal(state, record).is_none();
        if ends {
            let channel = &state.channels[n];
            let place = channel
                .find(EntryKind::Request, record.transaction())
                .expect("not refused");
            let entry = channel.entries[place];
            if entry.is_read {
                let bridges = state.table.distance(n, entry.target);
                self.longest_read = self.longest_read.max(bridges);
            }
        }
    }

    /// A single step; the state is the one after it.
    pub fn step(&mut self, state: &State, record: &Record, refusal: u8) {
        if refusal == 0 {
            self.count(kind_accepted(record.kind));
            self.look_at(state);
        } else {
            self.count(event_refused(refusal));
            self.count(kind_refused(record.kind));
            self.count(refused_with("step", record.kind, refusal));
        }
    }

    /// An accepted tick; the state is the one after it.
    pub fn tick_accepted(&mut self, state: &State, records: &[Record]) {
        self.line("t accepted");
        let how_many = match records.len() {
            0 => "no record",
            1 => "one record",
            _ => "several records",
        };
        self.count(tick_accepted(how_many));
        self.longest_tick = self.longest_tick.max(records.len());
        for record in records {
            self.count(kind_accepted(record.kind));
        }
        self.look_at(state);
    }

    pub fn tick_refused(&mut self, record: &Record, number: u8) {
        self.line("t refused");
        self.count(tick_refused(number));
        self.count(kind_refused(record.kind));
        self.count(refused_with("tick", record.kind, number));
    }

    pub fn tick_conflict(&mut self, case: char, one: &Record, two: &Record) {
        self.line("t conflict");
        self.count(tick_conflict(case));
        self.count(conflict_of(case, one.kind, two.kind));
    }

    fn look_at(&mut self, state: &State) {
        for channel in &state.channels {
            self.largest_queue = self.largest_queue.max(channel.entries.len());
        }
        for &number in &state.begins {
            self.largest_number = self.largest_number.max(number);
        }
    }

    /// Adds the notes of another run.
    pub fn add(&mut self, other: &Notes) {
        for (name, count) in &other.counts {
            *self.counts.entry(name.clone()).or_insert(0) += count;
        }
        self.largest_queue = self.largest_queue.max(other.largest_queue);
        self.longest_read = self.longest_read.max(other.longest_read);
        self.longest_tick = self.longest_tick.max(other.longest_tick);
        self.largest_number = self.largest_number.max(other.largest_number);
    }

    /// The report: one line for each name, then the largest.
    pub fn report(&self) -> String {
        let mut text = String::new();
        for name in report_names() {
            let count = self.counts.get(&name).copied().unwrap_or(0);
            text += &format!("{count:>9}  {name}\n");
        }
        // The faults of refused blocks have no fixed list.
        for (name, count) in &self.counts {
            if name.starts_with("block: ") {
                text += &format!("{count:>9}  {name}\n");
            }
        }
        for (most, name) in [
            (self.largest_queue, "most entries in one channel"),
            (
                self.longest_read,
                "most bridges on the way of a read that ended",
            ),
            (self.longest_tick, "most records in an accepted tick"),
            (
                self.largest_number as usize,
                "largest number of a transaction",
            ),
        ] {
            text += &format!("{most:>9}  {name}\n");
        }
        text
    }
}
