//! "The nine kinds" and "Refusal numbers and their order".

use crate::state::{Entry, EntryKind, State, Transaction};
use crate::table::Place;

pub const BEGIN_POSTED: u8 = 1;
pub const BEGIN_READ: u8 = 2;
pub const BEGIN_WRITE: u8 = 3;
pub const COMMIT: u8 = 4;
pub const POST: u8 = 5;
pub const LATCH: u8 = 6;
pub const COMPLETE: u8 = 7;
pub const DROP_REQUEST: u8 = 8;
pub const DROP_COMPLETION: u8 = 9;

/// The eight bytes of one event, as they stand in a block.
#[derive(Clone, Copy, PartialEq, Eq, Debug)]
pub struct Record {
    pub kind: u8,
    pub channel: u8,
    pub master: u8,
    pub target: u8,
    pub number: u16,
    pub last: [u8; 2],
}

impl Record {
    pub fn read(bytes: &[u8]) -> Record {
        Record {
            kind: bytes[0],
            channel: bytes[1],
            master: bytes[2],
            target: bytes[3],
            number: u16::from_le_bytes([bytes[4], bytes[5]]),
            last: [bytes[6], bytes[7]],
        }
    }

    pub fn bytes(&self) -> [u8; 8] {
        let [low, high] = self.number.to_le_bytes();
        [
            self.kind,
            self.channel,
            self.master,
            self.target,
            low,
            high,
            self.last[0],
            self.last[1],
        ]
    }

    pub fn is_begin(&self) -> bool {
        (BEGIN_POSTED..=BEGIN_WRITE).contains(&self.kind)
    }

    /// Kinds 4 to 7 occur on the out-bus of the named channel.
    pub fn occurs_on_bus(&self) -> bool {
        (COMMIT..=COMPLETE).contains(&self.kind)
    }

    pub fn transaction(&self) -> Transaction {
        Transaction {
            master: self.master as usize,
            number: self.number,
        }
    }

    /// The kind of entry that kinds 4 to 9 name (ground 6).
    fn named_kind(&self) -> EntryKind {
        match self.kind {
            POST => EntryKind::Posted,
            COMMIT | LATCH | COMPLETE | DROP_REQUEST => EntryKind::Request,
            DROP_COMPLETION => EntryKind::Completion,
            _ => panic!("a begin names no entry"),
        }
    }
}

/// Plays one event: its value, or its refusal number with the state unchanged.
pub fn step(state: &mut State, record: &Record) -> Result<u16, u8> {
    match refusal(state, record) {
        Some(number) => Err(number),
        None => Ok(perform(state, record)),
    }
}

/// The first ground that refuses the event, in the order of its kind.
pub fn refusal(state: &State, record: &Record) -> Option<u8> {
    // 1: unknown kind, or a field that the kind does not use is not 0.
    if !(BEGIN_POSTED..=DROP_COMPLETION).contains(&record.kind) || record.last != [0, 0] {
        return Some(1);
    }
    if record.is_begin() {
        if record.channel != 0 || record.number != 0 {
            return Some(1);
        }
        refusal_of_begin(state, record)
    } else {
        if record.target != 0 {
            return Some(1);
        }
        refusal_of_other(state, record)
    }
}

/// Begins: 2, 3, 4, 5.
fn refusal_of_begin(state: &State, record: &Record) -> Option<u8> {
    let master = record.master as usize;
    let target = record.target as usize;
    let agents = state.table.agents.len();
    if master >= agents || target >= agents {
        return Some(2);
    }
    if target == master {
        return Some(3);
    }
    if state.begins[master] == 65535 {
        return Some(4);
    }
    if state.is_full(master, begun_kind(record)) {
        return Some(5);
    }
    None
}

/// Others: 2, 6, then the grounds of each kind.
fn refusal_of_other(state: &State, record: &Record) -> Option<u8> {
    let table = &state.table;
    let n = record.channel as usize;
    if n >= table.channel_count() || record.master as usize >= table.agents.len() {
        return Some(2);
    }
    let channel = &state.channels[n];
    // Numbers of entries run from 1, so number 0 finds none.
    let Some(place) = channel.find(record.named_kind(), record.transaction()) else {
        return Some(6);
    };
    let entry = channel.entries[place];
    let older_posted = channel.has_older(EntryKind::Posted, place);
    let n1 = table.next_place(n, entry.target);

    match record.kind {
        COMMIT => {
            if entry.committed {
                return Some(8);
            }
            if older_posted {
                return Some(9);
            }
        }
        POST => {
            if older_posted {
                return Some(9);
            }
            if let Place::Bridge(next) = n1 {
                if state.is_full(next, EntryKind::Posted) {
                    return Some(5);
                }
            }
        }
        LATCH => {
            let Place::Bridge(next) = n1 else {
                return Some(11);
            };
            if older_posted {
                return Some(9);
            }
            let back = table.opposite(next);
            let request_there = state.channels[next].find(EntryKind::Request, entry.transaction);
            let completion_there =
                state.channels[back].find(EntryKind::Completion, entry.transaction);
            if request_there.is_some() || completion_there.is_some() {
                return Some(10);
            }
            if state.is_full(next, EntryKind::Request) {
                return Some(5);
            }
        }
        COMPLETE => {
            if older_posted {
                return Some(9);
            }
            if let Place::Bridge(next) = n1 {
                let back = &state.channels[table.opposite(next)];
                let Some(matching) = back.find(EntryKind::Completion, entry.transaction) else {
                    return Some(12);
                };
                // A write's C may pass P, a read's may not.
                if back.entries[matching].is_read && back.has_older(EntryKind::Posted, matching) {
                    return Some(14);
                }
            }
            if !table.is_master_channel(n)
                && state.is_full(table.opposite(n), EntryKind::Completion)
            {
                return Some(5);
            }
        }
        DROP_REQUEST => {
            if table.is_master_channel(n) {
                return Some(7);
            }
            if entry.committed {
                return Some(8);
            }
        }
        DROP_COMPLETION => {
            if !channel.has_older(EntryKind::Completion, place) {
                return Some(13);
            }
        }
        _ => unreachable!(),
    }
    None
}

fn begun_kind(record: &Record) -> EntryKind {
    if record.kind == BEGIN_POSTED {
        EntryKind::Posted
    } else {
        EntryKind::Request
    }
}

/// The effect of an event that is not refused, and its value.
pub fn perform(state: &mut State, record: &Record) -> u16 {
    if record.is_begin() {
        return begin(state, record);
    }
    let n = record.channel as usize;
    let place = state.channels[n]
        .find(record.named_kind(), record.transaction())
        .expect("the named entry");
    let entry = state.channels[n].entries[place];
    let n1 = state.table.next_place(n, entry.target);

    match record.kind {
        COMMIT => state.channels[n].entries[place].committed = true,
        POST => {
            let posted = state.remove(n, place);
            if let Place::Bridge(next) = n1 {
                state.add(next, posted);
            }
        }
        LATCH => {
            let Place::Bridge(next) = n1 else {
                panic!("a latch at the target");
            };
            state.channels[n].entries[place].committed = true;
            state.add(
                next,
                Entry {
                    committed: false,
                    ..entry
                },
            );
        }
        COMPLETE => {
            if let Place::Bridge(next) = n1 {
                let back = state.table.opposite(next);
                let matching = state.channels[back]
                    .find(EntryKind::Completion, entry.transaction)
                    .expect("the matching completion");
                state.remove(back, matching);
            }
            let request = state.remove(n, place);
            if !state.table.is_master_channel(n) {
                // The new C takes all but kind and mark from the R that leaves.
                let completion = Entry {
                    kind: EntryKind::Completion,
                    committed: false,
                    ..request
                };
                state.add(state.table.opposite(n), completion);
            }
        }
        DROP_REQUEST | DROP_COMPLETION => {
            state.remove(n, place);
        }
        _ => unreachable!(),
    }
    0
}

fn begin(state: &mut State, record: &Record) -> u16 {
    let master = record.master as usize;
    state.begins[master] += 1;
    let number = state.begins[master];
    let entry = Entry {
        kind: begun_kind(record),
        transaction: Transaction { master, number },
        target: record.target as usize,
        is_read: record.kind == BEGIN_READ,
        committed: false,
    };
    state.add(master, entry);
    number
}

/// The channel a complete takes a C out of, if it takes one. The R must stand there.
pub fn takes_completion_from(state: &State, record: &Record) -> Option<usize> {
    let n = record.channel as usize;
    let place = state.channels[n].find(EntryKind::Request, record.transaction())?;
    let target = state.channels[n].entries[place].target;
    match state.table.next_place(n, target) {
        Place::Target => None,
        Place::Bridge(next) => Some(state.table.opposite(next)),
    }
}
