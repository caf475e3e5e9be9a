//! One event: mostly accepted now, sometimes just not.

use crate::event::*;
use crate::random::Random;
use crate::state::{EntryKind, State, Transaction};
use crate::table::Place;

/// How much each kind is liked (by its number), how often a step misses on purpose, how
/// often what ends a transaction is put off, and how often the next event is of the same
/// transaction (the last three in a hundred).
pub struct Mood {
    likes: [usize; 10],
    misses: usize,
    ends_put_off: usize,
    follows: usize,
}

impl Mood {
    pub fn random(random: &mut Random) -> Mood {
        //             -  1  2  3  4  5  6  7  8  9
        let likes = random.pick(&[
            [0, 4, 4, 3, 2, 6, 8, 8, 1, 2],  // of everything
            [0, 1, 8, 2, 1, 6, 12, 9, 1, 1], // reads over long ways
            [0, 9, 2, 2, 1, 5, 5, 5, 1, 1],  // posted writes pile up
            [0, 3, 6, 6, 1, 4, 9, 9, 0, 0],  // completions pile up
            [0, 1, 5, 5, 4, 4, 8, 8, 6, 9],  // drops
            [0, 5, 5, 5, 1, 1, 3, 1, 0, 0],  // everything full
            [0, 1, 1, 1, 1, 9, 6, 12, 1, 1], // nearly empty again
        ]);
        Mood {
            likes,
            misses: random.pick(&[0, 5, 15, 30]),
            ends_put_off: random.pick(&[0, 50, 90]),
            follows: random.pick(&[0, 0, 50, 90]),
        }
    }

    /// Begins and moves all, and ends nothing.
    pub fn fill() -> Mood {
        Mood {
            likes: [0, 3, 3, 3, 1, 6, 9, 9, 0, 0],
            misses: 2,
            ends_put_off: 97,
            follows: 0,
        }
    }

    /// Begins nothing, and ends all.
    pub fn drain() -> Mood {
        Mood {
            likes: [0, 0, 0, 0, 0, 9, 9, 20, 0, 0],
            misses: 0,
            ends_put_off: 0,
            follows: 0,
        }
    }
}

/// The next event of a block of steps, behind one on the transaction `last`.
pub fn choose(
    state: &State,
    mood: &Mood,
    last: Option<Transaction>,
    random: &mut Random,
) -> Record {
    if random.percent(mood.misses) {
        return near_miss(state, random);
    }
    let mut pool = accepted_now(state, random);
    if random.percent(mood.ends_put_off) {
        pool.retain(|event| !ends_transaction(state, event));
    }
    // A read comes over many bridges only if it is followed.
    let moves_last = |event: &Record| {
        !event.is_begin() && event.kind < DROP_REQUEST && Some(event.transaction()) == last
    };
    if random.percent(mood.follows) && pool.iter().any(moves_last) {
        pool.retain(moves_last);
    }
    // First a kind that can be had, then one event of it.
    let mut likes = mood.likes;
    for kind in 1..=9 {
        if !pool.iter().any(|event| event.kind == kind as u8) {
            likes[kind] = 0;
        }
    }
    if likes.iter().sum::<usize>() == 0 {
        return near_miss(state, random);
    }
    let kind = random.weighted(&likes) as u8;
    pool.retain(|event| event.kind == kind);
    random.pick(&pool)
}

/// Events that are accepted in this state: those on entries all, and some begins.
pub fn accepted_now(state: &State, random: &mut Random) -> Vec<Record> {
    let mut pool = tries(state);
    pool.extend(some_begins(state, random));
    pool.retain(|event| refusal(state, event).is_none());
    pool
}

/// Whether an accepted event is a post at the target or a complete at the master.
fn ends_transaction(state: &State, event: &Record) -> bool {
    let n = event.channel as usize;
    if event.kind == COMPLETE {
        return state.table.is_master_channel(n);
    }
    if event.kind == POST {
        let channel = &state.channels[n];
        let place = channel.find(EntryKind::Posted, event.transaction());
        let target = channel.entries[place.expect("accepted")].target;
        return state.table.next_place(n, target) == Place::Target;
    }
    false
}

/// The kinds that go with each entry, accepted or not.
fn tries(state: &State) -> Vec<Record> {
    let mut list = Vec::new();
    for (channel, held) in state.channels.iter().enumerate() {
        for entry in &held.entries {
            let kinds: &[u8] = match entry.kind {
                EntryKind::Posted => &[POST],
                EntryKind::Request => &[COMMIT, LATCH, COMPLETE, DROP_REQUEST],
                EntryKind::Completion => &[DROP_COMPLETION],
            };
            for &kind in kinds {
                list.push(Record {
                    kind,
                    channel: channel as u8,
                    master: entry.transaction.master as u8,
                    target: 0,
                    number: entry.transaction.number,
                    last: [0, 0],
                });
            }
        }
    }
    list
}

/// Begins of every kind and agent, each with one target, the farther of two.
fn some_begins(state: &State, random: &mut Random) -> Vec<Record> {
    let agents = state.table.agents.len();
    let mut list = Vec::new();
    for master in 0..agents {
        for kind in [BEGIN_POSTED, BEGIN_READ, BEGIN_WRITE] {
            let one = random.below(agents);
            let two = random.below(agents);
            let target = if state.table.distance(master, one) > state.table.distance(master, two) {
                one
            } else {
                two
            };
            list.push(begin(kind, master, target));
        }
    }
    list
}

fn begin(kind: u8, master: usize, target: usize) -> Record {
    Record {
        kind,
        channel: 0,
        master: master as u8,
        target: target as u8,
        number: 0,
        last: [0, 0],
    }
}

/// An event that aims at one ground of refusal.
pub fn near_miss(state: &State, random: &mut Random) -> Record {
    let ground = random.pick(&[
        1, 1, 2, 2, 3, 5, 5, 5, 5, 6, 6, 7, 8, 8, 9, 9, 10, 10, 11, 12, 12, 13, 14, 14, 14,
    ]);
    match ground {
        1 => unused_field(state, random),
        2 => not_in_table(state, random),
        3 => {
            let agent = random.below(state.table.agents.len());
            begin(random.within(1, 3) as u8, agent, agent)
        }
        6 => no_such_entry(state, random),
        _ => {
            let mut pool = tries(state);
            pool.extend(some_begins(state, random));
            pool.retain(|event| refusal(state, event) == Some(ground));
            if pool.is_empty() {
                return any_byte_changed(state, random);
            }
            // First the kind, so that many begins do not hide a rare complete.
            let kind = random.pick(&pool).kind;
            let other = random.pick(&pool).kind;
            pool.retain(|event| event.kind == kind.max(other));
            random.pick(&pool)
        }
    }
}

/// Some event that makes sense, accepted or not.
fn sensible(state: &State, random: &mut Random) -> Record {
    let mut pool = some_begins(state, random);
    let on_entries = tries(state);
    if !on_entries.is_empty() && random.percent(75) {
        pool = on_entries;
    }
    random.pick(&pool)
}

/// Ground 1: an unknown kind, or something in a field that the kind does not use.
fn unused_field(state: &State, random: &mut Random) -> Record {
    let mut event = sensible(state, random);
    match random.below(5) {
        0 => event.kind = random.pick(&[0, 10, 11, 128, 255]),
        1 => event.last[0] = random.stray(),
        2 => event.last[1] = random.stray(),
        _ if event.is_begin() => {
            if random.percent(50) {
                event.channel = random.pick(&[1, event.master, 255]);
            } else {
                event.number = random.pick(&[1, 256, 65535]);
            }
        }
        _ => event.target = random.pick(&[1, 2, 255]),
    }
    event
}

/// Ground 2: the first number that is not in the table, or a larger one.
fn not_in_table(state: &State, random: &mut Random) -> Record {
    let mut event = sensible(state, random);
    let agents = state.table.agents.len() as u8;
    let channels = state.table.channel_count() as u8;
    let outside_agents = random.pick(&[agents, agents + 1, 32, 255]);
    let outside_channels = random.pick(&[channels, channels + 1, 62, 255]);
    if random.percent(50) {
        event.master = outside_agents;
    } else if event.is_begin() {
        event.target = outside_agents;
    } else {
        event.channel = outside_channels;
    }
    event
}

/// Ground 6: the right name in a wrong channel, or a wrong name in the right one.
fn no_such_entry(state: &State, random: &mut Random) -> Record {
    let on_entries = tries(state);
    let mut event = if on_entries.is_empty() {
        Record {
            kind: random.within(4, 9) as u8,
            ..begin(0, random.below(state.table.agents.len()), 0)
        }
    } else {
        random.pick(&on_entries)
    };
    match random.below(7) {
        0 => event.channel = random.below(state.table.channel_count()) as u8,
        1 => event.master = random.below(state.table.agents.len()) as u8,
        2 => event.number = 0,
        3 => event.number ^= 256, // all 16 bits count
        4 => event.number = state.begins[event.master as usize].wrapping_add(1),
        5 => event.number = random.pick(&[1, 2, 3, 65535]),
        _ => event.kind = random.within(4, 9) as u8,
    }
    event
}

/// An event with one byte changed, whatever comes of it.
fn any_byte_changed(state: &State, random: &mut Random) -> Record {
    let mut bytes = sensible(state, random).bytes();
    let place = random.below(8);
    bytes[place] = match random.below(3) {
        0 => bytes[place].wrapping_add(1),
        1 => random.below(70) as u8,
        _ => random.byte(),
    };
    Record::read(&bytes)
}
