//! "Entries and channels".

use crate::table::Table;

#[derive(Clone, Copy, PartialEq, Eq, Debug)]
pub enum EntryKind {
    Posted,     // P
    Request,    // R
    Completion, // C
}

/// A transaction is named by its master and a number.
#[derive(Clone, Copy, PartialEq, Eq, Debug)]
pub struct Transaction {
    pub master: usize,
    pub number: u16,
}

#[derive(Clone, Copy, PartialEq, Eq, Debug)]
pub struct Entry {
    pub kind: EntryKind,
    pub transaction: Transaction,
    pub target: usize,
    pub is_read: bool,
    /// Only a request may carry the mark.
    pub committed: bool,
}

/// The entries of one channel, oldest first.
#[derive(Clone, Default, PartialEq, Eq, Debug)]
pub struct Channel {
    pub entries: Vec<Entry>,
}

impl Channel {
    /// The place of the oldest entry of that kind and transaction.
    pub fn find(&self, kind: EntryKind, transaction: Transaction) -> Option<usize> {
        self.entries
            .iter()
            .position(|entry| entry.kind == kind && entry.transaction == transaction)
    }

    /// Whether an entry of that kind stands before the place.
    pub fn has_older(&self, kind: EntryKind, place: usize) -> bool {
        self.entries[..place].iter().any(|entry| entry.kind == kind)
    }

    /// Each kind is counted by itself.
    pub fn number_of(&self, kind: EntryKind) -> usize {
        self.entries
            .iter()
            .filter(|entry| entry.kind == kind)
            .count()
    }
}

#[derive(Clone)]
pub struct State {
    pub table: Table,
    pub channels: Vec<Channel>,
    /// The accepted begins of each agent.
    pub begins: Vec<u16>,
}

impl State {
    /// The empty network of a table.
    pub fn new(table: Table) -> State {
        State {
            channels: vec![Channel::default(); table.channel_count()],
            begins: vec![0; table.agents.len()],
            table,
        }
    }

    /// The entries left in all channels.
    pub fn entry_count(&self) -> usize {
        self.channels
            .iter()
            .map(|channel| channel.entries.len())
            .sum()
    }

    /// Whether a kind is at its limit in a channel (ground 5).
    pub fn is_full(&self, channel: usize, kind: EntryKind) -> bool {
        self.channels[channel].number_of(kind) >= self.table.limit(kind)
    }

    /// New entries go behind all others.
    pub fn add(&mut self, channel: usize, entry: Entry) {
        assert!(!self.is_full(channel, entry.kind), "above the limit");
        self.channels[channel].entries.push(entry);
    }

    /// A removal closes the gap.
    pub fn remove(&mut self, channel: usize, place: usize) -> Entry {
        self.channels[channel].entries.remove(place)
    }
}
