//! Ticks, and "Conflict".

use crate::event::{perform, refusal, takes_completion_from, Record};
use crate::event::{COMMIT, COMPLETE, DROP_COMPLETION, DROP_REQUEST, LATCH};
use crate::state::State;

pub enum TickAnswer {
    /// The value of each record.
    Accepted(Vec<u16>),
    Refused {
        number: u8,
        record: usize,
    },
    /// Refusal 15; the case is the letter in document 01.
    Conflict {
        record: usize,
        other: usize,
        case: char,
    },
}

pub fn tick(state: &mut State, records: &[Record]) -> TickAnswer {
    // Every record is judged alone, in the starting state.
    for (record, event) in records.iter().enumerate() {
        if let Some(number) = refusal(state, event) {
            return TickAnswer::Refused { number, record };
        }
    }
    // The lowest first record of a conflicting pair, and its lowest partner.
    for record in 0..records.len() {
        for other in record + 1..records.len() {
            if let Some(case) = conflict(state, &records[record], &records[other]) {
                return TickAnswer::Conflict {
                    record,
                    other,
                    case,
                };
            }
        }
    }
    // One by one in listed order. Document 01 says that none is refused on that way.
    let mut values = Vec::new();
    for event in records {
        assert_eq!(refusal(state, event), None, "refused on the way of a tick");
        values.push(perform(state, event));
    }
    TickAnswer::Accepted(values)
}

/// The case of the conflict of two events that are both accepted alone.
pub fn conflict(state: &State, one: &Record, two: &Record) -> Option<char> {
    let bus = |event: &Record| state.table.out_bus(event.channel as usize);
    if one.occurs_on_bus() && two.occurs_on_bus() && bus(one) == bus(two) {
        return Some('a');
    }
    if one.is_begin() && two.is_begin() && one.master == two.master {
        return Some('b');
    }
    if drops_request_of(one, two) || drops_request_of(two, one) {
        return Some('c');
    }
    if drops_where_taken(state, one, two) || drops_where_taken(state, two, one) {
        return Some('d');
    }
    let is_drop = one.kind == DROP_REQUEST || one.kind == DROP_COMPLETION;
    if is_drop && one.kind == two.kind && same_name(one, two) {
        return Some('e');
    }
    None
}

/// Both name the same transaction in the same channel.
fn same_name(one: &Record, two: &Record) -> bool {
    one.channel == two.channel && one.transaction() == two.transaction()
}

/// Case (c): a drop request, and a commit, latch or complete of the same R.
fn drops_request_of(drop: &Record, user: &Record) -> bool {
    drop.kind == DROP_REQUEST
        && matches!(user.kind, COMMIT | LATCH | COMPLETE)
        && same_name(drop, user)
}

/// Case (d): a drop completion, and a complete that takes any C out of that channel.
fn drops_where_taken(state: &State, drop: &Record, taker: &Record) -> bool {
    drop.kind == DROP_COMPLETION
        && taker.kind == COMPLETE
        && takes_completion_from(state, taker) == Some(drop.channel as usize)
}
