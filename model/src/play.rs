//! The program: from a stream of blocks to its log.

use crate::block::{read_block, Block, BLOCK_BYTES};
use crate::event::{step, Record};
use crate::notes::Notes;
use crate::state::State;
use crate::tick::{tick, TickAnswer};
use std::fmt::Write;

/// A log, and what was counted while it was made.
#[derive(Default)]
pub struct Run {
    pub log: String,
    pub notes: Notes,
}

/// The log of a stream.
pub fn log_of(input: &[u8]) -> String {
    play(input).log
}

/// Plays a stream up to its end or to its first refused block.
pub fn play(input: &[u8]) -> Run {
    let mut run = Run::default();
    let mut state = None;
    if input.is_empty() {
        run.stop(0, 20, input);
        return run;
    }
    for (place, bytes) in input.chunks(BLOCK_BYTES).enumerate() {
        match read_block(place, bytes) {
            Err(number) => {
                run.stop(place, number, bytes);
                return run;
            }
            Ok(Block::Table(table)) => {
                let (buses, bridges, agents) =
                    (table.buses, table.bridges.len(), table.agents.len());
                run.line(format_args!("net {buses} {bridges} {agents}"));
                run.notes.line("net");
                state = Some(State::new(table));
            }
            Ok(Block::Steps(records)) => {
                let state = state.as_mut().expect("block 0 is a table");
                run.steps(state, place, &records);
            }
            Ok(Block::Tick(records)) => {
                let state = state.as_mut().expect("block 0 is a table");
                run.tick(state, place, &records);
            }
        }
    }
    let entries = state.expect("block 0 is a table").entry_count();
    run.line(format_args!("end {entries}"));
    run.notes.line("end");
    run
}

impl Run {
    fn line(&mut self, text: std::fmt::Arguments) {
        writeln!(self.log, "{text}").expect("a string takes every line");
    }

    fn stop(&mut self, place: usize, number: u8, bytes: &[u8]) {
        self.line(format_args!("stop {place} {number}"));
        self.notes.line("stop");
        self.notes.block_refused(number, place, bytes);
    }

    fn event_line(&mut self, block: usize, record: usize, kind: u8, refusal: u8, value: u16) {
        self.line(format_args!("e {block} {record} {kind} {refusal} {value}"));
        self.notes.line("e");
    }

    fn steps(&mut self, state: &mut State, block: usize, records: &[Record]) {
        for (place, record) in records.iter().enumerate() {
            self.notes.before(state, record);
            let (refusal, value) = match step(state, record) {
                Ok(value) => (0, value),
                Err(number) => (number, 0),
            };
            self.event_line(block, place, record.kind, refusal, value);
            self.notes.step(state, record, refusal);
        }
    }

    fn tick(&mut self, state: &mut State, block: usize, records: &[Record]) {
        let before = state.clone();
        match tick(state, records) {
            TickAnswer::Accepted(values) => {
                self.line(format_args!("t {block} 0 0 0"));
                for (place, record) in records.iter().enumerate() {
                    self.event_line(block, place, record.kind, 0, values[place]);
                    self.notes.before(&before, record);
                }
                self.notes.tick_accepted(state, records);
            }
            TickAnswer::Refused { number, record } => {
                self.line(format_args!("t {block} {number} {record} 0"));
                self.notes.tick_refused(&records[record], number);
            }
            TickAnswer::Conflict {
                record,
                other,
                case,
            } => {
                self.line(format_args!("t {block} 15 {record} {other}"));
                self.notes
                    .tick_conflict(case, &records[record], &records[other]);
            }
        }
    }
}
