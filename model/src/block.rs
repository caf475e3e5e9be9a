//! "Blocks of 512 bytes".

use crate::event::Record;
use crate::table::Table;

pub const BLOCK_BYTES: usize = 512;
pub const TABLE: u8 = 1;
pub const STEPS: u8 = 2;
pub const TICK: u8 = 3;
/// Most records in a block.
pub const MOST_RECORDS: usize = 63;

pub enum Block {
    Table(Table),
    Steps(Vec<Record>),
    Tick(Vec<Record>),
}

/// Reads the block at that place of the input, or gives its refusal number.
pub fn read_block(place: usize, bytes: &[u8]) -> Result<Block, u8> {
    if bytes.len() != BLOCK_BYTES {
        return Err(20);
    }
    let stated = u32::from_le_bytes([bytes[508], bytes[509], bytes[510], bytes[511]]);
    if stated != check(bytes) {
        return Err(21);
    }

    let kind = bytes[0];
    let count = bytes[1] as usize;
    let stated_place = u16::from_le_bytes([bytes[2], bytes[3]]) as usize;
    let kind_is_right = if place == 0 {
        kind == TABLE
    } else {
        kind == STEPS || kind == TICK
    };
    let most = if kind == TABLE { 0 } else { MOST_RECORDS };
    if !kind_is_right || stated_place != place || count > most {
        return Err(22);
    }

    if kind == TABLE {
        return Ok(Block::Table(Table::read(bytes)?));
    }
    let behind = 4 + 8 * count;
    if bytes[behind..508].iter().any(|&byte| byte != 0) {
        return Err(24);
    }
    let records = bytes[4..behind].chunks(8).map(Record::read).collect();
    if kind == STEPS {
        Ok(Block::Steps(records))
    } else {
        Ok(Block::Tick(records))
    }
}

/// The sum over places i from 0 to 507 of (i + 1) times byte i.
pub fn check(bytes: &[u8]) -> u32 {
    (0..508).map(|i| (i as u32 + 1) * bytes[i] as u32).sum()
}

/// Writes the check into a block.
pub fn seal(bytes: &mut [u8]) {
    let sum = check(bytes);
    bytes[508..512].copy_from_slice(&sum.to_le_bytes());
}

/// A right block of steps or of one tick.
pub fn event_block(kind: u8, place: usize, records: &[Record]) -> Vec<u8> {
    let mut bytes = vec![0; BLOCK_BYTES];
    bytes[0] = kind;
    bytes[1] = records.len() as u8;
    bytes[2..4].copy_from_slice(&(place as u16).to_le_bytes());
    for (i, record) in records.iter().enumerate() {
        bytes[4 + 8 * i..12 + 8 * i].copy_from_slice(&record.bytes());
    }
    seal(&mut bytes);
    bytes
}
