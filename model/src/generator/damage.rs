//! Damaged blocks behind right ones, and inputs that are not whole blocks.

use super::network::Network;
use super::Maker;
use crate::block::{event_block, seal, BLOCK_BYTES, STEPS, TABLE, TICK};
use crate::random::Random;

/// Damages the last block of a stream (steps or a tick), sometimes in two ways.
pub fn damaged_end(mut maker: Maker) -> Vec<u8> {
    let start = maker.bytes.len() - BLOCK_BYTES;
    let mut block = maker.bytes.split_off(start);
    let place = maker.place - 1;
    let random = &mut maker.random;
    let count = block[1] as usize;

    let faults = if random.percent(75) { 1 } else { 2 };
    let mut spoil_check = false;
    let mut cut = false;
    for _ in 0..faults {
        match random.weighted(&[3, 2, 2, 2, 4, 3]) {
            0 => spoil_check = true,
            // A wrong place: one off, bytes in the wrong order, 256 more.
            1 => match random.below(4) {
                0 => block[2] = block[2].wrapping_add(1),
                1 => block[2] = block[2].wrapping_sub(1),
                2 => block.swap(2, 3),
                _ => block[3] ^= random.stray(),
            },
            // A wrong count.
            2 => block[1] = random.pick(&[64, 65, 128, 255]),
            // A wrong kind.
            3 => block[0] = random.pick(&[0, TABLE, 4, 5, 255]),
            // A stray byte behind the last record.
            4 => {
                let first = 4 + 8 * count;
                if first < 508 {
                    let stray_place = match random.below(3) {
                        0 => first,
                        1 => 507,
                        _ => random.within(first, 507),
                    };
                    block[stray_place] = random.stray();
                }
            }
            _ => cut = true,
        }
    }
    seal(&mut block);
    if spoil_check {
        // In the check itself or in any byte before it.
        let spoiled = if random.percent(50) {
            random.within(508, 511)
        } else {
            random.below(508)
        };
        block[spoiled] ^= random.stray();
    }
    if cut {
        let any = random.within(1, 511);
        let length = random.pick(&[1, 4, 508, 511, any]);
        block.truncate(length);
    } else if random.percent(40) {
        // Blocks behind the refused one must not be read.
        let kind = if maker.ticks { TICK } else { STEPS };
        block.extend(event_block(kind, place + 1, &[]));
    }
    maker.bytes.extend(block);
    maker.bytes
}

/// No byte at all, a part of a block, or a right block and a bit.
pub fn not_whole_blocks(random: &mut Random) -> Vec<u8> {
    let mut bytes = Network::random(random).block();
    let any = random.within(1, 511);
    match random.below(4) {
        0 => bytes.clear(),
        1 => bytes.truncate(random.pick(&[1, 80, 511, any])),
        2 => bytes.extend(vec![0; random.pick(&[1, 511])]),
        _ => bytes = (0..random.within(1, 1100)).map(|_| random.byte()).collect(),
    }
    bytes
}
