//! The list of one tick: without a conflict, or close to one.

use super::events::{accepted_now, near_miss};
use crate::block::MOST_RECORDS;
use crate::event::{Record, BEGIN_WRITE, DROP_REQUEST};
use crate::random::Random;
use crate::state::State;
use crate::tick::conflict;

pub fn list(state: &State, random: &mut Random) -> Vec<Record> {
    let mut pool = accepted_now(state, random);
    random.shuffle(&mut pool);
    match random.weighted(&[6, 40, 28, 10, 6, 6, 4]) {
        // No record.
        0 => Vec::new(),
        // No conflict.
        1 => {
            let most = random.pick(&[1, 2, 3, 5, 10, MOST_RECORDS]);
            let mut chosen = Vec::new();
            add_without_conflict(state, &pool, &mut chosen, most);
            random.shuffle(&mut chosen);
            chosen
        }
        // Exactly one conflicting pair.
        2 => one_pair(state, &pool, random),
        // A conflicting pair, and a refused record before, between or behind.
        3 => {
            let mut chosen = one_pair(state, &pool, random);
            for _ in 0..random.within(1, 2) {
                put_at_any_place(&mut chosen, near_miss(state, random), random);
            }
            chosen
        }
        // Whatever is accepted alone: often several pairs.
        4 => {
            pool.truncate(random.within(2, 12));
            pool
        }
        // A refused record among such as go together.
        5 => {
            let mut chosen = Vec::new();
            let most = random.within(1, 10);
            add_without_conflict(state, &pool, &mut chosen, most);
            put_at_any_place(&mut chosen, near_miss(state, random), random);
            chosen
        }
        // A full list: all that go together, the rest filled up.
        _ => {
            let mut chosen = Vec::new();
            add_without_conflict(state, &pool, &mut chosen, MOST_RECORDS);
            while chosen.len() < MOST_RECORDS {
                let filling = if pool.is_empty() || random.percent(2) {
                    near_miss(state, random)
                } else {
                    random.pick(&pool)
                };
                chosen.push(filling);
            }
            chosen
        }
    }
}

/// Adds events from the pool that conflict with none of the list, up to a length.
fn add_without_conflict(state: &State, pool: &[Record], chosen: &mut Vec<Record>, most: usize) {
    for event in pool {
        let free = chosen
            .iter()
            .all(|other| conflict(state, event, other).is_none());
        if chosen.len() < most && free {
            chosen.push(*event);
        }
    }
}

/// One pair that conflicts, of any case that can be had here, among events that do not.
fn one_pair(state: &State, pool: &[Record], random: &mut Random) -> Vec<Record> {
    // Begins are many and alike: some will do.
    let few: Vec<Record> = pool
        .iter()
        .enumerate()
        .filter(|(place, event)| *place < 60 || event.kind > BEGIN_WRITE)
        .map(|(_, event)| *event)
        .collect();
    let mut pairs: Vec<(char, Record, Record)> = Vec::new();
    for (place, one) in few.iter().enumerate() {
        // A drop may stand twice (case e); for the others another partner tells more.
        let first_partner = if one.kind >= DROP_REQUEST {
            place
        } else {
            place + 1
        };
        for two in &few[first_partner..] {
            if let Some(case) = conflict(state, one, two) {
                pairs.push((case, *one, *two));
            }
        }
    }
    if pairs.is_empty() {
        return pool.iter().take(3).copied().collect();
    }
    // First the case and the two kinds, then one such pair. Half of the time (d), if it
    // can be had: it needs two completions in one channel.
    let sort = |pair: &(char, Record, Record)| {
        let (one, two) = (pair.1.kind, pair.2.kind);
        (pair.0, one.min(two), one.max(two))
    };
    if pairs.iter().any(|pair| pair.0 == 'd') && random.percent(50) {
        pairs.retain(|pair| pair.0 == 'd');
    }
    let mut sorts: Vec<(char, u8, u8)> = pairs.iter().map(sort).collect();
    sorts.sort();
    sorts.dedup();
    let chosen_sort = random.pick(&sorts);
    pairs.retain(|pair| sort(pair) == chosen_sort);
    let (_, one, two) = random.pick(&pairs);
    let (one, two) = if random.percent(50) {
        (one, two)
    } else {
        (two, one)
    };

    // Both count while the others are chosen, then the second gets any place.
    let mut chosen = vec![one, two];
    let most = random.pick(&[2, 2, 3, 4, 8, 20, MOST_RECORDS]);
    add_without_conflict(state, pool, &mut chosen, most);
    chosen.remove(1);
    random.shuffle(&mut chosen);
    put_at_any_place(&mut chosen, two, random);
    chosen
}

fn put_at_any_place(list: &mut Vec<Record>, event: Record, random: &mut Random) {
    if list.len() < MOST_RECORDS {
        let place = random.below(list.len() + 1);
        list.insert(place, event);
    }
}
