//! Random tables: trees, and tables that are refused.

use crate::block::{seal, BLOCK_BYTES, TABLE};
use crate::random::Random;

pub struct Network {
    pub buses: usize,
    pub bridges: Vec<(usize, usize)>,
    pub agents: Vec<usize>,
    pub limits: [usize; 3],
}

impl Network {
    /// A tree of buses with agents.
    pub fn random(random: &mut Random) -> Network {
        let buses = match random.weighted(&[4, 35, 36, 25]) {
            0 => 1,
            1 => random.within(2, 4),
            2 => random.within(5, 8),
            _ => random.within(9, 16),
        };
        // Bus numbers are mixed, so that they tell nothing of the shape.
        let mut names: Vec<usize> = (0..buses).collect();
        random.shuffle(&mut names);

        // A chain, a star, or each new bus on some earlier one.
        let shape = random.weighted(&[45, 10, 45]);
        let mut bridges = Vec::new();
        for bus in 1..buses {
            let earlier = match shape {
                0 => bus - 1,
                1 => 0,
                _ => random.below(bus),
            };
            let (one, two) = (names[earlier], names[bus]);
            bridges.push(if random.percent(50) {
                (one, two)
            } else {
                (two, one)
            });
        }
        random.shuffle(&mut bridges);

        let agent_count = match random.weighted(&[2, 68, 20, 10]) {
            0 => 1,
            1 => random.within(2, 6),
            2 => random.within(7, 16),
            _ => random.within(17, 32),
        };
        let mut agents: Vec<usize> = (0..agent_count).map(|_| random.below(buses)).collect();
        // The two ends of a chain often have agents, for long ways.
        if agent_count >= 2 && random.percent(60) {
            agents[0] = names[0];
            agents[agent_count - 1] = names[buses - 1];
        }
        let limits = [
            random_limit(random),
            random_limit(random),
            random_limit(random),
        ];
        Network {
            buses,
            bridges,
            agents,
            limits,
        }
    }

    /// Many agents and large limits, for deep queues and long ticks.
    pub fn crowded(random: &mut Random) -> Network {
        let buses = random.pick(&[2, 3, 4, 16]);
        let agents = random.within(12, 32);
        let mut limit = || random.pick(&[2, 6, 8, 8]);
        let limits = [limit(), limit(), limit()];
        Network {
            buses,
            bridges: (1..buses)
                .map(|bus| (random.pick(&[0, bus - 1]), bus))
                .collect(),
            agents: (0..agents).map(|_| random.below(buses)).collect(),
            limits,
        }
    }

    /// Agents 0 and 1 on one bus.
    pub fn put_first_two_together(&mut self) {
        if self.agents.len() < 2 {
            self.agents.push(0);
        }
        self.agents[1] = self.agents[0];
    }

    pub fn block(&self) -> Vec<u8> {
        let mut bytes = vec![0; BLOCK_BYTES];
        bytes[0] = TABLE;
        bytes[4] = self.buses as u8;
        bytes[5] = self.bridges.len() as u8;
        bytes[6] = self.agents.len() as u8;
        for (i, &limit) in self.limits.iter().enumerate() {
            bytes[7 + i] = limit as u8;
        }
        for (i, bridge) in self.bridges.iter().enumerate() {
            bytes[16 + 2 * i] = bridge.0 as u8;
            bytes[17 + 2 * i] = bridge.1 as u8;
        }
        for (i, &bus) in self.agents.iter().enumerate() {
            bytes[48 + i] = bus as u8;
        }
        seal(&mut bytes);
        bytes
    }

    /// Not exactly one way: an island, a loop, a double bridge, or a loop beside an
    /// island (as many bridges as a tree has). Tables that are too small stay right.
    fn break_ways(&mut self, random: &mut Random) {
        match random.below(4) {
            0 if !self.bridges.is_empty() => {
                let gone = random.below(self.bridges.len());
                self.bridges.remove(gone);
            }
            1 if self.buses >= 2 && self.bridges.len() < 15 => {
                let one = random.below(self.buses);
                let two = (one + random.within(1, self.buses - 1)) % self.buses;
                let place = random.below(self.bridges.len() + 1);
                self.bridges.insert(place, (one, two));
            }
            2 if !self.bridges.is_empty() && self.bridges.len() < 15 => {
                let (one, two) = random.pick(&self.bridges);
                self.bridges.push(if random.percent(50) {
                    (one, two)
                } else {
                    (two, one)
                });
            }
            3 if self.bridges.len() >= 2 => {
                // One bridge is laid anew between two buses that are joined without it.
                let moved = random.below(self.bridges.len());
                let (near, _) = self.bridges[(moved + 1) % self.bridges.len()];
                let joined = self.joined_without(moved, near);
                let one = random.pick(&joined);
                let two = random.pick(&joined);
                if one != two {
                    self.bridges[moved] = (one, two);
                }
            }
            _ => {}
        }
    }

    /// The buses that can be reached from a bus when one bridge is left out.
    fn joined_without(&self, left_out: usize, bus: usize) -> Vec<usize> {
        let mut joined = vec![bus];
        for _ in 0..self.buses {
            for (place, &(one, two)) in self.bridges.iter().enumerate() {
                if place == left_out {
                    continue;
                }
                if joined.contains(&one) && !joined.contains(&two) {
                    joined.push(two);
                } else if joined.contains(&two) && !joined.contains(&one) {
                    joined.push(one);
                }
            }
        }
        joined
    }
}

/// Small limits are the ones that refuse.
fn random_limit(random: &mut Random) -> usize {
    [1, 2, 3, 4, random.within(5, 8)][random.weighted(&[35, 30, 15, 10, 10])]
}

/// A table with one fault, sometimes with two (then the order of refusals decides).
pub fn damaged_table(random: &mut Random) -> Vec<u8> {
    let mut network = Network::random(random);
    let faults = if random.percent(70) { 1 } else { 2 };
    let chosen: Vec<usize> = (0..faults)
        .map(|_| random.weighted(&[1, 2, 5, 5, 4, 3, 6]))
        .collect();
    if chosen.contains(&6) {
        network.break_ways(random);
    }
    let mut bytes = network.block();
    let (buses, bridges, agents) = (network.buses, network.bridges.len(), network.agents.len());
    for &fault in &chosen {
        match fault {
            1 => {
                // 22: kind, count or place.
                match random.below(4) {
                    0 => bytes[0] = random.pick(&[0, 2, 3, 4, 255]),
                    1 => bytes[1] = random.stray(),
                    2 => bytes[2] = random.stray(),
                    _ => bytes[3] = random.stray(),
                }
            }
            2 => {
                // 23: a count or limit just out of range, or far out.
                match random.below(6) {
                    0 => bytes[4] = random.pick(&[0, 17, 255]),
                    1 => bytes[5] = random.pick(&[16, 17, 255]),
                    2 => bytes[6] = random.pick(&[0, 33, 255]),
                    limit => bytes[4 + limit] = random.pick(&[0, 9, 255]),
                }
            }
            3 => {
                // 24: any unused byte, the first and last of each span favoured.
                let spans = [
                    (10, 15),
                    (16 + 2 * bridges, 47),
                    (46, 47),
                    (48 + agents, 507),
                    (80, 507),
                    (48 + agents, 80),
                ];
                let (first, last) = random.pick(&spans);
                let place = match random.below(3) {
                    0 => first,
                    1 => last,
                    _ => random.within(first, last),
                };
                bytes[place] = random.stray();
            }
            4 => {
                // 25: the first number that is not there, or a large one.
                let outside = random.pick(&[buses as u8, 16, 255]);
                if bridges > 0 && random.percent(50) {
                    bytes[16 + random.below(2 * bridges)] = outside;
                } else {
                    bytes[48 + random.below(agents)] = outside;
                }
            }
            5 if bridges > 0 => {
                // 26: a bridge from a bus to itself.
                let bridge = random.below(bridges);
                bytes[17 + 2 * bridge] = bytes[16 + 2 * bridge];
            }
            _ => {}
        }
    }
    seal(&mut bytes);
    if chosen.contains(&0) {
        // 21, also above other faults.
        let place = random.within(508, 511);
        bytes[place] ^= random.stray();
    }
    bytes
}
