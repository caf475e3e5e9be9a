//! "The network": buses, bridges and agents, and the ways between the buses.

use crate::state::EntryKind;

/// An accepted table. Buses, bridges and agents are numbered from 0.
#[derive(Clone)]
pub struct Table {
    pub buses: usize,
    /// The first and the second bus of each bridge.
    pub bridges: Vec<(usize, usize)>,
    /// The bus of each agent.
    pub agents: Vec<usize>,
    pub posted_limit: usize,
    pub request_limit: usize,
    pub completion_limit: usize,
    /// `ways[from][to]` holds the bridge channels of the one way between two buses.
    ways: Vec<Vec<Vec<usize>>>,
}

/// Where an entry goes from its channel: N1.
#[derive(Clone, Copy, PartialEq, Eq, Debug)]
pub enum Place {
    Target,
    Bridge(usize),
}

impl Table {
    /// Reads a table block, whose length, check, kind, place and count are right.
    /// The refusals 23 to 27 are asked in that order.
    pub fn read(bytes: &[u8]) -> Result<Table, u8> {
        let buses = bytes[4] as usize;
        let bridge_count = bytes[5] as usize;
        let agent_count = bytes[6] as usize;
        let limits = [bytes[7], bytes[8], bytes[9]];

        // 23: a count or limit out of range.
        if !(1..=16).contains(&buses) || bridge_count > 15 || !(1..=32).contains(&agent_count) {
            return Err(23);
        }
        if limits.iter().any(|limit| !(1..=8).contains(limit)) {
            return Err(23);
        }

        // 24: an unused byte is not 0.
        let after_bridges = 16 + 2 * bridge_count;
        let after_agents = 48 + agent_count;
        let unused = [10..16, after_bridges..48, after_agents..508];
        for span in unused {
            if bytes[span].iter().any(|&byte| byte != 0) {
                return Err(24);
            }
        }

        let bridges: Vec<(usize, usize)> = bytes[16..after_bridges]
            .chunks(2)
            .map(|pair| (pair[0] as usize, pair[1] as usize))
            .collect();
        let agents: Vec<usize> = bytes[48..after_agents]
            .iter()
            .map(|&bus| bus as usize)
            .collect();

        // 25: a bus that is not there.
        let bridge_outside = bridges.iter().any(|b| b.0 >= buses || b.1 >= buses);
        let agent_outside = agents.iter().any(|&bus| bus >= buses);
        if bridge_outside || agent_outside {
            return Err(25);
        }

        // 26: a bridge with both ends on one bus.
        if bridges.iter().any(|b| b.0 == b.1) {
            return Err(26);
        }

        let mut table = Table {
            buses,
            bridges,
            agents,
            posted_limit: limits[0] as usize,
            request_limit: limits[1] as usize,
            completion_limit: limits[2] as usize,
            ways: Vec::new(),
        };

        // 27: not exactly one way between any two buses.
        let mut ways = vec![vec![Vec::new(); buses]; buses];
        for from in 0..buses {
            for to in 0..buses {
                let mut all = table.all_ways(from, to, &mut vec![from]);
                if all.len() != 1 {
                    return Err(27);
                }
                ways[from][to] = all.remove(0);
            }
        }
        table.ways = ways;
        Ok(table)
    }

    /// Every way from `here` to `goal` that comes to no bus twice, each as the list
    /// of its bridge channels. `been` are the buses met so far. (A loop shows itself
    /// by two such ways between two of its buses, so longer ways need no look.)
    fn all_ways(&self, here: usize, goal: usize, been: &mut Vec<usize>) -> Vec<Vec<usize>> {
        if here == goal {
            return vec![Vec::new()];
        }
        let mut all = Vec::new();
        for channel in self.agents.len()..self.channel_count() {
            let next = self.out_bus(channel);
            if self.in_bus(channel) != here || been.contains(&next) {
                continue;
            }
            been.push(next);
            for mut rest in self.all_ways(next, goal, been) {
                rest.insert(0, channel);
                all.push(rest);
            }
            been.pop();
        }
        all
    }

    /// With A agents and G bridges there are A + 2G channels.
    pub fn channel_count(&self) -> usize {
        self.agents.len() + 2 * self.bridges.len()
    }

    /// Channels below A are the agents' master channels.
    pub fn is_master_channel(&self, channel: usize) -> bool {
        channel < self.agents.len()
    }

    /// The bus a bridge channel comes from. Master channels have none.
    pub fn in_bus(&self, channel: usize) -> usize {
        self.out_bus(self.opposite(channel))
    }

    /// The bus a channel leads to.
    pub fn out_bus(&self, channel: usize) -> usize {
        if self.is_master_channel(channel) {
            return self.agents[channel];
        }
        let (first, second) = self.bridges[(channel - self.agents.len()) / 2];
        if (channel - self.agents.len()) % 2 == 0 {
            second
        } else {
            first
        }
    }

    /// The other channel of the same bridge.
    pub fn opposite(&self, channel: usize) -> usize {
        assert!(!self.is_master_channel(channel), "no opposite");
        let place = channel - self.agents.len();
        if place % 2 == 0 {
            channel + 1
        } else {
            channel - 1
        }
    }

    /// The bridge channels of the one way between two buses.
    pub fn way(&self, from: usize, to: usize) -> &[usize] {
        &self.ways[from][to]
    }

    /// The number of bridges between two agents.
    pub fn distance(&self, master: usize, target: usize) -> usize {
        self.way(self.agents[master], self.agents[target]).len()
    }

    /// N1: the target itself where the out-bus is its bus, else the next bridge channel.
    pub fn next_place(&self, channel: usize, target: usize) -> Place {
        match self.way(self.out_bus(channel), self.agents[target]).first() {
            None => Place::Target,
            Some(&next) => Place::Bridge(next),
        }
    }

    /// How many entries of one kind a channel may hold.
    pub fn limit(&self, kind: EntryKind) -> usize {
        match kind {
            EntryKind::Posted => self.posted_limit,
            EntryKind::Request => self.request_limit,
            EntryKind::Completion => self.completion_limit,
        }
    }
}
