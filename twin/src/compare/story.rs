//! A trace in the making. A store is kept beside the text, so that values can be
//! drawn near the live ones.

use twin::command::{number, Op, ROWS};
use twin::table::{Port, Publication, PublicationId, Store};
use twin::text::{read_block, write_answer};

use crate::dice::Dice;

/// Values where widths and capacities end.
const EDGES: [u64; 22] = [
    0,
    1,
    9,
    10,
    95,
    96,
    97,
    127,
    128,
    129,
    255,
    256,
    65_535,
    65_536,
    1 << 31,
    (1 << 32) - 1,
    1 << 32,
    (1 << 32) + 1,
    1 << 63,
    10_000_000_000_000_000_000,
    u64::MAX - 1,
    u64::MAX,
];

/// Distances at which a number cut to fewer bits looks like the live one.
const ALIASES: [u64; 5] = [1 << 7, 1 << 8, 1 << 16, 1 << 32, 1 << 63];

pub struct Story {
    pub dice: Dice,
    pub text: Vec<u8>,
    pub store: Store,
    /// Bytes of the answers so far.
    pub answered: usize,
}

impl Story {
    pub fn new(dice: Dice) -> Story {
        Story {
            dice,
            text: Vec::new(),
            store: Store::default(),
            answered: 0,
        }
    }

    /// Adds a block with these values and carries it out: the answer's number.
    /// Now and then a value gets leading zeros.
    pub fn say(&mut self, op: Op, values: &[u64]) -> Option<u8> {
        let mut digits = Vec::new();
        for value in values {
            let plain = value.to_string();
            let width = if self.dice.once_in(12) {
                self.dice.between(plain.len(), 20)
            } else {
                0
            };
            digits.push(format!("{plain:0>width$}"));
        }
        let digits: Vec<&str> = digits.iter().map(String::as_str).collect();
        self.say_words(op, &digits)
    }

    /// Adds a block with these words for values. None when it isn't by the rules;
    /// the run stops there.
    pub fn say_words(&mut self, op: Op, values: &[&str]) -> Option<u8> {
        let mut block = Vec::new();
        for (_, word, keys) in ROWS.iter().filter(|row| row.0 == op) {
            block.extend_from_slice(format!("op={word}\n").as_bytes());
            for (key, value) in keys.iter().zip(values) {
                block.extend_from_slice(format!("{key}={value}\n").as_bytes());
            }
        }
        self.text.extend_from_slice(&block);
        let (_, command, _) = read_block(&block)?;
        let answer = command.carry_out(&mut self.store);
        let mut written = Vec::new();
        write_answer(&answer, &mut written);
        self.answered += written.len();
        Some(number(&answer))
    }

    /// A value for one of the edges.
    pub fn edge(&mut self) -> u64 {
        self.dice.pick(&EDGES)
    }

    /// A value at `live`, beside it, or one that looks like it in fewer bits.
    fn near(&mut self, live: u64) -> u64 {
        match self.dice.below(20) {
            0 => live.wrapping_add(1),
            1 => live.wrapping_sub(1),
            2 => live.wrapping_add(self.dice.pick(&ALIASES)),
            _ => live,
        }
    }

    /// A publication identifier: mostly a given one, else near the first free one.
    pub fn id(&mut self) -> u64 {
        let given = self.store.publications.len();
        match self.dice.below(40) {
            0 => self.edge(),
            1..=3 => self.near(given as u64),
            _ => {
                let id = self.dice.below(given) as u64;
                self.near(id)
            }
        }
    }

    /// A lease identifier: mostly an active one, else any given one, else the next.
    pub fn lease(&mut self) -> u64 {
        match self.dice.below(40) {
            0 => self.edge(),
            1..=3 => self.near(self.store.counter),
            4..=12 => self.dice.below(self.store.counter as usize) as u64,
            _ => self.active_lease(),
        }
    }

    /// An active lease, or near 0 when there is none.
    pub fn active_lease(&mut self) -> u64 {
        let place = self.dice.below(self.store.leases.len());
        let live = self.store.leases.get(place).map_or(0, |active| active.id.0);
        self.near(live)
    }

    /// One of a few owners, now and then a far one.
    pub fn owner(&mut self) -> u64 {
        if self.dice.once_in(25) {
            return self.edge();
        }
        self.dice.below(4) as u64
    }

    /// Mostly 0 or 1.
    pub fn generation(&mut self) -> u64 {
        match self.dice.below(25) {
            0 => self.edge(),
            1 => 2,
            few => (few % 3 == 0) as u64,
        }
    }

    /// One of a few ports, now and then a far one; always of 32 bits.
    pub fn port(&mut self) -> u64 {
        if self.dice.once_in(20) {
            return self.edge() & u64::from(u32::MAX);
        }
        self.dice.below(6) as u64
    }

    /// A port on which nothing is visible.
    pub fn free_port(&mut self) -> u64 {
        let mut port = self.dice.throw() as u32;
        while self.store.visible_on(Port(port)).is_some() {
            port = port.wrapping_add(1);
        }
        u64::from(port)
    }

    /// Any handle, 0 included.
    pub fn payload(&mut self) -> u64 {
        match self.dice.below(4) {
            0 => self.edge(),
            1 => self.dice.throw(),
            _ => self.dice.below(1000) as u64,
        }
    }

    /// The publication's owner and generation, each now and then another one.
    pub fn holder(&mut self, id: u64) -> (u64, u64) {
        let known = self.store.publication(PublicationId(id));
        let (owner, generation) = known.map_or((0, 0), |one| (one.owner.0, one.generation));
        let other_owner = self.dice.once_in(8);
        let other_generation = self.dice.once_in(8);
        (
            if other_owner {
                self.owner()
            } else {
                self.near(owner)
            },
            if other_generation {
                self.generation()
            } else {
                self.near(generation)
            },
        )
    }

    /// The identifiers of the publications of which `holds` is true.
    pub fn ids(&self, holds: impl Fn(&Publication) -> bool) -> Vec<u64> {
        let all = self.store.publications.iter().enumerate();
        all.filter(|(_, one)| holds(one))
            .map(|(place, _)| place as u64)
            .collect()
    }

    /// A block of the given command with drawn values.
    pub fn any(&mut self, op: Op) -> Option<u8> {
        match op {
            Op::Publish => {
                let values = [self.owner(), self.generation(), self.port(), self.payload()];
                self.say(op, &values)
            }
            Op::Adopt => {
                let id = self.id();
                let (owner, _) = self.holder(id);
                let generation = if self.dice.once_in(6) {
                    self.generation()
                } else {
                    1
                };
                self.say(op, &[id, owner, generation])
            }
            Op::Acquire => {
                let values = [self.id(), self.owner(), self.generation()];
                self.say(op, &values)
            }
            Op::Replace => {
                let id = self.id();
                let (owner, generation) = self.holder(id);
                let payload = self.payload();
                self.say(op, &[id, owner, generation, payload])
            }
            Op::Release | Op::Read => {
                let lease = self.lease();
                self.say(op, &[lease])
            }
            Op::Revoke | Op::Reclaim | Op::Observe => {
                let id = self.id();
                self.say(op, &[id])
            }
            Op::Resolve => {
                let port = self.port();
                self.say(op, &[port])
            }
            Op::Count => self.say(op, &[]),
        }
    }

    /// Asks for what the store holds now: the count and a few of the rest.
    pub fn look(&mut self) {
        self.say(Op::Count, &[]);
        for _ in 0..self.dice.below(6) {
            let op = self.dice.pick(&[Op::Observe, Op::Resolve, Op::Read]);
            self.any(op);
        }
    }
}
