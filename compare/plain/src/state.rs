//! The state, its stores, test 29's look at it, and when two states are the same.

use crate::tables::{Prepared, Row};

/// Bytes of a store slot: the largest message of any port.
pub const SLOT: usize = 64;
/// Slots of a store (01: "Each port keeps up to eight messages").
pub const SLOTS: usize = 8;

/// Partition modes, as 01 numbers them.
pub const IDLE: u8 = 0;
pub const COLD_START: u8 = 1;
pub const WARM_START: u8 = 2;
pub const NORMAL: u8 = 3;

/// What a port keeps. Types are wide, so that a state out of range can be written down.
#[derive(Clone, Copy, Debug, PartialEq, Eq)]
pub struct Port {
    /// Created mark, 0 or 1.
    pub created: u8,
    /// Validity of the last read, 0 or 1.
    pub validity: u8,
    /// Time of the last sample's arrival; any number.
    pub arrival: u32,
    /// Slot of the oldest message, 0..7.
    pub oldest: usize,
    /// Stored messages, up to the depth, or 1 for sampling.
    pub count: usize,
    /// Length of the message in each slot, 1 to the largest where one is stored.
    pub lengths: [u32; SLOTS],
    /// Eight slots of 64 bytes, a ring from `oldest` on.
    pub bytes: [u8; SLOTS * SLOT],
}

/// The whole state of a kernel.
#[derive(Clone, Debug, PartialEq, Eq)]
pub struct State {
    /// Current window, from 0.
    pub window: u64,
    /// The 32-bit tick count.
    pub time: u32,
    /// Mode of each partition, 0..3.
    pub modes: [u8; 16],
    /// The ports' rows; those beyond the tables' ports are never looked at.
    pub ports: [Port; 64],
}

impl Port {
    /// A port not created, with nothing stored.
    pub const fn zero() -> Port {
        Port {
            created: 0,
            validity: 0,
            arrival: 0,
            oldest: 0,
            count: 0,
            lengths: [0; SLOTS],
            bytes: [0; SLOTS * SLOT],
        }
    }

    /// The stored message that `older` others stand before; numbers are in range.
    #[inline(always)]
    pub fn message(&self, older: usize) -> &[u8] {
        let slot = (self.oldest + older) % SLOTS;
        let length = self.lengths[slot] as usize;
        &self.bytes[slot * SLOT..][..SLOT][..length]
    }

    /// Stores a message as the newest; the caller has seen that there is room.
    #[inline(always)]
    pub fn append(&mut self, message: &[u8]) {
        self.put((self.oldest + self.count) % SLOTS, message);
        self.count += 1;
    }

    /// Makes a message the only stored one.
    #[inline(always)]
    pub fn replace(&mut self, message: &[u8]) {
        self.put(self.oldest % SLOTS, message);
        self.count = 1;
    }

    /// Takes the oldest message away; there is one.
    #[inline(always)]
    pub fn drop_oldest(&mut self) {
        self.oldest = (self.oldest + 1) % SLOTS;
        self.count -= 1;
    }

    /// Takes all messages away.
    pub fn clear(&mut self) {
        self.oldest = 0;
        self.count = 0;
    }

    /// Puts a message of at most 64 bytes into a slot.
    #[inline(always)]
    fn put(&mut self, slot: usize, message: &[u8]) {
        self.lengths[slot] = message.len() as u32;
        self.bytes[slot * SLOT..][..SLOT][..message.len()].copy_from_slice(message);
    }

    /// Test 29 of one port against its row (reading 10).
    fn in_range(&self, row: &Row) -> bool {
        self.created <= 1
            && self.validity <= 1
            && self.oldest < SLOTS
            && self.count <= row.room()
            && (self.created == 1 || self.count == 0)
            && (0..self.count).all(|older| self.length_in_range(older, row.largest))
    }

    /// "stored length 1 to the largest".
    fn length_in_range(&self, older: usize, largest: u32) -> bool {
        (1..=largest).contains(&self.lengths[(self.oldest + older) % SLOTS])
    }

    /// Agreement of what 01 compares of a port; both are in range.
    fn same(&self, other: &Port) -> bool {
        self.created == other.created
            && self.arrival == other.arrival
            && self.validity == other.validity
            && self.count == other.count
            && (0..self.count).all(|older| self.message(older) == other.message(older))
    }
}

impl State {
    /// The state at load: "window 0, time 0, each partition COLD_START, no port created".
    pub fn at_load() -> State {
        State {
            modes: [COLD_START; 16],
            ..State::zero()
        }
    }

    /// "a state that must stand beside [a refusal] is all zeros".
    pub fn zero() -> State {
        State {
            window: 0,
            time: 0,
            modes: [IDLE; 16],
            ports: [Port::zero(); 64],
        }
    }

    /// Test 29 of the state against accepted tables; time and arrivals may be anything.
    pub fn in_range(&self, tables: &Prepared) -> bool {
        self.window < tables.windows.len() as u64
            && self.modes.iter().all(|&mode| mode <= NORMAL)
            && tables
                .rows
                .iter()
                .zip(&self.ports)
                .all(|(row, port)| port.in_range(row))
    }
}

/// Whether test 29 lets the tables and the state pass.
pub fn in_range(tables: &[u8], state: &State) -> bool {
    Prepared::of(tables).map_or(false, |tables| state.in_range(&tables))
}

/// 01: "Two states are the same if window, time, modes, marks, arrival times, last validities
/// and each port's messages, oldest first, agree." Rows beyond the tables' ports are no ports.
/// Where test 29 refuses either state there are no messages to speak of, and a refused call
/// hands its state back number for number (reading 15): then all numbers must agree.
pub fn same(tables: &[u8], a: &State, b: &State) -> bool {
    match Prepared::of(tables) {
        Some(tables) if a.in_range(&tables) && b.in_range(&tables) => {
            same_in_range(tables.rows.len(), a, b)
        }
        _ => a == b,
    }
}

/// Agreement of two states in range, in the tables' ports.
fn same_in_range(ports: usize, a: &State, b: &State) -> bool {
    a.window == b.window
        && a.time == b.time
        && a.modes == b.modes
        && (0..ports).all(|port| a.ports[port].same(&b.ports[port]))
}
