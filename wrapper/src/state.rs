//! A state: bytes of the right size, with names for what stands in them.

use crate::numbers::{
    GREATEST_DEPTH, LONGEST_MESSAGE, MOST_PORTS, PARTITIONS, STATE_MESSAGES, STATE_MODES,
    STATE_NUMBERS, STATE_SIZE, STATE_TIME, STATE_WINDOW,
};

/// Numbers of a port row, four bytes each.
const ROW: usize = 13;
/// Slots of a port row.
const SLOTS: usize = GREATEST_DEPTH;

/// The whole state of a kernel: 36,120 bytes in place, which a host may put into a `Box` or a static.
///
/// Any bytes are a state, in range or not; each call tests them. After a list that was run and is
/// not empty, the part of the bytes that belongs to the tables' ports depends on nothing but the
/// state: two states that hold the same have it the same. Rows beyond the tables' ports stay as
/// they came, so two such states may still differ there.
#[derive(Clone, PartialEq, Eq)]
pub struct State {
    bytes: [u8; STATE_SIZE],
}

impl State {
    /// A state of any bytes.
    pub fn from_bytes(bytes: [u8; STATE_SIZE]) -> State {
        State { bytes }
    }

    /// The bytes, laid out as the header says.
    pub fn as_bytes(&self) -> &[u8; STATE_SIZE] {
        &self.bytes
    }

    /// The bytes, for a call to write.
    pub(crate) fn bytes_mut(&mut self) -> &mut [u8; STATE_SIZE] {
        &mut self.bytes
    }

    /// The current window, from 0.
    pub fn window(&self) -> u32 {
        self.number(STATE_WINDOW)
    }

    /// The tick count.
    pub fn time(&self) -> u32 {
        self.number(STATE_TIME)
    }

    /// The mode of a partition 0 to 15: IDLE 0, COLD_START 1, WARM_START 2, NORMAL 3.
    pub fn mode(&self, partition: usize) -> u8 {
        self.bytes[STATE_MODES..][..PARTITIONS][partition]
    }

    /// Whether the port with an id from 1 to 64 is created.
    pub fn created(&self, id: usize) -> bool {
        self.port(id, 0) == 1
    }

    /// The validity that the port's last read told.
    pub fn last_validity(&self, id: usize) -> bool {
        self.port(id, 1) == 1
    }

    /// The time at which the port's sample arrived.
    pub fn arrival(&self, id: usize) -> u32 {
        self.port(id, 2)
    }

    /// How many messages the port holds.
    pub fn count(&self, id: usize) -> u32 {
        self.port(id, 4)
    }

    /// The port's message that `older` others stand before, or nothing. Of a state out of range it
    /// gives some stretch of the port's slots, and nothing for a length above 64.
    pub fn message(&self, id: usize, older: usize) -> Option<&[u8]> {
        if older >= self.count(id) as usize || older >= SLOTS {
            return None;
        }
        let slot = (self.port(id, 3) as usize % SLOTS + older) % SLOTS;
        let start = STATE_MESSAGES + ((id - 1) * SLOTS + slot) * LONGEST_MESSAGE;
        self.bytes[start..][..LONGEST_MESSAGE].get(..self.port(id, 5 + slot) as usize)
    }

    /// A number of a port's row.
    fn port(&self, id: usize, number: usize) -> u32 {
        assert!((1..=MOST_PORTS).contains(&id), "a port's id is 1 to 64");
        self.number(STATE_NUMBERS + 4 * (ROW * (id - 1) + number))
    }

    /// The four bytes at a place as a number.
    fn number(&self, place: usize) -> u32 {
        let bytes = &self.bytes[place..];
        u32::from_le_bytes([bytes[0], bytes[1], bytes[2], bytes[3]])
    }
}

impl core::fmt::Debug for State {
    /// Window, time and modes: the rest is too long to read.
    fn fmt(&self, out: &mut core::fmt::Formatter) -> core::fmt::Result {
        out.debug_struct("State")
            .field("window", &self.window())
            .field("time", &self.time())
            .field("modes", &&self.bytes[STATE_MODES..][..PARTITIONS])
            .finish_non_exhaustive()
    }
}
