//! Event codes, return codes and doers, with their numbers in 01.

use crate::judge::{DESTINATION, QUEUING, SAMPLING, SOURCE};

pub const CREATE_SAMPLING_PORT: u8 = 1;
pub const WRITE_SAMPLING_MESSAGE: u8 = 2;
pub const READ_SAMPLING_MESSAGE: u8 = 3;
pub const GET_SAMPLING_PORT_ID: u8 = 4;
pub const GET_SAMPLING_PORT_STATUS: u8 = 5;
pub const CREATE_QUEUING_PORT: u8 = 6;
pub const SEND_QUEUING_MESSAGE: u8 = 7;
pub const RECEIVE_QUEUING_MESSAGE: u8 = 8;
pub const GET_QUEUING_PORT_ID: u8 = 9;
pub const GET_QUEUING_PORT_STATUS: u8 = 10;
pub const CLEAR_QUEUING_PORT: u8 = 11;
pub const SET_PARTITION_MODE: u8 = 12;
pub const SCHEDULE: u8 = 13;
pub const TRANSMIT: u8 = 14;

pub const NO_ERROR: u8 = 0;
pub const NO_ACTION: u8 = 1;
pub const NOT_AVAILABLE: u8 = 2;
pub const INVALID_PARAM: u8 = 3;
pub const INVALID_CONFIG: u8 = 4;
pub const INVALID_MODE: u8 = 5;
/// A call of a partition in IDLE.
pub const STOPPED: u8 = 15;
/// A partition's call in a mover window.
pub const NO_PARTITION: u8 = 16;
/// A move in a partition's window.
pub const NO_MOVER: u8 = 17;
/// A move that names no channel.
pub const NO_CHANNEL: u8 = 18;
/// A record of no known code.
pub const NO_CODE: u8 = 19;

/// Doer of code 13.
pub const SCHEDULER: u8 = 32;
/// Doer of a move of channel 0; further channels follow.
pub const FIRST_CHANNEL: u8 = 64;
/// Doer of an event that 16 to 19 answer.
pub const NOBODY: u8 = 255;

/// The mode or the direction of a code that needs none.
pub const ANY: u8 = 255;

/// Who does an event of a code.
#[derive(Clone, Copy, Debug, PartialEq, Eq)]
pub enum Caller {
    Partition,
    Scheduler,
    Mover,
}

/// What a code needs.
#[derive(Clone, Copy, Debug, PartialEq, Eq)]
pub struct Needs {
    pub caller: Caller,
    /// Mode byte of the port, or any.
    pub mode: u8,
    /// Direction byte of the port, or any.
    pub direction: u8,
}

/// A row of a partition's call.
const fn partition(mode: u8, direction: u8) -> Needs {
    Needs {
        caller: Caller::Partition,
        mode,
        direction,
    }
}

/// A row of a code that needs no port.
const fn other(caller: Caller) -> Needs {
    Needs {
        caller,
        mode: ANY,
        direction: ANY,
    }
}

/// 01: "The codes, with the port mode and direction each needs, stand in one constant table."
pub const CODES: [Needs; 14] = [
    partition(SAMPLING, ANY),
    partition(SAMPLING, SOURCE),
    partition(SAMPLING, DESTINATION),
    partition(SAMPLING, ANY),
    partition(SAMPLING, ANY),
    partition(QUEUING, ANY),
    partition(QUEUING, SOURCE),
    partition(QUEUING, DESTINATION),
    partition(QUEUING, ANY),
    partition(QUEUING, ANY),
    partition(QUEUING, DESTINATION),
    partition(ANY, ANY),
    other(Caller::Scheduler),
    other(Caller::Mover),
];

/// The needs of a known code.
#[inline(always)]
pub fn needs(code: u8) -> &'static Needs {
    &CODES[code as usize - 1]
}
