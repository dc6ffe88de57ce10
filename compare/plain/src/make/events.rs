//! Event records, one function for each kind.

use super::dice::Dice;
use crate::bytes::{put16, put32};
use crate::codes::*;
use crate::judge::QUEUING;
use crate::services::Record;
use crate::tables::Row;

/// A create as the row wants it.
pub fn create(row: &Row) -> Record {
    let queuing = row.mode_byte() == QUEUING;
    let mut event = named(
        if queuing {
            CREATE_QUEUING_PORT
        } else {
            CREATE_SAMPLING_PORT
        },
        row,
    );
    event[1] = row.direction;
    put32(&mut event, 4, row.refresh_or_depth());
    put32(&mut event, 8, row.largest);
    event
}

/// A get id by the row's name.
pub fn get_id(row: &Row) -> Record {
    let queuing = row.mode_byte() == QUEUING;
    named(
        if queuing {
            GET_QUEUING_PORT_ID
        } else {
            GET_SAMPLING_PORT_ID
        },
        row,
    )
}

/// A write or a send of a message to the port with this id.
pub fn store(row: &Row, id: u16, message: &[u8]) -> Record {
    let queuing = row.mode_byte() == QUEUING;
    let mut event = on_port(
        if queuing {
            SEND_QUEUING_MESSAGE
        } else {
            WRITE_SAMPLING_MESSAGE
        },
        id,
    );
    put32(&mut event, 8, message.len() as u32);
    event[16..][..message.len()].copy_from_slice(message);
    event
}

/// A read or a receive.
pub fn fetch(row: &Row, id: u16) -> Record {
    let queuing = row.mode_byte() == QUEUING;
    on_port(
        if queuing {
            RECEIVE_QUEUING_MESSAGE
        } else {
            READ_SAMPLING_MESSAGE
        },
        id,
    )
}

/// A status call.
pub fn status(row: &Row, id: u16) -> Record {
    let queuing = row.mode_byte() == QUEUING;
    on_port(
        if queuing {
            GET_QUEUING_PORT_STATUS
        } else {
            GET_SAMPLING_PORT_STATUS
        },
        id,
    )
}

/// CLEAR_QUEUING_PORT.
pub fn clear(id: u16) -> Record {
    on_port(CLEAR_QUEUING_PORT, id)
}

/// SET_PARTITION_MODE.
pub fn set_mode(mode: u8) -> Record {
    let mut event = on_port(SET_PARTITION_MODE, 0);
    event[1] = mode;
    event
}

/// SCHEDULE.
pub fn schedule() -> Record {
    on_port(SCHEDULE, 0)
}

/// TRANSMIT of a channel.
pub fn transmit(channel: u16) -> Record {
    on_port(TRANSMIT, channel)
}

/// An event with a code and a port id or channel, else zero.
pub fn on_port(code: u8, id: u16) -> Record {
    let mut event = [0; 80];
    event[0] = code;
    put16(&mut event, 2, id);
    event
}

/// An event with a code and the row's name, else zero.
fn named(code: u8, row: &Row) -> Record {
    let mut event = on_port(code, 0);
    event[16..46].copy_from_slice(&row.name);
    event
}

/// Fills the fields that the event's code doesn't use with any bytes: they are not looked at.
pub fn with_strays(dice: &mut Dice, event: &Record) -> Record {
    let mut strayed = [0; 80];
    dice.fill(&mut strayed);
    for &(start, end) in used_bytes(event) {
        strayed[start..end].copy_from_slice(&event[start..end]);
    }
    strayed
}

/// The bytes that a known code looks at, from a start up to an end.
fn used_bytes(event: &Record) -> &'static [(usize, usize)] {
    match event[0] {
        CREATE_SAMPLING_PORT | CREATE_QUEUING_PORT => &[(0, 2), (4, 12), (16, 46)],
        GET_SAMPLING_PORT_ID | GET_QUEUING_PORT_ID => &[(0, 1), (16, 46)],
        WRITE_SAMPLING_MESSAGE | SEND_QUEUING_MESSAGE => &[(0, 1), (2, 4), (8, 12), (16, 80)],
        SET_PARTITION_MODE => &[(0, 2)],
        SCHEDULE => &[(0, 1)],
        1..=14 => &[(0, 1), (2, 4)],
        _ => &[(0, 80)],
    }
}
