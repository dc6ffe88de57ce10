//! The port services and SET_PARTITION_MODE: codes 1 to 12, called by a partition.
//!
//! Each service gives its return code, and fills the answer's fields only where that is 0.
//! Tests stand in the order in which 01 writes them.

use crate::bytes::{get16, get32, put16, put32};
use crate::codes::*;
use crate::judge::{DESTINATION, QUEUING, SOURCE};
use crate::state::{Port, State, COLD_START, IDLE, NORMAL, WARM_START};
use crate::tables::{Prepared, Row};

/// An event's or an answer's record.
pub type Record = [u8; 80];

/// Carries out a call of codes 1 to 12 for the partition of the window.
#[inline]
pub fn call(
    tables: &Prepared,
    state: &mut State,
    caller: u8,
    event: &Record,
    answer: &mut Record,
) -> u8 {
    // "A partition in IDLE gets 15 for every call and is still the doer."
    if state.modes[caller as usize] == IDLE {
        return STOPPED;
    }
    let code = event[0];
    match code {
        CREATE_SAMPLING_PORT | CREATE_QUEUING_PORT => create(tables, state, caller, event, answer),
        GET_SAMPLING_PORT_ID | GET_QUEUING_PORT_ID => get_id(tables, state, caller, event, answer),
        SET_PARTITION_MODE => set_mode(tables, state, caller, event[1]),
        _ => match own_port(tables, state, caller, event) {
            Some((row, place)) => {
                port_service(row, &mut state.ports[place], state.time, event, answer)
            }
            None => INVALID_PARAM,
        },
    }
}

/// The services on a port named by id; it is the caller's own.
#[inline]
fn port_service(row: &Row, port: &mut Port, time: u32, event: &Record, answer: &mut Record) -> u8 {
    match event[0] {
        WRITE_SAMPLING_MESSAGE | SEND_QUEUING_MESSAGE => store(row, port, event),
        GET_SAMPLING_PORT_STATUS | GET_QUEUING_PORT_STATUS => {
            status(row, port, event[0], answer);
            NO_ERROR
        }
        _ if row.direction != needs(event[0]).direction => INVALID_MODE,
        READ_SAMPLING_MESSAGE => read(row, port, time, answer),
        RECEIVE_QUEUING_MESSAGE => receive(port, answer),
        _ => {
            // CLEAR_QUEUING_PORT: "else emptied"
            port.clear();
            NO_ERROR
        }
    }
}

/// "Own port" means a created port of the caller, of the service's mode.
#[inline]
fn own_port<'a>(
    tables: &'a Prepared,
    state: &State,
    caller: u8,
    event: &Record,
) -> Option<(&'a Row, usize)> {
    // an id with no row: 0 wraps to a place past every row
    let place = (get16(event, 2) as usize).wrapping_sub(1);
    let row = tables.rows.get(place)?;
    let own = row.owner == caller
        && row.mode_byte() == needs(event[0]).mode
        && state.ports[place].created == 1;
    own.then_some((row, place))
}

/// The place of the caller's row of the event's name and the service's mode; all 30 bytes count.
#[inline]
fn named_row(tables: &Prepared, caller: u8, event: &Record) -> Option<usize> {
    let mode = needs(event[0]).mode;
    tables.owned(caller).find(|&place| {
        let row = &tables.rows[place];
        row.name == event[16..46] && row.mode_byte() == mode
    })
}

/// CREATE_SAMPLING_PORT and CREATE_QUEUING_PORT: the id is the row's, never a counter's.
fn create(
    tables: &Prepared,
    state: &mut State,
    caller: u8,
    event: &Record,
    answer: &mut Record,
) -> u8 {
    let place = match named_row(tables, caller, event) {
        Some(place) => place,
        None => return INVALID_CONFIG,
    };
    let port = &mut state.ports[place];
    if port.created == 1 {
        return NO_ACTION;
    }
    if !like_row(&tables.rows[place], event) {
        return INVALID_CONFIG;
    }
    if state.modes[caller as usize] == NORMAL {
        return INVALID_MODE;
    }
    port.created = 1;
    put16(answer, 2, place as u16 + 1);
    NO_ERROR
}

/// Whether a create repeats the row's direction, refresh or depth, and largest message.
fn like_row(row: &Row, event: &Record) -> bool {
    event[1] == row.direction
        && get32(event, 4) == row.refresh_or_depth()
        && get32(event, 8) == row.largest
}

/// "no created own port of that name, 4; else id".
fn get_id(tables: &Prepared, state: &State, caller: u8, event: &Record, answer: &mut Record) -> u8 {
    match named_row(tables, caller, event) {
        Some(place) if state.ports[place].created == 1 => {
            put16(answer, 2, place as u16 + 1);
            NO_ERROR
        }
        _ => INVALID_CONFIG,
    }
}

/// A write or a send: lengths are tested before the direction.
#[inline]
fn store(row: &Row, port: &mut Port, event: &Record) -> u8 {
    let length = get32(event, 8);
    if length == 0 {
        return INVALID_PARAM;
    }
    if length > row.largest {
        return INVALID_CONFIG;
    }
    if row.direction != SOURCE {
        return INVALID_MODE;
    }
    let message = &event[16..][..length as usize];
    if row.mode_byte() == QUEUING {
        offer(row, port, message);
    } else {
        port.replace(message);
    }
    NO_ERROR
}

/// Appends the message, "or loses the message when the store holds its depth".
#[inline(always)]
pub fn offer(row: &Row, port: &mut Port, message: &[u8]) {
    if port.count < row.room() {
        port.append(message);
    }
}

/// A read leaves the message; an empty port leaves the last validity too.
#[inline]
fn read(row: &Row, port: &mut Port, time: u32, answer: &mut Record) -> u8 {
    if port.count == 0 {
        return NO_ACTION;
    }
    port.validity = valid(time, port.arrival, row.refresh_or_depth()) as u8;
    put_message(answer, port.message(0));
    answer[12] = port.validity;
    NO_ERROR
}

/// "The age of a sample is time minus arrival, modulo 2^32. It is valid exactly if age is at
/// most the refresh period."
#[inline(always)]
pub fn valid(time: u32, arrival: u32, refresh: u32) -> bool {
    time.wrapping_sub(arrival) <= refresh
}

/// "the oldest message, removed".
#[inline]
fn receive(port: &mut Port, answer: &mut Record) -> u8 {
    if port.count == 0 {
        return NOT_AVAILABLE;
    }
    put_message(answer, port.message(0));
    port.drop_oldest();
    NO_ERROR
}

/// Length and message of an answer; the bytes after are zero already.
#[inline(always)]
fn put_message(answer: &mut Record, message: &[u8]) {
    put32(answer, 8, message.len() as u32);
    answer[16..][..message.len()].copy_from_slice(message);
}

/// "the row's numbers, with the last validity (5) or the message count (10)".
#[inline]
fn status(row: &Row, port: &Port, code: u8, answer: &mut Record) {
    put32(answer, 8, row.largest);
    answer[13] = row.direction;
    if code == GET_QUEUING_PORT_STATUS {
        put32(answer, 4, shown_count(row, port));
        put16(answer, 14, row.refresh_or_depth() as u16);
    } else {
        put32(answer, 4, row.refresh_or_depth());
        answer[12] = port.validity;
    }
}

/// "The message count of a source port is always given as 0."
fn shown_count(row: &Row, port: &Port) -> u32 {
    if row.direction == DESTINATION {
        port.count as u32
    } else {
        0
    }
}

/// SET_PARTITION_MODE: a start or a stop unmakes the caller's ports, also where the mode stays.
fn set_mode(tables: &Prepared, state: &mut State, caller: u8, mode: u8) -> u8 {
    let present = state.modes[caller as usize];
    if mode > NORMAL {
        return INVALID_PARAM;
    }
    if mode == NORMAL && present == NORMAL {
        return NO_ACTION;
    }
    if mode == WARM_START && present == COLD_START {
        return INVALID_MODE;
    }
    state.modes[caller as usize] = mode;
    if mode != NORMAL {
        for place in tables.owned(caller) {
            unmake(&mut state.ports[place]);
        }
    }
    NO_ERROR
}

/// "empty all the caller's ports, unmake them, and set last validities and arrival times to 0".
fn unmake(port: &mut Port) {
    port.clear();
    port.created = 0;
    port.validity = 0;
    port.arrival = 0;
}
