//! One step, a run over a list, and the reader of answers.

use crate::bytes::{get16, get32, put32};
use crate::codes::*;
use crate::judge::MOVER;
use crate::services::{call, offer, Record};
use crate::state::{State, SLOT};
use crate::tables::{Channel, Mode, Prepared};

/// Bytes of an event and of an answer.
pub const EVENT: usize = 80;

/// Carries out one event: 0, or 27 (not exactly 80 bytes), 28 (no room for the answer),
/// 29 (tables or state refused). A refusal touches nothing.
pub fn step(tables: &[u8], state: &mut State, event: &[u8], answers: &mut [u8]) -> u8 {
    if event.len() != EVENT {
        return 27;
    }
    run(tables, state, event, answers)
}

/// Carries out a list: 0, or 27 (not a multiple of 80), 28 (answers shorter than the events),
/// 29 (tables or state refused; also for an empty list). A refusal touches nothing.
pub fn run(tables: &[u8], state: &mut State, events: &[u8], answers: &mut [u8]) -> u8 {
    if events.len() % EVENT != 0 {
        return 27;
    }
    if answers.len() < events.len() {
        return 28;
    }
    match Prepared::of(tables) {
        Some(tables) if state.in_range(&tables) => {
            run_prepared(&tables, state, events, answers);
            0
        }
        _ => 29,
    }
}

/// A list that no test refuses; answer bytes past the last event stay.
pub fn run_prepared(tables: &Prepared, state: &mut State, events: &[u8], answers: &mut [u8]) {
    let records = events.chunks_exact(EVENT);
    for (event, answer) in records.zip(answers.chunks_exact_mut(EVENT)) {
        let event: &Record = event.try_into().expect("80 bytes");
        let answer: &mut Record = answer.try_into().expect("80 bytes");
        step_prepared(tables, state, event, answer);
    }
}

/// One event, in a state in range: who does it, and then what that doer does.
#[inline]
fn step_prepared(tables: &Prepared, state: &mut State, event: &Record, answer: &mut Record) {
    *answer = [0; EVENT];
    let (doer, code) = match doer(tables, state, event) {
        Ok(SCHEDULER) => (SCHEDULER, schedule(tables, state, answer)),
        Ok(doer) if doer >= FIRST_CHANNEL => {
            let channel = &tables.channels[(doer - FIRST_CHANNEL) as usize];
            (doer, transmit(tables, state, channel))
        }
        Ok(caller) => (caller, call(tables, state, caller, event, answer)),
        Err(code) => (NOBODY, code),
    };
    answer[0] = code;
    answer[1] = doer;
}

/// The event's doer, or the answer of the tests before any service, in 01's order.
#[inline]
fn doer(tables: &Prepared, state: &State, event: &Record) -> Result<u8, u8> {
    let partition = tables.windows[state.window as usize].partition;
    let code = event[0];
    if !(1..=14).contains(&code) {
        return Err(NO_CODE);
    }
    match needs(code).caller {
        Caller::Scheduler => Ok(SCHEDULER),
        Caller::Partition if partition == MOVER => Err(NO_PARTITION),
        Caller::Partition => Ok(partition),
        Caller::Mover if partition != MOVER => Err(NO_MOVER),
        Caller::Mover => {
            let channel = get16(event, 2);
            if (channel as usize) < tables.channels.len() {
                Ok(FIRST_CHANNEL + channel as u8)
            } else {
                Err(NO_CHANNEL)
            }
        }
    }
}

/// "time grows by the current window's length; next window, after the last the first".
#[inline]
fn schedule(tables: &Prepared, state: &mut State, answer: &mut Record) -> u8 {
    let window = state.window as usize;
    state.time = state.time.wrapping_add(tables.windows[window].length);
    state.window = if window + 1 == tables.windows.len() {
        0
    } else {
        state.window + 1
    };
    put32(answer, 4, state.time);
    NO_ERROR
}

/// The oldest message leaves the source, whatever becomes of it at the destinations.
#[inline]
fn transmit(tables: &Prepared, state: &mut State, channel: &Channel) -> u8 {
    let source = &mut state.ports[channel.source];
    if source.count == 0 {
        return NO_ACTION;
    }
    // a copy, since source and destination stand in one array
    let mut copy = [0; SLOT];
    let length = source.message(0).len();
    copy[..length].copy_from_slice(source.message(0));
    source.drop_oldest();
    for &place in channel.destinations() {
        arrive(tables, state, place, &copy[..length]);
    }
    NO_ERROR
}

/// "Each destination that is created gets it: sampling replaces and sets the arrival time,
/// queuing appends if there's room."
#[inline]
fn arrive(tables: &Prepared, state: &mut State, place: usize, message: &[u8]) {
    let row = &tables.rows[place];
    let port = &mut state.ports[place];
    if port.created == 0 {
        return;
    }
    match row.mode {
        Mode::Sampling(_) => {
            port.replace(message);
            port.arrival = state.time;
        }
        Mode::Queuing(_) => offer(row, port, message),
    }
}

/// Start and length of the message that an answer record hands out: "bytes 16 up to 16 plus
/// length of the record asked for", or the empty stretch at the start.
pub fn stretch(answers: &[u8], record: usize) -> (usize, usize) {
    if answers.len() % EVENT != 0 || record >= answers.len() / EVENT {
        return (0, 0);
    }
    let start = record * EVENT;
    let length = get32(answers, start + 8) as usize;
    if answers[start] != NO_ERROR || length > SLOT {
        return (0, 0);
    }
    (start + 16, length)
}
