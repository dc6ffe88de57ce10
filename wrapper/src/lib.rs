//! Mueanphrai's port kernel for programs in Rust.
//!
//! The calls are those of `include/mueanphrai.h`, and the archive behind them is proved: for all
//! bytes it is lent, a call gives the result and the bytes that its contract says, and touches
//! nothing else. A proof cannot speak of memory that is not there, so the header leaves three
//! things to its caller, and here Rust's types give them:
//!
//! - pointers that are not null, with as many bytes as the length says: a slice is both, also an
//!   empty one;
//! - written buffers (state, answers) that share no byte with another buffer of the call: a
//!   `&mut` is the only way to its bytes;
//! - no other thread that writes meanwhile: the same rule, across threads.
//!
//! So every function here is safe for every argument. Tables, events, answers and states are
//! bytes: any bytes may be handed in, and the kernel itself refuses what is out of range. Their
//! codes, places and limits have names in [`numbers`].
//!
//! ```no_run
//! # let (tables, event) = ([0u8; 48], [0u8; 80]);
//! let mut state = mueanphrai::load(&tables).expect("tables that a load accepts");
//! let mut answer = [0; mueanphrai::ANSWER];
//! mueanphrai::step(&tables, &mut state, &event, &mut answer).expect("a state that a load gave");
//! ```

#![no_std]
#![deny(unsafe_code)]
#![warn(missing_docs)]

pub mod lent;
pub mod numbers;
mod state;

pub use numbers::{
    ANSWER, ANSWERS_SHORT, EVENT, EVENTS_LENGTH, LONGEST_MESSAGE, STATE_REFUSED, STATE_SIZE,
    TABLE_RECORD,
};
pub use state::State;

/// Why a load was refused.
#[derive(Clone, Copy, Debug, PartialEq, Eq)]
pub struct Refused {
    /// 20 to 26.
    pub code: u8,
    /// The first offending record, counted from 0.
    pub record: usize,
}

/// Loads tables: the state at load, or the first fault of the tables.
pub fn load(tables: &[u8]) -> Result<State, Refused> {
    let mut bytes = [0; STATE_SIZE];
    match lent::load(tables, &mut bytes) {
        0 => Ok(State::from_bytes(bytes)),
        code => Err(Refused {
            code,
            record: lent::refused_record(tables),
        }),
    }
}

/// Test 29: whether a load accepts the tables and each number of the state is in its range.
pub fn in_range(tables: &[u8], state: &State) -> bool {
    lent::in_range(tables, state.as_bytes()) == 1
}

/// Runs a list of events in order: event i is answered in bytes 80 i to 80 i + 79 of `answers`, and
/// answer bytes past the last event stay. A refused list (27, 28, 29) touches nothing.
pub fn run(tables: &[u8], state: &mut State, events: &[u8], answers: &mut [u8]) -> Result<(), u8> {
    done(lent::run(tables, state.bytes_mut(), events, answers))
}

/// Runs one event. Its type and that of the answer leave 29 as the only refusal.
pub fn step(
    tables: &[u8],
    state: &mut State,
    event: &[u8; EVENT],
    answer: &mut [u8; ANSWER],
) -> Result<(), u8> {
    done(lent::step(tables, state.bytes_mut(), event, answer))
}

/// The message that record number `record` of the answers hands out: the stretch of `answers` where
/// it stands. Empty where the answers are no whole records, there is no such record, its code is
/// not 0 or its length field is above 64.
pub fn message(answers: &[u8], record: usize) -> &[u8] {
    let start = lent::message_start(answers, record);
    &answers[start..start + lent::message_length(answers, record)]
}

/// A list's code as a result.
fn done(code: u8) -> Result<(), u8> {
    match code {
        0 => Ok(()),
        refusal => Err(refusal),
    }
}
