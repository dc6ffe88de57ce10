//! Buffers of every size: states of other sizes, torn events, answers too short, exact and longer,
//! with tables and states that are sound or not. So the order of 27, 28 and 29 is seen.

use super::sound_tables;
use crate::layout::{bytes_of, SIZE};
use crate::outcome::{Lent, Way};
use crate::trial::{Compared, Trial};
use plain::make::*;

/// Lengths of a state buffer; one alone is right.
const STATES: [usize; 8] = [0, 1, 24, SIZE - 1, SIZE, SIZE + 1, SIZE + 80, 2 * SIZE];
/// Lengths of events.
const EVENTS: [usize; 9] = [0, 1, 79, 80, 81, 159, 160, 161, 400 * 80];

pub fn compare(trial: &mut Trial) -> Compared {
    let sound = sound_tables(trial);
    let (_, broken) = damaged_tables(&mut trial.dice);
    let in_range = bytes_of(&state_in_range(&mut trial.dice, &sound));
    let out_of_range = bytes_of(&state_out_of_range(&mut trial.dice, &sound).1);
    for tables in [&sound, &broken] {
        for state in [&in_range, &out_of_range] {
            for size in STATES {
                let mut state = state.clone();
                state.resize(size, 0xEE);
                sized(trial, tables, &state)
                    .map_err(|difference| format!("a state of {size} bytes: {difference}"))?;
            }
        }
    }
    Ok(())
}

/// Each call with this state, and events and answers of each length.
fn sized(trial: &mut Trial, tables: &[u8], state: &[u8]) -> Compared {
    trial.load(tables, state)?;
    trial.in_range(tables, state)?;
    for length in EVENTS {
        let mut events = near_raw_list(&mut trial.dice, length / 80 + 1);
        events.truncate(length);
        let short = trial.dice.below(length.max(1));
        for room in [
            length,
            length.saturating_sub(1),
            short,
            0,
            length + 1,
            length + 80,
        ] {
            let answers = trial.dice.bytes(room);
            let lent = Lent {
                tables,
                state,
                events: &events,
                answers: &answers,
            };
            for way in [Way::Run, Way::Step] {
                trial.call(way, lent).map_err(|difference| {
                    format!("{way:?}, {length} event bytes, {room} answer bytes: {difference}")
                })?;
            }
        }
    }
    Ok(())
}
