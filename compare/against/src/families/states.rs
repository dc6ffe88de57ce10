//! States handed in: in range, out of range in each field, and with each number of a row at some
//! edge. Whether one passes test 29 the plain kernel says; a state that does is run.

use super::sound_tables;
use crate::layout::{bytes_of, number_place, state_of, MODES, ROW};
use crate::outcome::{Lent, Way};
use crate::trial::{Compared, Trial};
use plain::bytes::{get32, put32};
use plain::make::*;
use plain::tables::Prepared;
use plain::State;

pub fn compare(trial: &mut Trial) -> Compared {
    let tables = sound_tables(trial);
    let sound = bytes_of(&state_in_range(&mut trial.dice, &tables));
    tested(trial, &tables, &sound, "in range")?;
    tested(trial, &tables, &bytes_of(&State::zero()), "zeros")?;
    let late = bytes_of(&state_near_end(&mut trial.dice, &tables));
    tested(trial, &tables, &late, "near the end of the tick count")?;
    for (name, state) in broken_states(&mut trial.dice, &tables) {
        let bytes = bytes_of(&state);
        if plain::in_range(&tables, &state_of(&bytes)) {
            return Err(format!("{name} was made out of range, and passes"));
        }
        tested(trial, &tables, &bytes, name)?;
    }
    clock_and_modes(trial, &tables, &sound)?;
    numbers(trial, &tables, &sound)?;
    raw_state(trial, &tables)
}

/// Numbers at the edges of the ranges, and such whose lowest bytes alone would pass.
const NUMBERS: [u32; 17] = [
    0,
    1,
    2,
    3,
    7,
    8,
    9,
    63,
    64,
    65,
    255,
    256,
    257,
    1 << 16,
    1 << 24,
    1 << 31,
    u32::MAX,
];

/// Each number at the window, at the time and at a mode.
fn clock_and_modes(trial: &mut Trial, tables: &[u8], sound: &[u8]) -> Compared {
    for number in NUMBERS {
        for place in [0, 4] {
            let name = format!("{number} at byte {place}");
            tested(trial, tables, &with(sound, place, number), &name)?;
        }
        let mut state = sound.to_vec();
        let partition = trial.dice.below(16);
        state[MODES + partition] = number as u8;
        let name = format!("mode {} of partition {partition}", number as u8);
        tested(trial, tables, &state, &name)?;
    }
    Ok(())
}

/// Each number in each place of the row of one port of the tables and of one beyond them.
fn numbers(trial: &mut Trial, tables: &[u8], sound: &[u8]) -> Compared {
    let ports = Prepared::of(tables).expect("sound tables").rows.len();
    let within = (ports > 0).then(|| trial.dice.below(ports));
    let beyond = (ports < 64).then(|| trial.dice.between(ports, 63));
    for port in within.into_iter().chain(beyond) {
        for place in 0..ROW {
            let value = trial.dice.pick(&NUMBERS);
            let any = trial.dice.number() as u32;
            for number in [value, any, trial.dice.below(10) as u32] {
                let name = format!("{number} as number {place} of port {}", port + 1);
                let state = with(sound, number_place(port, place), number);
                tested(trial, tables, &state, &name)?;
            }
        }
    }
    Ok(())
}

/// Any bytes, and any bytes with sound modes and window.
fn raw_state(trial: &mut Trial, tables: &[u8]) -> Compared {
    let mut state = trial.dice.bytes(mueanphrai::STATE_SIZE);
    tested(trial, tables, &state, "raw bytes")?;
    put32(&mut state, 0, 0);
    state[MODES..][..16].fill(3);
    tested(trial, tables, &state, "raw ports")
}

/// The state with a number at a place.
fn with(sound: &[u8], place: usize, number: u32) -> Vec<u8> {
    let mut state = sound.to_vec();
    put32(&mut state, place, number);
    state
}

/// Every call that tests a state: the test alone, a run of some events, of none, and a step.
fn tested(trial: &mut Trial, tables: &[u8], state: &[u8], name: &str) -> Compared {
    every_call(trial, tables, state).map_err(|difference| format!("state ({name}): {difference}"))
}

fn every_call(trial: &mut Trial, tables: &[u8], state: &[u8]) -> Compared {
    trial.in_range(tables, state)?;
    let window = get32(state, 0) as usize;
    let events = played_list(&mut trial.dice, tables, window, 5);
    let answers = trial.dice.bytes(events.len() + 3);
    for (way, count) in [(Way::Run, 5), (Way::Run, 0), (Way::Step, 1)] {
        let lent = Lent {
            tables,
            state,
            events: &events[..80 * count],
            answers: &answers,
        };
        trial.call(way, lent)?;
    }
    Ok(())
}
