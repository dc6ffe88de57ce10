//! Lists on sound tables: ports made, queues filled to the depth and past it, moves, modes, the end of
//! the tick count, raw bytes; of 0, 1, 400 events and other counts; from states loaded and handed in.

use super::sound_tables;
use crate::trial::{Compared, Trial};
use plain::make::*;
use plain::State;

pub fn compare(trial: &mut Trial) -> Compared {
    let tables = sound_tables(trial);
    trial.run(&tables, &State::at_load(), &fill_list(&tables))?;
    let starts = [
        State::at_load(),
        state_in_range(&mut trial.dice, &tables),
        state_near_end(&mut trial.dice, &tables),
    ];
    for start in &starts {
        from(trial, &tables, start)?;
    }
    kept_otherwise(trial, &tables, &starts[1])
}

/// Lists of each kind and count from one state.
fn from(trial: &mut Trial, tables: &[u8], start: &State) -> Compared {
    let window = start.window as usize;
    for count in [0, 1, 400] {
        let played = played_list(&mut trial.dice, tables, window, count);
        trial.run(tables, start, &played)?;
    }
    let count = trial.dice.between(2, 90);
    let near_raw = near_raw_list(&mut trial.dice, count);
    trial.run(tables, start, &near_raw)?;
    let raw = raw_list(&mut trial.dice, 80 * count);
    trial.run(tables, start, &raw)?;
    let any = trial.dice.below(800);
    let torn = raw_list(&mut trial.dice, any);
    trial.run(tables, start, &torn).map(|_| ())
}

/// A state with its messages in other slots is answered alike, and comes back in the same form.
fn kept_otherwise(trial: &mut Trial, tables: &[u8], state: &State) -> Compared {
    let events = played_list(&mut trial.dice, tables, state.window as usize, 60);
    let turned = turned_state(&mut trial.dice, tables, state);
    let answered = trial.run(tables, state, &events)?.answers;
    let others = trial.run(tables, &turned, &events)?.answers;
    if answered[..events.len()] != others[..events.len()] {
        return Err("a state kept otherwise is answered otherwise".into());
    }
    Ok(())
}
