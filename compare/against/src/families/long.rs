//! Lists of 100,000 events.

use crate::trial::{Compared, Trial};
use plain::make::*;
use plain::State;

/// Events of a list.
const COUNT: usize = 100_000;

pub fn compare(trial: &mut Trial) -> Compared {
    let tables = match trial.number {
        0..=3 => full_tables(),
        _ => valid_tables(&mut trial.dice),
    };
    let dice = &mut trial.dice;
    let (start, events) = match trial.number % 4 {
        0 => (State::at_load(), mixed_list(dice, &tables, COUNT)),
        1 => (State::at_load(), played_list(dice, &tables, 0, COUNT)),
        2 => {
            let start = state_near_end(dice, &tables);
            let events = played_list(dice, &tables, start.window as usize, COUNT);
            (start, events)
        }
        _ => (state_in_range(dice, &tables), near_raw_list(dice, COUNT)),
    };
    trial.run(&tables, &start, &events).map(|_| ())
}
