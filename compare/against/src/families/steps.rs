//! Step by step against run: each step is compared with the plain kernel, and all of them together with
//! runs of the same list, whole and in two parts.

use super::sound_tables;
use crate::layout::bytes_of;
use crate::outcome::{compare as compare_outcomes, Lent, Outcome, Way};
use crate::trial::{Compared, Trial};
use plain::make::*;
use plain::State;

pub fn compare(trial: &mut Trial) -> Compared {
    let tables = sound_tables(trial);
    let start = match trial.number % 3 {
        0 => State::at_load(),
        1 => state_in_range(&mut trial.dice, &tables),
        _ => state_near_end(&mut trial.dice, &tables),
    };
    let count = trial.dice.pick(&[1, 30, 120, 400]);
    let events = match trial.dice.below(4) {
        0 => near_raw_list(&mut trial.dice, count),
        _ => played_list(&mut trial.dice, &tables, start.window as usize, count),
    };
    let start = bytes_of(&start);
    let stepped = in_parts(trial, Way::Step, &tables, &start, &events, 80)?;
    let whole = in_parts(trial, Way::Run, &tables, &start, &events, events.len())?;
    let part = 80 * trial.dice.between(1, count);
    let halves = in_parts(trial, Way::Run, &tables, &start, &events, part)?;
    compare_outcomes(&events, &whole, &stepped).map_err(|d| format!("steps beside run: {d}"))?;
    compare_outcomes(&events, &whole, &halves).map_err(|d| format!("parts beside run: {d}"))
}

/// What comes of a list that is called in parts of so many bytes.
fn in_parts(
    trial: &mut Trial,
    way: Way,
    tables: &[u8],
    start: &[u8],
    events: &[u8],
    part: usize,
) -> Result<Outcome, String> {
    let mut state = start.to_vec();
    let mut all = Vec::new();
    for (number, events) in events.chunks(part).enumerate() {
        let answers = trial.dice.bytes(events.len());
        let lent = Lent {
            tables,
            state: &state,
            events,
            answers: &answers,
        };
        let outcome = trial
            .call(way, lent)
            .map_err(|difference| format!("from event {}: {difference}", number * part / 80))?;
        state = outcome.state;
        all.extend(outcome.answers);
    }
    Ok(Outcome {
        code: 0,
        state,
        answers: all,
    })
}
