//! Tables sound, at the edges, and damaged: each refusal alone, several faults at once, raw bytes.

use super::sound_tables;
use crate::layout::{bytes_of, SIZE};
use crate::outcome::{Lent, Way};
use crate::trial::{Compared, Trial};
use plain::make::damage::Damaged;
use plain::make::events::schedule;
use plain::make::{any_byte, damaged_tables, each_fault, raw_tables, window_tables};
use plain::{judge, State, Verdict};

pub fn compare(trial: &mut Trial) -> Compared {
    let sound = sound_tables(trial);
    judged(trial, &sound, "sound")?;
    for damaged in each_fault(&mut trial.dice, &sound) {
        as_promised(&damaged)?;
        judged(trial, &damaged.tables, damaged.name)?;
    }
    for _ in 0..8 {
        let (names, tables) = damaged_tables(&mut trial.dice);
        judged(trial, &tables, &names.join(", "))?;
        let mut tables = sound.clone();
        any_byte(&mut trial.dice, &mut tables);
        judged(trial, &tables, "any byte")?;
        let tables = raw_tables(&mut trial.dice);
        judged(trial, &tables, "raw bytes")?;
    }
    let many = trial.dice.pick(&[63, 64, 65, 66, 161, 400]);
    judged(trial, &window_tables(many), "windows alone")
}

/// The maker of a fault says which refusal must follow; so a fault that both kernels miss is seen.
fn as_promised(damaged: &Damaged) -> Compared {
    let promised = Verdict::Refused {
        number: damaged.number,
        record: damaged.record,
    };
    let verdict = judge(&damaged.tables);
    if verdict == promised {
        return Ok(());
    }
    let name = damaged.name;
    Err(format!("{name}: {verdict:?}, but {promised:?} was made"))
}

/// Every call that judges tables.
fn judged(trial: &mut Trial, tables: &[u8], name: &str) -> Compared {
    every_call(trial, tables).map_err(|difference| format!("tables ({name}): {difference}"))
}

fn every_call(trial: &mut Trial, tables: &[u8]) -> Compared {
    let before = trial.dice.bytes(SIZE);
    trial.load(tables, &before)?;
    let state = bytes_of(&State::at_load());
    trial.in_range(tables, &state)?;
    let answers = trial.dice.bytes(80);
    let mut lent = Lent {
        tables,
        state: &state,
        events: &schedule(),
        answers: &answers,
    };
    trial.call(Way::Run, lent)?;
    trial.call(Way::Step, lent)?;
    lent.events = &[];
    trial.call(Way::Run, lent).map(|_| ())
}
