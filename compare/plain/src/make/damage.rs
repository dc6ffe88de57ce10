//! Damaged tables, by the faults of each refusal.

use super::dice::Dice;
use super::faults::FAULTS;
use super::tables::valid_tables;
use crate::judge::RECORD;

/// Tables that the loader must refuse, and how.
#[derive(Clone, Debug)]
pub struct Damaged {
    /// What was done.
    pub name: &'static str,
    /// The refusal.
    pub number: u8,
    /// The first offending record.
    pub record: usize,
    pub tables: Vec<u8>,
}

/// Each fault alone, on sound tables, with the refusal that must follow.
pub fn each_fault(dice: &mut Dice, tables: &[u8]) -> Vec<Damaged> {
    let mut damaged = Vec::new();
    for &(number, name, apply) in FAULTS {
        let mut tables = tables.to_vec();
        if let Some(record) = apply(dice, &mut tables) {
            damaged.push(Damaged {
                name,
                number,
                record,
                tables,
            });
        }
    }
    damaged
}

/// Any tables with one to four faults, and the names of these.
pub fn damaged_tables(dice: &mut Dice) -> (Vec<&'static str>, Vec<u8>) {
    let mut tables = valid_tables(dice);
    let mut names = Vec::new();
    for _ in 0..dice.between(1, 4) {
        if dice.chance(1, 12) {
            any_byte(dice, &mut tables);
            names.push("any byte");
        }
        let (_, name, apply) = dice.pick(FAULTS);
        if apply(dice, &mut tables).is_some() {
            names.push(name);
        }
    }
    (names, tables)
}

/// Changes one byte to any value.
pub fn any_byte(dice: &mut Dice, tables: &mut [u8]) {
    if !tables.is_empty() {
        tables[dice.below(tables.len())] = dice.byte();
    }
}

/// Any bytes, now and then with sound kinds, so that more than 21 is told.
pub fn raw_tables(dice: &mut Dice) -> Vec<u8> {
    let records = dice.between(0, 5);
    let mut tables = dice.bytes(records * RECORD);
    let mut kind = 1;
    for record in tables.chunks_exact_mut(RECORD) {
        kind = dice.between(kind, 3);
        if dice.chance(3, 4) {
            record[0] = kind as u8;
        }
        if dice.chance(1, 2) {
            record[4..].fill(0);
        }
    }
    if dice.chance(1, 8) {
        tables.push(0);
    }
    tables
}
