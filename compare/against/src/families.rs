//! The cases, in families. A case follows from the seed, its family and its number.

mod lists;
mod long;
mod reader;
mod sizes;
mod states;
mod steps;
mod tables;

use crate::trial::{Compared, Trial};
use plain::make::{edge_tables, valid_tables};

/// A kind of case.
pub struct Family {
    pub name: &'static str,
    /// Cases of one round.
    pub cases: u64,
    /// Makes a case and compares it.
    pub compare: fn(&mut Trial) -> Compared,
}

/// All families; a round takes well under a minute.
pub const FAMILIES: [Family; 7] = [
    family("tables", 700, tables::compare),
    family("lists", 3_000, lists::compare),
    family("states", 500, states::compare),
    family("sizes", 50, sizes::compare),
    family("reader", 2_000, reader::compare),
    family("steps", 1_200, steps::compare),
    family("long", 32, long::compare),
];

/// A family by its parts.
const fn family(name: &'static str, cases: u64, compare: fn(&mut Trial) -> Compared) -> Family {
    Family {
        name,
        cases,
        compare,
    }
}

/// Sound tables: a family's first cases have those at the edges in turn, the others any.
fn sound_tables(trial: &mut Trial) -> Vec<u8> {
    let mut edges = edge_tables();
    let number = trial.number as usize;
    if number < edges.len() {
        return edges.swap_remove(number).1;
    }
    valid_tables(&mut trial.dice)
}
