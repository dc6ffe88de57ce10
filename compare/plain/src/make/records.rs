//! Finding and changing the records of tables that may be damaged already.

use super::dice::Dice;
use crate::judge::{CHANNEL, DESTINATION, PORT, RECORD, WINDOW};

/// A test of a record.
pub(super) type Test = fn(&[u8]) -> bool;

/// A window.
pub(super) fn any_window(record: &[u8]) -> bool {
    record[0] == WINDOW
}
/// A port.
pub(super) fn any_port(record: &[u8]) -> bool {
    record[0] == PORT
}
/// A channel.
pub(super) fn any_channel(record: &[u8]) -> bool {
    record[0] == CHANNEL
}
/// A queuing port.
pub(super) fn queuing(record: &[u8]) -> bool {
    any_port(record) && record[2] == 1
}
/// A sampling port.
pub(super) fn sampling(record: &[u8]) -> bool {
    any_port(record) && record[2] == 0
}
/// A port that has a refresh period: a sampling destination.
pub(super) fn refreshed(record: &[u8]) -> bool {
    sampling(record) && record[3] == DESTINATION
}
/// A port that has none.
pub(super) fn unrefreshed(record: &[u8]) -> bool {
    any_port(record) && !refreshed(record)
}

/// The places of the records that pass the test.
pub(super) fn places(tables: &[u8], test: Test) -> Vec<usize> {
    let records = tables.chunks_exact(RECORD).enumerate();
    records
        .filter(|(_, record)| test(record))
        .map(|(place, _)| place)
        .collect()
}

/// Any place of a record that passes the test.
pub(super) fn some_place(dice: &mut Dice, tables: &[u8], test: Test) -> Option<usize> {
    dice.pick_some(&places(tables, test))
}

/// The record at a place, to read.
pub(super) fn at(tables: &[u8], place: usize) -> &[u8] {
    &tables[place * RECORD..][..RECORD]
}

/// The record at a place, to change.
pub(super) fn record(tables: &mut [u8], place: usize) -> &mut [u8] {
    &mut tables[place * RECORD..][..RECORD]
}

/// Puts a record in before the one at a place.
pub(super) fn insert(tables: &mut Vec<u8>, place: usize, new: &[u8]) {
    let at = place * RECORD;
    tables.splice(at..at, new.iter().copied());
}

/// The record of the port with this id, where there is one.
pub(super) fn port_of(tables: &[u8], id: u16) -> Option<usize> {
    places(tables, any_port)
        .get((id as usize).wrapping_sub(1))
        .copied()
}
