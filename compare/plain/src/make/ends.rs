//! The faults of channel ends, refusal 25.
// every fault has the type of the list's rows, also those that keep the length
#![allow(clippy::ptr_arg)]

use super::dice::Dice;
use super::records::*;
use crate::bytes::{get16, get32, put16, put32};
use crate::judge::{DESTINATION, MOST_CHANNELS, RECORD};

/// An id with no row: 0, one past the last, the largest.
pub(super) fn no_row(dice: &mut Dice, tables: &[u8]) -> u16 {
    let ports = places(tables, any_port).len() as u16;
    dice.pick(&[0, ports + 1, u16::MAX])
}

/// A source id with no row.
pub(super) fn source_id(dice: &mut Dice, tables: &mut Vec<u8>) -> Option<usize> {
    let place = some_place(dice, tables, any_channel)?;
    let id = no_row(dice, tables);
    put16(record(tables, place), 2, id);
    Some(place)
}

/// Where a used destination id of the channel at a place stands.
pub(super) fn some_slot(dice: &mut Dice, tables: &[u8], place: usize) -> usize {
    let count = at(tables, place)[1].clamp(1, 8);
    4 + 2 * dice.below(count as usize)
}

/// A destination id with no row.
pub(super) fn destination_id(dice: &mut Dice, tables: &mut Vec<u8>) -> Option<usize> {
    let place = some_place(dice, tables, any_channel)?;
    let id = no_row(dice, tables);
    let slot = some_slot(dice, tables, place);
    put16(record(tables, place), slot, id);
    Some(place)
}

/// Source and first destination change places.
pub(super) fn ends_swapped(dice: &mut Dice, tables: &mut Vec<u8>) -> Option<usize> {
    let place = some_place(dice, tables, any_channel)?;
    let record = record(tables, place);
    record.swap(2, 4);
    record.swap(3, 5);
    Some(place)
}

/// The id of any port that passes the test.
pub(super) fn some_id(dice: &mut Dice, tables: &[u8], test: Test) -> Option<u16> {
    let place = some_place(dice, tables, test)?;
    let ports = places(tables, any_port);
    ports
        .iter()
        .position(|&port| port == place)
        .map(|row| row as u16 + 1)
}

/// A destination port as the source.
pub(super) fn source_not_a_source(dice: &mut Dice, tables: &mut Vec<u8>) -> Option<usize> {
    let place = some_place(dice, tables, any_channel)?;
    let id = some_id(dice, tables, |record| any_port(record) && record[3] == 1)?;
    put16(record(tables, place), 2, id);
    Some(place)
}

/// A source port as a destination.
pub(super) fn destination_not_one(dice: &mut Dice, tables: &mut Vec<u8>) -> Option<usize> {
    let place = some_place(dice, tables, any_channel)?;
    let id = some_id(dice, tables, |record| any_port(record) && record[3] == 0)?;
    let slot = some_slot(dice, tables, place);
    put16(record(tables, place), slot, id);
    Some(place)
}

/// A destination becomes one of the other mode.
pub(super) fn mixed_modes(dice: &mut Dice, tables: &mut Vec<u8>) -> Option<usize> {
    let place = some_place(dice, tables, any_channel)?;
    let source = port_of(tables, get16(at(tables, place), 2))?;
    let other: Test = if queuing(at(tables, source)) {
        refreshed
    } else {
        |record| queuing(record) && record[3] == DESTINATION
    };
    let id = some_id(dice, tables, other)?;
    let slot = some_slot(dice, tables, place);
    put16(record(tables, place), slot, id);
    Some(place)
}

/// The place of any channel whose source passes the test, and the place of that source.
pub(super) fn some_sourced(dice: &mut Dice, tables: &[u8], test: Test) -> Option<(usize, usize)> {
    let fitting: Vec<(usize, usize)> = places(tables, any_channel)
        .into_iter()
        .filter_map(|place| {
            let source = port_of(tables, get16(at(tables, place), 2))?;
            test(at(tables, source)).then_some((place, source))
        })
        .collect();
    dice.pick_some(&fitting)
}

/// A queuing channel with two destinations.
pub(super) fn queuing_to_two(dice: &mut Dice, tables: &mut Vec<u8>) -> Option<usize> {
    let (place, _) = some_sourced(dice, tables, queuing)?;
    let id = some_id(dice, tables, |record| queuing(record) && record[3] == 1)?;
    let record = record(tables, place);
    record[1] = 2;
    put16(record, 6, id);
    Some(place)
}

/// The place of a destination of the channel at a place.
pub(super) fn some_destination(dice: &mut Dice, tables: &[u8], place: usize) -> Option<usize> {
    let slot = some_slot(dice, tables, place);
    port_of(tables, get16(at(tables, place), slot))
}

/// A destination's largest message becomes one below the source's.
pub(super) fn small_destination(dice: &mut Dice, tables: &mut Vec<u8>) -> Option<usize> {
    let (place, source) = some_sourced(dice, tables, |record| get32(record, 4) > 1)?;
    let largest = get32(at(tables, source), 4);
    let destination = some_destination(dice, tables, place)?;
    put32(record(tables, destination), 4, largest - 1);
    Some(place)
}

/// A source's largest message becomes one above a destination's.
pub(super) fn large_source(dice: &mut Dice, tables: &mut Vec<u8>) -> Option<usize> {
    let (place, source) = some_sourced(dice, tables, any_port)?;
    let destination = some_destination(dice, tables, place)?;
    let largest = get32(at(tables, destination), 4);
    if largest >= 64 {
        return None;
    }
    put32(record(tables, source), 4, largest + 1);
    Some(place)
}

/// A sampling channel names one of its destinations once more.
pub(super) fn named_twice_here(dice: &mut Dice, tables: &mut Vec<u8>) -> Option<usize> {
    let (place, _) = some_sourced(dice, tables, sampling)?;
    let slot = some_slot(dice, tables, place);
    let record = record(tables, place);
    let count = record[1] as usize;
    if !(1..8).contains(&count) {
        return None;
    }
    let id = get16(record, slot);
    record[1] += 1;
    put16(record, 4 + 2 * count, id);
    Some(place)
}

/// A channel takes its source or a destination from an earlier channel.
pub(super) fn named_earlier(dice: &mut Dice, tables: &mut Vec<u8>) -> Option<usize> {
    let channels = places(tables, any_channel);
    if channels.len() < 2 {
        return None;
    }
    let later = dice.between(1, channels.len() - 1);
    let (earlier, later) = (channels[dice.below(later)], channels[later]);
    let field = if dice.chance(1, 2) { 2 } else { 4 };
    let id = get16(at(tables, earlier), field);
    put16(record(tables, later), field, id);
    Some(later)
}

/// A channel once more, at the end.
pub(super) fn same_channel_twice(dice: &mut Dice, tables: &mut Vec<u8>) -> Option<usize> {
    let channels = places(tables, any_channel);
    let place = dice.pick_some(&channels)?;
    if channels.len() == MOST_CHANNELS {
        return None;
    }
    let copy = at(tables, place).to_vec();
    tables.extend(copy);
    Some(tables.len() / RECORD - 1)
}

/// A port in a channel changes its direction, and its row stays sound.
pub(super) fn turned_port(dice: &mut Dice, tables: &mut Vec<u8>) -> Option<usize> {
    let (place, source) = some_sourced(dice, tables, any_port)?;
    let destination = some_destination(dice, tables, place)?;
    let record = record(tables, dice.pick(&[source, destination]));
    record[3] ^= 1;
    let refresh = refreshed(record) as u32;
    put32(record, 12, refresh);
    Some(place)
}
