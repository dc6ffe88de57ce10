//! The faults of tables, by refusal number. Each edits sound tables so that the loader must
//! refuse them with its number, at the record that it gives; nothing where it finds no place.
//! Tables already damaged may be given too; then neither number nor record is promised.
// every fault has the type of the list's rows, also those that keep the length
#![allow(clippy::ptr_arg)]

use super::dice::Dice;
use super::edges::full_tables;
use super::ends::*;
use super::plan::{padded, port_record, window_record};
use super::records::*;
use crate::bytes::{put16, put32};
use crate::judge::{DESTINATION, MOST_CHANNELS, MOST_PORTS, RECORD, WINDOW};
use crate::tables::{Mode, Row, Window};

/// What a fault does to tables, and the record that is then refused.
pub type Apply = fn(&mut Dice, &mut Vec<u8>) -> Option<usize>;

/// The faults: refusal number, name, and how it is made.
pub const FAULTS: &[(u8, &str, Apply)] = &[
    (20, "no bytes", no_bytes),
    (20, "length", broken_length),
    (21, "kind", unknown_kind),
    (21, "kind below", kind_below),
    (21, "order", swapped_kinds),
    (22, "windows", many_windows),
    (22, "ports", many_ports),
    (22, "channels", many_channels),
    (23, "window partition", |d, t| {
        byte(d, t, any_window, 1, &[16, 31, 33, 64, 255])
    }),
    (23, "window length", |d, t| {
        short(d, t, any_window, 2, &[0, 10_001, 65_535])
    }),
    (23, "window zero byte", |d, t| {
        stray(d, t, any_window, 4, 47)
    }),
    (23, "owner", |d, t| byte(d, t, any_port, 1, &[16, 32, 255])),
    (23, "port mode", |d, t| byte(d, t, any_port, 2, &[2, 255])),
    (23, "direction", |d, t| byte(d, t, any_port, 3, &[2, 255])),
    (23, "largest", |d, t| {
        long(d, t, any_port, 4, &[0, 65, 0x101, u32::MAX])
    }),
    (23, "depth of queuing", |d, t| {
        long(d, t, queuing, 8, &[0, 9, 0x101, 1 << 24])
    }),
    (23, "depth of sampling", |d, t| {
        long(d, t, sampling, 8, &[1, 8, 1 << 24])
    }),
    (23, "refresh", |d, t| {
        long(d, t, refreshed, 12, &[0, 1_000_001, u32::MAX])
    }),
    (23, "refresh where none", |d, t| {
        long(d, t, unrefreshed, 12, &[1, 1 << 24])
    }),
    (23, "port zero byte", |d, t| stray(d, t, any_port, 46, 47)),
    (23, "count", |d, t| byte(d, t, any_channel, 1, &[0, 9, 255])),
    (23, "unused slot", unused_slot),
    (23, "channel zero byte", |d, t| {
        stray(d, t, any_channel, 20, 47)
    }),
    (24, "empty name", |d, t| name(d, t, |_, name| name.fill(0))),
    (24, "name begins with zero", |d, t| {
        name(d, t, begins_with_zero)
    }),
    (24, "nonzero after a zero", |d, t| {
        name(d, t, nonzero_after_zero)
    }),
    (24, "same name", same_name),
    (24, "same port twice", same_port_twice),
    (25, "source id", source_id),
    (25, "destination id", destination_id),
    (25, "ends swapped", ends_swapped),
    (25, "source not a source", source_not_a_source),
    (25, "destination not a destination", destination_not_one),
    (25, "mixed modes", mixed_modes),
    (25, "queuing to two", queuing_to_two),
    (25, "small destination", small_destination),
    (25, "large source", large_source),
    (25, "named twice here", named_twice_here),
    (25, "named earlier", named_earlier),
    (25, "same channel twice", same_channel_twice),
    (25, "turned port", turned_port),
    (26, "no window", no_window),
];

/// One of the values in a byte of a record that passes the test.
fn byte(d: &mut Dice, t: &mut Vec<u8>, test: Test, field: usize, values: &[u8]) -> Option<usize> {
    let place = some_place(d, t, test)?;
    record(t, place)[field] = d.pick(values);
    Some(place)
}

/// One of the values in a 16-bit field of a record that passes the test.
fn short(d: &mut Dice, t: &mut Vec<u8>, test: Test, field: usize, values: &[u16]) -> Option<usize> {
    let place = some_place(d, t, test)?;
    put16(record(t, place), field, d.pick(values));
    Some(place)
}

/// One of the values in a 32-bit field of a record that passes the test.
fn long(d: &mut Dice, t: &mut Vec<u8>, test: Test, field: usize, values: &[u32]) -> Option<usize> {
    let place = some_place(d, t, test)?;
    put32(record(t, place), field, d.pick(values));
    Some(place)
}

/// A nonzero byte between two places of a record that passes the test.
fn stray(d: &mut Dice, t: &mut Vec<u8>, test: Test, least: usize, most: usize) -> Option<usize> {
    let place = some_place(d, t, test)?;
    record(t, place)[d.between(least, most)] = d.nonzero();
    Some(place)
}

/// A port's name, edited.
fn name(d: &mut Dice, t: &mut Vec<u8>, edit: fn(&mut Dice, &mut [u8])) -> Option<usize> {
    let place = some_place(d, t, any_port)?;
    edit(d, &mut record(t, place)[16..46]);
    Some(place)
}

/// Length 0.
fn no_bytes(_: &mut Dice, tables: &mut Vec<u8>) -> Option<usize> {
    tables.clear();
    Some(0)
}

/// A length just beside a multiple of 48, or between two.
fn broken_length(dice: &mut Dice, tables: &mut Vec<u8>) -> Option<usize> {
    let more = dice.pick(&[1, 24, 47]);
    if dice.chance(1, 2) && tables.len() > more {
        tables.truncate(tables.len() - more);
    } else {
        tables.extend(dice.bytes(more));
    }
    Some(0)
}

/// A kind just outside 1..3.
fn unknown_kind(dice: &mut Dice, tables: &mut Vec<u8>) -> Option<usize> {
    let place = some_place(dice, tables, |_| true)?;
    record(tables, place)[0] = dice.pick(&[0, 4, 255]);
    Some(place)
}

/// A record whose kind is one below that of the record before.
fn kind_below(dice: &mut Dice, tables: &mut Vec<u8>) -> Option<usize> {
    let before = some_place(dice, tables, |record| record[0] > WINDOW)?;
    if (before + 2) * RECORD > tables.len() {
        return None;
    }
    record(tables, before + 1)[0] = at(tables, before)[0] - 1;
    Some(before + 1)
}

/// A window and a port change places.
fn swapped_kinds(dice: &mut Dice, tables: &mut Vec<u8>) -> Option<usize> {
    let window = some_place(dice, tables, any_window)?;
    let port = some_place(dice, tables, any_port)?;
    for at in 0..RECORD {
        tables.swap(window * RECORD + at, port * RECORD + at);
    }
    let kinds: Vec<u8> = tables.iter().step_by(RECORD).copied().collect();
    kinds
        .windows(2)
        .position(|two| two[1] < two[0])
        .map(|before| before + 1)
}

/// A 65th window; the others come after new ones.
fn many_windows(_: &mut Dice, tables: &mut Vec<u8>) -> Option<usize> {
    let window = Window {
        partition: 3,
        length: 7,
    };
    while places(tables, any_window).len() <= 64 {
        insert(tables, 0, &window_record(&window));
    }
    Some(64)
}

/// A 65th port; the new ones come after the others, whose ids stay.
fn many_ports(dice: &mut Dice, tables: &mut Vec<u8>) -> Option<usize> {
    let windows = places(tables, any_window).len();
    while places(tables, any_port).len() <= MOST_PORTS {
        let name: Vec<u8> = (0..30).map(|_| dice.nonzero()).collect();
        let row = Row {
            owner: dice.below(16) as u8,
            mode: Mode::Queuing(1),
            direction: DESTINATION,
            largest: 64,
            name: padded(&name),
        };
        let end = windows + places(tables, any_port).len();
        insert(tables, end.min(tables.len() / RECORD), &port_record(&row));
    }
    Some(windows + MOST_PORTS)
}

/// A 33rd channel, which may have other faults too: 22 is the lower number.
fn many_channels(dice: &mut Dice, tables: &mut Vec<u8>) -> Option<usize> {
    *tables = full_tables();
    let last = tables.len() - RECORD;
    let mut more = tables[last..].to_vec();
    if dice.chance(1, 2) {
        dice.fill(&mut more[1..]);
    }
    tables.extend(more);
    let before = places(tables, any_window).len() + places(tables, any_port).len();
    Some(before + MOST_CHANNELS)
}

/// A nonzero destination id past the count.
fn unused_slot(dice: &mut Dice, tables: &mut Vec<u8>) -> Option<usize> {
    let place = some_place(dice, tables, |record| any_channel(record) && record[1] < 8)?;
    let record = record(tables, place);
    let slot = dice.between(record[1] as usize, 7);
    put16(record, 4 + 2 * slot, dice.pick(&[1, 2, 256, u16::MAX]));
    Some(place)
}

/// A zero first, a nonzero byte anywhere after.
fn begins_with_zero(dice: &mut Dice, name: &mut [u8]) {
    name[0] = 0;
    name[dice.between(1, 29)] = dice.nonzero();
}

/// A zero within, a nonzero byte after it.
fn nonzero_after_zero(dice: &mut Dice, name: &mut [u8]) {
    let zero = dice.between(1, 28);
    name[zero] = 0;
    name[dice.between(zero + 1, 29)] = dice.nonzero();
}

/// A port takes owner and name of an earlier one, whatever their modes.
fn same_name(dice: &mut Dice, tables: &mut Vec<u8>) -> Option<usize> {
    let ports = places(tables, any_port);
    if ports.len() < 2 {
        return None;
    }
    let later = dice.between(1, ports.len() - 1);
    let (earlier, later) = (ports[dice.below(later)], ports[later]);
    let model = at(tables, earlier).to_vec();
    let copy = record(tables, later);
    copy[1] = model[1];
    copy[16..46].copy_from_slice(&model[16..46]);
    Some(later)
}

/// A port once more, after the last one.
fn same_port_twice(dice: &mut Dice, tables: &mut Vec<u8>) -> Option<usize> {
    let ports = places(tables, any_port);
    let place = dice.pick_some(&ports)?;
    let end = ports[ports.len() - 1] + 1;
    if ports.len() == MOST_PORTS {
        return None;
    }
    let copy = at(tables, place).to_vec();
    insert(tables, end, &copy);
    Some(end)
}

/// The windows go, and something else stays.
fn no_window(_: &mut Dice, tables: &mut Vec<u8>) -> Option<usize> {
    let windows = places(tables, any_window).len() * RECORD;
    if windows >= tables.len() {
        return None;
    }
    tables.drain(..windows);
    Some(tables.len() / RECORD)
}
