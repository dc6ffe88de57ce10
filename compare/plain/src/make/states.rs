//! States that test 29 lets pass, and states that it refuses, one field at a time.

use super::dice::Dice;
use crate::state::{Port, State, NORMAL, SLOT, SLOTS};
use crate::tables::{Prepared, Row};

/// Any state in range; rows beyond the tables' ports and free slots hold anything.
pub fn state_in_range(dice: &mut Dice, tables: &[u8]) -> State {
    let time = dice.number() as u32;
    state_at(dice, tables, time)
}

/// A state in range whose time is within a few windows of the end of the 32-bit tick count.
pub fn state_near_end(dice: &mut Dice, tables: &[u8]) -> State {
    let any = dice.below(20_000) as u32;
    let back = dice.pick(&[0, 1, 5, 20, any]);
    state_at(dice, tables, u32::MAX - back)
}

/// Any state in range at a time.
fn state_at(dice: &mut Dice, tables: &[u8], time: u32) -> State {
    let tables = Prepared::of(tables).expect("sound tables");
    let mut state = State::zero();
    state.window = dice.below(tables.windows.len()) as u64;
    state.time = time;
    for mode in &mut state.modes {
        *mode = dice.pick(&[0, 1, 1, 2, 3, 3]);
    }
    for (place, port) in state.ports.iter_mut().enumerate() {
        *port = match tables.rows.get(place) {
            Some(row) => some_port(dice, row, time),
            None => beyond(dice),
        };
    }
    state
}

/// A port in range of its row, mostly created.
fn some_port(dice: &mut Dice, row: &Row, time: u32) -> Port {
    let mut port = beyond(dice);
    port.created = dice.chance(3, 4) as u8;
    port.validity = dice.below(2) as u8;
    port.arrival = some_arrival(dice, time, row.refresh_or_depth());
    port.oldest = dice.below(SLOTS);
    port.count = 0;
    if port.created == 1 {
        let any = dice.between(0, row.room());
        port.count = dice.pick(&[0, any, any, row.room()]);
    }
    for older in 0..port.count {
        let any = dice.between(1, row.largest as usize) as u32;
        port.lengths[(port.oldest + older) % SLOTS] = dice.pick(&[any, any, row.largest]);
    }
    port
}

/// An arrival whose age is at the refresh period, beside it, or anything.
fn some_arrival(dice: &mut Dice, time: u32, refresh: u32) -> u32 {
    let any = dice.number() as u32;
    let age = dice.pick(&[0, 1, refresh, refresh + 1, any]);
    time.wrapping_sub(age)
}

/// Numbers of any size, as a row beyond the tables' ports may hold.
fn beyond(dice: &mut Dice) -> Port {
    let mut port = Port::zero();
    port.created = dice.byte();
    port.validity = dice.byte();
    port.arrival = dice.number() as u32;
    port.oldest = dice.number() as usize;
    port.count = dice.number() as usize;
    for length in &mut port.lengths {
        *length = dice.number() as u32;
    }
    dice.fill(&mut port.bytes);
    port
}

/// A state in range, spoiled in each field in turn, with the field's name. Fields of ports are
/// spoiled only where the tables have a port that can show it.
pub fn broken_states(dice: &mut Dice, tables: &[u8]) -> Vec<(&'static str, State)> {
    let sound = state_in_range(dice, tables);
    let tables = Prepared::of(tables).expect("sound tables");
    let mut broken = vec![
        ("window", spoiled_window(dice, &sound, tables.windows.len())),
        ("mode", spoiled_mode(dice, &sound)),
    ];
    if tables.rows.is_empty() {
        return broken;
    }
    for (name, spoil) in PORT_FIELDS {
        let place = dice.below(tables.rows.len());
        let mut state = sound.clone();
        spoil(dice, &tables.rows[place], &mut state.ports[place]);
        broken.push((name, state));
    }
    broken
}

/// One of the broken states.
pub fn state_out_of_range(dice: &mut Dice, tables: &[u8]) -> (&'static str, State) {
    let mut broken = broken_states(dice, tables);
    broken.swap_remove(dice.below(broken.len()))
}

/// A window one past the last, or far past it.
fn spoiled_window(dice: &mut Dice, sound: &State, windows: usize) -> State {
    let mut state = sound.clone();
    state.window = dice.pick(&[windows as u64, windows as u64 + 1, 1 << 32, u64::MAX]);
    state
}

/// A mode above NORMAL.
fn spoiled_mode(dice: &mut Dice, sound: &State) -> State {
    let mut state = sound.clone();
    state.modes[dice.below(16)] = dice.pick(&[NORMAL + 1, 255]);
    state
}

type Spoil = fn(&mut Dice, &Row, &mut Port);

/// Each field of a port that 29 looks at, and how it leaves its range, mostly by one.
const PORT_FIELDS: [(&str, Spoil); 7] = [
    ("mark", |dice, _, port| port.created = dice.pick(&[2, 255])),
    ("last validity", |dice, _, port| {
        port.validity = dice.pick(&[2, 255])
    }),
    ("store index", |dice, _, port| {
        port.oldest = dice.pick(&[SLOTS, SLOTS + 1, usize::MAX])
    }),
    ("count", many_messages),
    ("length 0", |dice, row, port| one_length(dice, row, port, 0)),
    ("length above the largest", |dice, row, port| {
        let length = dice.pick(&[row.largest + 1, u32::MAX]);
        one_length(dice, row, port, length)
    }),
    ("message in an uncreated port", |dice, row, port| {
        hold(dice, row, port);
        port.created = 0;
    }),
];

/// Makes a created port hold one message at least, all of them in range.
fn hold(dice: &mut Dice, row: &Row, port: &mut Port) {
    port.created = 1;
    port.count = dice.between(1, row.room());
    port.lengths.fill(1);
}

/// A count one above the room or far above it; the lengths would do.
fn many_messages(dice: &mut Dice, row: &Row, port: &mut Port) {
    hold(dice, row, port);
    port.count = dice.pick(&[row.room() + 1, 9, usize::MAX]);
}

/// One stored message with a length out of range.
fn one_length(dice: &mut Dice, row: &Row, port: &mut Port, length: u32) {
    hold(dice, row, port);
    let older = dice.below(port.count);
    port.lengths[(port.oldest + older) % SLOTS] = length;
}

/// The same state to 01, kept otherwise: rings begin elsewhere, free slots and rows beyond hold
/// other bytes. The state is in range.
pub fn turned_state(dice: &mut Dice, tables: &[u8], state: &State) -> State {
    let ports = Prepared::of(tables).expect("sound tables").rows.len();
    let mut turned = state.clone();
    for (place, port) in turned.ports.iter_mut().enumerate() {
        *port = if place < ports {
            turned_port(dice, &state.ports[place])
        } else {
            beyond(dice)
        };
    }
    turned
}

/// The same port to 01, with its messages in other slots.
fn turned_port(dice: &mut Dice, port: &Port) -> Port {
    let mut turned = beyond(dice);
    turned.created = port.created;
    turned.validity = port.validity;
    turned.arrival = port.arrival;
    turned.oldest = dice.below(SLOTS);
    turned.count = port.count;
    for older in 0..port.count {
        let message = port.message(older);
        let slot = (turned.oldest + older) % SLOTS;
        turned.lengths[slot] = message.len() as u32;
        turned.bytes[slot * SLOT..][..message.len()].copy_from_slice(message);
    }
    turned
}
