//! A state of the plain kernel as the bytes that the header lays out, and back.

use plain::bytes::{get32, put32};
use plain::state::{SLOT, SLOTS};
use plain::{Port, State};

/// Bytes of a state.
pub const SIZE: usize = mueanphrai::STATE_SIZE;
/// Where the modes start.
pub const MODES: usize = 8;
/// Where the port rows start.
pub const NUMBERS: usize = 24;
/// Numbers of a port row.
pub const ROW: usize = 13;
/// Where the message bytes start.
pub const MESSAGES: usize = 3_352;
/// Message bytes of a port.
const BLOCK: usize = SLOTS * SLOT;

/// The place of a number of a port row.
pub fn number_place(port: usize, number: usize) -> usize {
    NUMBERS + 4 * (ROW * port + number)
}

/// The state number for number. A number too large for its four bytes becomes the largest there is,
/// so that it stays out of range.
pub fn bytes_of(state: &State) -> Vec<u8> {
    let mut bytes = vec![0; SIZE];
    put32(&mut bytes, 0, narrow(state.window));
    put32(&mut bytes, 4, state.time);
    bytes[MODES..NUMBERS].copy_from_slice(&state.modes);
    for (place, port) in state.ports.iter().enumerate() {
        put_port(&mut bytes, place, port);
    }
    bytes
}

/// The state that the bytes show. A mark too large for the plain kernel's byte becomes the largest
/// there is, so that it stays out of range.
pub fn state_of(bytes: &[u8]) -> State {
    let mut state = State::zero();
    state.window = get32(bytes, 0) as u64;
    state.time = get32(bytes, 4);
    state.modes.copy_from_slice(&bytes[MODES..NUMBERS]);
    for (place, port) in state.ports.iter_mut().enumerate() {
        get_port(bytes, place, port);
    }
    state
}

/// Writes what a list that was run leaves: each of the tables' ports with its oldest message in slot 0
/// and zeros wherever no message is. Rows beyond them stay as they are.
pub fn settle(bytes: &mut [u8], ports: usize, state: &State) {
    put32(bytes, 0, narrow(state.window));
    put32(bytes, 4, state.time);
    bytes[MODES..NUMBERS].copy_from_slice(&state.modes);
    for (place, port) in state.ports[..ports].iter().enumerate() {
        put_port(bytes, place, &settled(port));
    }
}

/// The same port with its messages from slot 0 on, and nothing else in its slots.
fn settled(port: &Port) -> Port {
    let mut settled = Port::zero();
    settled.created = port.created;
    settled.validity = port.validity;
    settled.arrival = port.arrival;
    for older in 0..port.count {
        settled.append(port.message(older));
    }
    settled
}

/// Writes a port's numbers and slots.
fn put_port(bytes: &mut [u8], place: usize, port: &Port) {
    let numbers = [
        port.created as u32,
        port.validity as u32,
        port.arrival,
        narrow(port.oldest as u64),
        narrow(port.count as u64),
    ];
    for (number, &value) in numbers.iter().chain(&port.lengths).enumerate() {
        put32(bytes, number_place(place, number), value);
    }
    bytes[MESSAGES + BLOCK * place..][..BLOCK].copy_from_slice(&port.bytes);
}

/// Reads a port's numbers and slots.
fn get_port(bytes: &[u8], place: usize, port: &mut Port) {
    let number = |number: usize| get32(bytes, number_place(place, number));
    port.created = number(0).min(u8::MAX as u32) as u8;
    port.validity = number(1).min(u8::MAX as u32) as u8;
    port.arrival = number(2);
    port.oldest = number(3) as usize;
    port.count = number(4) as usize;
    for (slot, length) in port.lengths.iter_mut().enumerate() {
        *length = number(5 + slot);
    }
    port.bytes
        .copy_from_slice(&bytes[MESSAGES + BLOCK * place..][..BLOCK]);
}

/// A number in four bytes.
fn narrow(number: u64) -> u32 {
    number.min(u32::MAX as u64) as u32
}

/// What stands at a byte of a state, in the header's words.
pub fn name_of(place: usize) -> String {
    match place {
        0..=3 => "window".into(),
        4..=7 => "time".into(),
        8..=23 => format!("mode of partition {}", place - MODES),
        24..=3_351 => {
            let number = (place - NUMBERS) / 4;
            format!("port {}, number {}", number / ROW + 1, number % ROW)
        }
        _ => {
            let byte = place - MESSAGES;
            let slot = byte % BLOCK / SLOT;
            format!(
                "port {}, slot {slot}, byte {}",
                byte / BLOCK + 1,
                byte % SLOT
            )
        }
    }
}
