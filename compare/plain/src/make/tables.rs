//! Any sound tables.

use super::dice::Dice;
use super::plan::{padded, Plan};
use crate::judge::{DESTINATION, MOST_PORTS, MOVER, SOURCE};
use crate::tables::{Mode, Row};

/// Any sound tables: few or many windows, ports joined and loose, in any order.
pub fn valid_tables(dice: &mut Dice) -> Vec<u8> {
    let mut plan = Plan::default();
    let partitions = some_partitions(dice);
    some_windows(dice, &mut plan, &partitions);
    for _ in 0..dice.pick(&[0, 1, 2, 3, 5, 10, 32]) {
        some_channel(dice, &mut plan, &partitions);
    }
    let most_loose = dice.pick(&[0, 3, 64]);
    for _ in 0..dice.between(0, most_loose) {
        let mode = some_mode(dice);
        let direction = dice.pick(&[SOURCE, DESTINATION]);
        some_port(dice, &mut plan, &partitions, mode, direction, 1);
    }
    plan.shuffle_rows(dice);
    plan.bytes()
}

/// One to sixteen partitions, in any order.
fn some_partitions(dice: &mut Dice) -> Vec<u8> {
    let mut partitions: Vec<u8> = (0..16).collect();
    dice.shuffle(&mut partitions);
    partitions.truncate(dice.pick(&[1, 2, 3, 4, 16]));
    partitions
}

/// Windows of the partitions and the movers, now and then without one of them.
fn some_windows(dice: &mut Dice, plan: &mut Plan, partitions: &[u8]) {
    let mut owners: Vec<u8> = partitions.to_vec();
    owners.extend([MOVER, MOVER]);
    for _ in 0..dice.pick(&[0, 1, 4]) {
        let again = dice.pick(&owners);
        owners.push(again);
    }
    dice.shuffle(&mut owners);
    if dice.chance(1, 8) {
        owners.truncate(dice.between(1, owners.len()));
    }
    for owner in owners {
        let length = dice.pick(&[1, 2, 5, 10, 100, 9_999, 10_000]);
        plan.window(owner, length);
    }
}

/// Sampling, or queuing of any depth; a sampling port's refresh is settled with its direction.
fn some_mode(dice: &mut Dice) -> Mode {
    if dice.chance(1, 2) {
        return Mode::Sampling(0);
    }
    Mode::Queuing(dice.between(1, 8) as u32)
}

/// A channel with new ports at its ends, where the tables have room for them.
fn some_channel(dice: &mut Dice, plan: &mut Plan, partitions: &[u8]) {
    let mode = some_mode(dice);
    let ends = match mode {
        Mode::Sampling(_) => dice.pick(&[1, 1, 1, 2, 3, 8]),
        Mode::Queuing(_) => 1,
    };
    if plan.rows.len() + 1 + ends > MOST_PORTS {
        return;
    }
    let source = some_port(dice, plan, partitions, mode, SOURCE, 1).expect("room");
    let least = plan.rows[source].largest as usize;
    let mut to = Vec::new();
    for _ in 0..ends {
        let mode = match mode {
            Mode::Sampling(_) => mode,
            Mode::Queuing(_) => Mode::Queuing(dice.between(1, 8) as u32),
        };
        to.push(some_port(dice, plan, partitions, mode, DESTINATION, least).expect("room"));
    }
    plan.channel(source, &to);
}

/// A new port with a free name and a largest message of at least `least`, where there is room.
fn some_port(
    dice: &mut Dice,
    plan: &mut Plan,
    partitions: &[u8],
    mode: Mode,
    direction: u8,
    least: usize,
) -> Option<usize> {
    if plan.rows.len() == MOST_PORTS {
        return None;
    }
    let owner = dice.pick(partitions);
    let mode = match mode {
        Mode::Sampling(_) if direction == DESTINATION => {
            Mode::Sampling(dice.pick(&[1, 2, 5, 20, 100, 20_000, 999_999, 1_000_000]))
        }
        mode => mode,
    };
    let any = dice.between(1, 64);
    let largest = dice.pick(&[1, 2, 4, 8, 63, 64, least, any]).max(least) as u32;
    let name = free_name(dice, &plan.rows, owner);
    Some(plan.port(owner, mode, direction, largest, &name))
}

/// A name that no row of the owner has.
fn free_name(dice: &mut Dice, rows: &[Row], owner: u8) -> Vec<u8> {
    loop {
        let name = some_name(dice);
        let taken = |row: &Row| row.owner == owner && row.name == padded(&name);
        if !rows.iter().any(taken) {
            return name;
        }
    }
}

/// Short names that other owners have too, names that share 29 bytes, and any nonzero bytes.
fn some_name(dice: &mut Dice) -> Vec<u8> {
    match dice.below(4) {
        0 => vec![dice.between(65, 80) as u8],
        1 => format!("SKY{}", dice.below(64)).into_bytes(),
        2 => shared_name(dice.nonzero()),
        _ => (0..dice.between(1, 30)).map(|_| dice.nonzero()).collect(),
    }
}

/// A name of 30 bytes that shares its first 29 with all others of this function.
pub fn shared_name(last: u8) -> Vec<u8> {
    let mut name = vec![b'N'; 29];
    name.push(last);
    name
}
