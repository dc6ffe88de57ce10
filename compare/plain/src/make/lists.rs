//! Event lists: played by the tables, filling every queue, mixed for measuring, and raw.

use super::dice::Dice;
use super::events::*;
use crate::bytes::{put16, put32};
use crate::codes::TRANSMIT;
use crate::judge::{MOVER, QUEUING, SOURCE};
use crate::services::Record;
use crate::state::{COLD_START, IDLE, NORMAL, WARM_START};
use crate::tables::{Prepared, Row};

/// A list under way; it keeps the window, so that events are called where they are heard.
struct Player<'a> {
    tables: &'a Prepared,
    window: usize,
    list: Vec<u8>,
}

impl<'a> Player<'a> {
    /// An empty list from a window on.
    fn new(tables: &'a Prepared, window: usize) -> Self {
        Player {
            tables,
            window: window % tables.windows.len(),
            list: Vec::new(),
        }
    }

    /// Adds an event that leaves the window.
    fn add(&mut self, event: Record) {
        self.list.extend(event);
    }

    /// Ends the window.
    fn schedule(&mut self) {
        self.add(schedule());
        self.window = (self.window + 1) % self.tables.windows.len();
    }

    /// The window's partition, or 32.
    fn partition(&self) -> u8 {
        self.tables.windows[self.window].partition
    }

    /// Rows of the window's partition with their ids.
    fn own(&self) -> Vec<(Row, u16)> {
        let rows = self.tables.rows.iter().zip(1..);
        rows.filter(|(row, _)| row.owner == self.partition())
            .map(|(row, id)| (*row, id))
            .collect()
    }

    /// Does the same in every window once, and ends each.
    fn cycle(&mut self, mut each: impl FnMut(&mut Self)) {
        for _ in 0..self.tables.windows.len() {
            each(self);
            self.schedule();
        }
    }

    /// Creates every own port as its row wants it.
    fn create_own(&mut self) {
        for (row, _) in self.own() {
            self.add(create(&row));
        }
    }

    /// Sends one message more than the depth to each own queuing source; writes twice to samplings.
    fn send_own(&mut self) {
        for (row, id) in self.own() {
            for round in 0..row.room() + 1 {
                let length = (round % row.largest as usize) + 1;
                self.add(store(&row, id, &vec![id as u8 ^ round as u8; length]));
            }
            self.add(status(&row, id));
        }
    }

    /// Moves each channel often enough to empty its source and find it empty.
    fn move_all(&mut self) {
        for (channel, ends) in self.tables.channels.iter().enumerate() {
            for _ in 0..self.tables.rows[ends.source].room() + 1 {
                self.add(transmit(channel as u16));
            }
        }
    }

    /// Takes some messages of each own port, with its status before and after.
    fn take_own(&mut self, most: usize) {
        for (row, id) in self.own() {
            self.add(status(&row, id));
            for _ in 0..most.min(row.room() + 1) {
                self.add(fetch(&row, id));
            }
            self.add(status(&row, id));
        }
    }

    /// Clears every own port, of either mode and direction.
    fn clear_own(&mut self) {
        for (_, id) in self.own() {
            self.add(clear(id));
        }
    }

    /// Sets the partition's mode, in a partition's window.
    fn set_mode(&mut self, mode: u8) {
        if self.partition() != MOVER {
            self.add(set_mode(mode));
        }
    }
}

/// Makes all ports, fills every queue to its depth and past it, moves past the destinations'
/// depth, takes, clears, and goes through the modes. For the state at load.
pub fn fill_list(tables: &[u8]) -> Vec<u8> {
    let tables = Prepared::of(tables).expect("sound tables");
    let mut player = Player::new(&tables, 0);
    player.cycle(Player::create_own);
    player.cycle(|p| p.set_mode(NORMAL));
    for _ in 0..3 {
        player.cycle(Player::send_own);
        player.cycle(Player::move_all);
    }
    player.cycle(|p| p.take_own(3));
    player.cycle(Player::send_own);
    player.cycle(Player::move_all);
    player.cycle(|p| p.take_own(9));
    player.cycle(Player::send_own);
    player.cycle(Player::move_all);
    player.cycle(Player::clear_own);
    player.cycle(|p| p.take_own(1));
    for mode in [
        NORMAL, COLD_START, WARM_START, NORMAL, WARM_START, IDLE, NORMAL,
    ] {
        player.cycle(|p| p.set_mode(mode));
        player.cycle(Player::create_own);
        player.cycle(Player::send_own);
        player.cycle(Player::move_all);
        player.cycle(|p| p.take_own(2));
    }
    player.list
}

/// A list of `count` events from a window on: mostly well called, with every kind of mistake.
pub fn played_list(dice: &mut Dice, tables: &[u8], window: usize, count: usize) -> Vec<u8> {
    let tables = Prepared::of(tables).expect("sound tables");
    let mut player = Player::new(&tables, window);
    if dice.chance(2, 3) {
        player.cycle(Player::create_own);
    }
    while player.list.len() < count * 80 {
        for _ in 0..dice.below(12) {
            let event = some_event(dice, &player);
            let event = mistaken(dice, event);
            player.add(event);
        }
        player.schedule();
    }
    player.list.truncate(count * 80);
    player.list
}

/// An event that fits the window, or now and then one that doesn't.
fn some_event(dice: &mut Dice, player: &Player) -> Record {
    if (player.partition() == MOVER) != dice.chance(1, 40) {
        return some_move(dice, player.tables);
    }
    let own = player.own();
    if own.is_empty() || dice.chance(1, 25) {
        return some_mode_change(dice);
    }
    let (row, id) = dice.pick(&own);
    match dice.below(10) {
        0 => some_create(dice, &row),
        1 => get_id(&row),
        2 => status(&row, id),
        3 if dice.chance(1, 3) => clear(id),
        _ if row.direction == SOURCE => some_store(dice, &row, id),
        _ => fetch(&row, id),
    }
}

/// A create as the row wants it, or with one field beside what it should be.
fn some_create(dice: &mut Dice, row: &Row) -> Record {
    let mut event = create(row);
    let far = dice.pick(&[256, 1 << 16, 1 << 24]);
    match dice.below(12) {
        0 => event[1] ^= 1,
        1 => put32(&mut event, 4, row.refresh_or_depth() + 1),
        2 => put32(&mut event, 4, row.refresh_or_depth() + far),
        3 => put32(&mut event, 8, row.largest - 1),
        4 => put32(&mut event, 8, row.largest + far),
        _ => {}
    }
    event
}

/// A move of any channel, or of none.
fn some_move(dice: &mut Dice, tables: &Prepared) -> Record {
    let channels = tables.channels.len();
    if channels == 0 || dice.chance(1, 30) {
        let none = dice.pick(&[channels as u16, 32, 256, u16::MAX]);
        return transmit(none);
    }
    transmit(dice.below(channels) as u16)
}

/// Mostly a mode that a partition can leave again.
fn some_mode_change(dice: &mut Dice) -> Record {
    let any = dice.byte();
    let rare = dice.pick(&[IDLE, 4, any]);
    set_mode(dice.pick(&[
        COLD_START, WARM_START, NORMAL, NORMAL, COLD_START, NORMAL, rare,
    ]))
}

/// A write or a send, its length mostly within the largest message.
fn some_store(dice: &mut Dice, row: &Row, id: u16) -> Record {
    let largest = row.largest as usize;
    let any = dice.between(1, largest);
    let length = dice.pick(&[any, any, any, 1, largest]);
    let mut event = store(row, id, &dice.bytes(length));
    if dice.chance(1, 10) {
        let wrong = dice.pick(&[0, largest as u32 + 1, 65, 256, u32::MAX]);
        put32(&mut event, 8, wrong);
    }
    event
}

/// The event as it is, with strays where no one looks, or with one field spoiled.
fn mistaken(dice: &mut Dice, mut event: Record) -> Record {
    match dice.below(24) {
        0 => event[1] = dice.pick(&[0, 1, 2, 3, 4, 255]),
        1 => put16(
            &mut event,
            2,
            dice.pick(&[0, 1, 2, 3, 64, 65, 256, u16::MAX]),
        ),
        2 => event[dice.between(4, 11)] ^= 1 << dice.below(8),
        3 => event[dice.between(16, 45)] = dice.byte(),
        4 => event[0] = dice.between(0, 16) as u8,
        5..=9 => return with_strays(dice, &event),
        _ => {}
    }
    event
}

/// All ports made and every partition NORMAL, in two turns of the schedule.
pub fn made_list(tables: &[u8]) -> Vec<u8> {
    let tables = Prepared::of(tables).expect("sound tables");
    let mut player = Player::new(&tables, 0);
    player.cycle(Player::create_own);
    player.cycle(|p| p.set_mode(NORMAL));
    player.list
}

/// A list for measuring, from a window on, for made ports: calls and moves that mostly do something, a
/// few calls in each partition's window and some forty moves in a turn of the schedule.
pub fn steady_list(dice: &mut Dice, tables: &[u8], window: usize, count: usize) -> Vec<u8> {
    let tables = Prepared::of(tables).expect("sound tables");
    let mut player = Player::new(&tables, window);
    let windows = tables.windows.iter();
    let movers = windows.filter(|window| window.partition == MOVER).count();
    while player.list.len() < count * 80 {
        let calls = match player.partition() {
            MOVER => dice.between(32, 48) / movers,
            _ => dice.between(2, 6),
        };
        for _ in 0..calls {
            let event = steady_event(dice, &player);
            player.add(event);
        }
        player.schedule();
    }
    player.list.truncate(count * 80);
    player.list
}

/// Made ports, then a steady load.
pub fn mixed_list(dice: &mut Dice, tables: &[u8], count: usize) -> Vec<u8> {
    let mut list = made_list(tables);
    list.extend(steady_list(dice, tables, 0, count));
    list.truncate(count * 80);
    list
}

/// A move in a mover window, else a call on an own port.
fn steady_event(dice: &mut Dice, player: &Player) -> Record {
    let own = player.own();
    if own.is_empty() {
        return some_move(dice, player.tables);
    }
    let (row, id) = dice.pick(&own);
    match dice.below(10) {
        0 => get_id(&row),
        1 => status(&row, id),
        2 if row.mode_byte() == QUEUING && dice.chance(1, 20) => clear(id),
        _ if row.direction == SOURCE => some_store(dice, &row, id),
        _ => fetch(&row, id),
    }
}

/// That many bytes of any value, whole records or not.
pub fn raw_list(dice: &mut Dice, bytes: usize) -> Vec<u8> {
    dice.bytes(bytes)
}

/// Records of any bytes, but with known codes, small ids and small numbers for the most part.
pub fn near_raw_list(dice: &mut Dice, count: usize) -> Vec<u8> {
    let mut list = dice.bytes(count * 80);
    for event in list.chunks_exact_mut(80) {
        event[0] = dice.between(0, TRANSMIT as usize + 1) as u8;
        if dice.chance(7, 8) {
            event[1] = dice.below(5) as u8;
            put16(event, 2, dice.below(66) as u16);
            put32(event, 4, dice.below(10) as u32);
            put32(event, 8, dice.below(66) as u32);
        }
    }
    list
}
