//! Tables before they become bytes, and the bytes of each record.

use super::dice::Dice;
use crate::bytes::{put16, put32};
use crate::judge::{CHANNEL, DESTINATION, MOVER, PORT, RECORD, SOURCE, WINDOW};
use crate::tables::{Channel, Mode, Row, Window};

/// Tables before they become bytes.
#[derive(Clone, Debug, Default)]
pub struct Plan {
    pub windows: Vec<Window>,
    pub rows: Vec<Row>,
    pub channels: Vec<Channel>,
}

/// A window's record.
pub fn window_record(window: &Window) -> [u8; RECORD] {
    let mut record = [0; RECORD];
    record[0] = WINDOW;
    record[1] = window.partition;
    put16(&mut record, 2, window.length as u16);
    record
}

/// A port's record.
pub fn port_record(row: &Row) -> [u8; RECORD] {
    let mut record = [0; RECORD];
    record[0] = PORT;
    record[1] = row.owner;
    record[2] = row.mode_byte();
    record[3] = row.direction;
    put32(&mut record, 4, row.largest);
    match row.mode {
        Mode::Queuing(depth) => put32(&mut record, 8, depth),
        Mode::Sampling(refresh) => put32(&mut record, 12, refresh),
    }
    record[16..46].copy_from_slice(&row.name);
    record
}

/// A channel's record.
pub fn channel_record(channel: &Channel) -> [u8; RECORD] {
    let mut record = [0; RECORD];
    record[0] = CHANNEL;
    record[1] = channel.destinations().len() as u8;
    put16(&mut record, 2, channel.source as u16 + 1);
    for (end, &place) in channel.destinations().iter().enumerate() {
        put16(&mut record, 4 + 2 * end, place as u16 + 1);
    }
    record
}

/// A name's 30 bytes, zeros after it.
pub fn padded(name: &[u8]) -> [u8; 30] {
    let mut padded = [0; 30];
    padded[..name.len()].copy_from_slice(name);
    padded
}

impl Plan {
    /// The tables' bytes.
    pub fn bytes(&self) -> Vec<u8> {
        let windows = self.windows.iter().map(window_record);
        let ports = self.rows.iter().map(port_record);
        let channels = self.channels.iter().map(channel_record);
        windows.chain(ports).chain(channels).flatten().collect()
    }

    /// Adds a window.
    pub fn window(&mut self, partition: u8, length: u32) {
        self.windows.push(Window { partition, length });
    }

    /// Adds a window of 5 ticks for each partition and one for the movers.
    pub fn all_windows(&mut self) {
        for partition in 0..16 {
            self.window(partition, 5);
        }
        self.window(MOVER, 5);
    }

    /// Adds a port and gives its place.
    pub fn port(
        &mut self,
        owner: u8,
        mode: Mode,
        direction: u8,
        largest: u32,
        name: &[u8],
    ) -> usize {
        self.rows.push(Row {
            owner,
            mode,
            direction,
            largest,
            name: padded(name),
        });
        self.rows.len() - 1
    }

    /// Adds a channel between places in the rows.
    pub fn channel(&mut self, source: usize, destinations: &[usize]) {
        self.channels.push(Channel::new(source, destinations));
    }

    /// Adds a source and its destinations, owned in turn from `owner` on, with their channel.
    pub fn joined(&mut self, owner: usize, source: Mode, destination: Mode, ends: usize) {
        let partition = |end: usize| ((owner + end) % 16) as u8;
        let name = format!("PORT {}", self.rows.len());
        let from = self.port(partition(0), source, SOURCE, 8, name.as_bytes());
        let to: Vec<usize> = (1..=ends)
            .map(|end| {
                let name = format!("PORT {}", self.rows.len());
                self.port(partition(end), destination, DESTINATION, 8, name.as_bytes())
            })
            .collect();
        self.channel(from, &to);
    }

    /// Puts the rows into any order; the channels follow.
    pub fn shuffle_rows(&mut self, dice: &mut Dice) {
        let mut order: Vec<usize> = (0..self.rows.len()).collect();
        dice.shuffle(&mut order);
        let place_of = |old: usize| order.iter().position(|&place| place == old).unwrap();
        for channel in &mut self.channels {
            let ends = channel.destinations().iter();
            let ends: Vec<usize> = ends.map(|&place| place_of(place)).collect();
            *channel = Channel::new(place_of(channel.source), &ends);
        }
        self.rows = order.iter().map(|&place| self.rows[place]).collect();
    }
}
