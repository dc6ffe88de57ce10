//! Accepted tables parsed once into rows, for the run to read without decoding again.

use crate::bytes::{get16, get32};
use crate::judge::{self, judge, Verdict, CHANNEL, PORT, QUEUING, RECORD, WINDOW};

/// A window of the cyclic schedule.
#[derive(Clone, Copy, Debug, PartialEq, Eq)]
pub struct Window {
    /// Partition 0..15, or 32 for a mover window.
    pub partition: u8,
    /// Length 1..10,000 ticks.
    pub length: u32,
}

/// 01: "A port row is either sampling with its refresh period or queuing with its depth."
#[derive(Clone, Copy, Debug, PartialEq, Eq)]
pub enum Mode {
    /// Refresh period: 1..1,000,000 for a destination, 0 for a source.
    Sampling(u32),
    /// Depth 1..8.
    Queuing(u32),
}

/// A port's row; its id is its place in the rows plus 1.
#[derive(Clone, Copy, Debug, PartialEq, Eq)]
pub struct Row {
    /// Partition 0..15.
    pub owner: u8,
    /// Sampling with refresh, or queuing with depth.
    pub mode: Mode,
    /// 0 source, 1 destination.
    pub direction: u8,
    /// Largest message 1..64.
    pub largest: u32,
    /// 1 to 30 nonzero bytes, then zeros.
    pub name: [u8; 30],
}

/// A channel: one source and one to eight destinations, as places in the rows (id minus 1).
#[derive(Clone, Copy, Debug, PartialEq, Eq)]
pub struct Channel {
    pub source: usize,
    /// Destination count 1..8.
    count: usize,
    /// The destinations; unused ones are zero.
    ends: [usize; 8],
}

/// Accepted tables as rows.
#[derive(Clone, Debug, PartialEq, Eq)]
pub struct Prepared {
    pub windows: Vec<Window>,
    pub rows: Vec<Row>,
    pub channels: Vec<Channel>,
    /// For each partition a mark at the place of each of its rows: a name is looked for among
    /// these only.
    owned: [u64; 16],
}

impl Channel {
    /// A channel with at most eight destinations.
    pub fn new(source: usize, destinations: &[usize]) -> Channel {
        let mut ends = [0; 8];
        ends[..destinations.len()].copy_from_slice(destinations);
        Channel {
            source,
            count: destinations.len(),
            ends,
        }
    }

    /// The places of the destinations.
    pub fn destinations(&self) -> &[usize] {
        &self.ends[..self.count]
    }
}

impl Row {
    /// The mode byte: 0 sampling, 1 queuing.
    pub fn mode_byte(&self) -> u8 {
        match self.mode {
            Mode::Sampling(_) => judge::SAMPLING,
            Mode::Queuing(_) => judge::QUEUING,
        }
    }

    /// The number that a create must repeat in bytes 4-7: refresh or depth.
    pub fn refresh_or_depth(&self) -> u32 {
        match self.mode {
            Mode::Sampling(refresh) => refresh,
            Mode::Queuing(depth) => depth,
        }
    }

    /// How many messages the port may store: the depth, or 1 for sampling.
    pub fn room(&self) -> usize {
        match self.mode {
            Mode::Sampling(_) => 1,
            Mode::Queuing(depth) => depth as usize,
        }
    }
}

impl Prepared {
    /// The rows of accepted tables; nothing of refused ones.
    pub fn of(tables: &[u8]) -> Option<Prepared> {
        match judge(tables) {
            Verdict::Accepted => Some(Prepared::of_accepted(tables)),
            Verdict::Refused { .. } => None,
        }
    }

    /// The places of a partition's rows, in order.
    #[inline]
    pub fn owned(&self, partition: u8) -> impl Iterator<Item = usize> {
        let mut marks = self.owned[partition as usize];
        std::iter::from_fn(move || {
            if marks == 0 {
                return None;
            }
            let place = marks.trailing_zeros() as usize;
            marks &= marks - 1;
            Some(place)
        })
    }

    /// The rows of tables that the loader has accepted.
    fn of_accepted(tables: &[u8]) -> Prepared {
        let kind = |kind: u8| {
            tables
                .chunks_exact(RECORD)
                .filter(move |record| record[0] == kind)
        };
        let rows: Vec<Row> = kind(PORT).map(row).collect();
        let mut owned = [0; 16];
        for (place, row) in rows.iter().enumerate() {
            owned[row.owner as usize] |= 1 << place;
        }
        Prepared {
            windows: kind(WINDOW).map(window).collect(),
            rows,
            channels: kind(CHANNEL).map(channel).collect(),
            owned,
        }
    }
}

/// A window's record, decoded.
fn window(record: &[u8]) -> Window {
    Window {
        partition: record[1],
        length: get16(record, 2) as u32,
    }
}

/// A port's record, decoded.
fn row(record: &[u8]) -> Row {
    let mut name = [0; 30];
    name.copy_from_slice(judge::name(record));
    Row {
        owner: record[1],
        mode: if record[2] == QUEUING {
            Mode::Queuing(get32(record, 8))
        } else {
            Mode::Sampling(get32(record, 12))
        },
        direction: record[3],
        largest: get32(record, 4),
        name,
    }
}

/// A channel's record, decoded; every id has a row.
fn channel(record: &[u8]) -> Channel {
    let mut ends = [0; 8];
    for (end, id) in ends.iter_mut().zip(judge::destination_ids(record)) {
        *end = id as usize - 1;
    }
    Channel {
        source: judge::source_id(record) as usize - 1,
        count: record[1] as usize,
        ends,
    }
}
