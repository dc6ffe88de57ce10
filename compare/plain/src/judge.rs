//! The verdict on tables: load refusals 20 to 26 of 01.
//!
//! Each record is tested where it lies, in order, and the first offending one
//! ends the walk: so a test may take all records before it as sound.

use crate::bytes::{get16, get32, zeros};

/// Bytes of a table record (01: "48-byte records").
pub const RECORD: usize = 48;
/// Byte 0 of a window's record.
pub const WINDOW: u8 = 1;
/// Byte 0 of a port's record.
pub const PORT: u8 = 2;
/// Byte 0 of a channel's record.
pub const CHANNEL: u8 = 3;
/// 01: "1 to 64 windows".
pub const MOST_WINDOWS: usize = 64;
/// 01: "0 to 64 ports".
pub const MOST_PORTS: usize = 64;
/// 01: "0 to 32 channels".
pub const MOST_CHANNELS: usize = 32;
/// Sound tables have at most 160 records, so the first 161 of longer ones always hold a refusal.
pub const MOST_RECORDS: usize = MOST_WINDOWS + MOST_PORTS + MOST_CHANNELS + 1;

/// A window's partition byte where the movers run.
pub const MOVER: u8 = 32;
/// A port's mode byte: sampling.
pub const SAMPLING: u8 = 0;
/// A port's mode byte: queuing.
pub const QUEUING: u8 = 1;
/// A port's direction byte: source.
pub const SOURCE: u8 = 0;
/// A port's direction byte: destination.
pub const DESTINATION: u8 = 1;

/// What the loader says of tables.
#[derive(Clone, Copy, Debug, PartialEq, Eq)]
pub enum Verdict {
    Accepted,
    /// A number 20 to 26 and the first offending record, counted from 0.
    Refused {
        number: u8,
        record: usize,
    },
}

/// The verdict on tables.
pub fn judge(tables: &[u8]) -> Verdict {
    judge_file(tables.len(), tables)
}

/// The verdict on tables of which only the length and the first records are at hand
/// (01, runner: "of one over 7,728 bytes only the first 161 records and the length are used").
pub fn judge_file(length: usize, tables: &[u8]) -> Verdict {
    if length == 0 || length % RECORD != 0 {
        return Verdict::Refused {
            number: 20,
            record: 0,
        };
    }
    let mut walk = Walk::start(tables);
    for (place, record) in tables.chunks_exact(RECORD).enumerate() {
        if let Some(number) = walk.fault(record) {
            return Verdict::Refused {
                number,
                record: place,
            };
        }
        walk.pass(record);
    }
    if walk.windows == 0 {
        return Verdict::Refused {
            number: 26,
            record: tables.len() / RECORD,
        };
    }
    Verdict::Accepted
}

/// What the records before the present one have shown; all of them are sound.
struct Walk<'a> {
    tables: &'a [u8],
    /// Kind of the record just before, 0 at the first.
    before: u8,
    windows: usize,
    ports: usize,
    channels: usize,
    /// Ports that an earlier channel names, by id.
    named: [bool; MOST_PORTS + 1],
}

impl<'a> Walk<'a> {
    /// Before the first record.
    fn start(tables: &'a [u8]) -> Self {
        Walk {
            tables,
            before: 0,
            windows: 0,
            ports: 0,
            channels: 0,
            named: [false; MOST_PORTS + 1],
        }
    }

    /// The number that the record is refused with: "Within a record the lower number is reported".
    fn fault(&self, record: &[u8]) -> Option<u8> {
        let kind = record[0];
        if !(WINDOW..=CHANNEL).contains(&kind) || kind < self.before {
            return Some(21);
        }
        match kind {
            WINDOW => self.window_fault(record),
            PORT => self.port_fault(record),
            _ => self.channel_fault(record),
        }
    }

    /// Counts a sound record, and marks the ports it names.
    fn pass(&mut self, record: &[u8]) {
        self.before = record[0];
        match record[0] {
            WINDOW => self.windows += 1,
            PORT => self.ports += 1,
            _ => {
                self.channels += 1;
                mark(&mut self.named, record);
            }
        }
    }

    /// 22 and 23 of a window.
    fn window_fault(&self, record: &[u8]) -> Option<u8> {
        if self.windows == MOST_WINDOWS {
            return Some(22);
        }
        (!window_in_range(record)).then_some(23)
    }

    /// 22, 23 and 24 of a port.
    fn port_fault(&self, record: &[u8]) -> Option<u8> {
        if self.ports == MOST_PORTS {
            return Some(22);
        }
        if !port_in_range(record) {
            return Some(23);
        }
        (!name_well_formed(name(record)) || self.name_taken(record)).then_some(24)
    }

    /// 22, 23 and 25 of a channel.
    fn channel_fault(&self, record: &[u8]) -> Option<u8> {
        if self.channels == MOST_CHANNELS {
            return Some(22);
        }
        if !channel_in_range(record) {
            return Some(23);
        }
        (!self.ends_fit(record)).then_some(25)
    }

    /// The record of the port with this id, if there is such a row.
    fn row(&self, id: u16) -> Option<&'a [u8]> {
        let id = id as usize;
        if id == 0 || id > self.ports {
            return None;
        }
        let start = (self.windows + id - 1) * RECORD;
        Some(&self.tables[start..start + RECORD])
    }

    /// 24: "an earlier port has the same owner and name", whatever the modes.
    fn name_taken(&self, record: &[u8]) -> bool {
        let start = self.windows * RECORD;
        let earlier = &self.tables[start..start + self.ports * RECORD];
        earlier
            .chunks_exact(RECORD)
            .any(|row| row[1] == record[1] && name(row) == name(record))
    }

    /// 25: every end has a row, its direction and mode fit, and no port is named twice.
    fn ends_fit(&self, record: &[u8]) -> bool {
        let source = match self.row(source_id(record)) {
            Some(source) => source,
            None => return false,
        };
        if source[3] != SOURCE || (source[2] == QUEUING && record[1] != 1) {
            return false;
        }
        let mut named = self.named;
        if std::mem::replace(&mut named[source_id(record) as usize], true) {
            return false;
        }
        destination_ids(record).all(|id| match self.row(id) {
            Some(row) => {
                destination_fits(source, row) && !std::mem::replace(&mut named[id as usize], true)
            }
            None => false,
        })
    }
}

/// Marks the ports that a sound channel record names.
fn mark(named: &mut [bool; MOST_PORTS + 1], record: &[u8]) {
    named[source_id(record) as usize] = true;
    for id in destination_ids(record) {
        named[id as usize] = true;
    }
}

/// A destination end: its direction, the source's mode, and room for the source's largest message.
fn destination_fits(source: &[u8], row: &[u8]) -> bool {
    row[3] == DESTINATION && row[2] == source[2] && get32(row, 4) >= get32(source, 4)
}

/// The 30 bytes of a port record's name.
pub fn name(record: &[u8]) -> &[u8] {
    &record[16..46]
}

/// A channel record's source id.
pub fn source_id(record: &[u8]) -> u16 {
    get16(record, 2)
}

/// A channel record's used destination ids; the count is in range.
pub fn destination_ids(record: &[u8]) -> impl Iterator<Item = u16> + '_ {
    (0..record[1] as usize).map(|end| get16(record, 4 + 2 * end))
}

/// "partition 0..15, or 32 for a mover window; length 1..10,000 ticks"; all else zero.
fn window_in_range(record: &[u8]) -> bool {
    (record[1] < 16 || record[1] == MOVER)
        && (1..=10_000).contains(&get16(record, 2))
        && zeros(&record[4..])
}

/// All of a port record but the name, which 24 tests.
fn port_in_range(record: &[u8]) -> bool {
    record[1] < 16
        && record[2] <= QUEUING
        && record[3] <= DESTINATION
        && (1..=64).contains(&get32(record, 4))
        && depth_in_range(record)
        && refresh_in_range(record)
        && zeros(&record[46..])
}

/// "depth, 1..8 for queuing, 0 for sampling".
fn depth_in_range(record: &[u8]) -> bool {
    let depth = get32(record, 8);
    if record[2] == QUEUING {
        (1..=8).contains(&depth)
    } else {
        depth == 0
    }
}

/// "refresh period, 1..1,000,000 for a sampling destination, else 0".
fn refresh_in_range(record: &[u8]) -> bool {
    let refresh = get32(record, 12);
    if record[2] == SAMPLING && record[3] == DESTINATION {
        (1..=1_000_000).contains(&refresh)
    } else {
        refresh == 0
    }
}

/// "name, 1 to 30 nonzero bytes then zeros".
fn name_well_formed(name: &[u8]) -> bool {
    let length = name
        .iter()
        .position(|&byte| byte == 0)
        .unwrap_or(name.len());
    length > 0 && zeros(&name[length..])
}

/// Count 1..8, unused destination ids and the bytes after them zero; the ids used are 25's.
fn channel_in_range(record: &[u8]) -> bool {
    (1..=8).contains(&record[1]) && zeros(&record[4 + 2 * record[1] as usize..])
}
