//! Load refusals 20 to 26, both sides of each edge.

mod common;
use common::*;
use plain::bytes::{put16, put32};
use plain::make::{edge_tables, full_tables, valid_tables, Dice, Plan};
use plain::tables::{Channel, Mode, Prepared};
use plain::{judge, Verdict};

fn refused(number: u8, record: usize) -> Verdict {
    Verdict::Refused { number, record }
}

/// The verdict on 01's tables with one record changed.
fn changed(place: usize, edit: impl Fn(&mut [u8])) -> Verdict {
    let mut tables = rich().bytes();
    edit(&mut tables[place * 48..][..48]);
    judge(&tables)
}

const WINDOW: usize = 0;
const SAMPLING_SOURCE: usize = 3;
const SAMPLING_DESTINATION: usize = 4;
const QUEUING_SOURCE: usize = 5;
const QUEUING_DESTINATION: usize = 6;
const LOOSE: usize = 7;
const SAMPLING_CHANNEL: usize = 8;
const QUEUING_CHANNEL: usize = 9;

/// 01's tables with a queuing channel and a loose sampling destination beside.
fn rich() -> Plan {
    let mut plan = sky();
    let from = plan.port(0, Mode::Queuing(8), SOURCE, 4, b"OUT");
    let to = plan.port(1, Mode::Queuing(8), DESTINATION, 4, b"IN");
    plan.port(1, Mode::Sampling(5), DESTINATION, 4, b"LOOSE");
    plan.channel(from, &[to]);
    plan
}

#[test]
fn sound_tables_are_accepted() {
    assert_eq!(judge(&sky().bytes()), Verdict::Accepted);
    assert_eq!(judge(&rich().bytes()), Verdict::Accepted);
    assert_eq!(judge(&full_tables()), Verdict::Accepted);
    for (name, tables) in edge_tables() {
        assert_eq!(judge(&tables), Verdict::Accepted, "{name}");
    }
    for seed in 0..2_000 {
        let tables = valid_tables(&mut Dice::new(seed));
        assert_eq!(judge(&tables), Verdict::Accepted, "seed {seed}");
    }
}

#[test]
fn rows_are_those_planned() {
    let plan = rich();
    let rows = Prepared::of(&plan.bytes()).unwrap();
    assert_eq!(rows.windows, plan.windows);
    assert_eq!(rows.rows, plan.rows);
    assert_eq!(rows.channels, plan.channels);
}

#[test]
fn refusal_20() {
    let tables = sky().bytes();
    assert_eq!(judge(&[]), refused(20, 0));
    for length in [1, 47, 49, tables.len() - 1] {
        assert_eq!(judge(&tables[..length]), refused(20, 0));
    }
    // tested first: the records are not looked at
    assert_eq!(judge(&[9; 95]), refused(20, 0));
    assert_eq!(judge(&tables[..48]), Verdict::Accepted);
}

#[test]
fn refusal_21() {
    for kind in [0, 4, 255] {
        assert_eq!(changed(2, |record| record[0] = kind), refused(21, 2));
    }
    // below the record just before
    assert_eq!(changed(4, |record| record[0] = 1), refused(21, 4));
    assert_eq!(changed(9, |record| record[0] = 2), refused(21, 9));
    // the lower number within a record
    assert_eq!(changed(2, |record| record.fill(255)), refused(21, 2));
}

#[test]
fn refusal_22() {
    let mut plan = Plan::default();
    for _ in 0..64 {
        plan.window(0, 1);
    }
    assert_eq!(judge(&plan.bytes()), Verdict::Accepted);
    plan.window(99, 0);
    assert_eq!(judge(&plan.bytes()), refused(22, 64));

    let mut plan = Plan::default();
    plan.window(0, 1);
    for place in 0..64 {
        plan.port(0, Mode::Queuing(1), SOURCE, 1, &[place + 1]);
    }
    assert_eq!(judge(&plan.bytes()), Verdict::Accepted);
    plan.port(99, Mode::Queuing(1), SOURCE, 1, &[1]);
    assert_eq!(judge(&plan.bytes()), refused(22, 65));

    // a 33rd channel cannot have free ports: 22 is told before 25
    let mut tables = full_tables();
    assert_eq!(judge(&tables), Verdict::Accepted);
    let records = tables.len() / 48;
    tables.extend_from_within(tables.len() - 48..);
    assert_eq!(judge(&tables), refused(22, records));
}

#[test]
fn refusal_23_windows() {
    for (partition, sound) in [
        (15, true),
        (16, false),
        (31, false),
        (32, true),
        (33, false),
    ] {
        let verdict = changed(WINDOW, |record| record[1] = partition);
        assert_eq!(verdict == Verdict::Accepted, sound);
    }
    for (length, sound) in [(0, false), (1, true), (10_000, true), (10_001, false)] {
        let verdict = changed(WINDOW, |record| put16(record, 2, length));
        assert_eq!(verdict == Verdict::Accepted, sound);
    }
    for stray in 4..48 {
        assert_eq!(changed(WINDOW, |record| record[stray] = 1), refused(23, 0));
    }
}

#[test]
fn refusal_23_ports() {
    let long = |place: usize, field: usize, number: u32| {
        changed(place, |record| put32(record, field, number))
    };
    assert_eq!(changed(LOOSE, |record| record[1] = 15), Verdict::Accepted);
    assert_eq!(changed(LOOSE, |record| record[1] = 16), refused(23, LOOSE));
    assert_eq!(changed(LOOSE, |record| record[2] = 2), refused(23, LOOSE));
    assert_eq!(changed(LOOSE, |record| record[3] = 2), refused(23, LOOSE));
    for (largest, sound) in [(0, false), (1, true), (64, true), (65, false), (257, false)] {
        let verdict = long(LOOSE, 4, largest);
        assert_eq!(verdict == Verdict::Accepted, sound);
    }
    for (depth, sound) in [(0, false), (1, true), (8, true), (9, false), (256, false)] {
        let verdict = long(QUEUING_SOURCE, 8, depth);
        assert_eq!(verdict == Verdict::Accepted, sound);
    }
    for (refresh, sound) in [(0, false), (1, true), (1_000_000, true), (1_000_001, false)] {
        let verdict = long(LOOSE, 12, refresh);
        assert_eq!(verdict == Verdict::Accepted, sound);
    }
    assert_eq!(long(LOOSE, 8, 1), refused(23, LOOSE));
    for place in [SAMPLING_SOURCE, QUEUING_SOURCE, QUEUING_DESTINATION] {
        assert_eq!(long(place, 12, 1), refused(23, place));
    }
    for stray in [46, 47] {
        assert_eq!(
            changed(LOOSE, |record| record[stray] = 1),
            refused(23, LOOSE)
        );
    }
}

#[test]
fn refusal_23_channels() {
    for count in [0, 9, 255] {
        let verdict = changed(SAMPLING_CHANNEL, |record| record[1] = count);
        assert_eq!(verdict, refused(23, SAMPLING_CHANNEL));
    }
    // unused destination ids, then the bytes after them
    for stray in 6..48 {
        let verdict = changed(SAMPLING_CHANNEL, |record| record[stray] = 1);
        assert_eq!(verdict, refused(23, SAMPLING_CHANNEL));
    }
}

#[test]
fn refusal_24() {
    let named = |name: [u8; 30]| changed(LOOSE, |record| record[16..46].copy_from_slice(&name));
    let mut name = [b'N'; 30];
    assert_eq!(named(name), Verdict::Accepted);
    name[29] = 0;
    assert_eq!(named(name), Verdict::Accepted);
    name[28] = 0;
    name[29] = 1;
    assert_eq!(named(name), refused(24, LOOSE));
    assert_eq!(named([0; 30]), refused(24, LOOSE));
    name[0] = 0;
    assert_eq!(named(name), refused(24, LOOSE));
    // the same owner and name, though the modes differ
    assert_eq!(
        changed(LOOSE, |record| record[16..21].copy_from_slice(b"IN\0\0\0")),
        refused(24, LOOSE)
    );
    // the name of another owner
    assert_eq!(
        changed(LOOSE, |record| record[16..21].copy_from_slice(b"OUT\0\0")),
        Verdict::Accepted
    );
}

#[test]
fn refusal_25_ids_and_directions() {
    let source = |id| changed(SAMPLING_CHANNEL, |record| put16(record, 2, id));
    let destination = |id| changed(SAMPLING_CHANNEL, |record| put16(record, 4, id));
    for id in [0, 6, 256, u16::MAX] {
        assert_eq!(source(id), refused(25, SAMPLING_CHANNEL));
        assert_eq!(destination(id), refused(25, SAMPLING_CHANNEL));
    }
    assert_eq!(source(5), refused(25, SAMPLING_CHANNEL), "not a source");
    assert_eq!(
        destination(1),
        refused(25, SAMPLING_CHANNEL),
        "not a destination"
    );
    assert_eq!(destination(4), refused(25, SAMPLING_CHANNEL), "queuing");
    assert_eq!(destination(5), Verdict::Accepted, "the loose one");
}

#[test]
fn refusal_25_counts_and_sizes() {
    let two = |place: usize, id: u16| {
        changed(place, |record| {
            record[1] = 2;
            put16(record, 6, id);
        })
    };
    assert_eq!(two(SAMPLING_CHANNEL, 5), Verdict::Accepted);
    assert_eq!(
        two(SAMPLING_CHANNEL, 2),
        refused(25, SAMPLING_CHANNEL),
        "twice here"
    );
    assert_eq!(two(SAMPLING_CHANNEL, 0), refused(25, SAMPLING_CHANNEL));
    assert_eq!(two(QUEUING_CHANNEL, 4), refused(25, QUEUING_CHANNEL));
    let largest = |place: usize, number: u32| changed(place, |record| put32(record, 4, number));
    assert_eq!(
        largest(SAMPLING_DESTINATION, 3),
        refused(25, SAMPLING_CHANNEL)
    );
    assert_eq!(largest(SAMPLING_DESTINATION, 64), Verdict::Accepted);
    assert_eq!(largest(QUEUING_SOURCE, 5), refused(25, QUEUING_CHANNEL));
    assert_eq!(largest(QUEUING_SOURCE, 3), Verdict::Accepted);
}

#[test]
fn refusal_25_named_in_an_earlier_channel() {
    let mut plan = rich();
    plan.channel(1, &[0]);
    assert_eq!(judge(&plan.bytes()), refused(25, 10));
    let mut plan = rich();
    let more = plan.port(2, Mode::Sampling(0), SOURCE, 4, b"MORE");
    plan.channel(more, &[1]);
    assert_eq!(judge(&plan.bytes()), refused(25, 11));
    plan.channels[2] = Channel::new(more, &[4]);
    assert_eq!(judge(&plan.bytes()), Verdict::Accepted);
    plan.channels[2].source = 0;
    assert_eq!(judge(&plan.bytes()), refused(25, 11));
}

#[test]
fn refusal_26() {
    let mut plan = rich();
    plan.windows.clear();
    assert_eq!(judge(&plan.bytes()), refused(26, 7));
    // tested last: any other refusal is told instead
    plan.channels[1].source = 1;
    assert_eq!(judge(&plan.bytes()), refused(25, 6));
}

#[test]
fn the_first_offending_record_wins_over_lower_numbers() {
    let mut tables = rich().bytes();
    tables[SAMPLING_CHANNEL * 48 + 4] = 0;
    tables[QUEUING_CHANNEL * 48] = 9;
    assert_eq!(judge(&tables), refused(25, SAMPLING_CHANNEL));
    tables[LOOSE * 48 + 16] = 0;
    assert_eq!(judge(&tables), refused(24, LOOSE));
    tables[LOOSE * 48 + 46] = 1;
    assert_eq!(judge(&tables), refused(23, LOOSE));
}
