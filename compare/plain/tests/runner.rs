//! The runner: 01's listing, refused tables, long tables, broken tails.

mod common;
use common::*;
use plain::make::events::*;
use plain::runner::play;

/// What the runner prints.
fn printed(tables: &[u8], events: &[u8]) -> String {
    let mut out = Vec::new();
    play(tables, events, &mut out).unwrap();
    String::from_utf8(out).unwrap()
}

/// 01's events: "create by 0; 13; 13; create by 1; 13; write of 41 42; ..".
fn sky_events() -> Vec<u8> {
    let plan = sky();
    let (from, to) = (&plan.rows[0], &plan.rows[1]);
    [
        create(from),
        schedule(),
        schedule(),
        create(to),
        schedule(),
        store(from, 1, &[0x41, 0x42]),
        schedule(),
        transmit(0),
        schedule(),
        fetch(to, 2),
        status(to, 2),
        schedule(),
        schedule(),
        schedule(),
        fetch(to, 2),
    ]
    .concat()
}

const LISTING: &str = "\
0 0 0 1 0 0 0 0 0 -
1 32 0 0 10 0 0 0 0 -
2 32 0 0 15 0 0 0 0 -
3 1 0 2 0 0 0 0 0 -
4 32 0 0 35 0 0 0 0 -
5 0 0 0 0 0 0 0 0 -
6 32 0 0 45 0 0 0 0 -
7 64 0 0 0 0 0 0 0 -
8 32 0 0 50 0 0 0 0 -
9 1 0 0 0 2 1 0 0 4142
10 1 0 0 20 4 1 1 0 -
11 32 0 0 70 0 0 0 0 -
12 32 0 0 80 0 0 0 0 -
13 32 0 0 85 0 0 0 0 -
14 1 0 0 0 2 0 0 0 4142
";

#[test]
fn the_listing() {
    assert_eq!(printed(&sky().bytes(), &sky_events()), LISTING);
}

#[test]
fn a_broken_tail_comes_after_the_whole_records() {
    let mut events = sky_events();
    events.push(13);
    let expected = format!("{LISTING}events refused 27\n");
    assert_eq!(printed(&sky().bytes(), &events), expected);
    assert_eq!(printed(&sky().bytes(), &[13; 79]), "events refused 27\n");
    assert_eq!(printed(&sky().bytes(), &[]), "");
}

#[test]
fn numbers_run_on_over_the_turns_of_400() {
    for (records, tail) in [(399, 0), (400, 0), (400, 1), (401, 0), (800, 79), (801, 0)] {
        let text = printed(&sky().bytes(), &vec![13; records * 80 + tail]);
        let lines: Vec<&str> = text.lines().collect();
        assert_eq!(lines.len(), records + (tail > 0) as usize);
        for (number, line) in lines[..records].iter().enumerate() {
            assert!(line.starts_with(&format!("{number} 32 0 0 ")));
        }
        if tail > 0 {
            assert_eq!(lines[records], "events refused 27");
        }
    }
}

#[test]
fn refused_tables_print_one_line() {
    assert_eq!(printed(&[], &[13; 80]), "tables refused 20 at 0\n");
    let mut tables = sky().bytes();
    tables[5 * 48 + 4] = 0;
    assert_eq!(printed(&tables, &[13; 80]), "tables refused 25 at 5\n");
}

#[test]
fn of_long_tables_the_length_and_the_first_161_records_are_used() {
    let mut window = [0; 48];
    window[..3].copy_from_slice(&[1, 0, 1]);
    let long = window.repeat(5_000);
    assert_eq!(printed(&long, &[]), "tables refused 22 at 64\n");
    assert_eq!(printed(&long[1..], &[]), "tables refused 20 at 0\n");
    let mut full = plain::make::edge_tables().swap_remove(6).1;
    assert_eq!(full.len(), 160 * 48);
    assert_eq!(printed(&full, &[]), "");
    full.extend([0; 96]);
    assert_eq!(printed(&full, &[]), "tables refused 21 at 160\n");
}
