//! The proved kernel beside the plain one, in one run on the same lists: `cargo run --release --bin benchmark`.
//!
//! Each call includes the tests at its start, of tables and state, on both sides. Both must give the same
//! bytes before anything is measured. Times are the best of several rounds. The bytes of stack are those
//! that a call touches on a fresh thread whose stack was painted before.

use against::layout::bytes_of;
use against::loads::{loads, mixed, Load};
use against::measure::best;
use against::outcome::{compare, expected, given, Lent, Way};
use against::stack::touched;
use mueanphrai::lent;
use plain::{in_range, judge, State, Verdict};

/// Lengths of the lists.
const COUNTS: [usize; 2] = [400, 100_000];

fn main() {
    head("ns an event, of lists");
    for load in &loads() {
        for count in COUNTS {
            measure_list(load, count);
        }
    }
    let load = mixed();
    head("ns a call, of the mixed load's tables");
    measure_calls(&load);
    println!();
    println!("{:<40} {:>9} {:>9}", "bytes", "plain", "proved");
    bytes_line("state", std::mem::size_of::<State>(), lent::state_size());
    measure_stack(&load);
}

/// The head of a table of times.
fn head(what: &str) {
    println!();
    println!("{what:<40} {:>9} {:>9} {:>7}", "plain", "proved", "ratio");
}

/// A line of times.
fn line(name: &str, plain: f64, proved: f64) {
    let ratio = proved / plain;
    println!("{name:<40} {plain:>9.1} {proved:>9.1} {ratio:>7.2}");
}

/// A line of bytes.
fn bytes_line(name: &str, plain: usize, proved: usize) {
    println!("{name:<40} {plain:>9} {proved:>9}");
}

/// A list on both sides, from the load's state.
fn measure_list(load: &Load, count: usize) {
    let events = (load.list)(load, count);
    agree(load, &events);
    let mut answers = vec![0; events.len()];
    let plain = best(
        || load.start.clone(),
        |state| assert_eq!(plain::run(&load.tables, state, &events, &mut answers), 0),
    );
    let start = bytes_of(&load.start);
    let proved = best(
        || start.clone(),
        |state| assert_eq!(lent::run(&load.tables, state, &events, &mut answers), 0),
    );
    let name = format!("{}, {count} events", load.name);
    line(&name, plain / count as f64, proved / count as f64);
}

/// Ends the program where the two kernels differ on the list.
fn agree(load: &Load, events: &[u8]) {
    let lent = Lent {
        tables: &load.tables,
        state: &bytes_of(&load.start),
        events,
        answers: &vec![0xAA; events.len()],
    };
    let outcome = given(Way::Run, lent, 64).expect("no byte written around the buffers");
    assert_eq!(outcome.code, 0);
    compare(events, &expected(Way::Run, lent), &outcome).expect("both kernels agree");
}

/// The calls whose cost has nothing to do with a list's length.
fn measure_calls(load: &Load) {
    let tables = &load.tables;
    let bytes = bytes_of(&load.start);
    let events = (load.list)(load, 400);
    let mut answer = [0; 80];
    let plain = best(State::zero, |state| {
        assert_eq!(judge(tables), Verdict::Accepted);
        *state = State::at_load();
    });
    let proved = best(
        || bytes.clone(),
        |state| assert_eq!(lent::load(tables, state), 0),
    );
    line("load", plain, proved);
    let plain = best(|| (), |_| assert!(in_range(tables, &load.start)));
    let proved = best(|| (), |_| assert_eq!(lent::in_range(tables, &bytes), 1));
    line("state test (with the tables')", plain, proved);
    let plain = best(
        || load.start.clone(),
        |state| {
            for event in events.chunks(80) {
                assert_eq!(plain::step(tables, state, event, &mut answer), 0);
            }
        },
    );
    let proved = best(
        || bytes.clone(),
        |state| {
            for event in events.chunks(80) {
                assert_eq!(lent::step(tables, state, event, &mut answer), 0);
            }
        },
    );
    line("single step", plain / 400.0, proved / 400.0);
}

/// The stack that each call touches, from a fresh copy of the load's state.
fn measure_stack(load: &Load) {
    let tables = &load.tables;
    let events = (load.list)(load, 400);
    let mut answers = vec![0; events.len()];
    let mut state = load.start.clone();
    let mut bytes = bytes_of(&load.start);
    bytes_line(
        "stack of a run of 400 events",
        touched(&mut || {
            plain::run(tables, &mut state, &events, &mut answers);
        }),
        touched(&mut || {
            lent::run(tables, &mut bytes, &events, &mut answers);
        }),
    );
    let event = &events[..80];
    bytes_line(
        "stack of a single step",
        touched(&mut || {
            plain::step(tables, &mut state, event, &mut answers);
        }),
        touched(&mut || {
            lent::step(tables, &mut bytes, event, &mut answers);
        }),
    );
    let mut passes = false;
    bytes_line(
        "stack of the state test",
        touched(&mut || passes = in_range(tables, &state)),
        touched(&mut || passes &= lent::in_range(tables, &bytes) == 1),
    );
    assert!(passes);
    bytes_line(
        "stack of a load",
        touched(&mut || {
            passes = judge(tables) == Verdict::Accepted;
            state = State::at_load();
        }),
        touched(&mut || passes &= lent::load(tables, &mut bytes) == 0),
    );
    assert!(passes && bytes_of(&state) == bytes);
    let least = touched(&mut || ());
    bytes_line("stack of a call that does nothing", least, least);
}
