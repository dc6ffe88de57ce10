//! What the benchmark runs: tables, a state to begin in, and a list of any count of events.

use plain::make::events::{fetch, schedule, store, transmit};
use plain::make::{full_channels, made_list, steady_list, Dice, Plan};
use plain::tables::{Mode, Prepared};
use plain::State;

const SOURCE: u8 = 0;
const DESTINATION: u8 = 1;
const MOVER: u8 = 32;

/// A load to measure.
pub struct Load {
    pub name: &'static str,
    pub tables: Vec<u8>,
    /// The state before the list; its ports are made.
    pub start: State,
    pub list: fn(&Load, usize) -> Vec<u8>,
}

/// All loads.
pub fn loads() -> [Load; 4] {
    [mixed(), moves(), sends(), reads()]
}

/// 16 partitions with a mover window between each two, 64 ports, half of them sampling, 32 channels.
/// It begins after some thousand events, when queues are neither full nor empty.
pub fn mixed() -> Load {
    let mut plan = Plan::default();
    for partition in 0..16 {
        plan.window(partition, 5);
        plan.window(MOVER, 5);
    }
    full_channels(&mut plan, |pair| pair % 2 == 0);
    let tables = plan.bytes();
    let mut start = State::at_load();
    let mut events = made_list(&tables);
    events.extend(steady_list(&mut Dice::new(1), &tables, 0, 5_000));
    let mut answers = vec![0; events.len()];
    assert_eq!(plain::run(&tables, &mut start, &events, &mut answers), 0);
    Load {
        name: "mixed load",
        tables,
        start,
        list: |load, count| {
            let window = load.start.window as usize;
            steady_list(&mut Dice::new(2), &load.tables, window, count)
        },
    }
}

/// Seven channels to eight readers each. A sample is moved once, so that each move needs a write: sixteen
/// events are seven writes, seven moves and two clock steps.
fn moves() -> Load {
    let mut plan = Plan::default();
    plan.window(0, 5);
    plan.window(MOVER, 5);
    for source in 0..7 {
        let from = plan.port(0, Mode::Sampling(0), SOURCE, 32, &[b'A' + source]);
        let readers = 1..=8;
        let to: Vec<usize> = readers
            .map(|reader| {
                plan.port(
                    reader,
                    Mode::Sampling(20),
                    DESTINATION,
                    32,
                    &[b'A' + source],
                )
            })
            .collect();
        plan.channel(from, &to);
    }
    load_of("moves to eight readers", &plan, |load, count| {
        let rows = Prepared::of(&load.tables).expect("sound tables").rows;
        let sources = || (0..7).map(|channel| 9 * channel);
        let writes = sources().map(|place| store(&rows[place], place as u16 + 1, &[7; 32]));
        let turn: Vec<[u8; 80]> = writes
            .chain([schedule()])
            .chain((0..7).map(transmit))
            .chain([schedule()])
            .collect();
        turn.into_iter().cycle().take(count).flatten().collect()
    })
}

/// 64 queuing sources of depth 8, sent to in turn: 512 sends are stored, and all later ones lost.
fn sends() -> Load {
    let mut plan = Plan::default();
    plan.window(0, 5);
    for name in 1..=64 {
        plan.port(0, Mode::Queuing(8), SOURCE, 64, &[name]);
    }
    load_of("sends alone", &plan, |load, count| {
        let rows = Prepared::of(&load.tables).expect("sound tables").rows;
        let message = |number: usize| vec![number as u8; number % 64 + 1];
        (0..count)
            .flat_map(|number| store(&rows[number % 64], number as u16 % 64 + 1, &message(number)))
            .collect()
    })
}

/// 64 sampling destinations that hold a sample each, read in turn.
fn reads() -> Load {
    let mut plan = Plan::default();
    plan.window(0, 5);
    for name in 1..=64 {
        plan.port(0, Mode::Sampling(20), DESTINATION, 64, &[name]);
    }
    let mut load = load_of("reads alone", &plan, |load, count| {
        let rows = Prepared::of(&load.tables).expect("sound tables").rows;
        (0..count)
            .flat_map(|number| fetch(&rows[number % 64], number as u16 % 64 + 1))
            .collect()
    });
    for (place, port) in load.start.ports.iter_mut().enumerate() {
        port.replace(&vec![place as u8; place + 1]);
    }
    load
}

/// A load whose ports are all made, in the first window.
fn load_of(name: &'static str, plan: &Plan, list: fn(&Load, usize) -> Vec<u8>) -> Load {
    let mut start = State::at_load();
    for port in &mut start.ports[..plan.rows.len()] {
        port.created = 1;
    }
    Load {
        name,
        tables: plan.bytes(),
        start,
        list,
    }
}
