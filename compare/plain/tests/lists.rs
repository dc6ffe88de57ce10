//! Lists: refusals 27 to 29, runs against steps, sameness, and the reader.

mod common;
use common::*;
use plain::bytes::put32;
use plain::make::events::*;
use plain::make::*;
use plain::{in_range, run, same, step, stretch, State};

/// Sound tables of many kinds: those at the edges, then any.
fn many_tables(any: u64) -> Vec<Vec<u8>> {
    let edges = edge_tables().into_iter().map(|(_, tables)| tables);
    let any = (0..any).map(|seed| valid_tables(&mut Dice::new(seed)));
    edges.chain(any).collect()
}

/// Tables, events, state, room for answers, and the refusal.
type Case<'a> = (&'a [u8], &'a [u8], &'a State, usize, u8);

#[test]
fn refusals_come_in_order_and_touch_nothing() {
    let tables = sky().bytes();
    let mut bad_state = State::at_load();
    bad_state.window = 3;
    let events = vec![13; 160];
    let cases: [Case; 8] = [
        (&tables, &events, &State::at_load(), 160, 0),
        (&tables, &events[..159], &State::at_load(), 160, 27),
        (&[], &events[..159], &bad_state, 0, 27),
        (&tables, &events, &State::at_load(), 159, 28),
        (&[], &events, &bad_state, 159, 28),
        (&[], &events, &State::at_load(), 160, 29),
        (&tables, &events, &bad_state, 200, 29),
        // an empty list is refused too, where tables or state are
        (&tables, &[], &bad_state, 0, 29),
    ];
    for (tables, events, state, room, expected) in cases {
        let mut after = state.clone();
        let mut answers = vec![7; room];
        assert_eq!(run(tables, &mut after, events, &mut answers), expected);
        if expected != 0 {
            assert_eq!(&after, state);
            assert!(answers.iter().all(|&byte| byte == 7));
        }
    }
}

#[test]
fn a_step_wants_exactly_80_bytes() {
    let tables = sky().bytes();
    for length in [0, 79, 81, 160] {
        let mut state = State::at_load();
        let code = step(&tables, &mut state, &vec![13; length], &mut [0; 200]);
        assert_eq!(code, 27);
        assert_eq!(state, State::at_load());
    }
    let mut state = State::at_load();
    assert_eq!(step(&tables, &mut state, &schedule(), &mut [0; 79]), 28);
    assert_eq!(step(&[], &mut state, &schedule(), &mut [0; 80]), 29);
    assert_eq!(state, State::at_load());
    let mut answers = [9; 81];
    assert_eq!(step(&tables, &mut state, &schedule(), &mut answers), 0);
    assert_eq!(answers[80], 9);
}

#[test]
fn an_empty_list_does_nothing() {
    let mut state = State::at_load();
    let mut answers = [7; 90];
    assert_eq!(run(&sky().bytes(), &mut state, &[], &mut answers), 0);
    assert_eq!(state, State::at_load());
    assert_eq!(answers, [7; 90]);
}

#[test]
fn answer_bytes_past_the_last_event_stay() {
    let mut answers = [7; 250];
    let mut state = State::at_load();
    let events = [13; 160];
    assert_eq!(run(&sky().bytes(), &mut state, &events, &mut answers), 0);
    assert!(answers[..160].iter().any(|&byte| byte != 7));
    assert!(answers[160..].iter().all(|&byte| byte == 7));
}

#[test]
fn made_states_are_in_range_or_out_of_it() {
    for (seed, tables) in many_tables(300).iter().enumerate() {
        let mut dice = Dice::new(seed as u64);
        assert!(in_range(tables, &State::at_load()));
        assert!(in_range(tables, &State::zero()));
        assert!(in_range(tables, &state_in_range(&mut dice, tables)));
        assert!(in_range(tables, &state_near_end(&mut dice, tables)));
        for (name, state) in broken_states(&mut dice, tables) {
            assert!(!in_range(tables, &state), "{name} from seed {seed}");
            let mut after = state.clone();
            assert_eq!(run(tables, &mut after, &[13; 80], &mut [0; 80]), 29);
            assert_eq!(after, state);
            assert!(same(tables, &after, &state));
        }
    }
    assert!(!in_range(&[], &State::at_load()));
}

#[test]
fn range_edges_of_a_port() {
    let tables = queue(3).bytes();
    let check = |edit: &dyn Fn(&mut plain::Port)| {
        let mut state = State::at_load();
        state.ports[1].created = 1;
        state.ports[1].lengths = [4; 8];
        edit(&mut state.ports[1]);
        in_range(&tables, &state)
    };
    assert!(check(&|port| port.count = 3));
    assert!(!check(&|port| port.count = 4));
    assert!(check(&|port| port.oldest = 7));
    assert!(!check(&|port| port.oldest = 8));
    // lengths of stored messages only
    assert!(check(&|port| port.lengths = [0; 8]));
    assert!(check(
        &|port| (port.count, port.lengths) = (1, [4, 0, 99, 0, 0, 0, 0, 0])
    ));
    assert!(!check(
        &|port| (port.count, port.lengths) = (2, [4, 0, 0, 0, 0, 0, 0, 0])
    ));
    assert!(!check(&|port| (port.count, port.lengths[0]) = (1, 5)));
    assert!(check(&|port| port.created = 0));
    assert!(!check(&|port| (port.created, port.count) = (0, 1)));
    assert!(check(&|port| port.arrival = u32::MAX));
    // rows beyond the tables' ports are not looked at
    let mut state = State::at_load();
    state.ports[2].count = 99;
    assert!(in_range(&tables, &state));
    assert_eq!(run(&tables, &mut state, &[13; 80], &mut [0; 80]), 0);
    assert_eq!(state.ports[2].count, 99);
}

/// Lists of every kind for tables, each with a state to begin in.
fn many_lists(dice: &mut Dice, tables: &[u8]) -> Vec<(State, Vec<u8>)> {
    let load = State::at_load();
    let any = state_in_range(dice, tables);
    let late = state_near_end(dice, tables);
    vec![
        (load.clone(), fill_list(tables)),
        (load.clone(), played_list(dice, tables, 0, 300)),
        (load, near_raw_list(dice, 60)),
        (
            any.clone(),
            played_list(dice, tables, any.window as usize, 200),
        ),
        (
            late.clone(),
            played_list(dice, tables, late.window as usize, 200),
        ),
        (any, raw_list(dice, 800)),
    ]
}

#[test]
fn a_run_is_its_steps_and_stays_in_range() {
    let mut codes = [0; 20];
    for (seed, tables) in many_tables(60).iter().enumerate() {
        let mut dice = Dice::new(seed as u64);
        for (start, events) in many_lists(&mut dice, tables) {
            let (mut whole, mut stepped) = (start.clone(), start);
            let mut answers = vec![1; events.len()];
            let mut single = vec![2; events.len()];
            assert_eq!(run(tables, &mut whole, &events, &mut answers), 0);
            for (event, answer) in events.chunks(80).zip(single.chunks_mut(80)) {
                assert_eq!(step(tables, &mut stepped, event, answer), 0);
                codes[answer[0] as usize] += 1;
            }
            assert_eq!(answers, single);
            assert_eq!(whole, stepped);
            assert!(in_range(tables, &whole));
        }
    }
    // the lists bring out every code that there is
    for code in [0, 1, 2, 3, 4, 5, 15, 16, 17, 18, 19] {
        assert!(codes[code] > 50, "{code}: {codes:?}");
    }
}

#[test]
fn how_a_state_is_kept_makes_no_difference() {
    for (seed, tables) in many_tables(60).iter().enumerate() {
        let mut dice = Dice::new(seed as u64);
        for (mut state, events) in many_lists(&mut dice, tables) {
            let mut turned = turned_state(&mut dice, tables, &state);
            assert!(same(tables, &state, &turned));
            let mut answers = vec![1; events.len()];
            let mut others = vec![2; events.len()];
            assert_eq!(run(tables, &mut state, &events, &mut answers), 0);
            assert_eq!(run(tables, &mut turned, &events, &mut others), 0);
            assert_eq!(answers, others);
            assert!(same(tables, &state, &turned));
        }
    }
}

#[test]
fn sameness_sees_each_field() {
    let tables = queue(3).bytes();
    let mut state = State::at_load();
    state.ports[1].created = 1;
    state.ports[1].append(b"one");
    state.ports[1].append(b"two");
    let edits: [&dyn Fn(&mut State); 9] = [
        &|state| state.window = 1,
        &|state| state.time = 1,
        &|state| state.modes[15] = 3,
        &|state| state.ports[0].created = 1,
        &|state| state.ports[1].arrival = 1,
        &|state| state.ports[1].validity = 1,
        &|state| state.ports[1].count = 1,
        &|state| state.ports[1].bytes[65] ^= 1,
        &|state| state.ports[1].lengths[0] = 2,
    ];
    for edit in edits {
        let mut other = state.clone();
        edit(&mut other);
        assert!(in_range(&tables, &other));
        assert!(!same(&tables, &state, &other));
    }
    let hidden: [&dyn Fn(&mut State); 4] = [
        &|state| state.ports[1].bytes[3] ^= 1,
        &|state| state.ports[1].lengths[2] = 9,
        &|state| state.ports[0].oldest = 5,
        &|state| state.ports[2].created = 9,
    ];
    for edit in hidden {
        let mut other = state.clone();
        edit(&mut other);
        assert!(same(&tables, &state, &other));
    }
}

#[test]
fn the_reader_hands_out_the_message() {
    let mut answers = vec![0; 240];
    put32(&mut answers, 88, 5);
    assert_eq!(stretch(&answers, 0), (16, 0));
    assert_eq!(stretch(&answers, 1), (96, 5));
    put32(&mut answers, 88, 64);
    assert_eq!(stretch(&answers, 1), (96, 64));
    for length in [65, 256, u32::MAX] {
        put32(&mut answers, 88, length);
        assert_eq!(stretch(&answers, 1), (0, 0));
    }
    put32(&mut answers, 88, 5);
    answers[80] = 1;
    assert_eq!(stretch(&answers, 1), (0, 0));
    for record in [3, usize::MAX, usize::MAX / 80 + 1] {
        assert_eq!(stretch(&answers, record), (0, 0));
    }
    assert_eq!(stretch(&answers[..239], 0), (0, 0));
    assert_eq!(stretch(&[], 0), (0, 0));
}
