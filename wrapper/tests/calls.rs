//! 01's worked example through the wrapper, and what its calls refuse.

use mueanphrai::numbers::*;
use mueanphrai::*;

/// A record of `SIZE` bytes: bytes at their places, else zero.
fn record<const SIZE: usize>(parts: &[(usize, &[u8])]) -> [u8; SIZE] {
    let mut record = [0; SIZE];
    for (place, bytes) in parts {
        record[*place..][..bytes.len()].copy_from_slice(bytes);
    }
    record
}

/// Partition 0 writes SKY, partition 1 reads it with refresh period 20; a mover window between.
fn sky() -> Vec<u8> {
    let records: [[u8; TABLE_RECORD]; 6] = [
        window(0, 10),
        window(MOVER, 5),
        window(1, 20),
        sampling_port(0, SOURCE, 0),
        sampling_port(1, DESTINATION, 20),
        record(&[
            (RECORD_KIND, &[KIND_CHANNEL]),
            (CHANNEL_COUNT, &[1]),
            (CHANNEL_SOURCE, &[1]),
            (CHANNEL_DESTINATIONS, &[2]),
        ]),
    ];
    records.concat()
}

fn window(partition: u8, ticks: u8) -> [u8; TABLE_RECORD] {
    record(&[
        (RECORD_KIND, &[KIND_WINDOW]),
        (WINDOW_PARTITION, &[partition]),
        (WINDOW_LENGTH, &[ticks]),
    ])
}

fn sampling_port(owner: u8, direction: u8, refresh: u8) -> [u8; TABLE_RECORD] {
    record(&[
        (RECORD_KIND, &[KIND_PORT]),
        (PORT_OWNER, &[owner]),
        (PORT_MODE, &[SAMPLING]),
        (PORT_DIRECTION, &[direction]),
        (PORT_LARGEST, &[4]),
        (PORT_REFRESH, &[refresh]),
        (PORT_NAME, b"SKY"),
    ])
}

fn create(direction: u8, refresh: u8) -> [u8; EVENT] {
    record(&[
        (EVENT_CODE, &[CREATE_SAMPLING_PORT]),
        (EVENT_DIRECTION, &[direction]),
        (EVENT_REFRESH, &[refresh]),
        (EVENT_LARGEST, &[4]),
        (EVENT_NAME, b"SKY"),
    ])
}

/// An event with a port's id, a channel or nothing in bytes 2-3.
fn simple(code: u8, id: u8) -> [u8; EVENT] {
    record(&[(EVENT_CODE, &[code]), (EVENT_PORT, &[id])])
}

fn write() -> [u8; EVENT] {
    record(&[
        (EVENT_CODE, &[WRITE_SAMPLING_MESSAGE]),
        (EVENT_PORT, &[1]),
        (EVENT_MESSAGE_LENGTH, &[2]),
        (EVENT_MESSAGE, &[0x41, 0x42]),
    ])
}

/// The fifteen events of 01's listing.
fn listing() -> Vec<u8> {
    let clock = simple(SCHEDULE, 0);
    let read = simple(READ_SAMPLING_MESSAGE, 2);
    let status = simple(GET_SAMPLING_PORT_STATUS, 2);
    let transmit = simple(TRANSMIT, 0);
    let events = [
        create(SOURCE, 0),
        clock,
        clock,
        create(DESTINATION, 20),
        clock,
        write(),
        clock,
        transmit,
        clock,
        read,
        status,
        clock,
        clock,
        clock,
        read,
    ];
    events.concat()
}

#[test]
fn the_worked_example() {
    let tables = sky();
    let events = listing();
    let mut state = load(&tables).unwrap();
    let mut answers = vec![0xAA; events.len() + 7];
    assert_eq!(run(&tables, &mut state, &events, &mut answers), Ok(()));
    assert_eq!(answers[events.len()..], [0xAA; 7], "bytes past the last");
    answers.truncate(events.len());
    let fields: Vec<(u8, u8, u8)> = answers
        .chunks(ANSWER)
        .map(|answer| {
            (
                answer[ANSWER_DOER],
                answer[ANSWER_CODE],
                answer[ANSWER_VALIDITY],
            )
        })
        .collect();
    assert_eq!(fields[7], (FIRST_CHANNEL, NO_ERROR, 0));
    assert_eq!(fields[9], (1, NO_ERROR, VALID));
    assert_eq!(fields[14], (1, NO_ERROR, NOT_VALID), "past its period");
    assert_eq!(message(&answers, 9), [0x41, 0x42]);
    assert_eq!(message(&answers, 14), [0x41, 0x42]);
    assert_eq!((state.window(), state.time()), (2, 85));
    assert!(state.created(2) && !state.last_validity(2));
    assert_eq!((state.count(1), state.count(2)), (0, 1));
    assert_eq!(state.arrival(2), 45);
    assert_eq!(state.message(2, 0), Some(&[0x41, 0x42][..]));
    assert_eq!(state.message(2, 1), None);
    assert_eq!(state.message(1, 0), None);
}

#[test]
fn steps_are_the_run() {
    let tables = sky();
    let events = listing();
    let mut whole = load(&tables).unwrap();
    let mut stepped = whole.clone();
    let mut answers = vec![0; events.len()];
    run(&tables, &mut whole, &events, &mut answers).unwrap();
    for (event, expected) in events.chunks(EVENT).zip(answers.chunks(ANSWER)) {
        let mut answer = [0xAA; ANSWER];
        step(
            &tables,
            &mut stepped,
            event.try_into().unwrap(),
            &mut answer,
        )
        .unwrap();
        assert_eq!(answer[..], *expected);
    }
    assert!(whole == stepped);
}

#[test]
fn calls_at_once_do_not_meet() {
    let (tables, events) = (sky(), listing());
    let once = || {
        let mut state = load(&tables).unwrap();
        let mut answers = vec![0; events.len()];
        run(&tables, &mut state, &events, &mut answers).unwrap();
        (state, answers)
    };
    let alone = once();
    std::thread::scope(|threads| {
        for _ in 0..4 {
            threads.spawn(|| (0..50).for_each(|_| assert!(once() == alone)));
        }
    });
}

#[test]
fn a_load_gives_the_state_at_load_or_the_first_fault() {
    let state = load(&sky()).unwrap();
    assert_eq!((state.window(), state.time()), (0, 0));
    assert!((0..PARTITIONS).all(|partition| state.mode(partition) == COLD_START));
    assert!((1..=MOST_PORTS).all(|id| !state.created(id) && state.count(id) == 0));
    let refused = |code, record| Err(Refused { code, record });
    assert_eq!(load(&[]), refused(TABLES_LENGTH, 0));
    let mut tables = sky();
    tables[4 * TABLE_RECORD + PORT_OWNER] = 16;
    assert_eq!(load(&tables), refused(TABLES_FIELD, 4));
    let no_window = &sky()[3 * TABLE_RECORD..];
    assert_eq!(load(no_window), refused(TABLES_NO_WINDOW, 3));
}

#[test]
fn refused_lists_touch_nothing() {
    let tables = sky();
    let sound = load(&tables).unwrap();
    let mut bytes = *sound.as_bytes();
    bytes[STATE_WINDOW] = 3;
    let beyond = State::from_bytes(bytes);
    assert!(in_range(&tables, &sound) && !in_range(&tables, &beyond));
    assert!(!in_range(&[], &sound));
    let events = [SCHEDULE; 2 * EVENT];
    for (state, events, room, code) in [
        (&sound, &events[1..], 2 * ANSWER, EVENTS_LENGTH),
        (&beyond, &events[..], 2 * ANSWER - 1, ANSWERS_SHORT),
        (&beyond, &events[..], 2 * ANSWER, STATE_REFUSED),
        (&beyond, &[], 0, STATE_REFUSED),
    ] {
        let mut after = state.clone();
        let mut answers = vec![7; room];
        assert_eq!(run(&tables, &mut after, events, &mut answers), Err(code));
        assert!(after == *state);
        assert!(answers.iter().all(|&byte| byte == 7));
    }
    let mut after = beyond.clone();
    let mut answer = [7; ANSWER];
    assert_eq!(
        step(&tables, &mut after, &simple(SCHEDULE, 0), &mut answer),
        Err(STATE_REFUSED)
    );
    assert_eq!(answer, [7; ANSWER]);
}

#[test]
fn an_empty_list_does_nothing() {
    let tables = sky();
    let mut state = load(&tables).unwrap();
    let before = state.clone();
    assert_eq!(run(&tables, &mut state, &[], &mut []), Ok(()));
    assert!(state == before);
}

#[test]
fn a_message_is_a_part_of_the_answers() {
    let mut answers = vec![0; 2 * ANSWER];
    answers[ANSWER + ANSWER_MESSAGE_LENGTH] = 3;
    answers[ANSWER + ANSWER_MESSAGE..][..3].copy_from_slice(b"sky");
    assert_eq!(message(&answers, 1), b"sky");
    let there = &answers[ANSWER + ANSWER_MESSAGE..];
    assert_eq!(message(&answers, 1).as_ptr(), there.as_ptr());
    for (answers, record) in [
        (&answers[..], 2),
        (&answers[..], usize::MAX),
        (&answers[1..], 1),
        (&[], 0),
    ] {
        assert!(message(answers, record).is_empty());
    }
    answers[ANSWER + ANSWER_MESSAGE_LENGTH] = 65;
    assert!(message(&answers, 1).is_empty());
    answers[ANSWER + ANSWER_MESSAGE_LENGTH] = 3;
    answers[ANSWER + ANSWER_CODE] = NO_ACTION;
    assert!(message(&answers, 1).is_empty());
}

#[test]
fn numbers_out_of_range_give_no_byte_outside_the_slots() {
    let mut bytes = [0xFF; STATE_SIZE];
    let state = State::from_bytes(bytes);
    assert_eq!(state.message(64, 7), None);
    assert_eq!(state.message(64, 8), None);
    // a count and an oldest slot out of range, and a length that would do
    bytes[STATE_NUMBERS + 20 + 4 * 7] = 64;
    bytes[STATE_NUMBERS + 20 + 4 * 7 + 1..][..3].fill(0);
    let state = State::from_bytes(bytes);
    assert_eq!(state.message(1, 0), Some(&[0xFF; 64][..]));
    assert_eq!(state.window(), u32::MAX);
}

#[test]
fn the_archive_has_states_of_this_size() {
    assert_eq!(lent::state_size(), STATE_SIZE);
    let mut short = [5; STATE_SIZE - 1];
    assert_eq!(lent::load(&sky(), &mut short), STATE_REFUSED);
    assert_eq!(lent::run(&sky(), &mut short, &[], &mut []), STATE_REFUSED);
    assert_eq!(lent::in_range(&sky(), &short), 0);
    assert!(short.iter().all(|&byte| byte == 5));
}
