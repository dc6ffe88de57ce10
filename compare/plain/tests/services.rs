//! The port services, in 01's order of tests.

mod common;
use common::*;
use plain::bytes::{get16, get32, put16, put32};
use plain::codes::*;
use plain::make::events::*;
use plain::services::Record;
use plain::state::{NORMAL, WARM_START};

/// An event with one byte changed.
fn with(mut event: Record, place: usize, byte: u8) -> Record {
    event[place] = byte;
    event
}

#[test]
fn create_in_the_order_of_its_tests() {
    let mut kernel = Kernel::load(&sky());
    let good = create(&kernel.row(1));
    let unlike = [
        with(good, 1, 1),
        with(good, 4, 1),
        with(good, 7, 1),
        with(good, 8, 5),
        with(good, 11, 1),
    ];
    // no row of that name (all 30 bytes), owner and mode
    for place in [16, 18, 19, 45] {
        assert_eq!(kernel.code(with(good, place, b'X')), INVALID_CONFIG);
    }
    assert_eq!(
        kernel.code(with(good, 0, CREATE_QUEUING_PORT)),
        INVALID_CONFIG
    );
    for event in unlike {
        assert_eq!(kernel.code(event), INVALID_CONFIG);
    }
    // unlike the row before NORMAL
    kernel.state.modes[0] = NORMAL;
    assert_eq!(kernel.code(unlike[0]), INVALID_CONFIG);
    assert_eq!(kernel.code(good), INVALID_MODE);
    kernel.state.modes[0] = WARM_START;
    let answer = kernel.answer(with(good, 46, 9));
    assert_eq!((answer[0], answer[1], get16(&answer, 2)), (0, 0, 1));
    assert!(answer[4..].iter().all(|&byte| byte == 0));
    // already created before all else, in NORMAL too
    kernel.state.modes[0] = NORMAL;
    assert_eq!(kernel.code(good), NO_ACTION);
    assert_eq!(kernel.code(unlike[3]), NO_ACTION);
    // but after the name
    assert_eq!(kernel.code(with(good, 45, 1)), INVALID_CONFIG);
}

#[test]
fn create_of_a_queuing_port_repeats_the_depth() {
    let mut kernel = Kernel::load(&queue(3));
    kernel.state.window = 2;
    let good = create(&kernel.row(2));
    for depth in [0, 2, 4] {
        let mut event = good;
        put32(&mut event, 4, depth);
        assert_eq!(kernel.code(event), INVALID_CONFIG);
    }
    assert_eq!(
        kernel.code(with(good, 0, CREATE_SAMPLING_PORT)),
        INVALID_CONFIG
    );
    let answer = kernel.answer(good);
    assert_eq!((answer[0], answer[1], get16(&answer, 2)), (0, 1, 2));
    // a partition without that name: 0 does not own IN
    kernel.state.window = 0;
    assert_eq!(kernel.code(good), INVALID_CONFIG);
}

#[test]
fn get_id_needs_a_created_port_of_that_mode() {
    let mut kernel = Kernel::load(&sky());
    let ask = get_id(&kernel.row(1));
    assert_eq!(kernel.code(ask), INVALID_CONFIG);
    kernel.made(1);
    let answer = kernel.answer(with(ask, 60, 1));
    assert_eq!((answer[0], get16(&answer, 2)), (0, 1));
    assert_eq!(
        kernel.code(with(ask, 0, GET_QUEUING_PORT_ID)),
        INVALID_CONFIG
    );
    assert_eq!(kernel.code(with(ask, 30, 1)), INVALID_CONFIG);
    assert_eq!(kernel.code(with(ask, 18, 0)), INVALID_CONFIG);
    // the same name of another owner is another port
    kernel.state.window = 2;
    assert_eq!(kernel.code(ask), INVALID_CONFIG);
    kernel.made(2);
    assert_eq!(get16(&kernel.answer(ask), 2), 2);
}

#[test]
fn own_port_means_created_owned_and_of_the_mode() {
    let mut kernel = Kernel::load(&sky());
    for code in [2, 3, 5, 7, 8, 10, 11] {
        for id in [0, 1, 2, 3, 257, u16::MAX] {
            assert_eq!(kernel.code(on_port(code, id)), INVALID_PARAM);
        }
    }
    kernel.made(1);
    for code in [7, 8, 10, 11] {
        assert_eq!(
            kernel.code(on_port(code, 1)),
            INVALID_PARAM,
            "the other mode"
        );
    }
    assert_eq!(
        kernel.code(on_port(5, 257)),
        INVALID_PARAM,
        "both bytes of the id"
    );
}

#[test]
fn write_tests_lengths_before_the_direction() {
    let mut kernel = Kernel::load(&sky());
    kernel.state.window = 2;
    kernel.made(2);
    let row = kernel.row(2);
    assert_eq!(kernel.code(store(&row, 2, b"")), INVALID_PARAM);
    assert_eq!(kernel.code(store(&row, 2, b"12345")), INVALID_CONFIG);
    assert_eq!(kernel.code(store(&row, 2, b"1234")), INVALID_MODE);
    let mut long = store(&row, 2, b"1");
    put32(&mut long, 8, 1 << 24);
    assert_eq!(kernel.code(long), INVALID_CONFIG);
}

#[test]
fn a_write_replaces_and_a_read_leaves() {
    let mut kernel = Kernel::load(&sky());
    kernel.made(1);
    let row = kernel.row(1);
    assert_eq!(kernel.code(store(&row, 1, b"long")), 0);
    assert_eq!(kernel.code(store(&row, 1, b"s")), 0);
    assert_eq!(kernel.messages(1), [b"s"]);
    assert_eq!(kernel.state.ports[0].arrival, 0);
    assert_eq!(kernel.code(fetch(&row, 1)), INVALID_MODE);
    kernel.state.window = 2;
    kernel.made(2);
    kernel.state.ports[1].validity = 1;
    assert_eq!(kernel.code(fetch(&kernel.row(2), 2)), NO_ACTION);
    assert_eq!(kernel.state.ports[1].validity, 1, "an empty read leaves it");
    kernel.state.ports[1].replace(b"sky");
    for _ in 0..2 {
        let answer = kernel.answer(fetch(&kernel.row(2), 2));
        assert_eq!((answer[0], get32(&answer, 8), answer[12]), (0, 3, 1));
        assert_eq!(&answer[13..24], b"\0\0\0sky\0\0\0\0\0");
    }
    assert_eq!(kernel.messages(2), [b"sky"]);
}

#[test]
fn receive_takes_the_oldest() {
    let mut kernel = Kernel::load(&queue(8));
    kernel.state.window = 2;
    kernel.made(2);
    kernel.state.ports[1].oldest = 6;
    for message in [b"one", b"two", b"six"] {
        kernel.state.ports[1].append(message);
    }
    for message in [b"one", b"two", b"six"] {
        let answer = kernel.answer(fetch(&kernel.row(2), 2));
        assert_eq!((answer[0], get32(&answer, 8), answer[12]), (0, 3, 0));
        assert_eq!(&answer[16..19], message);
        assert!(answer[19..].iter().all(|&byte| byte == 0));
    }
    assert_eq!(kernel.code(fetch(&kernel.row(2), 2)), NOT_AVAILABLE);
    kernel.state.window = 0;
    kernel.made(1);
    assert_eq!(kernel.code(fetch(&kernel.row(1), 1)), INVALID_MODE);
    assert_eq!(kernel.code(clear(1)), INVALID_MODE);
}

#[test]
fn sampling_status_gives_the_row_and_the_last_validity() {
    let mut kernel = Kernel::load(&sky());
    kernel.state.window = 2;
    kernel.made(2);
    kernel.state.ports[1].validity = 1;
    let answer = kernel.answer(status(&kernel.row(2), 2));
    assert_eq!((get32(&answer, 4), get32(&answer, 8)), (20, 4));
    assert_eq!(&answer[12..16], [1, 1, 0, 0]);
    assert!(answer[16..].iter().all(|&byte| byte == 0));
    kernel.state.window = 0;
    kernel.made(1);
    let answer = kernel.answer(status(&kernel.row(1), 1));
    assert_eq!((get32(&answer, 4), get32(&answer, 8)), (0, 4));
    assert_eq!(&answer[12..16], [0, 0, 0, 0]);
}

#[test]
fn queuing_status_hides_a_sources_count() {
    let mut kernel = Kernel::load(&queue(5));
    for id in [1, 2] {
        kernel.made(id);
        kernel.state.ports[id - 1].append(b"a");
        kernel.state.ports[id - 1].append(b"b");
    }
    let answer = kernel.answer(status(&kernel.row(1), 1));
    assert_eq!((get32(&answer, 4), get32(&answer, 8)), (0, 4));
    assert_eq!((answer[12], answer[13], get16(&answer, 14)), (0, 0, 8));
    kernel.state.window = 2;
    let answer = kernel.answer(status(&kernel.row(2), 2));
    assert_eq!((get32(&answer, 4), get32(&answer, 8)), (2, 4));
    assert_eq!((answer[12], answer[13], get16(&answer, 14)), (0, 1, 5));
    assert_eq!(kernel.answer(clear(2))[2..], [0; 78]);
    let answer = kernel.answer(status(&kernel.row(2), 2));
    assert_eq!(get32(&answer, 4), 0);
    assert_eq!(kernel.state.ports[1].created, 1);
}

#[test]
fn answers_of_other_codes_hold_nothing_else() {
    let mut kernel = Kernel::load(&sky());
    kernel.made(1);
    let mut event = store(&kernel.row(1), 1, b"AB");
    put16(&mut event, 12, 999);
    assert_eq!(kernel.answer(event)[2..], [0; 78]);
    let answer = kernel.answer(fetch(&kernel.row(1), 1));
    assert_eq!(answer[..2], [INVALID_MODE, 0]);
    assert_eq!(answer[2..], [0; 78]);
}
