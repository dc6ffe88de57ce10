//! P1 to P10 of 01, both sides of each edge.

mod common;
use common::*;
use plain::make::events::*;

/// Validity of a read at a time, of a sample with an arrival, in a port with a refresh period.
fn validity(time: u32, arrival: u32, refresh: u32) -> u8 {
    let mut plan = sky();
    plan.rows[1].mode = plain::tables::Mode::Sampling(refresh);
    let mut kernel = Kernel::load(&plan);
    kernel.state.window = 2;
    kernel.state.time = time;
    let port = &mut kernel.state.ports[1];
    port.created = 1;
    port.arrival = arrival;
    port.replace(b"AB");
    let answer = kernel.answer(fetch(&kernel.row(2), 2));
    assert_eq!(answer[0], 0);
    assert_eq!(&answer[16..20], b"AB\0\0");
    assert_eq!(kernel.state.ports[1].validity, answer[12]);
    answer[12]
}

#[test]
fn p1_age_at_the_refresh_is_valid() {
    assert_eq!(validity(120, 100, 20), 1);
    assert_eq!(validity(119, 100, 20), 1);
}

#[test]
fn p2_age_past_the_refresh_is_not() {
    assert_eq!(validity(121, 100, 20), 0);
}

#[test]
fn p3_age_over_the_end_of_the_tick_count() {
    // time 5, arrival 4,294,967,290: age 11
    assert_eq!(validity(5, 4_294_967_290, 11), 1);
    assert_eq!(validity(5, 4_294_967_290, 10), 0);
    assert_eq!(validity(0, u32::MAX, 1), 1);
    // an arrival one tick ahead is the oldest sample there is
    assert_eq!(validity(5, 6, 1_000_000), 0);
}

/// A kernel whose port 1 holds a number of messages, each its own number.
fn holding(count: u8) -> Kernel {
    let mut kernel = Kernel::load(&queue(8));
    kernel.made(1);
    for number in 0..count {
        assert_eq!(kernel.code(store(&kernel.row(1), 1, &[number])), 0);
    }
    kernel
}

#[test]
fn p4_send_with_room_is_stored() {
    let mut kernel = holding(7);
    assert_eq!(kernel.code(store(&kernel.row(1), 1, b"new")), 0);
    assert_eq!(kernel.messages(1).len(), 8);
    assert_eq!(kernel.messages(1)[7], b"new");
}

#[test]
fn p5_send_to_a_full_store_is_lost() {
    let mut kernel = holding(8);
    let before = kernel.state.clone();
    assert_eq!(kernel.code(store(&kernel.row(1), 1, b"new")), 0);
    assert_eq!(kernel.state, before);
}

#[test]
fn p6_length_0() {
    let mut kernel = Kernel::load(&sky());
    kernel.made(1);
    assert_eq!(kernel.code(store(&kernel.row(1), 1, b"")), 3);
    assert_eq!(kernel.messages(1).len(), 0);
    assert_eq!(kernel.code(store(&kernel.row(1), 1, b"1")), 0);
    assert_eq!(kernel.messages(1), [b"1"]);
}

#[test]
fn p7_length_above_the_largest() {
    let mut kernel = Kernel::load(&sky());
    kernel.made(1);
    assert_eq!(kernel.code(store(&kernel.row(1), 1, b"12345")), 4);
    assert_eq!(kernel.messages(1).len(), 0);
    assert_eq!(kernel.code(store(&kernel.row(1), 1, b"1234")), 0);
    assert_eq!(kernel.messages(1), [b"1234"]);
}

#[test]
fn p8_another_partitions_id() {
    let mut kernel = Kernel::load(&sky());
    kernel.made(1);
    kernel.made(2);
    let mut write = store(&kernel.row(1), 1, b"AB");
    assert_eq!(kernel.doer_and_code(write), (0, 0));
    write[2] = 2;
    assert_eq!(kernel.doer_and_code(write), (0, 3));
    for call in [fetch(&kernel.row(2), 2), status(&kernel.row(2), 2)] {
        assert_eq!(kernel.doer_and_code(call), (0, 3));
    }
    kernel.state.window = 2;
    assert_eq!(kernel.doer_and_code(status(&kernel.row(2), 2)), (1, 0));
}

/// The listing's kernel in the mover window, a message in port 1, port 2 created or not.
fn before_the_move(created: u8) -> Kernel {
    let mut kernel = Kernel::load(&sky());
    kernel.made(1);
    assert_eq!(kernel.code(store(&kernel.row(1), 1, b"AB")), 0);
    assert_eq!(kernel.code(schedule()), 0);
    kernel.state.ports[1].created = created;
    kernel
}

#[test]
fn p9_transmit_to_an_uncreated_port() {
    let mut kernel = before_the_move(0);
    assert_eq!(kernel.doer_and_code(transmit(0)), (64, 0));
    assert_eq!(kernel.messages(1).len(), 0);
    assert_eq!(kernel.state.ports[1], plain::Port::zero());

    let mut kernel = before_the_move(1);
    assert_eq!(kernel.doer_and_code(transmit(0)), (64, 0));
    assert_eq!(kernel.messages(1).len(), 0);
    assert_eq!(kernel.messages(2), [b"AB"]);
    assert_eq!(kernel.state.ports[1].arrival, 10);
}

#[test]
fn p10_a_second_transmit_of_one_sample() {
    let mut kernel = before_the_move(1);
    assert_eq!(kernel.doer_and_code(transmit(0)), (64, 0));
    assert_eq!(kernel.code(schedule()), 0);
    kernel.state.window = 1;
    assert_eq!(kernel.doer_and_code(transmit(0)), (64, 1));
    // it did not arrive fresh again
    assert_eq!(kernel.messages(2), [b"AB"]);
    assert_eq!(kernel.state.ports[1].arrival, 10);
}

#[test]
fn a_full_destination_loses_the_message_and_the_mover_says_nothing() {
    for (depth, stored) in [(1, 1), (7, 7), (8, 8)] {
        let mut kernel = Kernel::load(&queue(depth));
        kernel.made(1);
        kernel.made(2);
        kernel.state.time = 55;
        for round in 0..9 {
            kernel.state.window = 0;
            assert_eq!(kernel.code(store(&kernel.row(1), 1, &[round])), 0);
            kernel.state.window = 1;
            assert_eq!(kernel.doer_and_code(transmit(0)), (64, 0));
            assert_eq!(kernel.messages(1).len(), 0);
        }
        let expected: Vec<Vec<u8>> = (0..stored).map(|round| vec![round]).collect();
        assert_eq!(kernel.messages(2), expected);
        assert_eq!(
            kernel.state.ports[1].arrival, 0,
            "a queue has no arrival time"
        );
    }
}
