//! The tests before any service, modes, the clock and moves.

mod common;
use common::*;
use plain::bytes::get32;
use plain::codes::*;
use plain::make::events::*;
use plain::state::{COLD_START, IDLE, NORMAL, WARM_START};
use plain::tables::Mode;

#[test]
fn tests_before_any_service() {
    let mut kernel = Kernel::load(&sky());
    let before = kernel.state.clone();
    for code in [0, 15, 255] {
        assert_eq!(kernel.doer_and_code(on_port(code, 1)), (255, 19));
    }
    // 17 before 18, in a partition's window
    assert_eq!(kernel.doer_and_code(transmit(0)), (255, 17));
    assert_eq!(kernel.doer_and_code(transmit(99)), (255, 17));
    assert_eq!(kernel.state, before);
    kernel.state.window = 1;
    for code in 1..=12 {
        assert_eq!(kernel.doer_and_code(on_port(code, 1)), (255, 16));
    }
    for channel in [1, 32, 256, u16::MAX] {
        assert_eq!(kernel.doer_and_code(transmit(channel)), (255, 18));
    }
    assert_eq!(kernel.doer_and_code(on_port(0, 0)), (255, 19));
    assert_eq!(kernel.doer_and_code(transmit(0)), (64, 1));
}

#[test]
fn a_stopped_partition_is_still_the_doer() {
    let mut kernel = Kernel::load(&sky());
    assert_eq!(kernel.doer_and_code(set_mode(IDLE)), (0, 0));
    for code in 1..=12 {
        assert_eq!(kernel.doer_and_code(on_port(code, 1)), (0, 15));
    }
    assert_eq!(kernel.doer_and_code(set_mode(NORMAL)), (0, 15));
    assert_eq!(kernel.doer_and_code(on_port(0, 0)), (255, 19));
    assert_eq!(kernel.doer_and_code(schedule()), (32, 0));
}

#[test]
fn every_mode_change() {
    // from the row's mode to the column's: IDLE, COLD_START, WARM_START, NORMAL, 4
    let expected = [
        (IDLE, [15, 15, 15, 15, 15]),
        (COLD_START, [0, 0, 5, 0, 3]),
        (WARM_START, [0, 0, 0, 0, 3]),
        (NORMAL, [0, 0, 0, 1, 3]),
    ];
    for (from, codes) in expected {
        for (to, code) in codes.into_iter().enumerate() {
            let mut kernel = Kernel::load(&queue(3));
            kernel.state.modes[0] = from;
            kernel.made(1);
            kernel.made(2);
            kernel.state.ports[0].append(b"a");
            kernel.state.ports[0].validity = 1;
            kernel.state.ports[0].arrival = 7;
            let before = kernel.state.clone();
            assert_eq!(kernel.doer_and_code(set_mode(to as u8)), (0, code));
            let unmade = code == 0 && to as u8 != NORMAL;
            let port = &kernel.state.ports[0];
            let kept = (port.created, port.count, port.validity, port.arrival);
            assert_eq!(kept, if unmade { (0, 0, 0, 0) } else { (1, 1, 1, 7) });
            let mode = if code == 0 { to as u8 } else { from };
            assert_eq!(kernel.state.modes[0], mode);
            assert_eq!(kernel.state.modes[1..], before.modes[1..]);
            assert_eq!(kernel.state.ports[1], before.ports[1], "another's port");
        }
    }
    let mut kernel = Kernel::load(&sky());
    assert_eq!(kernel.code(set_mode(255)), INVALID_PARAM);
}

#[test]
fn the_clock_wraps_and_the_windows_go_round() {
    let mut kernel = Kernel::load(&sky());
    kernel.state.time = u32::MAX - 9;
    kernel.state.modes = [IDLE; 16];
    for (window, time) in [(1, 0), (2, 5), (0, 25), (1, 35)] {
        let answer = kernel.answer(schedule());
        assert_eq!((answer[1], answer[0], get32(&answer, 4)), (32, 0, time));
        assert_eq!((kernel.state.window, kernel.state.time), (window, time));
        assert!(answer[8..].iter().all(|&byte| byte == 0));
    }
}

#[test]
fn a_move_reaches_every_created_reader() {
    let mut plan = sky();
    plan.rows.clear();
    plan.channels.clear();
    plan.joined(0, Mode::Sampling(0), Mode::Sampling(9), 8);
    let mut kernel = Kernel::load(&plan);
    kernel.state.window = 1;
    kernel.state.time = 77;
    for id in [1, 2, 3, 5, 9] {
        kernel.made(id);
    }
    kernel.state.ports[1].replace(b"old");
    kernel.state.ports[0].replace(b"new!");
    assert_eq!(kernel.answer(transmit(0))[2..], [0; 78]);
    for id in 2..=9 {
        let port = &kernel.state.ports[id - 1];
        let created = [2, 3, 5, 9].contains(&id);
        assert_eq!(port.count, created as usize);
        assert_eq!(port.arrival, if created { 77 } else { 0 });
        if created {
            assert_eq!(port.message(0), b"new!");
        }
    }
    assert_eq!(kernel.state.ports[0].count, 0);
}
