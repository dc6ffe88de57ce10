//! A kernel under test, and the tables that several tests use.
#![allow(dead_code)]

use plain::make::Plan;
use plain::services::Record;
use plain::tables::{Mode, Prepared, Row};
use plain::{step, State};

pub const SOURCE: u8 = 0;
pub const DESTINATION: u8 = 1;
pub const MOVER: u8 = 32;

/// Tables with a state that steps one event at a time.
pub struct Kernel {
    pub tables: Vec<u8>,
    pub state: State,
}

impl Kernel {
    pub fn load(plan: &Plan) -> Kernel {
        Kernel {
            tables: plan.bytes(),
            state: State::at_load(),
        }
    }

    /// The whole answer to an event.
    pub fn answer(&mut self, event: Record) -> Record {
        let mut answer = [0xAA; 80];
        let refusal = step(&self.tables, &mut self.state, &event, &mut answer);
        assert_eq!(refusal, 0);
        answer
    }

    /// The return code of an event.
    pub fn code(&mut self, event: Record) -> u8 {
        self.answer(event)[0]
    }

    /// Doer and code of an event.
    pub fn doer_and_code(&mut self, event: Record) -> (u8, u8) {
        let answer = self.answer(event);
        (answer[1], answer[0])
    }

    pub fn row(&self, id: usize) -> Row {
        Prepared::of(&self.tables).unwrap().rows[id - 1]
    }

    /// The stored messages of a port, oldest first.
    pub fn messages(&self, id: usize) -> Vec<Vec<u8>> {
        let port = &self.state.ports[id - 1];
        (0..port.count)
            .map(|older| port.message(older).to_vec())
            .collect()
    }

    /// Marks a port created, whatever the modes.
    pub fn made(&mut self, id: usize) {
        self.state.ports[id - 1].created = 1;
    }
}

/// 01's own tables: partition 0 writes SKY, partition 1 reads it.
pub fn sky() -> Plan {
    let mut plan = Plan::default();
    plan.window(0, 10);
    plan.window(MOVER, 5);
    plan.window(1, 20);
    let from = plan.port(0, Mode::Sampling(0), SOURCE, 4, b"SKY");
    let to = plan.port(1, Mode::Sampling(20), DESTINATION, 4, b"SKY");
    plan.channel(from, &[to]);
    plan
}

/// Two queuing ports: 1 of partition 0 (depth 8) to 2 of partition 1 (a depth), largest 4.
pub fn queue(depth: u32) -> Plan {
    let mut plan = Plan::default();
    plan.window(0, 10);
    plan.window(MOVER, 5);
    plan.window(1, 20);
    let from = plan.port(0, Mode::Queuing(8), SOURCE, 4, b"OUT");
    let to = plan.port(1, Mode::Queuing(depth), DESTINATION, 4, b"IN");
    plan.channel(from, &[to]);
    plan
}
