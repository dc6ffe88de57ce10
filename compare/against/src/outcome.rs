//! What a call on a list gives, on either side, and how two outcomes differ.

use crate::guarded::Guarded;
use crate::layout::{name_of, settle, state_of, SIZE};
use mueanphrai::lent;
use plain::{Prepared, State};

/// The two calls on lists.
#[derive(Clone, Copy, Debug, PartialEq, Eq)]
pub enum Way {
    Run,
    Step,
}

/// What a call is lent; all of it may be of any length.
#[derive(Clone, Copy)]
pub struct Lent<'a> {
    pub tables: &'a [u8],
    pub state: &'a [u8],
    pub events: &'a [u8],
    /// What the answer buffer holds before.
    pub answers: &'a [u8],
}

/// The code, and the whole buffers after the call.
#[derive(Debug, PartialEq, Eq)]
pub struct Outcome {
    pub code: u8,
    pub state: Vec<u8>,
    pub answers: Vec<u8>,
}

/// What the plain kernel says must come out.
pub fn expected(way: Way, lent: Lent) -> Outcome {
    // a state of another size is refused, after 27 and 28, as tables of no bytes are
    let tables = if lent.state.len() == SIZE {
        lent.tables
    } else {
        &[]
    };
    let mut kept = match tables {
        [] => State::zero(),
        _ => state_of(lent.state),
    };
    let mut answers = lent.answers.to_vec();
    let code = match way {
        Way::Run => plain::run(tables, &mut kept, lent.events, &mut answers),
        Way::Step => plain::step(tables, &mut kept, lent.events, &mut answers),
    };
    let mut state = lent.state.to_vec();
    if code == 0 && !lent.events.is_empty() {
        let ports = Prepared::of(tables).expect("tables that were run").rows;
        settle(&mut state, ports.len(), &kept);
    }
    Outcome {
        code,
        state,
        answers,
    }
}

/// What the linked kernel gives, with no byte written around its buffers. Each buffer has an alignment
/// of its own.
pub fn given(way: Way, lent: Lent, before: usize) -> Result<Outcome, String> {
    let mut tables = Guarded::new(lent.tables, before + 1);
    let mut state = Guarded::new(lent.state, before);
    let mut events = Guarded::new(lent.events, before + 2);
    let mut answers = Guarded::new(lent.answers, before + 3);
    let call = match way {
        Way::Run => lent::run,
        Way::Step => lent::step,
    };
    let code = call(tables.lend(), state.lend(), events.lend(), answers.lend());
    tables.back("tables")?;
    events.back("events")?;
    Ok(Outcome {
        code,
        state: state.back("state")?,
        answers: answers.back("answers")?,
    })
}

/// The first difference, in words.
pub fn compare(events: &[u8], expected: &Outcome, given: &Outcome) -> Result<(), String> {
    if expected.code != given.code {
        return Err(format!("code {}, expected {}", given.code, expected.code));
    }
    same_answers(events, &expected.answers, &given.answers)?;
    same_state(&expected.state, &given.state)
}

/// Compares answer bytes; a difference is shown with its whole records.
fn same_answers(events: &[u8], expected: &[u8], given: &[u8]) -> Result<(), String> {
    match first_difference(expected, given) {
        None => Ok(()),
        Some(place) if place >= events.len() => Err(format!(
            "answer byte {place}, past the last event, was written"
        )),
        Some(place) => {
            let record = |bytes: &[u8]| hex(&bytes[place / 80 * 80..][..80]);
            Err(format!(
                "event {}, answer byte {}\n  event    {}\n  expected {}\n  given    {}",
                place / 80,
                place % 80,
                record(events),
                record(expected),
                record(given)
            ))
        }
    }
}

/// Compares state bytes.
pub fn same_state(expected: &[u8], given: &[u8]) -> Result<(), String> {
    match first_difference(expected, given) {
        None => Ok(()),
        Some(place) => Err(format!(
            "state byte {place} ({}): {:02x}, expected {:02x}",
            name_of(place),
            given[place],
            expected[place]
        )),
    }
}

/// The first place where two buffers of one length differ.
fn first_difference(expected: &[u8], given: &[u8]) -> Option<usize> {
    assert_eq!(expected.len(), given.len());
    if expected == given {
        return None;
    }
    (0..given.len()).find(|&place| expected[place] != given[place])
}

/// Bytes as lower-case hexadecimal digits.
fn hex(bytes: &[u8]) -> String {
    bytes.iter().map(|byte| format!("{byte:02x}")).collect()
}
