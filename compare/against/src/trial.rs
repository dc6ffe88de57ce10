//! One case: its dice, and a compared call of each kind.

use crate::guarded::Guarded;
use crate::layout::{bytes_of, state_of, SIZE};
use crate::outcome::{compare, expected, given, same_state, Lent, Outcome, Way};
use crate::seen::Seen;
use mueanphrai::lent;
use plain::make::Dice;
use plain::{judge, State, Verdict};

/// Nothing, or the first difference in words.
pub type Compared = Result<(), String>;

/// A case under way.
pub struct Trial {
    /// The case's number in its family.
    pub number: u64,
    /// All that the case makes follows from these.
    pub dice: Dice,
    /// Calls compared so far.
    pub calls: u64,
    /// Answers met so far.
    pub seen: Seen,
}

impl Trial {
    /// A case that follows from a seed and its number alone.
    pub fn new(seed: u64, family: &str, number: u64) -> Trial {
        let family = family.bytes().fold(0, |sum: u64, byte| {
            sum.wrapping_mul(257).wrapping_add(byte as u64)
        });
        let mut mixed = Dice::new(seed ^ family.rotate_left(32));
        Trial {
            number,
            dice: Dice::new(mixed.number() ^ number),
            calls: 0,
            seen: Seen::default(),
        }
    }

    /// How many watched bytes come before this call's buffers: each alignment in turn.
    fn before(&mut self) -> usize {
        self.calls += 1;
        64 + (self.calls % 8) as usize
    }

    /// A load into a buffer of any bytes; a refused one touches none of them.
    pub fn load(&mut self, tables: &[u8], state: &[u8]) -> Compared {
        let mut buffer = Guarded::new(state, self.before());
        let said = (
            lent::load(tables, buffer.lend()),
            lent::refused_record(tables),
        );
        let (wanted, after) = match judge(tables) {
            Verdict::Refused { number, record } => ((number, record), state.to_vec()),
            Verdict::Accepted if state.len() != SIZE => ((29, 0), state.to_vec()),
            Verdict::Accepted => ((0, 0), bytes_of(&State::at_load())),
        };
        if said != wanted {
            return Err(format!(
                "load says code and record {said:?}, expected {wanted:?}"
            ));
        }
        same_state(&after, &buffer.back("state")?)
    }

    /// Test 29 of a state of any length.
    pub fn in_range(&mut self, tables: &[u8], state: &[u8]) -> Compared {
        let mut buffer = Guarded::new(state, self.before());
        let passes = lent::in_range(tables, buffer.lend());
        let wanted = state.len() == SIZE && plain::in_range(tables, &state_of(state));
        if passes != wanted as u8 {
            return Err(format!("in_range says {passes}, expected {}", wanted as u8));
        }
        same_state(state, &buffer.back("state")?)
    }

    /// A call on a list; gives what came out where both sides agree.
    pub fn call(&mut self, way: Way, lent: Lent) -> Result<Outcome, String> {
        let outcome = given(way, lent, self.before())?;
        compare(lent.events, &expected(way, lent), &outcome)?;
        if outcome.code == 0 {
            self.seen.count(lent.events, &outcome.answers);
        }
        Ok(outcome)
    }

    /// A run from a state of the plain kernel; the answer buffer is exact or longer, as the dice fall.
    pub fn run(&mut self, tables: &[u8], state: &State, events: &[u8]) -> Result<Outcome, String> {
        let longer = self.dice.pick(&[0, 0, 1, 79, 80, 400]);
        let answers = self.dice.bytes(events.len() + longer);
        let lent = Lent {
            tables,
            state: &bytes_of(state),
            events,
            answers: &answers,
        };
        self.call(Way::Run, lent)
    }

    /// The reader on any bytes.
    pub fn read(&mut self, answers: &[u8], record: usize) -> Compared {
        self.calls += 1;
        let start = lent::message_start(answers, record);
        let length = lent::message_length(answers, record);
        let wanted = plain::stretch(answers, record);
        if (start, length) != wanted {
            let got = (start, length);
            return Err(format!("record {record}: {got:?}, expected {wanted:?}"));
        }
        Ok(())
    }
}
