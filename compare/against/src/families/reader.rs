//! The reader on answers that a kernel never gave: any codes and lengths, torn buffers, far records.

use crate::trial::{Compared, Trial};
use plain::bytes::put32;

pub fn compare(trial: &mut Trial) -> Compared {
    let records = trial.dice.pick(&[0, 1, 2, 3, 40]);
    let answers = some_answers(trial, records);
    for record in (0..=records + 1).chain(far_records()) {
        trial.read(&answers, record)?;
    }
    if answers.is_empty() {
        return Ok(());
    }
    let torn = trial.dice.below(answers.len());
    for record in [0, records / 2, records] {
        trial.read(&answers[..torn], record)?;
        trial.read(&answers[torn..], record)?;
    }
    Ok(())
}

/// Records mostly of code 0, with lengths at the edge and beyond it.
fn some_answers(trial: &mut Trial, records: usize) -> Vec<u8> {
    let dice = &mut trial.dice;
    let mut answers = dice.bytes(80 * records);
    for answer in answers.chunks_exact_mut(80) {
        let any = dice.byte();
        answer[0] = dice.pick(&[0, 0, 0, 1, 19, any]);
        let length = dice.below(66) as u32;
        let far = dice.pick(&[64, 65, 66, 80, 256, 320, 1 << 16, 1 << 24, u32::MAX]);
        put32(answer, 8, dice.pick(&[length, length, far]));
    }
    answers
}

/// Numbers whose place, 80 times as far, passes the end of the numbers.
fn far_records() -> impl Iterator<Item = usize> {
    let wraps = usize::MAX / 80;
    [wraps - 1, wraps, wraps + 1, 1 << 60, 1 << 63, usize::MAX].into_iter()
}
