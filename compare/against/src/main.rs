//! Compares the linked kernel with the plain one:
//! `against [--seed N] [--rounds N] [--most N] [--case FAMILY:NUMBER] [--trace]`.
//!
//! Everything follows from the seed. A round takes well under a minute; `--most` bounds the cases of each
//! family. A failing case is printed with the words that run it alone again; `--trace` prints every case
//! before it is run, should one end the program. The last line is `N passed, M failed`, counted in cases.

use std::panic::{catch_unwind, AssertUnwindSafe};
use std::process::ExitCode;
use std::time::Instant;

use against::families::{Family, FAMILIES};
use against::seen::Seen;
use against::trial::Trial;

/// The seed of the gate.
const SEED: u64 = 653;
/// Failing cases of a family that are printed; the others are counted.
const SHOWN: u64 = 5;

/// What is asked for.
struct Asked {
    seed: u64,
    rounds: u64,
    /// Most cases of a family.
    most: u64,
    /// One case alone: its family's name and its number.
    case: Option<(String, u64)>,
    /// Whether each case is printed before it is run.
    trace: bool,
}

/// Cases counted so far.
#[derive(Default)]
struct Count {
    passed: u64,
    failed: u64,
    calls: u64,
    seen: Seen,
}

impl Count {
    /// Counts one thing that passed or not.
    fn one(&mut self, passed: bool) {
        self.passed += passed as u64;
        self.failed += !passed as u64;
    }
}

fn main() -> ExitCode {
    let asked = match asked(std::env::args().skip(1)) {
        Some(asked) => asked,
        None => {
            eprintln!(
                "against [--seed N] [--rounds N] [--most N] [--case FAMILY:NUMBER] [--trace]"
            );
            return ExitCode::from(2);
        }
    };
    let mut count = Count::default();
    for family in &FAMILIES {
        run_family(&asked, family, &mut count);
    }
    if asked.case.is_none() {
        all_answers_met(&mut count);
    }
    println!("{} passed, {} failed", count.passed, count.failed);
    ExitCode::from((count.failed != 0 || count.passed == 0) as u8)
}

/// The words of the command line; nothing where they are none of ours.
fn asked(mut words: impl Iterator<Item = String>) -> Option<Asked> {
    let mut asked = Asked {
        seed: SEED,
        rounds: 1,
        most: u64::MAX,
        case: None,
        trace: false,
    };
    while let Some(word) = words.next() {
        if word == "--trace" {
            asked.trace = true;
            continue;
        }
        let value = words.next()?;
        match word.as_str() {
            "--seed" => asked.seed = value.parse().ok()?,
            "--rounds" => asked.rounds = value.parse().ok()?,
            "--most" => asked.most = value.parse().ok()?,
            "--case" => {
                let (family, number) = value.split_once(':')?;
                FAMILIES.iter().find(|known| known.name == family)?;
                asked.case = Some((family.into(), number.parse().ok()?));
            }
            _ => return None,
        }
    }
    Some(asked)
}

/// Runs what is asked for of a family, and says how it went.
fn run_family(asked: &Asked, family: &Family, count: &mut Count) {
    let numbers = match &asked.case {
        Some((name, number)) if name == family.name => *number..*number + 1,
        Some(_) => return,
        None => 0..(family.cases * asked.rounds).min(asked.most),
    };
    let began = Instant::now();
    let mut own = Count::default();
    for number in numbers {
        if asked.trace {
            println!("{}:{number}", family.name);
        }
        run_case(asked.seed, family, number, &mut own);
    }
    println!(
        "{}: {} of {} cases agree, {} calls compared, {:.1} s",
        family.name,
        own.passed,
        own.passed + own.failed,
        own.calls,
        began.elapsed().as_secs_f64()
    );
    count.passed += own.passed;
    count.failed += own.failed;
    count.seen.add(&own.seen);
}

/// A whole comparison must have met every answer of every code.
fn all_answers_met(count: &mut Count) {
    let (code, answer, times) = count.seen.rarest();
    println!("the rarest answer to a code, {answer} to {code}, was met {times} times");
    count.one(times > 0);
}

/// Runs one case. A panic of the plain kernel is a difference too.
fn run_case(seed: u64, family: &Family, number: u64, count: &mut Count) {
    let mut trial = Trial::new(seed, family.name, number);
    let compared = catch_unwind(AssertUnwindSafe(|| (family.compare)(&mut trial)))
        .unwrap_or_else(|_| Err("a panic".into()));
    count.calls += trial.calls;
    count.seen.add(&trial.seen);
    count.one(compared.is_ok());
    match compared {
        Err(difference) if count.failed <= SHOWN => {
            println!("FAIL --seed {seed} --case {}:{number}", family.name);
            println!("  {difference}");
        }
        _ => {}
    }
}
