//! Times, best of several rounds.

use std::ptr::null_mut;
use std::sync::atomic::{AtomicPtr, Ordering};
use std::time::{Duration, Instant};

/// The best time in nanoseconds of a call on a value made anew for each round, in about a third of a
/// second. The best is what the code itself costs: others on the machine only add to it.
pub fn best<T>(mut fresh: impl FnMut() -> T, mut call: impl FnMut(&mut T)) -> f64 {
    let enough = Duration::from_millis(350);
    let began = Instant::now();
    let mut best = Duration::MAX;
    let mut rounds = 0;
    while rounds < 5 || began.elapsed() < enough {
        let mut value = fresh();
        show(&mut value);
        let start = Instant::now();
        call(&mut value);
        best = best.min(start.elapsed());
        rounds += 1;
    }
    best.as_nanos() as f64
}

/// Tells everybody where the value is: the compiler then leaves out no write to it.
fn show<T>(value: &mut T) {
    static SHOWN: AtomicPtr<()> = AtomicPtr::new(null_mut());
    SHOWN.store(value as *mut T as *mut (), Ordering::Relaxed);
}
