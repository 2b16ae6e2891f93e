//! Catching the original where it stops.

use std::any::Any;
use std::cell::Cell;
use std::panic::{self, AssertUnwindSafe};
use std::sync::Once;

/// How the original stopped.
pub(crate) enum Stop {
    /// At one of its `unreachable!` arms.
    UnreachableArm,
    /// At anything else: an assertion, an index, an `unwrap`.
    Other,
}

thread_local! {
    static JUDGING: Cell<bool> = const { Cell::new(false) };
}

/// Runs one step of the original. What the step borrows may be left half changed by a stop;
/// a stop ends the sheet, so only what had been printed is looked at afterwards.
pub(crate) fn catch(step: impl FnOnce()) -> Result<(), Stop> {
    silence_judged_panics();
    JUDGING.set(true);
    let result = panic::catch_unwind(AssertUnwindSafe(step));
    JUDGING.set(false);
    result.map_err(|payload| kind_of_stop(payload.as_ref()))
}

/// A stop of the original is an answer, not a fault; every other panic stays loud.
fn silence_judged_panics() {
    static SILENCE: Once = Once::new();
    SILENCE.call_once(|| {
        let loud = panic::take_hook();
        panic::set_hook(Box::new(move |report| {
            if !JUDGING.get() {
                loud(report);
            }
        }));
    });
}

fn kind_of_stop(payload: &(dyn Any + Send)) -> Stop {
    match payload.downcast_ref::<&str>() {
        Some(message) if message.contains("entered unreachable code") => Stop::UnreachableArm,
        _ => Stop::Other,
    }
}
