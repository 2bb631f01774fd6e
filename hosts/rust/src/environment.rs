//! The floating-point environment that the library asks for.
//!
//! It is what a program starts with, and what Rust itself expects: rounding to nearest, subnormals as they are
//! (neither flush-to-zero nor denormals-are-zero), exceptions masked. With another rounding a dit has other last
//! bits; with exceptions unmasked a call may raise SIGFPE. A program all in Rust has it. Code that is called from
//! elsewhere, such as a plug-in in an audio program, may not: it holds a [`Guard`] while it calls.
//!
//! The environment belongs to a thread, and lies in the control bits of the register MXCSR; the library uses no x87
//! instruction.

use crate::sys;
use std::marker::PhantomData;

/// The bits of the register that control; the other six tell which exceptions there were.
const CONTROL: u32 = 0xFFC0;

/// Whether this thread's environment is the one that the library asks for.
///
/// ```
/// assert!(hullathan::environment::is_default());
/// ```
#[must_use]
pub fn is_default() -> bool {
    sys::mxcsr() & CONTROL == sys::MXCSR_DEFAULT
}

/// While it is held, this thread has the environment that the library asks for. Dropped, it restores the one that was,
/// what exceptions there had been among it.
///
/// ```
/// use hullathan::{environment::Guard, Event, Station};
///
/// let mut station = Station::start(8, true)?;
/// let answer = {
///     let _default = Guard::set();
///     station.call(Event::Mark { ms: 50.0, live: true })?
/// };
/// # Ok::<(), hullathan::Refusal>(())
/// ```
#[derive(Debug)]
#[must_use = "dropped at once, it restores at once"]
pub struct Guard {
    saved: u32,
    /// The register is this thread's: the guard stays in it.
    thread: PhantomData<*const ()>,
}

impl Guard {
    /// Sets the environment.
    pub fn set() -> Guard {
        Guard {
            saved: sys::enter_default(),
            thread: PhantomData,
        }
    }
}

impl Drop for Guard {
    fn drop(&mut self) {
        sys::leave_default(self.saved);
    }
}
