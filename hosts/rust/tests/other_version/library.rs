//! A library of another version, for `check`: linked in place of the proved one, it tells its version and its sizes,
//! and nothing else of it may be called.

#![no_std]

use core::arch::asm;

/// Ends the program by a signal.
fn end() -> ! {
    unsafe { asm!("ud2", options(noreturn)) }
}

#[no_mangle]
extern "C" fn hullathan_version() -> u32 {
    3
}

#[no_mangle]
extern "C" fn hullathan_size(what: u8) -> usize {
    usize::from(what)
}

macro_rules! never_called {
    ($($name:ident)*) => {$(
        #[no_mangle]
        extern "C" fn $name() -> ! {
            end()
        }
    )*};
}

never_called! {
    hullathan_start hullathan_call hullathan_run hullathan_read hullathan_bank_take_switch
    hullathan_sender_start hullathan_sender_observe hullathan_sender_read hullathan_sender_is_pause
}
