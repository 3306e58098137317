//! Ctrl-C and a request to end: the work stops after the piece in hand. A second one ends the process at once.

#![allow(unsafe_code)]

use std::sync::atomic::{AtomicBool, Ordering};

use crate::failure::Failure;

static ASKED: AtomicBool = AtomicBool::new(false);

extern "C" fn ask(_signal: libc::c_int) {
    ASKED.store(true, Ordering::SeqCst);
}

/// From now on Ctrl-C is noted instead of ending the process; once.
pub fn watch() {
    // SAFETY: an action of all zeros is one; the handler only stores to an atomic, which a handler may do.
    unsafe {
        let mut action: libc::sigaction = std::mem::zeroed();
        action.sa_sigaction = ask as *const () as usize;
        action.sa_flags = libc::SA_RESETHAND | libc::SA_RESTART;
        libc::sigaction(libc::SIGINT, &action, std::ptr::null_mut());
        libc::sigaction(libc::SIGTERM, &action, std::ptr::null_mut());
    }
}

/// Was the process asked to stop?
pub fn asked() -> bool {
    ASKED.load(Ordering::SeqCst)
}

/// # Errors
///
/// [`Failure::Machine`] where the process was asked to stop.
pub fn stop_if_asked() -> Result<(), Failure> {
    match asked() {
        true => Err(Failure::Machine(
            "stopped; the same command goes on from here".to_owned(),
        )),
        false => Ok(()),
    }
}
