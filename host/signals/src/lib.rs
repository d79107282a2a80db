//! The signals that ask a program to end, SIGTERM and SIGINT, as something that a thread waits for.
//!
//! The standard library knows no signals, so this declares what it needs of the C library. No
//! handler is set: both signals are blocked in every thread, so they stay pending until they are
//! waited for, and no code runs in the middle of other code.

#[cfg(not(all(target_os = "linux", any(target_arch = "x86_64", target_arch = "aarch64"))))]
compile_error!("the numbers and the layout below are those of 64-bit Linux");

use std::ffi::c_int;
use std::io;
use std::ptr;

const SIG_BLOCK: c_int = 0;
const SIGINT: c_int = 2;
const SIGTERM: c_int = 15;

/// The C library's sigset_t: 1,024 bits, with glibc and with musl.
#[repr(C)]
struct SignalSet([u64; 16]);

unsafe extern "C" {
    fn sigemptyset(set: *mut SignalSet) -> c_int;
    fn sigaddset(set: *mut SignalSet, signal: c_int) -> c_int;
    fn pthread_sigmask(how: c_int, set: *const SignalSet, old: *mut SignalSet) -> c_int;
    fn sigwait(set: *const SignalSet, signal: *mut c_int) -> c_int;
}

// SAFETY of all calls: each pointer comes from a reference to a whole value of its type, or is null
// where the C library allows that; the library keeps none of them.

/// SIGTERM and SIGINT, held back.
pub struct EndSignals {
    both: SignalSet,
}

impl EndSignals {
    /// Holds both signals back: they no longer end the program. A thread has this from the one that
    /// starts it, so the first thread calls it before it starts another one.
    pub fn hold() -> io::Result<Self> {
        let mut both = SignalSet([0; 16]);
        let made = unsafe {
            sigemptyset(&mut both) | sigaddset(&mut both, SIGTERM) | sigaddset(&mut both, SIGINT)
        };
        if made != 0 {
            return Err(io::Error::last_os_error());
        }
        done(unsafe { pthread_sigmask(SIG_BLOCK, &both, ptr::null_mut()) })?;
        Ok(EndSignals { both })
    }

    /// Waits until one of them arrives, or takes one that has.
    pub fn wait(&self) -> io::Result<()> {
        let mut arrived = 0;
        done(unsafe { sigwait(&self.both, &mut arrived) })
    }
}

/// The calls that change a thread's signals answer the error's number.
fn done(answer: c_int) -> io::Result<()> {
    if answer == 0 { Ok(()) } else { Err(io::Error::from_raw_os_error(answer)) }
}

#[cfg(test)]
mod tests {
    use super::*;
    use std::sync::mpsc::{RecvTimeoutError, channel};
    use std::thread;
    use std::time::Duration;

    unsafe extern "C" {
        /// Sends a signal to the thread that calls it.
        fn raise(signal: c_int) -> c_int;
    }

    #[test]
    fn signals_are_held_until_they_are_waited_for() {
        let signals = EndSignals::hold().unwrap();
        for signal in [SIGTERM, SIGINT] {
            assert_eq!(unsafe { raise(signal) }, 0);
            signals.wait().unwrap();
        }
        // Both at once are two.
        assert_eq!(unsafe { raise(SIGINT) | raise(SIGTERM) }, 0);
        signals.wait().unwrap();
        signals.wait().unwrap();
    }

    #[test]
    fn nothing_arrives_by_itself() {
        let signals = EndSignals::hold().unwrap();
        let (arrived, waits) = channel();
        // It keeps its signals from this thread, and goes on to wait when the test has ended.
        thread::spawn(move || arrived.send(signals.wait().is_ok()));
        let waited = waits.recv_timeout(Duration::from_millis(50));
        assert_eq!(waited, Err(RecvTimeoutError::Timeout));
    }

    #[test]
    fn threads_started_later_hold_them_back() {
        let _signals = EndSignals::hold().unwrap();
        let later = thread::spawn(|| unsafe { raise(SIGTERM) | raise(SIGINT) });
        assert_eq!(later.join().unwrap(), 0);
    }
}
