//! How a test program ends.

use std::process::ExitCode;

/// The exit status of what a program did; a failure is said on standard error.
pub fn status(program: &str, done: Result<(), String>) -> ExitCode {
    match done {
        Ok(()) => ExitCode::SUCCESS,
        Err(failure) => {
            eprintln!("{program}: {failure}");
            ExitCode::FAILURE
        }
    }
}
