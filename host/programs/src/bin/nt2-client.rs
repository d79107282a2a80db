//! The client over TCP: lists, watches, creates and writes entries of a server's table.
//!
//! Exit status: 0 done, 1 refused or the stream ended early, 2 usage.

#![forbid(unsafe_code)]

use nt2_programs::command::run;
use nt2_programs::failure::Failure;
use nt2_programs::{arguments, say};
use std::io;
use std::process::ExitCode;

fn main() -> ExitCode {
    let done = arguments().map_err(Failure::Usage).and_then(|given| {
        let given: Vec<&str> = given.iter().map(String::as_str).collect();
        run(&given, &mut io::stdout())
    });
    match done {
        Ok(()) => ExitCode::SUCCESS,
        Err(failure) => {
            say(format_args!("nt2-client: {failure}"));
            ExitCode::from(failure.status())
        }
    }
}
