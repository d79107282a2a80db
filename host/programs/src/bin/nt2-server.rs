//! The table server over TCP. Its notices go to standard error.
//!
//! Arguments: `--table FILE`, the file in which the table is kept, else it is not kept; the address
//! to listen at, else 127.0.0.1:1735.
//!
//! SIGTERM and SIGINT end it: the table is saved, and what waits for the clients is sent. A second
//! one ends it at once.
//!
//! Exit status: 0 ended by a signal, 1 the file or the address cannot be used, or the table is not
//! saved at the end, 2 usage.

#![forbid(unsafe_code)]

use nt2_programs::server::{Server, Settings, Stopper};
use nt2_programs::table_file::KeptTable;
use nt2_programs::{DEFAULT_ADDRESS, arguments, say};
use signals::EndSignals;
use std::io::{self, Write};
use std::path::Path;
use std::process::{self, ExitCode};
use std::thread;

const USAGE: &str = "usage: nt2-server [--table FILE] [ADDRESS]";
const USAGE_STATUS: u8 = 2;
/// The status after a second signal.
const ENDED_AT_ONCE: i32 = 1;

/// The file, if one is given, and the address.
fn file_and_address(given: &[String]) -> Option<(Option<&Path>, &str)> {
    let words: Vec<&str> = given.iter().map(String::as_str).collect();
    let (file, words) = match words[..] {
        ["--table", file, ref words @ ..] => (Some(Path::new(file)), words),
        ref words => (None, words),
    };
    match *words {
        [] => Some((file, DEFAULT_ADDRESS)),
        [address] if !address.starts_with('-') => Some((file, address)),
        _ => None,
    }
}

fn serve(file: Option<&Path>, address: &str) -> Result<(), String> {
    let signals = EndSignals::hold().map_err(|error| format!("signals: {error}"))?;
    let kept = file.map(KeptTable::open).transpose().map_err(|fault| fault.to_string())?;
    let server = start(address, kept, signals).map_err(|error| format!("{address}: {error}"))?;
    server.wait().map_err(|fault| fault.to_string())
}

fn start(address: &str, kept: Option<KeptTable>, signals: EndSignals) -> io::Result<Server> {
    let server = Server::start(address, Settings::default(), kept, |notice| say(notice))?;
    let stopper = server.stopper();
    let wait = move || stop_at_signal(&signals, &stopper);
    thread::Builder::new().name("signals".into()).spawn(wait)?;
    writeln!(io::stdout(), "listening at {}", server.address())?;
    Ok(server)
}

fn stop_at_signal(signals: &EndSignals, stopper: &Stopper) {
    if signals.wait().is_ok() {
        stopper.stop();
    }
    if signals.wait().is_ok() {
        process::exit(ENDED_AT_ONCE);
    }
}

fn main() -> ExitCode {
    let given = arguments().ok();
    let Some((file, address)) = given.as_deref().and_then(file_and_address) else {
        say(USAGE);
        return ExitCode::from(USAGE_STATUS);
    };
    match serve(file, address) {
        Ok(()) => ExitCode::SUCCESS,
        Err(fault) => {
            say(format_args!("nt2-server: {fault}"));
            ExitCode::FAILURE
        }
    }
}
