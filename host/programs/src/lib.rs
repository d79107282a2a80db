//! The table over TCP: the server and the client as a library, for the programs and their tests.

#![forbid(unsafe_code)]

pub mod client;
pub mod command;
pub mod failure;
pub mod listing;
pub mod notice;
pub mod server;
pub mod table_file;
pub mod value;

use std::env;
use std::ffi::OsString;
use std::fmt::Display;
use std::io::{self, Write};

/// Where a server listens, and a client looks for it, if nothing else is said.
pub const DEFAULT_ADDRESS: &str = "127.0.0.1:1735";

/// Bytes read from a stream at once: the longest messages have room, and as many typical ones as a
/// delivery takes; a client's turn is short.
const READ_SIZE: usize = 4096;

/// The program's arguments, or the first that is no text.
pub fn arguments() -> Result<Vec<String>, String> {
    let text = |argument: OsString| {
        argument.into_string().map_err(|argument| format!("{argument:?} is not UTF-8"))
    };
    env::args_os().skip(1).map(text).collect()
}

/// Writes a line to standard error, in one piece. If that is closed, the line is dropped.
pub fn say(line: impl Display) {
    let _ = io::stderr().write_all(format!("{line}\n").as_bytes());
}
