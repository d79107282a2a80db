//! What a server says of its connections and of its table's file, one line each.

use crate::value::quoted;
use nt2::{CONNECTIONS, Place, Refusal};
use std::fmt;
use std::io;
use std::net::SocketAddr;
use std::path::PathBuf;

/// An event that a server reports.
#[derive(Debug)]
pub enum Notice {
    Opened {
        connection: usize,
        peer: SocketAddr,
    },
    /// A message was refused, with the place of the field that failed; or else an opening or leaving.
    Refused {
        connection: usize,
        refusal: Refusal,
        place: Option<Place>,
    },
    /// An assignment of this name, or an update of the entry that has it, was ignored.
    Ignored {
        connection: usize,
        name: Vec<u8>,
        why: Ignored,
    },
    Left {
        connection: usize,
        reason: Reason,
    },
    NoConnectionLeft {
        peer: SocketAddr,
    },
    NotAccepted {
        error: io::Error,
    },
    /// The table of so many entries was loaded; none where there is no file.
    Loaded {
        file: PathBuf,
        entries: Option<usize>,
    },
    /// The table could not be written. This is tried again.
    NotSaved {
        file: PathBuf,
        error: io::Error,
    },
    /// Behind a notice that it was not.
    SavedAgain {
        file: PathBuf,
    },
    /// So many notices were not handed over, since too many waited.
    Dropped {
        count: u64,
    },
}

/// Why a message was ignored. A keep alive always is, so it is not among these.
#[derive(Clone, Copy, Debug, PartialEq, Eq)]
pub enum Ignored {
    /// An assignment: the entry with this ID has its name.
    NameHeld { id: u16 },
    /// An update with the number that is stored.
    Equal { number: u16 },
    /// An update whose number is older than the stored one.
    Older { number: u16, stored: u16, by: u16 },
    /// An update whose number is half the range away from the stored one.
    Undefined { number: u16, stored: u16 },
}

/// Why a connection was closed.
#[derive(Debug)]
pub enum Reason {
    EndOfStream,
    /// No byte has arrived for too long.
    Idle,
    Refused,
    OtherRevision,
    /// More bytes wait for the client than the bound.
    NotReading,
    /// Bytes could not be sent.
    NotSent(io::Error),
    Failed(io::Error),
    Stopped,
}

impl fmt::Display for Notice {
    fn fmt(&self, f: &mut fmt::Formatter<'_>) -> fmt::Result {
        match self {
            Notice::Opened { connection, peer } => {
                write!(f, "connection {connection}: opened by {peer}")
            }
            Notice::Refused { connection, refusal, place } => {
                write!(f, "connection {connection}: refused with {}, {refusal}", refusal.number())?;
                // A refusal that has a place says it.
                match place.filter(|_| refusal.place().is_none()) {
                    Some(place) => write!(f, ", at {place}"),
                    None => Ok(()),
                }
            }
            Notice::Ignored { connection, name, why } => {
                let (message, name) = (why.message(), quoted(name));
                write!(f, "connection {connection}: {message} of {name} ignored: {why}")
            }
            Notice::Left { connection, reason } => {
                write!(f, "connection {connection}: left, {reason}")
            }
            Notice::NoConnectionLeft { peer } => {
                write!(f, "{peer}: closed, all {CONNECTIONS} connections are open")
            }
            Notice::NotAccepted { error } => write!(f, "a connection was not accepted: {error}"),
            Notice::Loaded { file, entries: Some(entries) } => {
                write!(f, "{}: table loaded, entries {entries}", file.display())
            }
            Notice::Loaded { file, entries: None } => {
                write!(f, "{}: no such file, the table is empty", file.display())
            }
            Notice::NotSaved { file, error } => {
                write!(f, "{}: the table is not saved: {error}", file.display())
            }
            Notice::SavedAgain { file } => {
                write!(f, "{}: the table is saved again", file.display())
            }
            Notice::Dropped { count } => write!(f, "notices dropped: {count}"),
        }
    }
}

impl Ignored {
    /// What was ignored.
    fn message(self) -> &'static str {
        match self {
            Ignored::NameHeld { .. } => "assignment",
            _ => "update",
        }
    }
}

impl fmt::Display for Ignored {
    fn fmt(&self, f: &mut fmt::Formatter<'_>) -> fmt::Result {
        match self {
            Ignored::NameHeld { id } => write!(f, "entry {id} has this name"),
            Ignored::Equal { number } => write!(f, "number {number} is the one that is stored"),
            Ignored::Older { number, stored, by } => {
                write!(f, "number {number} is older than {stored} by {by}")
            }
            Ignored::Undefined { number, stored } => {
                write!(
                    f,
                    "number {number} and the stored {stored} are 32,768 apart, so neither is greater"
                )
            }
        }
    }
}

impl fmt::Display for Reason {
    fn fmt(&self, f: &mut fmt::Formatter<'_>) -> fmt::Result {
        match self {
            Reason::EndOfStream => f.write_str("end of the stream"),
            Reason::Idle => f.write_str("nothing has arrived for too long"),
            Reason::Refused => f.write_str("a message was refused"),
            Reason::OtherRevision => f.write_str("hello for another revision"),
            Reason::NotReading => f.write_str("the client does not read what is sent to it"),
            Reason::NotSent(error) => write!(f, "sending failed: {error}"),
            Reason::Failed(error) => write!(f, "{error}"),
            Reason::Stopped => f.write_str("the server stops"),
        }
    }
}
