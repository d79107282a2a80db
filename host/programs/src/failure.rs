//! Why a client's command was not done.

use nt2::Refusal;
use std::fmt;
use std::io;

#[derive(Debug)]
pub enum Failure {
    /// The command line is wrong.
    Usage(String),
    /// What was asked is refused.
    Refused(Refusal),
    NoEntry(String),
    /// Another writer's update, with this number, came before or after the one that was sent.
    OtherUpdate(u16),
    /// A message of the server is refused.
    Received(Refusal),
    /// The server speaks this revision only.
    Unsupported(u16),
    EndedEarly,
    NoAnswer,
    Connection(io::Error),
    Output(io::Error),
}

impl Failure {
    /// The program's exit status.
    pub fn status(&self) -> u8 {
        match self {
            Failure::Usage(_) => 2,
            _ => 1,
        }
    }
}

impl fmt::Display for Failure {
    fn fmt(&self, f: &mut fmt::Formatter<'_>) -> fmt::Result {
        match self {
            Failure::Usage(fault) => f.write_str(fault),
            Failure::Refused(refusal) => write!(f, "refused with {}, {refusal}", refusal.number()),
            Failure::NoEntry(name) => write!(f, "no entry is named {name:?}"),
            Failure::OtherUpdate(number) => write!(
                f,
                "another update, number {number}, came first or after; \
                 whether this one was applied is not known"
            ),
            Failure::Received(refusal) => {
                write!(f, "the server's message is refused with {}, {refusal}", refusal.number())
            }
            Failure::Unsupported(revision) => {
                write!(f, "the server speaks revision {revision:#06x} only")
            }
            Failure::EndedEarly => f.write_str("the stream ended early"),
            Failure::NoAnswer => f.write_str("the server does not answer"),
            Failure::Connection(error) => write!(f, "connection: {error}"),
            Failure::Output(error) => write!(f, "standard output: {error}"),
        }
    }
}
