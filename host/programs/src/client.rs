//! The client: a stream to a server, and the copy that is kept from it.

use crate::READ_SIZE;
use crate::failure::Failure;
use nt2::{Copied, CopyTable, ENTRIES, LONGEST_ASSIGNMENT, Message, Refusal, Type, encode};
use std::io::{ErrorKind, Read, Write};
use std::net::{Shutdown, TcpStream, ToSocketAddrs};
use std::time::{Duration, Instant};

/// Protocol Revision 2.0.
const REVISION: u16 = 0x0200;
/// The ID in a client's assignment.
const NEW_ENTRY: u16 = 0xFFFF;
/// The number in a client's assignment, which no server uses.
const UNUSED_NUMBER: u16 = 0;
/// A client that has sent nothing for so long sends a keep alive.
const KEEP_ALIVE: Duration = Duration::from_secs(1);
/// A server has this long for its answer.
const ANSWER_TIME: Duration = Duration::from_secs(10);

/// A client whose hello was accepted.
pub struct Client {
    stream: TcpStream,
    copy: CopyTable,
    /// Bytes that have arrived and are not taken.
    held: Vec<u8>,
    taken: usize,
    /// When the next keep alive is due; none once nothing more is sent.
    keep_alive: Option<Instant>,
}

impl Client {
    /// Connects to a server, says hello and reads until hello complete.
    pub fn connect(address: impl ToSocketAddrs) -> Result<Self, Failure> {
        let stream = TcpStream::connect(address).map_err(Failure::Connection)?;
        stream.set_nodelay(true).map_err(Failure::Connection)?;
        let (copy, held) = (CopyTable::new(), Vec::new());
        let mut client = Client { stream, copy, held, taken: 0, keep_alive: None };
        client.send(&Message::Hello { revision: REVISION })?;
        let until = answer_time();
        while let Some(copied) = client.next_message(until)? {
            if let Copied::HelloComplete { .. } = copied {
                return Ok(client);
            }
        }
        Err(Failure::EndedEarly)
    }

    pub fn copy(&self) -> &CopyTable {
        &self.copy
    }

    /// Bytes of the server that the copy has taken.
    pub fn taken(&self) -> usize {
        self.taken
    }

    /// The ID of the next entry that the server assigns or updates; none at the stream's end.
    pub fn next_entry(&mut self) -> Result<Option<u16>, Failure> {
        self.next_entry_until(None)
    }

    /// Creates an entry, and answers the ID that the server gave it.
    pub fn create(&mut self, name: &[u8], value_type: Type, value: &[u8]) -> Result<u16, Failure> {
        if self.copy.find(name).is_some() {
            return Err(Failure::Refused(Refusal::NameHeld));
        }
        if self.copy.count() == ENTRIES {
            return Err(Failure::Refused(Refusal::Full));
        }
        let (id, number) = (NEW_ENTRY, UNUSED_NUMBER);
        self.send(&Message::Assignment { name, value_type, id, number, value })?;
        let until = answer_time();
        while let Some(id) = self.next_entry_until(until)? {
            let Some(entry) = self.copy.entry(id).filter(|entry| entry.name == name) else {
                continue;
            };
            let is_ours = entry.value_type == value_type && entry.value == value;
            return if is_ours { Ok(id) } else { Err(Failure::Refused(Refusal::NameHeld)) };
        }
        Err(Failure::EndedEarly)
    }

    /// Sends an update with an entry's next number, and answers that number. A server does not answer
    /// an update, so the client sends nothing more and reads until the server has closed the stream.
    /// A server that takes the update applies it if no other one of the entry arrives by then; if
    /// one does, this is not known.
    pub fn write(mut self, id: u16, value: &[u8]) -> Result<u16, Failure> {
        let entry = self.copy.entry(id).ok_or(Failure::Refused(Refusal::UnknownId))?;
        let (value_type, number) = (entry.value_type, entry.number.wrapping_add(1));
        self.send(&Message::Update { value_type, id, number, value })?;
        self.stream.shutdown(Shutdown::Write).map_err(Failure::Connection)?;
        self.keep_alive = None;
        let mut other = None;
        let until = answer_time();
        while let Some(updated) = self.next_entry_until(until)? {
            if updated == id && other.is_none() {
                other = self.copy.entry(id).map(|entry| entry.number);
            }
        }
        other.map_or(Ok(number), |other| Err(Failure::OtherUpdate(other)))
    }

    fn next_entry_until(&mut self, until: Option<Instant>) -> Result<Option<u16>, Failure> {
        while let Some(copied) = self.next_message(until)? {
            if let Copied::Stored { id, .. } = copied {
                return Ok(Some(id));
            }
        }
        Ok(None)
    }

    /// What the copy makes of the next message; none at the stream's end.
    fn next_message(&mut self, until: Option<Instant>) -> Result<Option<Copied>, Failure> {
        loop {
            match self.copy.receive(&self.held) {
                Ok(Copied::Unsupported { revision, .. }) => {
                    return Err(Failure::Unsupported(revision));
                }
                Ok(copied) => {
                    self.held.drain(..copied.taken());
                    self.taken += copied.taken();
                    return Ok(Some(copied));
                }
                Err(Refusal::Incomplete) if self.read_more(until)? => {}
                Err(Refusal::Incomplete) if self.held.is_empty() => return Ok(None),
                Err(Refusal::Incomplete) => return Err(Failure::EndedEarly),
                Err(refusal) => return Err(Failure::Received(refusal)),
            }
        }
    }

    /// Waits for more bytes; false at the stream's end.
    fn read_more(&mut self, until: Option<Instant>) -> Result<bool, Failure> {
        let mut buffer = [0; READ_SIZE];
        loop {
            let now = Instant::now();
            if until.is_some_and(|until| until <= now) {
                return Err(Failure::NoAnswer);
            }
            if self.keep_alive.is_some_and(|due| due <= now) {
                self.send(&Message::KeepAlive)?;
            }
            let wake = [until, self.keep_alive].into_iter().flatten().min();
            let wait = wake.map(|wake| wake.saturating_duration_since(now));
            self.stream.set_read_timeout(wait).map_err(Failure::Connection)?;
            match self.stream.read(&mut buffer) {
                Ok(length) => {
                    self.held.extend_from_slice(&buffer[..length]);
                    return Ok(length > 0);
                }
                Err(error) => match error.kind() {
                    ErrorKind::WouldBlock | ErrorKind::TimedOut | ErrorKind::Interrupted => {}
                    _ => return Err(Failure::Connection(error)),
                },
            }
        }
    }

    fn send(&mut self, message: &Message<'_>) -> Result<(), Failure> {
        let mut out = [0; LONGEST_ASSIGNMENT];
        let length = encode(message, &mut out).map_err(Failure::Refused)?;
        self.stream.write_all(&out[..length]).map_err(Failure::Connection)?;
        self.keep_alive = Some(Instant::now() + KEEP_ALIVE);
        Ok(())
    }
}

fn answer_time() -> Option<Instant> {
    Some(Instant::now() + ANSWER_TIME)
}
