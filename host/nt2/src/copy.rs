//! The client's copy.

use crate::answers::{Copied, Place, Refusal, Scalar, is_done};
use crate::lent;
use crate::memory::{Entry, Memory};
use crate::number::DONE;

/// A copy of a server's table, kept from the server's bytes.
#[derive(Clone)]
pub struct CopyTable {
    memory: Memory,
}

impl CopyTable {
    /// The empty copy.
    pub fn new() -> Self {
        let mut copy = CopyTable { memory: Memory::new() };
        copy.fresh();
        copy
    }

    /// Starts afresh, without entries.
    pub fn fresh(&mut self) {
        let answer = lent::copy_fresh(self.memory.lend());
        assert_eq!(answer.number, DONE, "an owned table is large enough");
    }

    /// Takes the first message of a server's bytes.
    pub fn receive(&mut self, message: &[u8]) -> Result<Copied, Refusal> {
        let next = self.memory.next_id();
        let answer = lent::copy_receive(self.memory.lend(), message);
        let (taken, revision) = (answer.taken, answer.revision);
        let stored = is_done(answer.number, Some(Place::Message(answer.place)))?;
        Ok(match *message {
            [0x11, high, low, ..] if stored => {
                Copied::Stored { taken, id: u16::from_be_bytes([high, low]) }
            }
            _ if stored => Copied::Stored { taken, id: next },
            [0x02, ..] => Copied::Unsupported { taken, revision },
            [0x03, ..] => Copied::HelloComplete { taken },
            _ => Copied::Ignored { taken },
        })
    }

    /// Takes all messages of a server's bytes. A refusal's place counts from the start of its message.
    pub fn receive_all(&mut self, mut bytes: &[u8]) -> Result<(), Refusal> {
        while !bytes.is_empty() {
            let taken = self.receive(bytes)?.taken();
            bytes = &bytes[taken..];
        }
        Ok(())
    }

    /// Writes the saved form of the copy, as [`ServerTable::save`](crate::ServerTable::save) does; a
    /// server's table can load it.
    pub fn save<'o>(&self, out: &'o mut [u8]) -> Result<&'o [u8], Refusal> {
        self.memory.save(out)
    }

    /// Reads an entry's value, where it is one number or flag.
    pub fn read(&self, id: u16) -> Result<Scalar, Refusal> {
        self.memory.read(id)
    }

    /// Entries held; their IDs are 0 up to this.
    pub fn count(&self) -> usize {
        self.memory.count()
    }

    pub fn entry(&self, id: u16) -> Option<Entry<'_>> {
        self.memory.entry(id)
    }

    /// All entries with their IDs, in rising order.
    pub fn entries(&self) -> impl Iterator<Item = (u16, Entry<'_>)> {
        (0..self.memory.next_id()).filter_map(|id| Some((id, self.entry(id)?)))
    }

    /// The ID of the entry with this name.
    pub fn find(&self, name: &[u8]) -> Option<u16> {
        self.entries().find(|(_, entry)| entry.name == name).map(|(id, _)| id)
    }
}

impl Default for CopyTable {
    fn default() -> Self {
        CopyTable::new()
    }
}
