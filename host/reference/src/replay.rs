//! A line record: a server that is run again from what came in.

use crate::output::Unread;
use crate::server::Server;
use crate::wire::{ASSIGNMENT, Fault, Judged, NO_ID, Reader, Refusal, UPDATE};
use alloc::vec::Vec;
use nt2_sys::{LentTable, PLANT, Replayed};

/// Connections that bytes can come in from, the plant's own code too.
const SOURCES: usize = PLANT + 1;

/// Makes a fresh start and runs the records in order.
pub fn replay(table: LentTable<'_>, marks: &mut [u8], record: &[u8]) -> Replayed {
    let mut records = 0;
    let ended = Server::fresh(table, marks).and_then(|server| {
        let mut run = Run { server, held: [const { Vec::new() }; SOURCES] };
        let mut rest = record;
        while !rest.is_empty() {
            let (next, behind) = Record::read(rest)?;
            run.follow(&next);
            records += 1;
            rest = behind;
        }
        Ok(())
    });
    Replayed { number: ended.err().map_or(0, |Fault { number, .. }| number), records }
}

enum Record<'a> {
    Opens(usize),
    Leaves(usize),
    CameIn(usize, &'a [u8]),
}

impl<'a> Record<'a> {
    /// The first record of some bytes, and those behind it.
    fn read(bytes: &'a [u8]) -> Judged<(Self, &'a [u8])> {
        let (&kind, behind) = bytes.split_first().ok_or(Refusal::Incomplete)?;
        if !matches!(kind, 1 | 2 | 64..=127) {
            return Err(Refusal::Kind.into());
        }
        let (&connection, behind) = behind.split_first().ok_or(Refusal::Incomplete)?;
        let connection = usize::from(connection);
        match kind {
            1 => Ok((Record::Opens(connection), behind)),
            2 => Ok((Record::Leaves(connection), behind)),
            _ if connection > PLANT => Err(Refusal::Kind.into()),
            _ => {
                let length = usize::from(kind - 63);
                let (came, behind) = behind.split_at_checked(length).ok_or(Refusal::Incomplete)?;
                Ok((Record::CameIn(connection, came), behind))
            }
        }
    }
}

struct Run<'a> {
    server: Server<'a>,
    /// The bytes that came in and are not taken yet. A closed connection has none.
    held: [Vec<u8>; SOURCES],
}

impl Run<'_> {
    fn follow(&mut self, record: &Record<'_>) {
        match *record {
            // One that is refused changes nothing.
            Record::Opens(connection) => {
                let _ = self.server.open(connection);
            }
            Record::Leaves(connection) => {
                if self.server.leave(connection).is_ok() {
                    self.held[connection].clear();
                }
            }
            Record::CameIn(connection, bytes) => self.came_in(connection, bytes),
        }
    }

    fn is_closed(&self, connection: usize) -> bool {
        connection != PLANT && self.server.is_closed(connection)
    }

    fn came_in(&mut self, connection: usize, bytes: &[u8]) {
        if self.is_closed(connection) {
            return;
        }
        let mut held = core::mem::take(&mut self.held[connection]);
        held.extend_from_slice(bytes);
        let taken = self.take_all(connection, &held);
        held.drain(..taken);
        self.held[connection] = held;
    }

    /// Takes messages until none is whole, and answers how many bytes need not be held any longer.
    fn take_all(&mut self, connection: usize, held: &[u8]) -> usize {
        let mut taken = 0;
        while taken < held.len() {
            match self.take(connection, &held[taken..]) {
                Ok(length) => taken += length,
                Err(fault) if fault.number == Refusal::Incomplete as u8 => return taken,
                // The plant's own code is no connection that could leave.
                Err(_) => {
                    let _ = self.server.leave(connection);
                    return held.len();
                }
            }
            // By a hello for another revision.
            if self.is_closed(connection) {
                return held.len();
            }
        }
        taken
    }

    /// Takes a message and answers its length.
    fn take(&mut self, connection: usize, bytes: &[u8]) -> Judged<usize> {
        if connection == PLANT {
            self.take_plants(bytes)
        } else {
            Ok(self.server.receive(connection, bytes, &mut Unread)?.taken)
        }
    }

    /// Takes a message of the plant's own code: a local call. Its sequence number is not used.
    fn take_plants(&mut self, bytes: &[u8]) -> Judged<usize> {
        let mut reader = Reader::new(bytes);
        match reader.u8()? {
            ASSIGNMENT => {
                let name = reader.name()?;
                let (type_code, kind) = reader.value_type()?;
                if reader.u16()? != NO_ID {
                    return Err(Refusal::Kind.into());
                }
                reader.u16()?;
                let value = reader.value(kind)?;
                self.server.create(name, type_code, value, &mut Unread)?;
            }
            UPDATE => {
                let i = self.server.table.held(reader.u16()?)?;
                reader.u16()?;
                let value = reader.value(self.server.table.kind(i)?)?;
                self.server.write(i, value, &mut Unread)?;
            }
            _ => return Err(Refusal::Kind.into()),
        }
        Ok(reader.at)
    }
}
