//! The server half: connections, clients' messages and local calls.

use crate::output::Output;
use crate::table::Table;
use crate::wire::{
    ASSIGNMENT, Fault, HELLO, HELLO_COMPLETE, Judged, KEEP_ALIVE, NO_ID, REVISION, Reader, Refusal,
    Type, UNSUPPORTED, UPDATE, check_name, check_value, write_heading, write_revision,
    write_update,
};
use crate::{IGNORED, answer};
use nt2_sys::{Answer, CONNECTIONS, DELIVERY_MESSAGES, Delivered, HEADING, LentTable};

const CLOSED: u8 = 0;
pub const OPEN: u8 = 1;
pub const GREETED: u8 = 2;

/// The sequence number of a new entry.
const START: u16 = 1;
/// Half the range of sequence numbers.
pub const HALF: u16 = 32_768;

/// Whether a received number passes the stored one.
fn passes(stored: u16, received: u16) -> bool {
    (1..HALF).contains(&received.wrapping_sub(stored))
}

pub struct Server<'a> {
    pub table: Table<'a>,
    marks: &'a mut [u8; CONNECTIONS],
}

/// A fresh start: the count is 0 and all connections are closed, other memory stays.
pub fn fresh(table: LentTable<'_>, marks: &mut [u8]) -> Answer {
    answer(Server::fresh(table, marks).map(|_| Answer::default()))
}

/// Opens a closed connection.
pub fn open(table: LentTable<'_>, marks: &mut [u8], connection: usize) -> Answer {
    let opened = Server::sound(table, marks).and_then(|mut server| server.open(connection));
    answer(opened.map(|()| Answer::default()))
}

/// Closes a connection that is open or greeted.
pub fn leave(table: LentTable<'_>, marks: &mut [u8], connection: usize) -> Answer {
    let left = Server::sound(table, marks).and_then(|mut server| server.leave(connection));
    answer(left.map(|()| Answer::default()))
}

/// Takes one message of a client.
pub fn receive(
    table: LentTable<'_>,
    marks: &mut [u8],
    connection: usize,
    message: &[u8],
    out: &mut [u8],
) -> Answer {
    answer(
        Server::sound(table, marks).and_then(|mut server| server.receive(connection, message, out)),
    )
}

/// Takes messages of a client in order. Each leaves a sound table sound, so that is judged once.
pub fn deliver(
    table: LentTable<'_>,
    marks: &mut [u8],
    connection: usize,
    input: &[u8],
    out: &mut [u8],
) -> Delivered {
    let mut delivered = Delivered::default();
    let ended = Server::sound(table, marks)
        .and_then(|mut server| server.deliver(connection, input, out, &mut delivered));
    match ended {
        Ok(ended) => Delivered { ended, ..delivered },
        Err(Fault { number, place }) => Delivered { number, place, ..delivered },
    }
}

/// Creates an entry for the plant's own code.
pub fn create(
    table: LentTable<'_>,
    marks: &mut [u8],
    name: &[u8],
    type_code: u8,
    value: &[u8],
    out: &mut [u8],
) -> Answer {
    answer(Server::sound(table, marks).and_then(|mut server| {
        check_name(name)?;
        check_value(Type::given(type_code)?, value)?;
        server.create(name, type_code, value, out)
    }))
}

/// Writes an entry's value for the plant's own code.
pub fn write(
    table: LentTable<'_>,
    marks: &mut [u8],
    id: u16,
    value: &[u8],
    out: &mut [u8],
) -> Answer {
    answer(Server::sound(table, marks).and_then(|mut server| {
        let i = server.table.held(id)?;
        check_value(server.table.kind(i)?, value)?;
        server.write(i, value, out)
    }))
}

impl<'a> Server<'a> {
    /// The server after its fresh start, on memory that is large enough.
    pub fn fresh(table: LentTable<'a>, marks: &'a mut [u8]) -> Judged<Self> {
        let marks: &mut [u8; CONNECTIONS] = marks.first_chunk_mut().ok_or(Refusal::Unsound)?;
        let mut table = Table::large_enough(table)?;
        table.clear();
        marks.fill(CLOSED);
        Ok(Server { table, marks })
    }

    /// The server on sound memory.
    pub fn sound(table: LentTable<'a>, marks: &'a mut [u8]) -> Judged<Self> {
        let marks: &mut [u8; CONNECTIONS] = marks.first_chunk_mut().ok_or(Refusal::Unsound)?;
        if marks.iter().any(|&mark| mark > GREETED) {
            return Err(Refusal::Unsound.into());
        }
        Ok(Server { table: Table::sound(table)?, marks })
    }

    /// All greeted connections as a set.
    fn greeted(&self) -> u16 {
        self.marks
            .iter()
            .enumerate()
            .fold(0, |set, (c, &mark)| set | u16::from(mark == GREETED) << c)
    }

    pub fn open(&mut self, connection: usize) -> Judged<()> {
        let mark = self.marks.get_mut(connection).ok_or(Refusal::NoSuchConnection)?;
        if *mark != CLOSED {
            return Err(Refusal::State.into());
        }
        *mark = OPEN;
        Ok(())
    }

    pub fn leave(&mut self, connection: usize) -> Judged<()> {
        let mark = self.marks.get_mut(connection).ok_or(Refusal::NoSuchConnection)?;
        if *mark == CLOSED {
            return Err(Refusal::State.into());
        }
        *mark = CLOSED;
        Ok(())
    }

    /// Whether one of the connections is closed.
    pub fn is_closed(&self, connection: usize) -> bool {
        self.marks[connection] == CLOSED
    }

    /// The mark of a connection that is not closed.
    pub fn mark(&self, connection: usize) -> Judged<u8> {
        match *self.marks.get(connection).ok_or(Refusal::NoSuchConnection)? {
            CLOSED => Err(Refusal::State.into()),
            mark => Ok(mark),
        }
    }

    /// Answers how the delivery ended, unless that is by a refusal, and counts what came before.
    fn deliver(
        &mut self,
        connection: usize,
        input: &[u8],
        out: &mut [u8],
        delivered: &mut Delivered,
    ) -> Judged<u8> {
        self.mark(connection)?;
        while delivered.taken < input.len() {
            if delivered.messages == DELIVERY_MESSAGES {
                return Ok(Delivered::MAX_REACHED);
            }
            let message = &input[delivered.taken..];
            let rest = &mut out[delivered.written..];
            let (heading, room) = rest.split_at_mut(HEADING.min(rest.len()));
            let answer = self.receive(connection, message, room)?;
            if answer.number != IGNORED {
                // Something was sent, so the heading before it is whole.
                write_heading(answer.recipients, answer.sent, heading);
                delivered.written += HEADING + answer.sent;
            }
            delivered.messages += 1;
            delivered.taken += answer.taken;
        }
        Ok(Delivered::SPENT)
    }

    pub fn receive(
        &mut self,
        connection: usize,
        message: &[u8],
        out: &mut (impl Output + ?Sized),
    ) -> Judged<Answer> {
        let mark = self.mark(connection)?;
        let mut reader = Reader::new(message);
        let kind = reader.u8()?;
        match (kind, mark) {
            (KEEP_ALIVE, _) => Ok(Answer { number: IGNORED, taken: 1, ..Answer::default() }),
            (HELLO, OPEN) => self.hello(connection, reader, out),
            (ASSIGNMENT, GREETED) => self.assignment(reader, out),
            (UPDATE, GREETED) => self.client_update(connection, reader, out),
            (HELLO | ASSIGNMENT | UPDATE, _) => Err(Refusal::State.into()),
            _ => Err(Refusal::Kind.into()),
        }
    }

    fn hello(
        &mut self,
        connection: usize,
        mut reader: Reader<'_>,
        out: &mut (impl Output + ?Sized),
    ) -> Judged<Answer> {
        let (mark, sent) = if reader.u16()? == REVISION {
            (GREETED, self.write_entries(out)?)
        } else {
            out.demand(3)?;
            out.write(|out| write_revision(UNSUPPORTED, REVISION, out));
            (CLOSED, 3)
        };
        self.marks[connection] = mark;
        Ok(Answer { recipients: 1 << connection, taken: reader.at, sent, ..Answer::default() })
    }

    /// One assignment for each entry in rising ID, then the hello's end.
    fn write_entries(&self, out: &mut (impl Output + ?Sized)) -> Judged<usize> {
        let table = &self.table;
        let length: usize = (0..table.count()).map(|i| table.assignment(i).length()).sum();
        out.demand(length + 1)?;
        out.write(|out| {
            let mut end = 0;
            for i in 0..table.count() {
                end += table.assignment(i).write(&mut out[end..]);
            }
            out[end] = HELLO_COMPLETE;
            end + 1
        });
        Ok(length + 1)
    }

    fn assignment(
        &mut self,
        mut reader: Reader<'_>,
        out: &mut (impl Output + ?Sized),
    ) -> Judged<Answer> {
        let name = reader.name()?;
        let (type_code, kind) = reader.value_type()?;
        if reader.u16()? != NO_ID {
            return Err(Refusal::AssignmentId.into());
        }
        reader.u16()?;
        let value = reader.value(kind)?;
        let taken = reader.at;
        if self.table.find(name).is_some() {
            return Ok(Answer { number: IGNORED, taken, ..Answer::default() });
        }
        Ok(Answer { taken, ..self.assign(name, type_code, value, out)? })
    }

    /// Stores a new entry and writes its assignment for all greeted.
    fn assign(
        &mut self,
        name: &[u8],
        type_code: u8,
        value: &[u8],
        out: &mut (impl Output + ?Sized),
    ) -> Judged<Answer> {
        if self.table.is_full() {
            return Err(Refusal::Full.into());
        }
        let (i, sent) = (self.table.count(), 8 + name.len() + value.len());
        out.demand(sent)?;
        self.table.append(name, type_code, START, value);
        out.write(|out| self.table.assignment(i).write(out));
        Ok(Answer { recipients: self.greeted(), sent, ..Answer::default() })
    }

    /// Creates an entry of a name, type and value that obey the build description.
    pub fn create(
        &mut self,
        name: &[u8],
        type_code: u8,
        value: &[u8],
        out: &mut (impl Output + ?Sized),
    ) -> Judged<Answer> {
        if self.table.find(name).is_some() {
            return Err(Refusal::NameHeld.into());
        }
        self.assign(name, type_code, value, out)
    }

    /// Writes a value of its type to entry i. Whatever the type, values are equal by their bytes.
    pub fn write(
        &mut self,
        i: usize,
        value: &[u8],
        out: &mut (impl Output + ?Sized),
    ) -> Judged<Answer> {
        if self.table.value(i) == value {
            return Ok(Answer { number: IGNORED, ..Answer::default() });
        }
        let number = self.table.number(i).wrapping_add(1);
        let sent = self.update(i, number, value, out)?;
        Ok(Answer { recipients: self.greeted(), sent, ..Answer::default() })
    }

    fn client_update(
        &mut self,
        connection: usize,
        mut reader: Reader<'_>,
        out: &mut (impl Output + ?Sized),
    ) -> Judged<Answer> {
        let i = self.table.held(reader.u16()?)?;
        let number = reader.u16()?;
        let value = reader.value(self.table.kind(i)?)?;
        let taken = reader.at;
        if !passes(self.table.number(i), number) {
            return Ok(Answer { number: IGNORED, taken, ..Answer::default() });
        }
        let sent = self.update(i, number, value, out)?;
        let recipients = self.greeted() & !(1 << connection);
        Ok(Answer { recipients, taken, sent, ..Answer::default() })
    }

    /// Stores number and value of entry i and writes the update.
    fn update(
        &mut self,
        i: usize,
        number: u16,
        value: &[u8],
        out: &mut (impl Output + ?Sized),
    ) -> Judged<usize> {
        let sent = 5 + value.len();
        out.demand(sent)?;
        self.table.store(i, number, value);
        out.write(|out| write_update(i as u16, number, value, out));
        Ok(sent)
    }
}

#[cfg(test)]
mod tests {
    use super::passes;

    /// The build description's comparisons P1 to P10: stored, received, applied.
    #[test]
    fn comparisons() {
        let table = [
            (1, 2, true),
            (1, 1, false),
            (5, 4, false),
            (65_535, 0, true),
            (0, 65_535, false),
            (0, 32_767, true),
            (0, 32_768, false),
            (32_768, 0, false),
            (65_535, 32_766, true),
            (65_535, 32_767, false),
        ];
        for (stored, received, applied) in table {
            assert_eq!(passes(stored, received), applied, "{stored}, {received}");
        }
    }
}
