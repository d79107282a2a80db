//! Why a client's message is done, ignored or refused: the check that decides.
//!
//! The checks stand here once more, in the build description's order and each with its field, so that
//! the number of a reason can be compared with that of the call itself.

use crate::IGNORED;
use crate::server::{GREETED, HALF, OPEN, Server};
use crate::table::Table;
use crate::wire::{ASSIGNMENT, Fault, HELLO, Judged, KEEP_ALIVE, NO_ID, Refusal, Type, UPDATE};
use core::str;
use nt2_sys::{LentTable, NAME_ROOM, Reason, VALUE_ROOM};

/// Names the check that decides a message of a client. Nothing is changed, and no output is looked at.
pub fn why(table: LentTable<'_>, marks: &mut [u8], connection: usize, message: &[u8]) -> Reason {
    let decided =
        Server::sound(table, marks).and_then(|server| decide(&server, connection, message));
    decided.unwrap_or_else(|Fault { number, place }| Reason {
        reason: Reason::REFUSED,
        number,
        place,
        ..Reason::default()
    })
}

fn done(reason: u8) -> Reason {
    Reason { reason, ..Reason::default() }
}

fn ignored(reason: u8) -> Reason {
    Reason { reason, number: IGNORED, ..Reason::default() }
}

fn decide(server: &Server<'_>, connection: usize, message: &[u8]) -> Judged<Reason> {
    let mark = server.mark(connection)?;
    let mut message = Cursor { message, at: 0 };
    let kind = message.field(1)?.byte();
    let state = match kind {
        KEEP_ALIVE => return Ok(ignored(Reason::KEEP_ALIVE)),
        HELLO => OPEN,
        ASSIGNMENT | UPDATE => GREETED,
        _ => return Err(Refusal::Kind.at(0)),
    };
    if mark != state {
        return Err(Refusal::State.at(0));
    }
    match kind {
        HELLO => {
            message.field(2)?;
            Ok(done(Reason::DONE))
        }
        ASSIGNMENT => decide_assignment(&server.table, message),
        _ => decide_update(&server.table, message),
    }
}

fn decide_assignment(table: &Table<'_>, mut message: Cursor<'_>) -> Judged<Reason> {
    let name = message.name()?;
    let type_code = message.field(1)?;
    let kind = Type::of(type_code.number()).ok_or(Refusal::Type.at(type_code.place))?;
    let id = message.field(2)?;
    id.demand(id.number() == NO_ID, Refusal::AssignmentId)?;
    let _sequence_number = message.field(2)?;
    message.value(kind)?;
    match table.find(name) {
        Some(i) => Ok(Reason { id: i as u16, ..ignored(Reason::NAME_HELD) }),
        None if table.is_full() => Err(Refusal::Full.at(0)),
        None => Ok(done(Reason::DONE)),
    }
}

fn decide_update(table: &Table<'_>, mut message: Cursor<'_>) -> Judged<Reason> {
    let id = message.field(2)?;
    let i = usize::from(id.number());
    id.demand(i < table.count(), Refusal::UnknownId)?;
    let received = message.field(2)?.number();
    message.value(table.kind(i)?)?;
    Ok(compare(table.number(i), received))
}

/// By how much the received number is ahead of the stored one, or behind it.
fn compare(stored: u16, received: u16) -> Reason {
    let (ahead, behind) = (received.wrapping_sub(stored), stored.wrapping_sub(received));
    match ahead {
        0 => ignored(Reason::EQUAL),
        1..HALF => Reason { distance: ahead, ..done(Reason::APPLIED) },
        HALF => Reason { distance: HALF, ..ignored(Reason::UNDEFINED) },
        _ => Reason { distance: behind, ..ignored(Reason::OLDER) },
    }
}

/// A field that is wholly there, with the place of its first byte.
struct Field<'a> {
    bytes: &'a [u8],
    place: usize,
}

impl Field<'_> {
    fn byte(&self) -> u8 {
        self.bytes[0]
    }

    /// The number in one or two bytes.
    fn number(&self) -> u16 {
        self.bytes.iter().fold(0, |number, &byte| number << 8 | u16::from(byte))
    }

    /// Refuses this field if a check fails.
    fn demand(&self, check: bool, refusal: Refusal) -> Judged<()> {
        if check { Ok(()) } else { Err(refusal.at(self.place)) }
    }
}

/// A message, and where its next field starts.
struct Cursor<'a> {
    message: &'a [u8],
    at: usize,
}

impl<'a> Cursor<'a> {
    /// The next field, if it is wholly there.
    fn field(&mut self, length: usize) -> Judged<Field<'a>> {
        let place = self.at;
        let bytes = self.message.get(place..place + length);
        let bytes = bytes.ok_or(Refusal::Incomplete.at(place))?;
        self.at += length;
        Ok(Field { bytes, place })
    }

    /// Two fields: a length, by which the text may end at `end` at most, and the text.
    fn text(&mut self, end: usize) -> Judged<&'a [u8]> {
        let prefix = self.field(2)?;
        let length = usize::from(prefix.number());
        prefix.demand(self.at + length <= end, Refusal::TooLong)?;
        let text = self.field(length)?;
        text.demand(str::from_utf8(text.bytes).is_ok(), Refusal::Text)?;
        Ok(text.bytes)
    }

    /// A name's length is not counted.
    fn name(&mut self) -> Judged<&'a [u8]> {
        self.text(self.at + 2 + NAME_ROOM)
    }

    fn boolean(&mut self) -> Judged<()> {
        let boolean = self.field(1)?;
        boolean.demand(boolean.byte() <= 1, Refusal::Boolean)
    }

    /// Any eight bytes.
    fn double(&mut self) -> Judged<()> {
        self.field(8).map(|_| ())
    }

    /// A value from its first field to its last, each element of an array by itself.
    fn value(&mut self, kind: Type) -> Judged<()> {
        let end = self.at + VALUE_ROOM;
        match kind {
            Type::Boolean => self.boolean(),
            Type::Double => self.double(),
            Type::String => self.text(end).map(|_| ()),
            Type::BooleanArray => {
                let count = self.field(1)?;
                (0..count.byte()).try_for_each(|_| self.boolean())
            }
            Type::DoubleArray => {
                let count = self.field(1)?;
                let size = 8 * usize::from(count.byte());
                count.demand(self.at + size <= end, Refusal::TooLong)?;
                (0..count.byte()).try_for_each(|_| self.double())
            }
            Type::StringArray => {
                let count = self.field(1)?;
                (0..count.byte()).try_for_each(|_| self.text(end).map(|_| ()))
            }
        }
    }
}

#[cfg(test)]
mod tests {
    use super::compare;
    use nt2_sys::Reason;

    /// The build description's comparisons P1 to P10, and the other ends of the ranges: stored, received,
    /// the reason and its distance.
    #[test]
    fn distances() {
        let table = [
            (1, 2, Reason::APPLIED, 1),
            (1, 1, Reason::EQUAL, 0),
            (5, 4, Reason::OLDER, 1),
            (65_535, 0, Reason::APPLIED, 1),
            (0, 65_535, Reason::OLDER, 1),
            (0, 32_767, Reason::APPLIED, 32_767),
            (0, 32_768, Reason::UNDEFINED, 32_768),
            (32_768, 0, Reason::UNDEFINED, 32_768),
            (65_535, 32_766, Reason::APPLIED, 32_767),
            (65_535, 32_767, Reason::UNDEFINED, 32_768),
            (0, 32_769, Reason::OLDER, 32_767),
            (32_767, 0, Reason::OLDER, 32_767),
            (7, 65_535, Reason::OLDER, 8),
            (60_000, 10, Reason::APPLIED, 5_546),
        ];
        for (stored, received, reason, distance) in table {
            let compared = compare(stored, received);
            assert_eq!((compared.reason, compared.distance), (reason, distance));
        }
    }
}
