//! A reason beside the call that it is about, and what it can be like.

use crate::call::PLACED;
use crate::implementation::Implementation;
use crate::memory::Memory;
use nt2_sys::{Answer, CONNECTIONS, ENTRIES, LONGEST_HELLO_ANSWER, Reason};

/// Half the range of sequence numbers.
const HALF: u16 = 32_768;

/// What a message that is asked about, and its reason, can be like: so many sorts.
pub const SORTS: usize = 72;

/// Whether a reason has its number, and nothing that it does not tell.
pub fn keeps_form(reason: Reason) -> bool {
    let Reason { reason, number, id, distance, place } = reason;
    let has_number = match reason {
        Reason::REFUSED => matches!(number, 1..=11 | 14),
        Reason::APPLIED | Reason::DONE => number == 0,
        Reason::KEEP_ALIVE..=Reason::UNDEFINED => number == 16,
        _ => false,
    };
    let has_distance = match reason {
        Reason::OLDER | Reason::APPLIED => (1..HALF).contains(&distance),
        Reason::UNDEFINED => distance == HALF,
        _ => distance == 0,
    };
    let has_id = id == 0 || reason == Reason::NAME_HELD;
    let has_place = place == 0 || reason == Reason::REFUSED;
    has_number && has_distance && has_id && has_place
}

/// Makes the call that a reason is about, lent the longest output, and answers what comes of it where
/// that has another number or, with 7 to 10, another place.
pub fn real_call_differs<I: Implementation>(
    server: &mut Memory,
    connection: usize,
    message: &[u8],
    reason: Reason,
) -> Option<Answer> {
    let (table, marks) = server.lend();
    let answer = I::receive(table, marks, connection, message, &mut [0; LONGEST_HELLO_ANSWER]);
    let place = if PLACED.contains(&reason.number) { reason.place } else { 0 };
    ((answer.number, answer.place) != (reason.number, place)).then_some(answer)
}

/// The fields of messages.
#[derive(Clone, Copy, Debug, PartialEq, Eq)]
pub enum Field {
    Kind,
    Revision,
    NameLength,
    Name,
    Type,
    Id,
    Number,
    Boolean,
    Double,
    StringLength,
    String,
    Count,
    BooleanElement,
    DoubleElement,
    ElementLength,
    Element,
}

/// The fields of a client's message by their layout alone, each with the place of its first byte. The
/// last one may not be there.
#[derive(Clone, Debug, Default)]
pub struct Layout<'a> {
    message: &'a [u8],
    at: usize,
    pub fields: Vec<(Field, usize)>,
    /// Bytes of the message, if it is whole.
    pub taken: Option<usize>,
}

impl<'a> Layout<'a> {
    pub fn of(server: &Memory, message: &'a [u8]) -> Self {
        let mut layout = Layout { message, ..Layout::default() };
        layout.taken = layout.message(server).map(|()| layout.at);
        layout
    }

    /// The field that starts at a place. A text without bytes starts where the next field does.
    pub fn at(&self, place: usize) -> Option<Field> {
        self.fields.iter().rfind(|(_, at)| *at == place).map(|(field, _)| *field)
    }

    fn put(&mut self, field: Field, length: usize) -> Option<&'a [u8]> {
        self.fields.push((field, self.at));
        let bytes = self.message.get(self.at..self.at + length)?;
        self.at += length;
        Some(bytes)
    }

    fn put_number(&mut self, field: Field, length: usize) -> Option<usize> {
        let bytes = self.put(field, length)?;
        Some(bytes.iter().fold(0, |number, byte| number << 8 | usize::from(*byte)))
    }

    fn put_text(&mut self, length: Field, text: Field) -> Option<()> {
        let length = self.put_number(length, 2)?;
        self.put(text, length).map(|_| ())
    }

    fn message(&mut self, server: &Memory) -> Option<()> {
        match self.put_number(Field::Kind, 1)? {
            0x00 => Some(()),
            0x01 => self.put(Field::Revision, 2).map(|_| ()),
            0x10 => {
                self.put_text(Field::NameLength, Field::Name)?;
                let type_code = self.put_number(Field::Type, 1)?;
                self.put(Field::Id, 2)?;
                self.put(Field::Number, 2)?;
                self.value(type_code)
            }
            0x11 => {
                let id = self.put_number(Field::Id, 2)?;
                self.put(Field::Number, 2)?;
                let held = server.heads.lent().iter().take(server.count()).nth(id)?;
                self.value(usize::from(held.type_code))
            }
            _ => None,
        }
    }

    fn value(&mut self, type_code: usize) -> Option<()> {
        match type_code {
            0x00 => self.put(Field::Boolean, 1).map(|_| ()),
            0x01 => self.put(Field::Double, 8).map(|_| ()),
            0x02 => self.put_text(Field::StringLength, Field::String),
            0x10..=0x12 => {
                (0..self.put_number(Field::Count, 1)?).try_for_each(|_| match type_code {
                    0x10 => self.put(Field::BooleanElement, 1).map(|_| ()),
                    0x11 => self.put(Field::DoubleElement, 8).map(|_| ()),
                    _ => self.put_text(Field::ElementLength, Field::Element),
                })
            }
            _ => None,
        }
    }
}

/// A message of a client that was asked about, on a memory, and the reason.
#[derive(Clone, Copy, Debug)]
pub struct Asked<'a> {
    pub server: &'a Memory,
    pub connection: usize,
    pub message: &'a [u8],
    pub reason: Reason,
}

impl Asked<'_> {
    /// The sorts, none of them met.
    pub fn no_sorts() -> [(&'static str, u64); SORTS] {
        let server = &Memory::new(&[], &[], 0, &[]);
        let nothing = Asked { server, connection: 0, message: &[], reason: Reason::default() };
        nothing.sorts().map(|(sort, _)| (sort, 0))
    }

    /// The sequence numbers of an update: stored and received.
    fn numbers(&self) -> Option<(u16, u16)> {
        let [0x11, i, d, n, m, ..] = *self.message else {
            return None;
        };
        let head = self.server.heads.lent().get(usize::from(u16::from_be_bytes([i, d])))?;
        Some((head.number, u16::from_be_bytes([n, m])))
    }

    /// What this can be like, and whether it is.
    pub fn sorts(&self) -> [(&'static str, bool); SORTS] {
        let Asked { server, connection, message, reason } = *self;
        let Reason { reason, number, id, distance, place } = reason;
        let layout = Layout::of(server, message);
        let (mark, kind) = (server.marks.lent().get(connection), message.first());
        let (open, greeted) = (mark == Some(&1), mark == Some(&2));
        let (closed, cut) = (mark == Some(&0), layout.taken.is_none());
        let behind = layout.taken.is_some_and(|taken| taken < message.len());
        let full = server.count() == ENTRIES;
        let (keep_alive, held) = (reason == Reason::KEEP_ALIVE, reason == Reason::NAME_HELD);
        let (older, applied) = (reason == Reason::OLDER, reason == Reason::APPLIED);
        let (undefined, done) = (reason == Reason::UNDEFINED, reason == Reason::DONE);
        let last = usize::from(id) + 1 == server.count();
        let above = self.numbers().is_some_and(|(stored, received)| stored < received);
        let below = self.numbers().is_some_and(|(stored, received)| stored > received);
        let refused = |refusal: u8| reason == Reason::REFUSED && number == refusal;
        let at = |refusal: u8, field| refused(refusal) && layout.at(place) == Some(field);
        let known = |byte: &u8| matches!(byte, 0x00..=0x02 | 0x10..=0x12);
        let type_place = layout.fields.iter().find(|(field, _)| *field == Field::Type);
        let type_unknown =
            type_place.and_then(|(_, at)| message.get(*at)).is_some_and(|byte| !known(byte));
        [
            ("keep alive", keep_alive && greeted),
            ("keep alive before greeting", keep_alive && open),
            ("name held", held && !full),
            ("name held, full table", held && full),
            ("name held by the first entry", held && id == 0 && !last),
            ("name held by the last entry", held && id > 0 && last),
            ("equal", reason == Reason::EQUAL),
            ("older by 1", older && distance == 1),
            ("older by more", older && (2..HALF - 1).contains(&distance)),
            ("older by 32,767", older && distance == HALF - 1),
            ("older with a higher number", older && above),
            ("undefined with a higher number", undefined && above),
            ("undefined with a lower number", undefined && below),
            ("applied with 1", applied && distance == 1),
            ("applied with more", applied && (2..HALF - 1).contains(&distance)),
            ("applied with 32,767", applied && distance == HALF - 1),
            ("applied with a lower number", applied && below),
            ("hello", done && message.starts_with(&[0x01, 0x02, 0x00])),
            ("hello, full table", done && kind == Some(&0x01) && full),
            ("another revision", done && kind == Some(&0x01) && message[1..3] != [0x02, 0x00]),
            ("new entry", done && kind == Some(&0x10)),
            ("bytes behind it", behind && reason != Reason::REFUSED),
            ("14", refused(14)),
            ("14, connection above 15", refused(14) && connection >= CONNECTIONS),
            ("2", refused(2)),
            ("2, no message", refused(2) && message.is_empty()),
            ("3, closed", refused(3) && closed),
            ("3, closed, no message", refused(3) && closed && message.is_empty()),
            ("3, closed, kind unknown", refused(3) && closed && kind > Some(&0x11)),
            ("3, hello", refused(3) && kind == Some(&0x01) && greeted),
            ("3, assignment", refused(3) && kind == Some(&0x10) && open),
            ("3, update", refused(3) && kind == Some(&0x11) && open),
            ("3, cut", refused(3) && !closed && cut),
            ("4 before greeting", refused(4) && open),
            ("4, a server's kind", refused(4) && matches!(kind, Some(0x02 | 0x03))),
            ("4, kind unknown", refused(4) && kind > Some(&0x11)),
            ("1 at the kind", at(1, Field::Kind)),
            ("1 at the revision", at(1, Field::Revision)),
            ("1 at the name's length", at(1, Field::NameLength)),
            ("1 at the name", at(1, Field::Name)),
            ("1 at the type", at(1, Field::Type)),
            ("1 at an assignment's ID", at(1, Field::Id) && kind == Some(&0x10)),
            ("1 at an update's ID", at(1, Field::Id) && kind == Some(&0x11)),
            ("1 at an assignment's number", at(1, Field::Number) && kind == Some(&0x10)),
            ("1 at an update's number", at(1, Field::Number) && kind == Some(&0x11)),
            ("1 at a Boolean", at(1, Field::Boolean)),
            ("1 at a Double", at(1, Field::Double)),
            ("1 at a String's length", at(1, Field::StringLength)),
            ("1 at a String", at(1, Field::String)),
            ("1 at the count", at(1, Field::Count)),
            ("1 at a Boolean of an array", at(1, Field::BooleanElement)),
            ("1 at a Double of an array", at(1, Field::DoubleElement)),
            ("1 at an element's length", at(1, Field::ElementLength)),
            ("1 at an element", at(1, Field::Element)),
            ("5", at(5, Field::Id)),
            ("5, cut", at(5, Field::Id) && cut),
            ("6", at(6, Field::Id)),
            ("6, no number", at(6, Field::Id) && message.len() < 5),
            ("7", at(7, Field::Type)),
            ("8", at(8, Field::Boolean)),
            ("8 in an array", at(8, Field::BooleanElement)),
            ("8 in an array, cut", at(8, Field::BooleanElement) && cut),
            ("9 in the name", at(9, Field::Name)),
            ("9 in the name, type unknown", at(9, Field::Name) && type_unknown),
            ("9 in a String", at(9, Field::String)),
            ("9 in an element", at(9, Field::Element)),
            ("10 at the name's length", at(10, Field::NameLength)),
            ("10 at the name's length, cut", at(10, Field::NameLength) && cut),
            ("10 at a String's length", at(10, Field::StringLength)),
            ("10 at the count", at(10, Field::Count)),
            ("10 at an element's length", at(10, Field::ElementLength)),
            ("11", refused(11)),
        ]
    }
}

#[cfg(test)]
mod tests {
    use super::*;
    use nt2_sys::Head;

    #[test]
    fn fields_of_messages() {
        let server = Memory::new(&[Head { type_code: 0x12, ..Head::default() }], &[], 1, &[]);
        let layout = Layout::of(&server, b"\x11\x00\x00\x00\x02\x02\x00\x00\x00\x02a");
        let fields = [
            (Field::Kind, 0),
            (Field::Id, 1),
            (Field::Number, 3),
            (Field::Count, 5),
            (Field::ElementLength, 6),
            (Field::Element, 8),
            (Field::ElementLength, 8),
            (Field::Element, 10),
        ];
        assert_eq!(layout.fields, fields);
        assert_eq!((layout.at(8), layout.taken), (Some(Field::ElementLength), None));
        let layout = Layout::of(&server, b"\x10\x00\x01a\x00\xFF\xFF\x00\x00\x01\x00");
        let value = layout.fields.last();
        assert_eq!((value, layout.taken), (Some(&(Field::Boolean, 9)), Some(10)));
    }

    #[test]
    fn reasons_tell_what_is_theirs() {
        let reason = |reason, number| Reason { reason, number, ..Reason::default() };
        let good = [
            Reason { place: 3, ..reason(Reason::REFUSED, 9) },
            Reason { id: 63, ..reason(Reason::NAME_HELD, 16) },
            Reason { distance: 32_767, ..reason(Reason::OLDER, 16) },
            Reason { distance: 32_768, ..reason(Reason::UNDEFINED, 16) },
            Reason { distance: 1, ..reason(Reason::APPLIED, 0) },
            reason(Reason::DONE, 0),
        ];
        let bad = [
            reason(Reason::REFUSED, 0),
            reason(Reason::REFUSED, 12),
            reason(Reason::KEEP_ALIVE, 0),
            Reason { id: 1, ..reason(Reason::EQUAL, 16) },
            Reason { distance: 32_768, ..reason(Reason::OLDER, 16) },
            Reason { distance: 0, ..reason(Reason::APPLIED, 0) },
            Reason { place: 1, ..reason(Reason::DONE, 0) },
            reason(8, 0),
        ];
        assert!(good.into_iter().all(keeps_form));
        assert!(!bad.into_iter().any(keeps_form));
    }
}
