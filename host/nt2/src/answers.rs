//! Answers as enums, with the numbers of the build description.

use crate::number::{
    ASSIGNMENT_ID, DONE, FILLING, FULL, IGNORED, INCOMPLETE, KIND, NAME_HELD, NO_SUCH_CONNECTION,
    NOT_BOOLEAN, NOT_TEXT, ROOM, STATE, TOO_LONG, TYPE, UNKNOWN_ID, UNSOUND,
};
use nt2_sys::{Answer, Delivered, NAME_ROOM, Replayed, headed};
use std::error::Error;
use std::fmt;

/// Why a call, or a message of a delivery, was refused; for a bad type, Boolean, text or length with
/// its place. It changed no memory.
#[derive(Clone, Copy, Debug, PartialEq, Eq, Hash)]
pub enum Refusal {
    /// Message, value or saved table not complete.
    Incomplete,
    /// Connection number above 15.
    NoSuchConnection,
    /// Connection state does not allow this.
    State,
    /// Kind of a message or saved record unknown, or not for this end.
    Kind,
    /// Assignment ID not the one allowed.
    AssignmentId,
    /// ID not in the table.
    UnknownId,
    /// Type unknown: the place is that of the type byte.
    Type(Place),
    /// Boolean byte not 0 or 1: the place is that of this byte.
    Boolean(Place),
    /// Text not UTF-8: the place is that of the text's first byte, whichever byte is wrong.
    Text(Place),
    /// Name or value too long, or bytes left after a lone value. The place is that of the length of a
    /// name, String or element, of the count of a Double Array, or of the first byte left; for a name
    /// given without its length, of its first byte. In a saved table also: too many entries, at their
    /// count; a value too long, at its length; or bytes left behind the last entry.
    TooLong(Place),
    /// Table full.
    Full,
    /// Output too short.
    Room,
    /// Name already there.
    NameHeld,
    /// Lent table unsound or too small.
    Unsound,
    /// In a saved table, a byte that fills up a name or value is not zero.
    Filling,
}

impl Refusal {
    /// The refusal with this number, 1 to 15. Those from 7 to 10 need a place, the others have none.
    pub(crate) fn of(number: u8, place: Option<Place>) -> Option<Refusal> {
        Some(match number {
            INCOMPLETE => Refusal::Incomplete,
            NO_SUCH_CONNECTION => Refusal::NoSuchConnection,
            STATE => Refusal::State,
            KIND => Refusal::Kind,
            ASSIGNMENT_ID => Refusal::AssignmentId,
            UNKNOWN_ID => Refusal::UnknownId,
            TYPE => Refusal::Type(place?),
            NOT_BOOLEAN => Refusal::Boolean(place?),
            NOT_TEXT => Refusal::Text(place?),
            TOO_LONG => Refusal::TooLong(place?),
            FULL => Refusal::Full,
            ROOM => Refusal::Room,
            NAME_HELD => Refusal::NameHeld,
            UNSOUND => Refusal::Unsound,
            FILLING => Refusal::Filling,
            _ => return None,
        })
    }

    /// The refusal's number, 1 to 15.
    pub fn number(self) -> u8 {
        self.number_and_words().0
    }

    /// Where the fault is, with the numbers 7 to 10.
    pub fn place(self) -> Option<Place> {
        match self {
            Refusal::Type(place)
            | Refusal::Boolean(place)
            | Refusal::Text(place)
            | Refusal::TooLong(place) => Some(place),
            _ => None,
        }
    }

    fn number_and_words(self) -> (u8, &'static str) {
        match self {
            Refusal::Incomplete => (INCOMPLETE, "message, value or saved table is not complete"),
            Refusal::NoSuchConnection => (NO_SUCH_CONNECTION, "connection number is above 15"),
            Refusal::State => (STATE, "connection state does not allow this"),
            Refusal::Kind => (KIND, "kind is unknown, or not for this end"),
            Refusal::AssignmentId => (ASSIGNMENT_ID, "assignment ID is not the one allowed"),
            Refusal::UnknownId => (UNKNOWN_ID, "ID is not in the table"),
            Refusal::Type(_) => (TYPE, "type is unknown"),
            Refusal::Boolean(_) => (NOT_BOOLEAN, "Boolean byte is not 0 or 1"),
            Refusal::Text(_) => (NOT_TEXT, "text is not UTF-8"),
            Refusal::TooLong(Place::Message(_)) => (TOO_LONG, "name or value is too long"),
            Refusal::TooLong(Place::Name(_)) => (TOO_LONG, "name is too long"),
            Refusal::TooLong(Place::Value(_)) => {
                (TOO_LONG, "value is too long, or bytes are left after it")
            }
            Refusal::TooLong(Place::Saved(_)) => {
                (TOO_LONG, "count or length is too great, or bytes are left")
            }
            Refusal::Full => (FULL, "table is full"),
            Refusal::Room => (ROOM, "output is too short"),
            Refusal::NameHeld => (NAME_HELD, "name is already there"),
            Refusal::Unsound => (UNSOUND, "lent table is unsound or too small"),
            Refusal::Filling => (FILLING, "filling is not zero"),
        }
    }
}

impl fmt::Display for Refusal {
    fn fmt(&self, f: &mut fmt::Formatter<'_>) -> fmt::Result {
        f.write_str(self.number_and_words().1)?;
        match self.place() {
            Some(place) => write!(f, ", at {place}"),
            None => Ok(()),
        }
    }
}

impl Error for Refusal {}

/// A byte of what was given to a call, counted from 0.
#[derive(Clone, Copy, Debug, PartialEq, Eq, Hash)]
#[non_exhaustive]
pub enum Place {
    /// A byte of the message.
    Message(usize),
    /// A byte of the name.
    Name(usize),
    /// A byte of the encoded value.
    Value(usize),
    /// A byte of the saved table.
    Saved(usize),
}

impl Place {
    /// The byte, counted from 0 at the start of the message, name, value or saved table.
    pub fn byte(self) -> usize {
        match self {
            Place::Message(byte) | Place::Name(byte) | Place::Value(byte) | Place::Saved(byte) => {
                byte
            }
        }
    }

    /// Where a call that is given a name and a value found a fault. The name is judged first, and no
    /// text starts at a value's first byte.
    pub(crate) fn in_name_or_value(name: &[u8], answer: Answer) -> Place {
        let Answer { number, place, .. } = answer;
        let in_name = name.len() > NAME_ROOM || (number, place) == (NOT_TEXT, 0);
        if in_name { Place::Name(place) } else { Place::Value(place) }
    }
}

impl fmt::Display for Place {
    fn fmt(&self, f: &mut fmt::Formatter<'_>) -> fmt::Result {
        let given = match self {
            Place::Message(_) => "message",
            Place::Name(_) => "name",
            Place::Value(_) => "value",
            Place::Saved(_) => "saved table",
        };
        write!(f, "byte {} of the {given}", self.byte())
    }
}

/// Whether a number says that the call is done; otherwise it is ignored. A call that reads no bytes has
/// no place.
pub(crate) fn is_done(number: u8, place: Option<Place>) -> Result<bool, Refusal> {
    match number {
        DONE => Ok(true),
        IGNORED => Ok(false),
        number => Err(refusal(number, place)),
    }
}

fn refusal(number: u8, place: Option<Place>) -> Refusal {
    Refusal::of(number, place).expect("a number of the build description")
}

/// A set of connections.
#[derive(Clone, Copy, Debug, PartialEq, Eq)]
pub struct Recipients(pub u16);

impl Recipients {
    pub fn contains(self, connection: usize) -> bool {
        connection < 16 && self.0 >> connection & 1 == 1
    }

    pub fn is_empty(self) -> bool {
        self.0 == 0
    }

    /// The connections in rising order.
    pub fn iter(self) -> impl Iterator<Item = usize> {
        (0..16).filter(move |&connection| self.contains(connection))
    }
}

/// What a call sends, and to whom.
#[derive(Clone, Copy, Debug, PartialEq, Eq)]
pub struct Sent<'a> {
    pub bytes: &'a [u8],
    pub recipients: Recipients,
}

/// A client's message that was taken.
#[derive(Clone, Copy, Debug, PartialEq, Eq)]
pub enum Received<'a> {
    Done { taken: usize, sent: Sent<'a> },
    Ignored { taken: usize },
}

/// How a delivery ended.
#[derive(Clone, Copy, Debug, PartialEq, Eq)]
pub enum Ended {
    /// No input is left.
    Spent,
    /// [`DELIVERY_MESSAGES`](crate::DELIVERY_MESSAGES) were taken, and input is left.
    MaxReached,
    /// The next message was refused. A place counts from that message's start.
    Refused(Refusal),
}

/// What came of a delivery. The messages before a refused one stand, and what they send is here.
#[derive(Clone, Copy, Debug, PartialEq, Eq)]
#[must_use = "the messages taken may have sent something, whether or not one was refused"]
pub struct Delivery<'a> {
    pub ended: Ended,
    /// Messages taken: those done and those ignored.
    pub messages: usize,
    /// Bytes of the messages taken.
    pub taken: usize,
    written: &'a [u8],
}

impl<'a> Delivery<'a> {
    pub(crate) fn of(delivered: Delivered, out: &'a [u8]) -> Self {
        let Delivered { number, ended, messages, taken, written, place } = delivered;
        let ended = match ended {
            Delivered::SPENT => Ended::Spent,
            Delivered::MAX_REACHED => Ended::MaxReached,
            _ => Ended::Refused(refusal(number, Some(Place::Message(place)))),
        };
        Delivery { ended, messages, taken, written: &out[..written] }
    }

    /// Messages that were ignored: what each of the others sends has a heading, even if to no one.
    pub fn ignored(self) -> usize {
        self.messages - self.sent().count()
    }

    /// What each message that was done sends, in their order.
    pub fn sent(self) -> impl Iterator<Item = Sent<'a>> {
        let sent = |(recipients, bytes)| Sent { bytes, recipients: Recipients(recipients) };
        headed(self.written).map(sent)
    }
}

/// Which check decides a client's message. With a refusal, the first in order that fails.
#[derive(Clone, Copy, Debug, PartialEq, Eq, Hash)]
pub enum Reason {
    /// Refused, but never for want of room. The place is the byte of the message at which the field
    /// that failed starts; 0 where there is none.
    Refused { refusal: Refusal, place: usize },
    /// Ignored: a keep alive.
    KeepAlive,
    /// Ignored: the entry with this ID has the assignment's name.
    NameHeld { id: u16 },
    /// Ignored: the update's number is the stored one.
    Equal,
    /// Ignored: the update's number is older than the stored one, by 1 to 32,767.
    Older { by: u16 },
    /// Ignored: the update's number and the stored one are 32,768 apart, so neither is greater.
    Undefined,
    /// Done: the update's number is greater than the stored one, by 1 to 32,767.
    Applied { by: u16 },
    /// Done: a hello of any revision, or a new assignment.
    Done,
}

impl Reason {
    pub(crate) fn of(reason: nt2_sys::Reason) -> Self {
        use nt2_sys::Reason as Lent;
        let Lent { reason, number, id, distance, place } = reason;
        match reason {
            Lent::KEEP_ALIVE => Reason::KeepAlive,
            Lent::NAME_HELD => Reason::NameHeld { id },
            Lent::EQUAL => Reason::Equal,
            Lent::OLDER => Reason::Older { by: distance },
            Lent::UNDEFINED => Reason::Undefined,
            Lent::APPLIED => Reason::Applied { by: distance },
            Lent::DONE => Reason::Done,
            _ => Reason::Refused { refusal: refusal(number, Some(Place::Message(place))), place },
        }
    }

    /// The number that the message is answered with: 0, 16 or the refusal's.
    pub fn number(self) -> u8 {
        match self {
            Reason::Refused { refusal, .. } => refusal.number(),
            Reason::Applied { .. } | Reason::Done => DONE,
            _ => IGNORED,
        }
    }

    /// Where the field that failed starts, with the numbers 1 and 4 to 10. An incomplete message has
    /// here the first field that is not wholly there.
    pub fn place(self) -> Option<Place> {
        match (self, self.number()) {
            (Reason::Refused { place, .. }, INCOMPLETE | KIND..=TOO_LONG) => {
                Some(Place::Message(place))
            }
            _ => None,
        }
    }
}

impl fmt::Display for Reason {
    fn fmt(&self, f: &mut fmt::Formatter<'_>) -> fmt::Result {
        match self {
            Reason::Refused { refusal, .. } => {
                write!(f, "refused with {}, {refusal}", refusal.number())?;
                // A refusal that has a place says it.
                match self.place().filter(|_| refusal.place().is_none()) {
                    Some(place) => write!(f, ", at {place}"),
                    None => Ok(()),
                }
            }
            Reason::KeepAlive => f.write_str("ignored, keep alive"),
            Reason::NameHeld { id } => write!(f, "ignored, entry {id} has this name"),
            Reason::Equal => f.write_str("ignored, number is the one that is stored"),
            Reason::Older { by } => {
                write!(f, "ignored, number is older than the stored one by {by}")
            }
            Reason::Undefined => f.write_str(
                "ignored, number and the stored one are 32,768 apart, so neither is greater",
            ),
            Reason::Applied { by } => {
                write!(f, "applied, number is greater than the stored one by {by}")
            }
            Reason::Done => f.write_str("done"),
        }
    }
}

/// What came of a line record.
#[derive(Clone, Copy, Debug, PartialEq, Eq)]
#[must_use = "a line record may have been refused in its middle"]
pub struct Replay {
    /// Records that were done.
    pub records: usize,
    /// Why the next record was refused, if one was.
    pub refused: Option<BadRecord>,
}

impl Replay {
    pub(crate) fn of(replayed: Replayed) -> Self {
        let Replayed { number, records } = replayed;
        let refused = match number {
            DONE => None,
            INCOMPLETE => Some(BadRecord::Cut),
            KIND => Some(BadRecord::Unknown),
            _ => panic!("an owned table is large enough"),
        };
        Replay { records, refused }
    }
}

/// Why a record of a line record was refused. Those before it are done.
#[derive(Clone, Copy, Debug, PartialEq, Eq, Hash)]
pub enum BadRecord {
    /// It is cut.
    Cut,
    /// Its kind is unknown, or it has bytes for a connection above [`PLANT`](crate::PLANT).
    Unknown,
}

impl BadRecord {
    /// The refusal's number, 1 or 4.
    pub fn number(self) -> u8 {
        match self {
            BadRecord::Cut => INCOMPLETE,
            BadRecord::Unknown => KIND,
        }
    }
}

impl fmt::Display for BadRecord {
    fn fmt(&self, f: &mut fmt::Formatter<'_>) -> fmt::Result {
        f.write_str(match self {
            BadRecord::Cut => "record is cut",
            BadRecord::Unknown => "kind or connection of a record is unknown",
        })
    }
}

impl Error for BadRecord {}

/// A local write that was accepted; a value whose bytes the entry has already is ignored.
#[derive(Clone, Copy, Debug, PartialEq, Eq)]
pub enum Written<'a> {
    Done(Sent<'a>),
    Ignored,
}

/// An entry's value, where it is one number or flag.
#[derive(Clone, Copy, Debug, PartialEq)]
pub enum Scalar {
    Boolean(bool),
    Double(f64),
    Neither,
}

/// A server's message that was taken by a copy.
#[derive(Clone, Copy, Debug, PartialEq, Eq)]
pub enum Copied {
    /// An assignment or update of the entry with this ID.
    Stored { taken: usize, id: u16 },
    /// Keep alive.
    Ignored { taken: usize },
    /// All entries that the server held at the hello were sent before.
    HelloComplete { taken: usize },
    /// The server does not speak the client's revision, but this one.
    Unsupported { taken: usize, revision: u16 },
}

impl Copied {
    /// The message's own length.
    pub fn taken(self) -> usize {
        match self {
            Copied::Stored { taken, .. }
            | Copied::Ignored { taken }
            | Copied::HelloComplete { taken }
            | Copied::Unsupported { taken, .. } => taken,
        }
    }
}

#[cfg(test)]
mod tests {
    use super::*;

    #[test]
    fn every_refusal_has_its_number() {
        let place = Some(Place::Value(3));
        for number in 1..=15 {
            let refusal = Refusal::of(number, place).unwrap();
            assert_eq!(refusal.number(), number);
            let has_place = (7..=10).contains(&number);
            assert_eq!(refusal.place(), place.filter(|_| has_place));
            assert_eq!(Refusal::of(number, None), Some(refusal).filter(|_| !has_place));
        }
        assert_eq!((Refusal::of(0, place), Refusal::of(16, place)), (None, None));
    }

    #[test]
    fn line_records() {
        let replay = |number| Replay::of(Replayed { number, records: 3 });
        assert_eq!(replay(0), Replay { records: 3, refused: None });
        for (bad, number, said) in [
            (BadRecord::Cut, 1, "record is cut"),
            (BadRecord::Unknown, 4, "kind or connection of a record is unknown"),
        ] {
            assert_eq!(replay(number), Replay { records: 3, refused: Some(bad) });
            assert_eq!((bad.number(), bad.to_string()), (number, said.into()));
        }
    }

    #[test]
    fn reasons() {
        let lent = |reason| nt2_sys::Reason { reason, number: 6, id: 5, distance: 4, place: 1 };
        for (code, reason, number, said) in [
            (
                0,
                Reason::Refused { refusal: Refusal::UnknownId, place: 1 },
                6,
                "refused with 6, ID is not in the table, at byte 1 of the message",
            ),
            (1, Reason::KeepAlive, 16, "ignored, keep alive"),
            (2, Reason::NameHeld { id: 5 }, 16, "ignored, entry 5 has this name"),
            (3, Reason::Equal, 16, "ignored, number is the one that is stored"),
            (4, Reason::Older { by: 4 }, 16, "ignored, number is older than the stored one by 4"),
            (
                5,
                Reason::Undefined,
                16,
                "ignored, number and the stored one are 32,768 apart, so neither is greater",
            ),
            (
                6,
                Reason::Applied { by: 4 },
                0,
                "applied, number is greater than the stored one by 4",
            ),
            (7, Reason::Done, 0, "done"),
        ] {
            assert_eq!(Reason::of(lent(code)), reason);
            assert_eq!((reason.number(), reason.to_string()), (number, said.into()));
        }
    }

    #[test]
    fn places_of_refused_messages() {
        for number in 1..=14 {
            let reason = Reason::of(nt2_sys::Reason { number, place: 3, ..Default::default() });
            let place = matches!(number, 1 | 4..=10).then_some(Place::Message(3));
            assert_eq!((reason.number(), reason.place()), (number, place));
            // It is said once.
            let says = reason.to_string().matches("at byte 3 of the message").count();
            assert_eq!(says, usize::from(place.is_some()), "{reason}");
        }
        assert_eq!(Reason::Equal.place(), None);
    }

    #[test]
    fn words() {
        let said = |refusal: Refusal| refusal.to_string();
        assert_eq!(said(Refusal::Full), "table is full");
        let text = Refusal::Text(Place::Message(7));
        assert_eq!(said(text), "text is not UTF-8, at byte 7 of the message");
        let name = Refusal::TooLong(Place::Name(0));
        assert_eq!(said(name), "name is too long, at byte 0 of the name");
        let saved = Refusal::TooLong(Place::Saved(329));
        assert_eq!(
            said(saved),
            "count or length is too great, or bytes are left, at byte 329 of the saved table"
        );
        let value = Refusal::TooLong(Place::Value(1));
        assert_eq!(
            said(value),
            "value is too long, or bytes are left after it, at byte 1 of the value"
        );
    }
}
