//! A reason that is told with one fault.

use nt2_sys::{CONNECTIONS, ENTRIES, LONGEST_ASSIGNMENT, LONGEST_HELLO_ANSWER, LentTable, Reason};
use nt2_tests::implementation::{Implementation, Reference};
use nt2_tests::memory::Memory;
use nt2_tests::reason::{Field, Layout};

/// What is wrong.
#[derive(Clone, Copy, Debug, PartialEq, Eq)]
pub enum Fault {
    Nothing,
    // Reasons and what they tell.
    KeepAliveDone,
    KeepAliveNeedsGreeting,
    HeldByTheCount,
    HeldByItsLength,
    HeldByTheSameType,
    EqualOlder,
    EqualByItsValue,
    OlderByTheOtherDistance,
    UndefinedOlder,
    UndefinedApplied,
    UndefinedWithoutDistance,
    AppliedWithTheOtherDistance,
    PlainNumbers,
    OtherRevisionRefused,
    RevisionNotRead,
    HelloWithLittleRoom,
    BytesBehindRefused,
    MessageTaken,
    // Places.
    MissingAtTheStart,
    MissingAtTheEnd,
    MissingTextAtItsLength,
    MissingElementAtTheFirst,
    KindBehindIt,
    IdAtTheStart,
    IdAtTheNumber,
    TypeAtTheId,
    TextAtItsLength,
    TextAtItsBadByte,
    LengthAtTheText,
    LastBadBoolean,
    ElementAtItsArray,
    CountedFromTheValue,
    FullAtTheId,
    // A later check that fails too.
    ConnectionBeforeTheTable,
    MarksNotJudged,
    ClosedAfterTheKind,
    StateBeforeTheKind,
    StateAfterTheFields,
    NameAfterTheType,
    TypeAfterTheId,
    IdAfterTheValue,
    UnknownIdAfterTheNumber,
    LengthAfterTheText,
    MissingBeforeABadBoolean,
    StringsJudgedAtTheCount,
    FullBeforeHeld,
}

impl Fault {
    pub const ALL: [Fault; 46] = [
        Fault::KeepAliveDone,
        Fault::KeepAliveNeedsGreeting,
        Fault::HeldByTheCount,
        Fault::HeldByItsLength,
        Fault::HeldByTheSameType,
        Fault::EqualOlder,
        Fault::EqualByItsValue,
        Fault::OlderByTheOtherDistance,
        Fault::UndefinedOlder,
        Fault::UndefinedApplied,
        Fault::UndefinedWithoutDistance,
        Fault::AppliedWithTheOtherDistance,
        Fault::PlainNumbers,
        Fault::OtherRevisionRefused,
        Fault::RevisionNotRead,
        Fault::HelloWithLittleRoom,
        Fault::BytesBehindRefused,
        Fault::MessageTaken,
        Fault::MissingAtTheStart,
        Fault::MissingAtTheEnd,
        Fault::MissingTextAtItsLength,
        Fault::MissingElementAtTheFirst,
        Fault::KindBehindIt,
        Fault::IdAtTheStart,
        Fault::IdAtTheNumber,
        Fault::TypeAtTheId,
        Fault::TextAtItsLength,
        Fault::TextAtItsBadByte,
        Fault::LengthAtTheText,
        Fault::LastBadBoolean,
        Fault::ElementAtItsArray,
        Fault::CountedFromTheValue,
        Fault::FullAtTheId,
        Fault::ConnectionBeforeTheTable,
        Fault::MarksNotJudged,
        Fault::ClosedAfterTheKind,
        Fault::StateBeforeTheKind,
        Fault::StateAfterTheFields,
        Fault::NameAfterTheType,
        Fault::TypeAfterTheId,
        Fault::IdAfterTheValue,
        Fault::UnknownIdAfterTheNumber,
        Fault::LengthAfterTheText,
        Fault::MissingBeforeABadBoolean,
        Fault::StringsJudgedAtTheCount,
        Fault::FullBeforeHeld,
    ];
}

pub fn why(
    fault: Fault,
    table: LentTable<'_>,
    marks: &mut [u8],
    connection: usize,
    message: &[u8],
) -> Reason {
    let LentTable { heads, bytes, count } = table;
    let memory = Memory::new(heads, bytes, *count, marks);
    let reason = Reference::why(LentTable { heads, bytes, count }, marks, connection, message);
    if fault == Fault::MessageTaken {
        let (table, out) = (LentTable { heads, bytes, count }, &mut [0; LONGEST_HELLO_ANSWER]);
        Reference::receive(table, marks, connection, message, out);
    }
    let layout = Layout::of(&memory, message);
    Asked { memory, connection, message, layout, reason }.wrong(fault)
}

fn refused(number: u8, place: usize) -> Reason {
    Reason { reason: Reason::REFUSED, number, place, ..Reason::default() }
}

fn done(reason: u8) -> Reason {
    Reason { reason, ..Reason::default() }
}

/// A message that is asked about, and the true reason.
struct Asked<'a> {
    memory: Memory,
    connection: usize,
    message: &'a [u8],
    layout: Layout<'a>,
    reason: Reason,
}

impl Asked<'_> {
    fn wrong(&self, fault: Fault) -> Reason {
        let told = match self.reason.reason {
            Reason::REFUSED => self.wrong_place(fault).map(|place| Reason { place, ..self.reason }),
            _ => self.wrong_reason(fault),
        };
        told.or_else(|| self.later_check(fault)).unwrap_or(self.reason)
    }

    fn wrong_reason(&self, fault: Fault) -> Option<Reason> {
        let Reason { reason, distance, .. } = self.reason;
        let other_distance = Reason { distance: distance.wrapping_neg(), ..self.reason };
        Some(match (fault, reason) {
            (Fault::KeepAliveDone, Reason::KEEP_ALIVE) => done(Reason::DONE),
            (Fault::KeepAliveNeedsGreeting, Reason::KEEP_ALIVE) if self.mark() == Some(1) => {
                refused(3, 0)
            }
            (Fault::HeldByTheCount, Reason::NAME_HELD) => {
                Reason { id: self.memory.count() as u16, ..self.reason }
            }
            (Fault::HeldByItsLength, Reason::NAME_HELD) => {
                let length = self.memory.name(usize::from(self.reason.id)).len();
                let same = |i: &usize| self.memory.name(*i).len() == length;
                let id = (0..self.memory.count()).find(same)? as u16;
                Reason { id, ..self.reason }
            }
            (Fault::HeldByTheSameType, Reason::NAME_HELD) => {
                let held = self.memory.heads.lent()[usize::from(self.reason.id)].type_code;
                let other = u16::from(self.message[self.place_of(Field::Type)?]) != held;
                other.then_some(done(Reason::DONE))?
            }
            (Fault::EqualOlder, Reason::EQUAL) => Reason { reason: Reason::OLDER, ..self.reason },
            (Fault::EqualByItsValue, Reason::APPLIED) => {
                let (id, _) = self.id_and_number();
                let equal = self.message[5..self.layout.taken?] == *self.memory.value(id);
                equal.then_some(Reason { number: 16, ..done(Reason::EQUAL) })?
            }
            (Fault::OlderByTheOtherDistance, Reason::OLDER)
            | (Fault::AppliedWithTheOtherDistance, Reason::APPLIED) => other_distance,
            (Fault::UndefinedOlder, Reason::UNDEFINED) => {
                Reason { reason: Reason::OLDER, ..self.reason }
            }
            (Fault::UndefinedApplied, Reason::UNDEFINED) => {
                Reason { reason: Reason::APPLIED, number: 0, ..self.reason }
            }
            (Fault::UndefinedWithoutDistance, Reason::UNDEFINED) => {
                Reason { distance: 0, ..self.reason }
            }
            (Fault::PlainNumbers, Reason::APPLIED) => {
                let (id, received) = self.id_and_number();
                let distance = self.memory.heads.lent()[id].number.checked_sub(received)?;
                Reason { reason: Reason::OLDER, number: 16, distance, ..self.reason }
            }
            (Fault::OtherRevisionRefused, Reason::DONE) if self.message[0] == 0x01 => {
                (self.message[1..3] != [0x02, 0x00]).then_some(refused(4, 1))?
            }
            (Fault::HelloWithLittleRoom, Reason::DONE) => {
                let mut memory = self.memory.clone();
                let (table, marks) = memory.lend();
                let out = &mut [0; LONGEST_ASSIGNMENT];
                let answer = Reference::receive(table, marks, self.connection, self.message, out);
                (answer.number == 12).then_some(refused(12, 0))?
            }
            (Fault::BytesBehindRefused, _) => {
                let taken = self.layout.taken?;
                (taken < self.message.len()).then_some(refused(10, taken))?
            }
            _ => return None,
        })
    }

    fn wrong_place(&self, fault: Fault) -> Option<usize> {
        let Reason { number, place, .. } = self.reason;
        Some(match (fault, number, self.layout.at(place)?) {
            (Fault::MissingAtTheStart, 1, _) => 0,
            (Fault::MissingAtTheEnd, 1, _) => self.message.len(),
            (Fault::MissingTextAtItsLength, 1, Field::Name | Field::String | Field::Element)
            | (Fault::TextAtItsLength, 9, _) => place - 2,
            (
                Fault::MissingElementAtTheFirst,
                1,
                Field::BooleanElement | Field::DoubleElement | Field::ElementLength,
            ) => self.place_of(Field::Count)? + 1,
            (Fault::KindBehindIt, 4, _) => 1,
            (Fault::IdAtTheStart, 5 | 6, _) => 0,
            (Fault::IdAtTheNumber, 5 | 6, _) => place + 2,
            (Fault::TypeAtTheId, 7, _) => place + 1,
            (
                Fault::LengthAtTheText,
                10,
                Field::NameLength | Field::StringLength | Field::ElementLength,
            ) => place + 2,
            (Fault::TextAtItsBadByte, 9, _) => {
                place + str::from_utf8(&self.message[place..]).err()?.valid_up_to()
            }
            (Fault::LastBadBoolean, 8, _) => self.message.iter().rposition(|&byte| byte > 1)?,
            (
                Fault::ElementAtItsArray,
                8..=10,
                Field::BooleanElement | Field::ElementLength | Field::Element,
            ) => self.place_of(Field::Count)?,
            (Fault::CountedFromTheValue, 8..=10, _) => {
                place.checked_sub(self.place_of(Field::Number)? + 2)?
            }
            (Fault::FullAtTheId, 11, _) => self.place_of(Field::Id)?,
            _ => return None,
        })
    }

    /// The reason by a check that comes later.
    fn later_check(&self, fault: Fault) -> Option<Reason> {
        let Reason { reason, number, place, .. } = self.reason;
        let refusal = if reason == Reason::REFUSED { number } else { 0 };
        let field = self.layout.at(place);
        let (closed, open) = (self.mark() == Some(0), self.mark() == Some(1));
        let refused_later = |later: Reason| (later.reason == Reason::REFUSED).then_some(later);
        match (fault, refusal) {
            (Fault::RevisionNotRead, 1) if field == Some(Field::Revision) => {
                Some(done(Reason::DONE))
            }
            (Fault::ConnectionBeforeTheTable, 14) if self.connection >= CONNECTIONS => {
                Some(refused(2, 0))
            }
            (Fault::MarksNotJudged, 14) => Some(self.ask(|memory, _| {
                let marks = memory.marks.lent_mut();
                marks.iter_mut().filter(|mark| **mark > 2).for_each(|mark| *mark = 0);
            })),
            (Fault::ClosedAfterTheKind, 3) if closed => {
                let later = self.ask(|memory, _| memory.marks.lent_mut()[self.connection] = 2);
                refused_later(later).filter(|later| later.number == 4)
            }
            (Fault::StateBeforeTheKind, 4) if open => Some(refused(3, 0)),
            (Fault::StateAfterTheFields, 3) if !closed => refused_later(self.ask(|memory, _| {
                memory.marks.lent_mut()[self.connection] ^= 3;
            })),
            (Fault::NameAfterTheType, 9) if field == Some(Field::Name) => {
                let later = self.ask(|_, message| message[3..self.type_place()].fill(b'a'));
                refused_later(later).filter(|later| later.number == 7)
            }
            (Fault::TypeAfterTheId, 7) => {
                let later = self.ask(|_, message| message[place] = 0);
                refused_later(later).filter(|later| later.number == 5 || later.place == place + 1)
            }
            (Fault::IdAfterTheValue, 5) => refused_later(self.ask(|_, message| {
                message[place..place + 2].fill(0xFF);
            })),
            (Fault::UnknownIdAfterTheNumber, 6) if self.message.len() < 5 => Some(refused(1, 3)),
            (Fault::LengthAfterTheText, 10) if field != Some(Field::Count) => {
                let [high, low] = [self.message[place], self.message[place + 1]];
                let end = place + 2 + usize::from(u16::from_be_bytes([high, low]));
                (self.message.len() < end).then_some(refused(1, place + 2))
            }
            (Fault::MissingBeforeABadBoolean, 8) if self.layout.taken.is_none() => {
                Some(refused(1, self.message.len()))
            }
            (Fault::StringsJudgedAtTheCount, 1 | 9 | 10) => {
                let strings = self.place_of(Field::ElementLength)?;
                (self.message[strings - 1] > 127).then_some(refused(10, strings - 1))
            }
            (Fault::FullBeforeHeld, 0) => {
                let full = self.memory.count() == ENTRIES;
                (reason == Reason::NAME_HELD && full).then_some(refused(11, 0))
            }
            _ => None,
        }
    }

    /// The reason where something else is asked about.
    fn ask(&self, change: impl FnOnce(&mut Memory, &mut Vec<u8>)) -> Reason {
        let (mut memory, mut message) = (self.memory.clone(), self.message.to_vec());
        change(&mut memory, &mut message);
        let (table, marks) = memory.lend();
        Reference::why(table, marks, self.connection, &message)
    }

    fn mark(&self) -> Option<u8> {
        self.memory.marks.lent().get(self.connection).copied()
    }

    /// The place of the first field of a sort.
    fn place_of(&self, sort: Field) -> Option<usize> {
        self.layout.fields.iter().find(|(field, _)| *field == sort).map(|(_, place)| *place)
    }

    fn type_place(&self) -> usize {
        self.place_of(Field::Type).expect("behind a whole name")
    }

    /// Of an update.
    fn id_and_number(&self) -> (usize, u16) {
        let number = |at| u16::from_be_bytes([self.message[at], self.message[at + 1]]);
        (usize::from(number(1)), number(3))
    }
}
