//! Tables that are saved or loaded with one fault.

use nt2_sys::{
    Answer, CONNECTIONS, ENTRIES, ENTRY_ROOM, Head, LONGEST_SAVED, LentTable, NAME_ROOM,
    SAVED_ENTRY, SAVED_FIRST, TABLE_BYTES, VALUE_ROOM,
};
use nt2_tests::implementation::{Implementation, Reference};
use nt2_tests::saved::{
    COUNT_KIND, ENTRY_KIND, NAME, NAME_LENGTH, NUMBER, Record, TYPE, VALUE, VALUE_LENGTH, form,
    record,
};

macro_rules! faults {
    ($($fault:ident,)*) => {
        /// What is wrong.
        #[derive(Clone, Copy, Debug, PartialEq, Eq)]
        pub enum Fault {
            Nothing,
            $($fault,)*
        }

        impl Fault {
            pub const ALL: &[Fault] = &[$(Fault::$fault,)*];
        }
    };
}

faults! {
    // What is saved.
    SavesNoFilling,
    SavesWhatStandsBehind,
    SavesAByteMore,
    SavesWithoutRoom,
    SavesWithMoreRoom,
    SavesWithRoomForAll,
    SavesNumbersLittleEndian,
    SavesLengthsLittleEndian,
    SavesOneTooFew,
    SavesOneTooMany,
    SavesAllAs64,
    SavesKindsExchanged,
    SavesNumbersFromTheStart,
    SavesAndTellsTaken,
    SavesAndTellsRecipients,
    SavesAndClearsTheRest,
    SavesRoomBeforeTheTable,
    SavesUnsoundTables,
    SavesALastOneUnsound,
    // Which memory is loaded into.
    StateBeforeTheTable,
    StateAfterTheBytes,
    StateOfTheFirstAlone,
    StateOfTheLastLeftOut,
    StateOfThoseBeyond,
    OpenAsClosed,
    MarksNotJudged,
    TableNotJudged,
    // What is looked at.
    FirstKindNotLookedAt,
    KindThreeKnown,
    KindNotLookedAt,
    CountTakenForBytes,
    SixtyFourTooMany,
    SixtyFiveTaken,
    CountNotLookedAt,
    NameLengthNotLookedAt,
    NameOfSixtyFourTooLong,
    NameNotLookedAt,
    NameFillingNotLookedAt,
    LastOfTheFillingNotLookedAt,
    TypeNotLookedAt,
    ValueLengthNotLookedAt,
    ValueOf256TooLong,
    ValueNotLookedAt,
    ValueLengthZeroTaken,
    ValueJudgedInItsRoom,
    BytesLeftInAValue,
    ValueFillingNotLookedAt,
    BytesLeftNotLookedAt,
    EqualNamesTaken,
    EqualToTheFirstTaken,
    EqualToTheOneBeforeAlone,
    NamesComparedWithTheirRoom,
    NamesComparedByLength,
    NamesComparedWithTheTable,
    NumberLittleEndian,
    ValueLengthLittleEndian,
    // In which order.
    FillingBeforeTheName,
    FillingBeforeTheValue,
    NameCutLookedAt,
    FillingCutLookedAt,
    ValueCutLookedAt,
    ValueBeforeItsBytes,
    LengthAfterTheName,
    TypeAfterTheNumber,
    ValueLengthAfterTheValue,
    WholeRecordsFirst,
    LengthOfAllFirst,
    HeldBeforeTheNamesFilling,
    HeldBeforeTheType,
    HeldBeforeTheValue,
    HeldBeforeTheValuesFilling,
    HeldAfterTheNextKind,
    HeldAfterAll,
    HeldAfterTheBytesLeft,
    // Where.
    PlaceFromTheRecord,
    PlaceFromTheEntries,
    PlaceFromTheValue,
    PlaceOfTheCountBeforeIt,
    PlaceOfANameAtItsLength,
    PlaceOfATextAtItsBadByte,
    PlaceOfBytesLeftAtTheEnd,
    PlaceOfAValueTooLongAtTheValue,
    PlaceOfAFilling,
    PlaceOfAKind,
    PlaceOfAHeldName,
    PlaceOfWhatIsMissing,
    // What is done.
    StoredWhileJudged,
    CountStoredFirst,
    NamesStoredWithTheirRoom,
    ValuesStoredWithTheirRoom,
    LastNotStored,
    CountOneTooFew,
    AddedToTheTable,
    NumbersFromTheStart,
    HeadsBeyondCleared,
    MarksOpened,
    MarksBeyondClosed,
    NothingTaken,
    TakenBehindTheCount,
    SentTold,
    SameTableIgnored,
    RefusedTellsTaken,
}

/// Saves with a fault: what the reference writes and answers is changed.
pub fn save(fault: Fault, table: LentTable<'_>, out: &mut [u8]) -> Answer {
    let LentTable { heads, bytes, count } = table;
    let before = out.to_vec();
    let mut answer = Reference::save(LentTable { heads, bytes, count }, out);
    let lent = Lent { heads, bytes, count: usize::from(*count) };
    match answer.number {
        0 if demands_more_room(fault, out.len(), answer.sent) => {
            out.copy_from_slice(&before);
            answer = Answer { number: 12, ..Answer::default() };
        }
        0 => {
            change_output(fault, &lent, &before, out, &mut answer);
            if fault == Fault::SavesAndClearsTheRest {
                bytes[TABLE_BYTES - 1] = 0;
            }
        }
        12 if fault == Fault::SavesWithoutRoom && !out.is_empty() => out[0] = COUNT_KIND,
        14 if lent.is_large() => answer = save_unsound(fault, &lent, out).unwrap_or(answer),
        _ => {}
    }
    answer
}

/// A table that is lent, to read.
struct Lent<'a> {
    heads: &'a [Head],
    bytes: &'a [u8],
    count: usize,
}

impl Lent<'_> {
    /// Whether there is memory for all entries that are counted.
    fn is_large(&self) -> bool {
        self.heads.len() >= ENTRIES && self.bytes.len() >= TABLE_BYTES && self.count <= ENTRIES
    }

    /// The record of an entry, whatever it holds.
    fn record(&self, i: usize) -> Record {
        let Head { name_length, value_length, type_code, number } = self.heads[i];
        let (name, value) =
            (&self.bytes[ENTRY_ROOM * i..], &self.bytes[ENTRY_ROOM * i + NAME_ROOM..]);
        let name = &name[..usize::from(name_length).min(NAME_ROOM)];
        let value = &value[..usize::from(value_length).min(VALUE_ROOM)];
        record(name, type_code as u8, number, value)
    }

    fn is_sound(&self, count: usize) -> bool {
        let (heads, bytes) = (&mut self.heads.to_vec()[..], &mut self.bytes.to_vec()[..]);
        let count = &mut (count as u16);
        Reference::read(LentTable { heads, bytes, count }, u16::MAX).number != 14
    }
}

fn demands_more_room(fault: Fault, room: usize, size: usize) -> bool {
    match fault {
        Fault::SavesWithMoreRoom => room == size,
        Fault::SavesWithRoomForAll => room < LONGEST_SAVED,
        _ => false,
    }
}

/// What is wrong with the output of a save that is done.
fn change_output(
    fault: Fault,
    lent: &Lent<'_>,
    before: &[u8],
    out: &mut [u8],
    answer: &mut Answer,
) {
    let size = answer.sent;
    match fault {
        Fault::SavesAByteMore if size < out.len() => out[size] = 0,
        Fault::SavesOneTooFew if lent.count > 0 => {
            answer.sent -= SAVED_ENTRY;
            out[1] -= 1;
            out[answer.sent..].copy_from_slice(&before[answer.sent..]);
        }
        Fault::SavesOneTooMany if lent.count < ENTRIES && size + SAVED_ENTRY <= out.len() => {
            answer.sent += SAVED_ENTRY;
            out[1] += 1;
            out[size..answer.sent].copy_from_slice(&lent.record(lent.count));
        }
        Fault::SavesAllAs64 => out[1] = ENTRIES as u8,
        Fault::SavesKindsExchanged => out[0] = ENTRY_KIND,
        Fault::SavesAndTellsTaken => answer.taken = size,
        Fault::SavesAndTellsRecipients => answer.recipients = u16::MAX,
        _ => {}
    }
    let records = out[SAVED_FIRST..size].as_chunks_mut::<SAVED_ENTRY>().0;
    for (i, record) in records.iter_mut().enumerate().take(lent.count) {
        let before = &before[SAVED_FIRST + SAVED_ENTRY * i..][..SAVED_ENTRY];
        change_record(fault, lent, i, before, record);
    }
}

fn change_record(fault: Fault, lent: &Lent<'_>, i: usize, before: &[u8], record: &mut Record) {
    let head = lent.heads[i];
    let name_end = NAME + usize::from(head.name_length);
    let value_end = VALUE + usize::from(head.value_length);
    match fault {
        Fault::SavesNoFilling => {
            record[name_end..TYPE].copy_from_slice(&before[name_end..TYPE]);
            record[value_end..].copy_from_slice(&before[value_end..]);
        }
        Fault::SavesWhatStandsBehind => {
            let bytes = &lent.bytes[ENTRY_ROOM * i..][..ENTRY_ROOM];
            record[NAME..TYPE].copy_from_slice(&bytes[..NAME_ROOM]);
            record[VALUE..].copy_from_slice(&bytes[NAME_ROOM..]);
        }
        Fault::SavesNumbersLittleEndian => record[NUMBER..VALUE_LENGTH].reverse(),
        Fault::SavesLengthsLittleEndian => record[VALUE_LENGTH..VALUE].reverse(),
        Fault::SavesKindsExchanged => record[0] = COUNT_KIND,
        Fault::SavesNumbersFromTheStart => record[NUMBER..VALUE_LENGTH].copy_from_slice(&[0, 1]),
        _ => {}
    }
}

/// A table that is large enough and unsound, by a fault that takes it for sound or looks at the room
/// before.
fn save_unsound(fault: Fault, lent: &Lent<'_>, out: &mut [u8]) -> Option<Answer> {
    let records: Vec<Record> = (0..lent.count).map(|i| lent.record(i)).collect();
    let form = form(&records);
    let taken_for_sound = match fault {
        Fault::SavesUnsoundTables => true,
        Fault::SavesALastOneUnsound => lent.count > 0 && lent.is_sound(lent.count - 1),
        _ => false,
    };
    if out.len() < form.len() {
        let refused = taken_for_sound || fault == Fault::SavesRoomBeforeTheTable;
        return refused.then_some(Answer { number: 12, ..Answer::default() });
    }
    if !taken_for_sound {
        return None;
    }
    out[..form.len()].copy_from_slice(&form);
    Some(Answer { sent: form.len(), ..Answer::default() })
}

/// A refusal's number and place.
type Judged<T> = Result<T, (u8, usize)>;

/// What a record says of an entry, and its record as far as it is there.
#[derive(Clone, Copy)]
struct Entry<'a> {
    name: &'a [u8],
    type_code: u8,
    number: u16,
    value: &'a [u8],
    record: &'a [u8],
}

/// Loads with a fault: judges and stores by itself.
pub fn load(fault: Fault, table: LentTable<'_>, marks: &mut [u8], saved: &[u8]) -> Answer {
    let mut load = Load { fault, table, marks };
    match load.judge_and_store(saved) {
        Ok(answer) => answer,
        Err((number, place)) => {
            let taken = if fault == Fault::RefusedTellsTaken { saved.len() } else { 0 };
            Answer { number, place, taken, ..Answer::default() }
        }
    }
}

struct Load<'a> {
    fault: Fault,
    table: LentTable<'a>,
    marks: &'a mut [u8],
}

impl Load<'_> {
    fn judge_and_store(&mut self, saved: &[u8]) -> Judged<Answer> {
        let state = if self.has_open() { Err((3, 0)) } else { Ok(()) };
        if self.fault == Fault::StateBeforeTheTable && self.marks.len() >= CONNECTIONS {
            state?;
        }
        self.judge_memory()?;
        if self.fault != Fault::StateAfterTheBytes {
            state?;
        }
        let fault = self.fault;
        let held = self.held_names();
        let mut judge = Judge { fault, saved, at: 0, entries: Vec::new(), held };
        if fault == Fault::CountStoredFirst && saved.len() > 1 {
            *self.table.count = u16::from(saved[1]).min(ENTRIES as u16);
        }
        let judged = judge.all();
        if fault == Fault::StoredWhileJudged {
            judge.entries.iter().enumerate().for_each(|(i, entry)| self.store(i, entry));
        }
        judged?;
        if fault == Fault::StateAfterTheBytes {
            state?;
        }
        self.done(&judge.entries, saved)
    }

    /// Whether a connection is not closed.
    fn has_open(&self) -> bool {
        let marks = match self.fault {
            Fault::StateOfTheFirstAlone => &self.marks[..1.min(self.marks.len())],
            Fault::StateOfTheLastLeftOut => &self.marks[..15.min(self.marks.len())],
            Fault::StateOfThoseBeyond => &*self.marks,
            _ => &self.marks[..CONNECTIONS.min(self.marks.len())],
        };
        marks.iter().any(|&mark| mark > u8::from(self.fault == Fault::OpenAsClosed))
    }

    fn judge_memory(&mut self) -> Judged<()> {
        let LentTable { heads, bytes, count } = &mut self.table;
        let lent = Lent { heads, bytes, count: usize::from(**count) };
        let not_judged = self.fault == Fault::TableNotJudged && lent.is_large();
        let count = &mut if not_judged { 0 } else { **count };
        let mut marks = self.marks.to_vec();
        if self.fault == Fault::MarksNotJudged {
            marks.fill(0);
        }
        let table = LentTable { heads, bytes, count };
        match Reference::open(table, &mut marks, CONNECTIONS).number {
            14 => Err((14, 0)),
            _ => Ok(()),
        }
    }

    /// The names of the table that is there, for the fault that compares with them.
    fn held_names(&self) -> Vec<Vec<u8>> {
        if self.fault != Fault::NamesComparedWithTheTable {
            return Vec::new();
        }
        let name = |i: usize| {
            let length = usize::from(self.table.heads[i].name_length);
            self.table.bytes[ENTRY_ROOM * i..][..length].to_vec()
        };
        (0..usize::from(*self.table.count)).map(name).collect()
    }

    fn is_saved_as(&mut self, saved: &[u8]) -> bool {
        let LentTable { heads, bytes, count } = &mut self.table;
        let mut out = vec![0; LONGEST_SAVED];
        let answer = Reference::save(LentTable { heads, bytes, count }, &mut out);
        out[..answer.sent] == *saved
    }

    fn done(&mut self, entries: &[Entry<'_>], saved: &[u8]) -> Judged<Answer> {
        let (fault, mut count) = (self.fault, entries.len());
        if fault == Fault::SameTableIgnored && self.is_saved_as(saved) {
            return Ok(Answer { number: 16, taken: saved.len(), ..Answer::default() });
        }
        let held = usize::from(*self.table.count);
        let first = match fault {
            Fault::AddedToTheTable if held + count <= ENTRIES => held,
            _ => 0,
        };
        let stored = if fault == Fault::LastNotStored { count.saturating_sub(1) } else { count };
        for (i, entry) in entries[..stored].iter().enumerate() {
            self.store(first + i, entry);
        }
        count -= usize::from(fault == Fault::CountOneTooFew && count > 0);
        *self.table.count = (first + count) as u16;
        match fault {
            Fault::HeadsBeyondCleared => self.table.heads[count..].fill(Head::default()),
            Fault::MarksOpened => self.marks[0] = 1,
            Fault::MarksBeyondClosed => self.marks.fill(0),
            _ => {}
        }
        let taken = match fault {
            Fault::NothingTaken => 0,
            Fault::TakenBehindTheCount => saved.len() - SAVED_FIRST,
            _ => saved.len(),
        };
        let sent = if fault == Fault::SentTold { saved.len() } else { 0 };
        Ok(Answer { taken, sent, ..Answer::default() })
    }

    fn store(&mut self, i: usize, entry: &Entry<'_>) {
        let Entry { mut name, type_code, mut number, mut value, record } = *entry;
        if i >= ENTRIES || name.len() > NAME_ROOM || value.len() > VALUE_ROOM {
            return;
        }
        if self.fault == Fault::NumbersFromTheStart {
            number = 1;
        }
        let (name_length, value_length) = (name.len() as u16, value.len() as u16);
        let type_code = u16::from(type_code);
        self.table.heads[i] = Head { name_length, value_length, type_code, number };
        match self.fault {
            Fault::NamesStoredWithTheirRoom => name = &record[NAME..TYPE],
            Fault::ValuesStoredWithTheirRoom => value = &record[VALUE..],
            _ => {}
        }
        let bytes = &mut self.table.bytes[ENTRY_ROOM * i..];
        bytes[..name.len()].copy_from_slice(name);
        bytes[NAME_ROOM..][..value.len()].copy_from_slice(value);
    }
}

/// A saved table, judged from its first byte on.
struct Judge<'a> {
    fault: Fault,
    saved: &'a [u8],
    at: usize,
    entries: Vec<Entry<'a>>,
    /// The names of the table that is there.
    held: Vec<Vec<u8>>,
}

/// When names are compared: behind the name, its filling, the type, the value, the record, the next
/// kind, all records or all bytes.
#[derive(Clone, Copy, PartialEq, Eq)]
enum When {
    Name,
    NameFilling,
    ValueLength,
    Value,
    Record,
    NextKind,
    Records,
    End,
    Never,
}

impl<'a> Judge<'a> {
    fn is(&self, fault: Fault) -> bool {
        self.fault == fault
    }

    fn compares(&self) -> When {
        match self.fault {
            Fault::HeldBeforeTheNamesFilling => When::Name,
            Fault::HeldBeforeTheType => When::NameFilling,
            Fault::HeldBeforeTheValue => When::ValueLength,
            Fault::HeldBeforeTheValuesFilling => When::Value,
            Fault::HeldAfterTheNextKind => When::NextKind,
            Fault::HeldAfterAll => When::Records,
            Fault::HeldAfterTheBytesLeft => When::End,
            Fault::EqualNamesTaken => When::Never,
            _ => When::Record,
        }
    }

    /// The next field, if it is wholly there.
    fn field(&mut self, length: usize) -> Judged<&'a [u8]> {
        let missing = if self.is(Fault::PlaceOfWhatIsMissing) { self.at } else { 0 };
        let field = self.saved.get(self.at..self.at + length).ok_or((1, missing))?;
        self.at += length;
        Ok(field)
    }

    fn number(&mut self, length: usize) -> Judged<usize> {
        Ok(self.field(length)?.iter().fold(0, |number, &byte| number << 8 | usize::from(byte)))
    }

    /// A part of the next field, where that is not whole.
    fn part(&self, length: usize) -> Option<&'a [u8]> {
        let rest = &self.saved[self.at..];
        (rest.len() < length).then_some(rest)
    }

    fn kind(&mut self, known: u8, not_looked_at: Fault) -> Judged<()> {
        let place = if self.is(Fault::PlaceOfAKind) { self.at } else { 0 };
        let kind = self.number(1)?;
        if kind != usize::from(known) && !self.is(not_looked_at) {
            return Err((4, place));
        }
        Ok(())
    }

    fn all(&mut self) -> Judged<()> {
        if self.is(Fault::KindThreeKnown) && self.saved.first() == Some(&3) {
            return Err((10, 1));
        }
        self.kind(COUNT_KIND, Fault::FirstKindNotLookedAt)?;
        let count = self.number(1)?;
        let most = match self.fault {
            Fault::SixtyFourTooMany => 63,
            Fault::SixtyFiveTaken => 65,
            Fault::CountNotLookedAt => 255,
            _ => 64,
        };
        if count > most {
            return Err((10, usize::from(!self.is(Fault::PlaceOfTheCountBeforeIt))));
        }
        let size = SAVED_FIRST + SAVED_ENTRY * count;
        if self.is(Fault::LengthOfAllFirst) && self.saved.len() < size {
            return Err((1, 0));
        }
        let end = if self.is(Fault::CountTakenForBytes) { SAVED_FIRST + count } else { size };
        while self.at < end {
            self.record()?;
        }
        if self.compares() == When::Records || self.compares() == When::NextKind {
            self.compare_all()?;
        }
        let left = self.at < self.saved.len() && !self.is(Fault::BytesLeftNotLookedAt);
        if left {
            let at_the_end = self.is(Fault::PlaceOfBytesLeftAtTheEnd);
            return Err((10, if at_the_end { self.saved.len() } else { self.at }));
        }
        if self.compares() == When::End { self.compare_all() } else { Ok(()) }
    }

    /// A record, with its places counted from another byte by some faults.
    fn record(&mut self) -> Judged<()> {
        let start = self.at;
        if self.is(Fault::WholeRecordsFirst) && self.part(SAVED_ENTRY).is_some() {
            return Err((1, 0));
        }
        let entry = self.entry().map_err(|(number, place)| match self.fault {
            Fault::PlaceFromTheRecord if place > 0 => (number, place - start),
            Fault::PlaceFromTheEntries if place > 0 => (number, place - SAVED_FIRST),
            _ => (number, place),
        })?;
        self.compare(When::Record, entry.name)?;
        self.entries.push(entry);
        Ok(())
    }

    fn entry(&mut self) -> Judged<Entry<'a>> {
        let start = self.at;
        self.kind(ENTRY_KIND, Fault::KindNotLookedAt)?;
        if self.compares() == When::NextKind {
            self.compare_all()?;
        }
        let name = self.name()?;
        let (type_code, number) = self.type_and_number()?;
        let (value, length) = self.value_of_length(type_code, name)?;
        self.compare(When::Value, name)?;
        if !self.is(Fault::FillingBeforeTheValue) {
            let not_looked_at = self.is(Fault::ValueFillingNotLookedAt);
            self.filling(VALUE_ROOM.saturating_sub(length), not_looked_at)?;
        }
        Ok(Entry { name, type_code, number, value, record: &self.saved[start..self.at] })
    }

    fn name(&mut self) -> Judged<&'a [u8]> {
        let place = self.at;
        let length = self.number(1)?;
        let most = NAME_ROOM - usize::from(self.is(Fault::NameOfSixtyFourTooLong));
        let too_long = length > most && !self.is(Fault::NameLengthNotLookedAt);
        if too_long && self.is(Fault::LengthAfterTheName) {
            self.field(length)?;
        }
        if too_long {
            return Err((10, place));
        }
        let start = self.at;
        if self.is(Fault::NameCutLookedAt)
            && let Some(part) = self.part(length)
        {
            self.text(part, start)?;
        }
        let name = self.field(length)?;
        let (room, not_looked_at) =
            (NAME_ROOM.saturating_sub(length), self.is(Fault::NameFillingNotLookedAt));
        if self.is(Fault::FillingBeforeTheName) {
            self.filling(room, false)?;
            self.text(name, start)?;
            return Ok(name);
        }
        self.text(name, start)?;
        self.compare(When::Name, name)?;
        self.filling(room, not_looked_at)?;
        self.compare(When::NameFilling, name)?;
        Ok(name)
    }

    fn text(&self, text: &[u8], start: usize) -> Judged<()> {
        match str::from_utf8(text) {
            Err(bad) if !self.is(Fault::NameNotLookedAt) => Err((
                9,
                match self.fault {
                    Fault::PlaceOfANameAtItsLength => start - 1,
                    Fault::PlaceOfATextAtItsBadByte => start + bad.valid_up_to(),
                    _ => start,
                },
            )),
            _ => Ok(()),
        }
    }

    fn filling(&mut self, length: usize, not_looked_at: bool) -> Judged<()> {
        let start = self.at;
        let is_bad = |filling: &[u8]| filling.iter().any(|&byte| byte != 0);
        let place = if self.is(Fault::PlaceOfAFilling) { start } else { 0 };
        if self.is(Fault::FillingCutLookedAt) && self.part(length).is_some_and(is_bad) {
            return Err((15, place));
        }
        let mut filling = self.field(length)?;
        if self.is(Fault::LastOfTheFillingNotLookedAt) {
            filling = &filling[..length.saturating_sub(1)];
        }
        if is_bad(filling) && !not_looked_at { Err((15, place)) } else { Ok(()) }
    }

    fn type_and_number(&mut self) -> Judged<(u8, u16)> {
        let place = self.at;
        let type_code = self.number(1)? as u8;
        let unknown = !matches!(type_code, 0x00..=0x02 | 0x10..=0x12);
        let unknown = unknown && !self.is(Fault::TypeNotLookedAt);
        if unknown && self.is(Fault::TypeAfterTheNumber) {
            self.field(2)?;
        }
        if unknown {
            return Err((7, place));
        }
        let number = self.number(2)? as u16;
        let little_endian = self.is(Fault::NumberLittleEndian);
        Ok((type_code, if little_endian { number.swap_bytes() } else { number }))
    }

    fn value_of_length(&mut self, type_code: u8, name: &[u8]) -> Judged<(&'a [u8], usize)> {
        let place = self.at;
        let mut length = self.number(2)?;
        if self.is(Fault::ValueLengthLittleEndian) {
            length = usize::from((length as u16).swap_bytes());
        }
        let most = VALUE_ROOM - usize::from(self.is(Fault::ValueOf256TooLong));
        let too_long = length > most && !self.is(Fault::ValueLengthNotLookedAt);
        if too_long && self.is(Fault::ValueLengthAfterTheValue) {
            self.field(length)?;
        }
        if too_long {
            let at_the_value = self.is(Fault::PlaceOfAValueTooLongAtTheValue);
            return Err((10, if at_the_value { self.at } else { place }));
        }
        self.compare(When::ValueLength, name)?;
        let start = self.at;
        if (self.is(Fault::ValueCutLookedAt) || self.is(Fault::ValueBeforeItsBytes))
            && let Some(part) = self.part(length)
        {
            let whole = self.is(Fault::ValueBeforeItsBytes);
            self.value(type_code, part, start).or_else(|(number, place)| match number {
                10 if !whole => Ok(()),
                _ => Err((number, place)),
            })?;
        }
        let value = self.field(length)?;
        if self.is(Fault::FillingBeforeTheValue) {
            self.filling(VALUE_ROOM - length, false)?;
        }
        let judged = match self.fault {
            Fault::ValueJudgedInItsRoom => {
                &self.saved[start..self.saved.len().min(start + VALUE_ROOM)]
            }
            _ => value,
        };
        self.value(type_code, judged, start)?;
        Ok((value, length))
    }

    /// A value by itself, which starts at a place.
    fn value(&self, type_code: u8, value: &[u8], start: usize) -> Judged<()> {
        let judged = Reference::encode(0x11, 0, &[], type_code, 0, 0, value, &mut []);
        let Answer { number, place, .. } = judged;
        let fields = Reference::decode(&[&[0x11, 0, 0, 0, 0], value].concat(), type_code);
        let left = number == 10 && fields.number == 0;
        let from = if self.is(Fault::PlaceFromTheValue) { 0 } else { start };
        match (number, self.fault) {
            (12, _) | (_, Fault::ValueNotLookedAt) | (7, Fault::TypeNotLookedAt) => Ok(()),
            (10, Fault::BytesLeftInAValue | Fault::ValueJudgedInItsRoom) if left => Ok(()),
            (1, Fault::ValueLengthZeroTaken) if value.is_empty() => Ok(()),
            (8..=10, _) => Err((number, from + place)),
            _ => Err((number, 0)),
        }
    }

    /// Compares a name with those before it, if it is time.
    fn compare(&self, when: When, name: &[u8]) -> Judged<()> {
        if self.compares() != when {
            return Ok(());
        }
        self.compare_with(self.entries.len(), name)
    }

    fn compare_all(&self) -> Judged<()> {
        let mut entries = self.entries.iter().enumerate();
        entries.try_for_each(|(i, entry)| self.compare_with(i, entry.name))
    }

    /// Compares a name with those of the entries before i.
    fn compare_with(&self, i: usize, name: &[u8]) -> Judged<()> {
        let in_room = |name: &[u8]| [name, &[0; NAME_ROOM]].concat()[..NAME_ROOM].to_vec();
        let equal = |entry: &Entry<'_>| match self.fault {
            Fault::NamesComparedWithTheirRoom => in_room(entry.name) == in_room(name),
            Fault::NamesComparedByLength => entry.name.len() == name.len(),
            _ => entry.name == name,
        };
        let first = match self.fault {
            Fault::EqualToTheFirstTaken => 1.min(i),
            Fault::EqualToTheOneBeforeAlone => i.saturating_sub(1),
            _ => 0,
        };
        let with_table = self.is(Fault::NamesComparedWithTheTable);
        let held = with_table && self.held.iter().any(|held| held == name);
        if held || self.entries[first..i].iter().any(equal) {
            let place = SAVED_FIRST + SAVED_ENTRY * i + NAME_LENGTH;
            return Err((13, if self.is(Fault::PlaceOfAHeldName) { place } else { 0 }));
        }
        Ok(())
    }
}
