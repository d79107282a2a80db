//! Saved tables, said by hand: one fault of each sort, cut at every length; and each byte with every
//! value.

use nt2_sys::{
    Answer, CONNECTIONS, ENTRIES, Head, LONGEST_SAVED, SAVED_ENTRY, SAVED_FIRST, TABLE_BYTES,
};
use nt2_tests::implementation::{Implementation, Reference};
use nt2_tests::memory::Memory;
use nt2_tests::saved::{Record, check_loaded, check_saved, form, record};

/// A table with two entries, and with something behind them.
fn table() -> Memory {
    let unused = Head { name_length: 65, value_length: 257, type_code: 3, number: 9 };
    let marks = [&[0; CONNECTIONS][..], &[2, 3]].concat();
    let mut memory = Memory::new(&[unused; ENTRIES], &[0x5A; TABLE_BYTES], 2, &marks);
    memory.put_entry(0, b"abc", 0x01, 5, &[0; 8]);
    memory.put_entry(1, b"def", 0x02, 65_535, b"\x00\x02hi");
    memory
}

/// Loads are made here.
struct Loads {
    table: Memory,
    memory: Memory,
}

impl Loads {
    fn new() -> Self {
        Loads { table: table(), memory: table() }
    }

    /// Loads over the table. A refusal changes nothing; what is done is saved again, and then undone.
    fn load<I: Implementation>(&mut self, saved: &[u8]) -> Answer {
        let (lent, marks) = self.memory.lend();
        let answer = I::load(lent, marks, saved);
        if answer.number == 0 {
            check_loaded::<I>(&mut self.memory, saved).unwrap();
            assert_eq!(self.memory.marks, self.table.marks);
            self.memory.copy_from(&self.table);
        }
        assert!(self.memory == self.table, "changed by {answer:?}");
        answer
    }
}

fn refused(number: u8, place: usize) -> Answer {
    Answer { number, place, ..Answer::default() }
}

/// Entries whose fields are all there: a name of three bytes and a value of four.
fn entry(name: &[u8]) -> Record {
    record(name, 0x10, 0x1234, &[3, 0, 1, 0])
}

/// A byte of an entry's record changed to another one, where the field that is refused then ends, and
/// how it is refused; a place is counted from the record.
const FAULTS: [(usize, u8, usize, u8, usize); 17] = [
    (0, 3, 1, 4, 0),
    (0, 1, 1, 4, 0),
    (1, 65, 2, 10, 1),
    (1, 2, 66, 15, 0),
    (2, 0x80, 5, 9, 2),
    (4, 0xC3, 5, 9, 2),
    (5, 1, 66, 15, 0),
    (65, 1, 66, 15, 0),
    (66, 3, 67, 7, 66),
    (66, 0, 75, 8, 71),
    (69, 2, 71, 10, 69),
    (70, 0, 71, 1, 0),
    (70, 3, 74, 1, 0),
    (70, 5, 76, 10, 75),
    (73, 2, 75, 8, 73),
    (75, 1, 327, 15, 0),
    (326, 1, 327, 15, 0),
];

/// 1 where a field is not wholly there, and from where the field that is refused is there that refusal,
/// whatever stands behind it.
fn cut_on<I: Implementation>(saved: &[u8], whole: usize, refusal: Answer) {
    let mut loads = Loads::new();
    let saved = [saved, &[0xFF]].concat();
    for length in 0..=saved.len() {
        let expected = if length < whole { refused(1, 0) } else { refusal };
        assert_eq!(loads.load::<I>(&saved[..length]), expected, "{length} bytes");
    }
}

fn faults_are_refused<I: Implementation>() {
    for (i, start) in [SAVED_FIRST, SAVED_FIRST + SAVED_ENTRY].into_iter().enumerate() {
        for (at, byte, end, number, place) in FAULTS {
            let mut records = [entry(b"ghi"), entry(b"jkl")];
            records[i][at] = byte;
            let place = if place > 0 { start + place } else { 0 };
            cut_on::<I>(&form(&records), start + end, refused(number, place));
        }
    }
    let held = form(&[entry(b"ghi"), entry(b"jkl"), entry(b"ghi"), entry(b"mno")]);
    cut_on::<I>(&held, SAVED_FIRST + 3 * SAVED_ENTRY, refused(13, 0));
    cut_on::<I>(&[0], 1, refused(4, 0));
    cut_on::<I>(&[3, 0, 65], 1, refused(4, 0));
    cut_on::<I>(&[1, 65, 2], 2, refused(10, 1));
}

#[test]
fn faults_are_refused_where_their_field_is_there() {
    faults_are_refused::<Reference>();
    #[cfg(feature = "library")]
    faults_are_refused::<nt2_tests::implementation::Library>();
}

/// A whole form is loaded. Cut, it is not complete, and one byte more is left.
fn whole<I: Implementation>(saved: &[u8]) {
    let (mut loads, length) = (Loads::new(), saved.len());
    assert_eq!(loads.load::<I>(saved), Answer { taken: length, ..Answer::default() });
    let cut = |at| loads.load::<I>(&saved[..at]);
    assert!((0..length).map(cut).all(|answer| answer == refused(1, 0)));
    let more = [saved, &[0]].concat();
    assert_eq!(loads.load::<I>(&more), refused(10, length));
}

fn names_that_differ<I: Implementation>() {
    whole::<I>(&form(&[]));
    whole::<I>(&form(&[entry(b""), entry(b"\0"), entry(b"\0\0"), entry(&[0; 64])]));
    let longest: Vec<Record> = (0..64).map(|i| entry(format!("{i:064}").as_bytes())).collect();
    whole::<I>(&form(&longest));
    // One name is equal to an earlier one.
    let mut loads = Loads::new();
    for i in 1..ENTRIES {
        for j in [0, i / 2, i - 1] {
            let mut records = longest.clone();
            records[i] = entry(format!("{j:064}").as_bytes());
            assert_eq!(loads.load::<I>(&form(&records)), refused(13, 0), "{i} and {j}");
        }
    }
}

#[test]
fn names_are_compared_by_all_of_their_bytes() {
    names_that_differ::<Reference>();
    #[cfg(feature = "library")]
    names_that_differ::<nt2_tests::implementation::Library>();
}

/// A saved table of all types.
fn all_types() -> Vec<u8> {
    form(&[
        record(b"b", 0x00, 1, &[1]),
        record(b"", 0x01, 0xFF00, &[0x80, 0, 0, 0, 0, 0, 0, 0]),
        record(b"s", 0x02, 0x00FF, "\0\u{2}\u{e9}".as_bytes()),
        record(b"bs", 0x10, 2, &[2, 0, 1]),
        record(b"ds", 0x11, 3, &[1, 0, 0, 0, 0, 0, 0, 0, 1]),
        record(b"ss", 0x12, 4, b"\x02\x00\x00\x00\x01x"),
    ])
}

#[test]
fn each_byte_with_every_value() {
    let (mut loads, good, mut done) = (Loads::new(), all_types(), 0);
    for at in 0..good.len() {
        let mut saved = good.clone();
        for byte in 0..=255 {
            saved[at] = byte;
            let answer = loads.load::<Reference>(&saved);
            #[cfg(feature = "library")]
            assert_eq!(loads.load::<nt2_tests::implementation::Library>(&saved), answer);
            done += usize::from(answer.number == 0);
        }
    }
    // Others than the good ones too.
    assert!(done > good.len(), "{done}");
}

fn saves_are_loaded<I: Implementation>() {
    let (mut memory, mut out) = (table(), [0xA5; LONGEST_SAVED]);
    for saved in [all_types(), form(&[]), form(&[entry(&[b'n'; 64])])] {
        let (lent, marks) = memory.lend();
        assert_eq!(I::load(lent, marks, &saved).number, 0);
        let answer = I::save(memory.lend_table(), &mut out);
        assert_eq!(answer, Answer { sent: saved.len(), ..Answer::default() });
        check_saved::<I>(&memory, &out[..answer.sent], &mut table()).unwrap();
        let room = &mut out[..answer.sent - 1];
        assert_eq!(I::save(memory.lend_table(), room), refused(12, 0));
    }
}

#[test]
fn what_is_saved_is_loaded() {
    saves_are_loaded::<Reference>();
    #[cfg(feature = "library")]
    saves_are_loaded::<nt2_tests::implementation::Library>();
}
