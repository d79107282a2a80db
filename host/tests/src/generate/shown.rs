//! Line records that are directed at the text of their table: values of every form, the longest lines,
//! and records that are long or cut.

use super::{EDGES, Generator, TYPES, assignment, prefixed, update};
use crate::line_record::{CAME_IN, OPENS};
use nt2_sys::{ENTRIES, NAME_ROOM, PLANT, RECORD_DATA, VALUE_ROOM};

/// Bytes of a long line record.
const LONG: usize = 5_000_000;
/// Clients of a long line record.
const CLIENTS: usize = 4;
/// Doubles of the longest array.
const MOST_DOUBLES: usize = 31;
/// A Double with the longest text.
const LONGEST_DOUBLE: u64 = 0xBF60_0000_0000_0001;
/// Bits of a Double's fraction, and the exponents with which one is written in decimal.
const FRACTION_BITS: usize = 52;
const DECIMAL_EXPONENTS: [u64; 2] = [1014, 1075];

/// Connection 3 opens; a hello; a new entry `a`, cut before its value; the value.
const EXAMPLE: &[u8] =
    b"\x01\x03\x42\x03\x01\x02\x00\x48\x03\x10\x00\x01a\x00\xFF\xFF\x00\x00\x40\x03\x01";

/// Name, type and encoded value.
type Entry = (Vec<u8>, u8, Vec<u8>);

/// A line record, and how many entries its table has at the end.
pub struct Directed {
    pub what: &'static str,
    pub record: Vec<u8>,
    pub entries: usize,
}

impl Directed {
    /// Line records in which the plant's own code makes these entries, as many as a table has room for.
    fn tables(what: &'static str, entries: &[Entry]) -> Vec<Self> {
        let table =
            |entries: &[Entry]| Directed { what, record: created(entries), entries: entries.len() };
        entries.chunks(ENTRIES).map(table).collect()
    }
}

/// Bytes that come in from a connection, by records with so many of them.
fn in_pieces(connection: usize, bytes: &[u8], size: usize) -> Vec<u8> {
    let head = |length: usize| [CAME_IN + length as u8, connection as u8];
    bytes.chunks(size).flat_map(|piece| [&head(piece.len())[..], piece].concat()).collect()
}

fn came_in(connection: usize, bytes: &[u8]) -> Vec<u8> {
    in_pieces(connection, bytes, RECORD_DATA)
}

/// The plant's own code makes entries.
fn created(entries: &[Entry]) -> Vec<u8> {
    let create = |(name, type_code, value): &Entry| assignment(name, *type_code, 0xFFFF, 0, value);
    came_in(PLANT, &entries.iter().flat_map(create).collect::<Vec<u8>>())
}

/// A client opens and says hello.
fn greeted(connection: usize) -> Vec<u8> {
    [&[OPENS, connection as u8][..], &came_in(connection, &[0x01, 0x02, 0x00])].concat()
}

/// Entries with names of their own.
fn named(values: impl IntoIterator<Item = (u8, Vec<u8>)>) -> Vec<Entry> {
    let entry =
        |(place, (type_code, value))| (format!("entry {place}").into_bytes(), type_code, value);
    values.into_iter().enumerate().map(entry).collect()
}

/// Doubles as arrays, as long as they can be.
fn double_arrays(doubles: &[u64]) -> Vec<(u8, Vec<u8>)> {
    let array = |doubles: &[u64]| {
        let bytes = doubles.iter().flat_map(|double| double.to_be_bytes());
        (0x11, [doubles.len() as u8].into_iter().chain(bytes).collect())
    };
    doubles.chunks(MOST_DOUBLES).map(array).collect()
}

/// Names and Strings with each byte below 128: alone as a name, and all of them in a String.
fn ascii() -> Vec<Entry> {
    let entry = |byte: u8| {
        let all: Vec<u8> = (0..128).map(|place| (byte + place) % 128).collect();
        (vec![byte], 0x02, prefixed(&all))
    };
    (0..128).map(entry).collect()
}

/// Names and Strings with all characters of two bytes, and some of three and four.
fn above_ascii() -> Vec<Entry> {
    let two_bytes = '\u{80}'..='\u{7FF}';
    let others = ('\u{800}'..='\u{10FFFF}').step_by(997).chain(EDGES);
    let all: Vec<char> = two_bytes.chain(others).collect();
    let entry = |chars: &[char]| {
        let name: String = chars.iter().take(16).collect();
        let text: String = chars.iter().collect();
        (name.into_bytes(), 0x02, prefixed(text.as_bytes()))
    };
    all.chunks(63).map(entry).collect()
}

/// Values with no elements, and with as many or as long ones as there is room for.
fn arrays() -> Vec<(u8, Vec<u8>)> {
    let booleans = |flag: fn(usize) -> u8| {
        (0x10, [255].into_iter().chain((0..255).map(flag)).collect::<Vec<u8>>())
    };
    let strings = |texts: &[&[u8]]| {
        let bytes = texts.iter().flat_map(|text| prefixed(text));
        (0x12, [texts.len() as u8].into_iter().chain(bytes).collect::<Vec<u8>>())
    };
    let [quotes, zeros] = [[b'"'; VALUE_ROOM], [0; VALUE_ROOM]];
    vec![
        (0x10, vec![0]),
        (0x11, vec![0]),
        (0x12, vec![0]),
        booleans(|_| 0),
        booleans(|_| 1),
        booleans(|place| (place % 2) as u8),
        (0x02, prefixed(b"")),
        (0x02, prefixed(&quotes[2..])),
        (0x02, prefixed(&zeros[2..])),
        strings(&[&zeros[..0]; 127]),
        strings(&[b""]),
        strings(&[&zeros[3..]]),
        strings(&[b"a \"b\"", b"", b"\\"]),
        (0x00, vec![0]),
        (0x00, vec![1]),
    ]
}

/// A full table with the longest name, number and value in each line, and a record that is refused.
fn longest_lines() -> Directed {
    let value = &double_arrays(&[LONGEST_DOUBLE; MOST_DOUBLES])[0].1;
    let name = |i: usize| [&[i as u8 / 32, i as u8 % 32][..], &[1; NAME_ROOM - 2]].concat();
    let entries: Vec<Entry> = (0..ENTRIES).map(|i| (name(i), 0x11, value.clone())).collect();
    let updates = (0..ENTRIES as u16).flat_map(|id| update(id, 30_000 + id, value));
    let updates: Vec<u8> = updates.collect();
    let record = [created(&entries), greeted(0), came_in(0, &updates), vec![0xFF]].concat();
    Directed { what: "longest lines", record, entries: ENTRIES }
}

/// A line record that ends behind each of its bytes but the last.
fn cut() -> impl Iterator<Item = Directed> {
    (0..EXAMPLE.len()).map(|length| Directed {
        what: "cut",
        record: EXAMPLE[..length].to_vec(),
        entries: 0,
    })
}

impl Generator {
    /// Line records with values of every form.
    pub fn directed_records(&mut self) -> Vec<Directed> {
        let doubles = self.doubles();
        let lone = doubles.iter().step_by(97).map(|double| (0x01, double.to_be_bytes().to_vec()));
        let mut all = Directed::tables("arrays of Doubles", &named(double_arrays(&doubles)));
        all.extend(Directed::tables("Doubles", &named(lone)));
        all.extend(Directed::tables("bytes below 128", &ascii()));
        all.extend(Directed::tables("bytes above 127", &above_ascii()));
        all.extend(Directed::tables("arrays", &named(arrays())));
        all.push(longest_lines());
        all.extend(cut());
        all
    }

    /// Line records of several MB: with as many bytes in each record as there can be, with one in each,
    /// and with all of it behind a record that is refused. The second one ends before its last byte.
    pub fn long_records(&mut self) -> Vec<Directed> {
        let mut by_bytes = self.long_record(1);
        by_bytes.pop();
        let refused = [&[0], &by_bytes[..]].concat();
        let whole = self.long_record(RECORD_DATA);
        vec![
            Directed { what: "long", record: whole, entries: ENTRIES },
            Directed { what: "long, byte by byte, cut", record: by_bytes, entries: ENTRIES },
            Directed { what: "long, refused at its start", record: refused, entries: 0 },
        ]
    }

    /// Updates of a full table by clients and the plant's own code.
    fn long_record(&mut self, size: usize) -> Vec<u8> {
        let types = || (0..ENTRIES).map(|i| TYPES[i % TYPES.len()]);
        let entries = named(types().map(|type_code| (type_code, self.value(type_code))));
        let mut record = created(&entries);
        (0..CLIENTS).for_each(|connection| record.extend(greeted(connection)));
        let mut number = 1;
        while record.len() < LONG {
            number += 1;
            for (id, type_code) in types().enumerate() {
                let source = self.random.below(CLIENTS + 1);
                let connection = if source == CLIENTS { PLANT } else { source };
                let message = update(id as u16, number, &self.value(type_code));
                record.extend(in_pieces(connection, &message, size));
            }
        }
        record
    }

    /// Doubles with every exponent, at and around the ends of the decimal range, near 0, with few digits,
    /// whole ones, and any others.
    fn doubles(&mut self) -> Vec<u64> {
        let mut doubles = Vec::new();
        for exponent in 0..2048 {
            let any = self.random.number();
            for fraction in [0, 1, u64::MAX, any] {
                doubles.push(with_exponent(exponent, fraction));
            }
        }
        for end in DECIMAL_EXPONENTS {
            for exponent in end - 1..=end + 1 {
                doubles.extend((0..200).map(|_| with_exponent(exponent, self.random.number())));
            }
        }
        doubles.extend((0..500).map(|_| self.subnormal_double()));
        doubles.extend((0..3000).map(|_| self.decimal_double()));
        doubles.extend((0..1000).map(|_| self.short_double().to_bits()));
        doubles.extend((0..1000).map(|_| self.whole_double().to_bits()));
        doubles.extend((0..3000).map(|_| self.random.number()));
        doubles.iter().flat_map(|double| [*double, double ^ (1 << 63)]).collect()
    }

    /// A Double nearer to 0 than those with all bits, or 0.
    fn subnormal_double(&mut self) -> u64 {
        let zeros = self.random.below(FRACTION_BITS + 1);
        with_exponent(0, self.random.number()) >> zeros
    }

    /// A Double that is written in decimal, with some bits of its fraction 0.
    fn decimal_double(&mut self) -> u64 {
        let [first, last] = DECIMAL_EXPONENTS;
        let exponent = first + self.random.below((last - first + 1) as usize) as u64;
        let zeros = self.random.below(FRACTION_BITS + 1);
        with_exponent(exponent, self.random.number() >> zeros << zeros)
    }

    /// A Double as a person writes one.
    fn short_double(&mut self) -> f64 {
        let parts = self.random.pick(&[2.0, 4.0, 8.0, 10.0, 100.0, 1000.0]);
        self.random.below(100_000) as f64 / parts
    }

    /// A whole number: a power of two, the one before it, a power of ten, or another one.
    fn whole_double(&mut self) -> f64 {
        let bits = self.random.below(58);
        match self.random.below(4) {
            0 => (1u64 << bits) as f64,
            1 => ((1u64 << bits) - 1) as f64,
            2 => 10f64.powi(self.random.below(19) as i32),
            _ => (self.random.number() >> (63 - bits)) as f64,
        }
    }
}

/// The Double without a sign with this exponent and the last bits of a fraction.
fn with_exponent(exponent: u64, fraction: u64) -> u64 {
    (exponent << FRACTION_BITS) + fraction % (1 << FRACTION_BITS)
}
