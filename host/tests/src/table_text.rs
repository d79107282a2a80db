//! The text that the replay program prints: the table at the end of a line record.

use crate::implementation::Implementation;
use crate::memory::Memory;
use nt2_sys::{CONNECTIONS, ENTRIES, Head, TABLE_BYTES};
use std::num::FpCategory;
use std::ops::Range;

/// The Doubles that are written in decimal, from 2^-9 up to 2^53, as far as they have no sign.
const DECIMAL: Range<f64> = 0.001_953_125..9_007_199_254_740_992.0;

/// Bits of a Double's fraction.
const FRACTION_BITS: u32 = 52;

/// The text of a line record, by the calls of an implementation: a line for each entry, and last one
/// with the number where a record was refused.
pub fn replay_text<I: Implementation>(record: &[u8]) -> Vec<u8> {
    let heads = [Head::default(); ENTRIES];
    let mut memory = Memory::new(&heads, &[0; TABLE_BYTES], 0, &[0; CONNECTIONS]);
    let (table, marks) = memory.lend();
    let number = I::replay(table, marks, record).number;
    let mut text: Vec<u8> = (0..memory.count()).flat_map(|i| line(&memory, i)).collect();
    if number != 0 {
        text.extend(format!("refused {number}\n").bytes());
    }
    text
}

/// An entry's line: ID, name, type, sequence number, and the words of its value.
fn line(memory: &Memory, i: usize) -> Vec<u8> {
    let Head { type_code, number, .. } = memory.heads.lent()[i];
    let (word, words) = type_and_words(type_code, memory.value(i));
    let mut line = [format!("{i} ").as_bytes(), &quoted(memory.name(i))].concat();
    line.extend(format!(" {word} {number}").bytes());
    for word in words {
        line.push(b' ');
        line.extend(word);
    }
    line.push(b'\n');
    line
}

/// The type's word, and the words of a value of it.
fn type_and_words(type_code: u16, value: &[u8]) -> (&'static str, Vec<Vec<u8>>) {
    match type_code {
        0x00 => ("boolean", flags(value)),
        0x01 => ("double", doubles(value)),
        0x02 => ("string", texts(value)),
        0x10 => ("booleans", counted(value, flags)),
        0x11 => ("doubles", counted(value, doubles)),
        0x12 => ("strings", counted(value, texts)),
        _ => panic!("a table with the type {type_code}"),
    }
}

/// The words of all elements behind their count.
fn counted(value: &[u8], words: fn(&[u8]) -> Vec<Vec<u8>>) -> Vec<Vec<u8>> {
    let words = words(&value[1..]);
    assert_eq!(words.len(), usize::from(value[0]), "the count of an array");
    words
}

fn flags(bytes: &[u8]) -> Vec<Vec<u8>> {
    bytes.iter().map(|&flag| (flag != 0).to_string().into_bytes()).collect()
}

fn doubles(bytes: &[u8]) -> Vec<Vec<u8>> {
    let (doubles, rest) = bytes.as_chunks();
    assert!(rest.is_empty(), "a Double that is cut");
    doubles.iter().map(|&double| double_text(f64::from_be_bytes(double)).into_bytes()).collect()
}

fn texts(mut bytes: &[u8]) -> Vec<Vec<u8>> {
    let mut texts = Vec::new();
    while let Some((&length, behind)) = bytes.split_first_chunk() {
        let (text, behind) = behind.split_at(usize::from(u16::from_be_bytes(length)));
        texts.push(quoted(text));
        bytes = behind;
    }
    texts
}

/// A text in quotes.
fn quoted(text: &[u8]) -> Vec<u8> {
    let mut word = vec![b'"'];
    for &byte in text {
        match byte {
            b'"' | b'\\' => word.extend([b'\\', byte]),
            0..32 | 127 => word.extend(format!("\\x{byte:02x}").bytes()),
            _ => word.push(byte),
        }
    }
    word.push(b'"');
    word
}

/// A Double with all its digits, or as a whole number and a power of two.
fn double_text(double: f64) -> String {
    let sign = if double.is_sign_negative() { "-" } else { "" };
    let (number, power) = whole_number_and_power(double);
    match double.classify() {
        FpCategory::Nan => "NaN".into(),
        FpCategory::Infinite => format!("{sign}inf"),
        FpCategory::Zero => format!("{sign}0.0"),
        _ if DECIMAL.contains(&double.abs()) => format!("{sign}{}", decimal(number, -power)),
        _ => format!("{sign}{number}*2^{power}"),
    }
}

/// A finite Double without its sign: a number that is to be multiplied with a power of two.
fn whole_number_and_power(double: f64) -> (u64, i64) {
    let bits = double.abs().to_bits();
    let hidden = 1 << FRACTION_BITS;
    match (bits >> FRACTION_BITS, bits % hidden) {
        (0, fraction) => (fraction, -1074),
        (exponent, fraction) => (hidden + fraction, exponent as i64 - 1075),
    }
}

/// A number over 2^places, in decimal.
fn decimal(number: u64, places: i64) -> String {
    let one = 1u128 << places;
    let mut rest = u128::from(number);
    let mut text = format!("{}.", rest / one);
    loop {
        rest = rest % one * 10;
        text.push_str(&(rest / one).to_string());
        if rest.is_multiple_of(one) {
            return text;
        }
    }
}

#[cfg(test)]
mod tests {
    use super::*;
    use crate::implementation::Reference;
    use crate::random::Random;

    /// The same digits by the standard library, which has at most 61 behind the point.
    fn standard_decimal(double: f64) -> String {
        let digits = format!("{double:.61}");
        let digits = digits.trim_end_matches('0');
        if digits.ends_with('.') { format!("{digits}0") } else { digits.into() }
    }

    #[test]
    fn doubles_as_text() {
        let text = |bits| double_text(f64::from_bits(bits));
        assert_eq!(double_text(12.5), "12.5");
        assert_eq!(double_text(-3.0), "-3.0");
        assert_eq!(double_text(-0.0), "-0.0");
        assert_eq!(double_text(1e300), "6724873095247260*2^944");
        assert_eq!(text(0x8000_0000_0000_0001), "-1*2^-1074");
        assert_eq!(text(0x000F_FFFF_FFFF_FFFF), "4503599627370495*2^-1074");
        assert_eq!(text(0x0010_0000_0000_0000), "4503599627370496*2^-1074");
        assert_eq!(text(0x0020_0000_0000_0000), "4503599627370496*2^-1073");
        assert_eq!(text(0xFFF0_0000_0000_0000), "-inf");
        assert_eq!(text(0xFFF0_0000_0000_0001), "NaN");
    }

    #[test]
    fn ends_of_the_decimal_range() {
        assert_eq!(double_text(2f64.powi(-9)), "0.001953125");
        assert_eq!(double_text(2f64.powi(-9).next_down()), "9007199254740991*2^-62");
        assert_eq!(double_text(2f64.powi(53).next_down()), "9007199254740991.0");
        assert_eq!(double_text(2f64.powi(53)), "4503599627370496*2^1");
    }

    #[test]
    fn decimals_are_those_of_the_standard_library() {
        let mut random = Random::new(1);
        for _ in 0..20_000 {
            let cleared = random.below(53);
            let fraction = random.number() >> 12 >> cleared << cleared;
            let exponent = 1014 + random.below(62) as u64;
            let double = f64::from_bits((exponent << FRACTION_BITS) + fraction);
            assert!(DECIMAL.contains(&double));
            assert_eq!(double_text(double), standard_decimal(double));
            assert_eq!(double_text(-double), standard_decimal(-double));
        }
    }

    #[test]
    fn texts_in_quotes() {
        assert_eq!(quoted(b""), b"\"\"");
        assert_eq!(quoted(b"say \"a\\b\""), br#""say \"a\\b\"""#);
        assert_eq!(quoted(b"\0\x1F \x7E\x7F\xC2\x80"), b"\"\\x00\\x1f ~\\x7f\xC2\x80\"");
    }

    #[test]
    fn tables_as_text() {
        let record =
            b"\x01\x03\x42\x03\x01\x02\x00\x48\x03\x10\x00\x01a\x00\xFF\xFF\0\0\x40\x03\x01";
        assert_eq!(replay_text::<Reference>(record), b"0 \"a\" boolean 1 true\n");
        assert_eq!(replay_text::<Reference>(&record[..20]), b"refused 1\n");
        assert_eq!(replay_text::<Reference>(b""), b"");
    }
}
