//! Types and values as words: a value is one word, or one for each element of an array.

use crate::failure::Failure;
use nt2::{Place, Refusal, Type};
use std::str::FromStr;

const TYPES: [Type; 6] = [
    Type::Boolean,
    Type::Double,
    Type::String,
    Type::BooleanArray,
    Type::DoubleArray,
    Type::StringArray,
];

/// Bytes of a Double.
const DOUBLE_SIZE: usize = 8;
/// Bytes of a text's length prefix.
const PREFIX_SIZE: usize = 2;

#[derive(Clone, Copy)]
enum Element {
    Boolean,
    Double,
    String,
}

/// A type's word.
pub fn type_word(value_type: Type) -> &'static str {
    match value_type {
        Type::Boolean => "boolean",
        Type::Double => "double",
        Type::String => "string",
        Type::BooleanArray => "booleans",
        Type::DoubleArray => "doubles",
        Type::StringArray => "strings",
    }
}

/// The type with this word.
pub fn type_of(word: &str) -> Option<Type> {
    TYPES.into_iter().find(|&value_type| type_word(value_type) == word)
}

/// What a value consists of, and whether a count stands first.
fn elements_of(value_type: Type) -> (Element, bool) {
    match value_type {
        Type::Boolean => (Element::Boolean, false),
        Type::Double => (Element::Double, false),
        Type::String => (Element::String, false),
        Type::BooleanArray => (Element::Boolean, true),
        Type::DoubleArray => (Element::Double, true),
        Type::StringArray => (Element::String, true),
    }
}

/// The encoded value of words. Whether it is too long for an entry is left to the message writer.
pub fn encode_value(value_type: Type, words: &[&str]) -> Result<Vec<u8>, Failure> {
    let (element, has_count) = elements_of(value_type);
    let mut value = Vec::new();
    if has_count {
        value.push(u8::try_from(words.len()).map_err(|_| too_long_at(0))?);
    } else if words.len() != 1 {
        let word = type_word(value_type);
        return Err(Failure::Usage(format!("a {word} is one value, not {}", words.len())));
    }
    for word in words {
        put_element(element, word, &mut value)?;
    }
    Ok(value)
}

fn put_element(element: Element, word: &str, value: &mut Vec<u8>) -> Result<(), Failure> {
    match element {
        Element::Boolean => value.push(u8::from(parsed::<bool>(word, "true or false")?)),
        Element::Double => value.extend(parsed::<f64>(word, "a number")?.to_be_bytes()),
        Element::String => {
            let length = u16::try_from(word.len()).map_err(|_| too_long_at(value.len()))?;
            value.extend(length.to_be_bytes());
            value.extend(word.as_bytes());
        }
    }
    Ok(())
}

/// A count or length, at this byte of the value, that has no room for its number.
fn too_long_at(byte: usize) -> Failure {
    Failure::Refused(Refusal::TooLong(Place::Value(byte)))
}

fn parsed<T: FromStr>(word: &str, expected: &str) -> Result<T, Failure> {
    word.parse().map_err(|_| Failure::Usage(format!("{word:?} is not {expected}")))
}

/// The words of an encoded value, texts in quotes.
pub fn value_words(value_type: Type, value: &[u8]) -> Vec<String> {
    let (element, has_count) = elements_of(value_type);
    let elements = value.get(usize::from(has_count)..).unwrap_or_default();
    match element {
        Element::Boolean => elements.iter().map(|&flag| (flag != 0).to_string()).collect(),
        Element::Double => {
            let (doubles, _) = elements.as_chunks::<DOUBLE_SIZE>();
            doubles.iter().map(|&double| format!("{:?}", f64::from_be_bytes(double))).collect()
        }
        Element::String => quoted_texts(elements),
    }
}

fn quoted_texts(mut rest: &[u8]) -> Vec<String> {
    let mut texts = Vec::new();
    while let Some((prefix, behind)) = rest.split_first_chunk::<PREFIX_SIZE>()
        && let Some((text, behind)) =
            behind.split_at_checked(usize::from(u16::from_be_bytes(*prefix)))
    {
        texts.push(quoted(text));
        rest = behind;
    }
    texts
}

/// A text in quotes, in which no byte can be mistaken for the end of a word or line.
pub fn quoted(text: &[u8]) -> String {
    format!("{:?}", String::from_utf8_lossy(text))
}

#[cfg(test)]
mod tests {
    use super::*;

    /// Words, their encoding, and the words of that.
    fn there_and_back(value_type: Type, words: &[&str], value: &[u8], shown: &[&str]) {
        assert_eq!(encode_value(value_type, words).unwrap(), value);
        assert_eq!(value_words(value_type, value), shown);
        assert_eq!(type_of(type_word(value_type)), Some(value_type));
    }

    #[test]
    fn all_types() {
        there_and_back(Type::Boolean, &["true"], &[1], &["true"]);
        there_and_back(Type::Double, &["-0"], &[0x80, 0, 0, 0, 0, 0, 0, 0], &["-0.0"]);
        there_and_back(Type::String, &["a \"b\"\n"], b"\x00\x06a \"b\"\n", &[r#""a \"b\"\n""#]);
        there_and_back(Type::BooleanArray, &["false", "true"], &[2, 0, 1], &["false", "true"]);
        there_and_back(Type::DoubleArray, &["1"], b"\x01\x3F\xF0\0\0\0\0\0\0", &["1.0"]);
        there_and_back(
            Type::StringArray,
            &["", "é"],
            b"\x02\0\0\0\x02\xC3\xA9",
            &["\"\"", "\"é\""],
        );
        there_and_back(Type::StringArray, &[], &[0], &[]);
        assert_eq!(type_of("Boolean"), None);
    }

    #[test]
    fn words_that_are_no_value() {
        let status =
            |value_type, words: &[&str]| encode_value(value_type, words).unwrap_err().status();
        assert_eq!(status(Type::Boolean, &["1"]), 2);
        assert_eq!(status(Type::Double, &["12,5"]), 2);
        assert_eq!(status(Type::String, &[]), 2);
        assert_eq!(status(Type::String, &["two", "words"]), 2);
    }

    #[test]
    fn words_that_no_length_has_room_for() {
        let refusal = |value_type, words: &[&str]| match encode_value(value_type, words) {
            Err(Failure::Refused(refusal)) => refusal,
            other => panic!("{other:?}"),
        };
        let (at, long) = (|byte| Refusal::TooLong(Place::Value(byte)), "x".repeat(65_536));
        assert_eq!(refusal(Type::BooleanArray, &["true"; 256]), at(0));
        assert_eq!(refusal(Type::String, &[&long]), at(0));
        assert_eq!(refusal(Type::StringArray, &["lot/1", &long]), at(8));
    }
}
