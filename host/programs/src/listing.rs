//! The lines that a client prints, laid out as the listing program's: fields with one space between
//! them, a line with their names first, and an end line.

use crate::value::{quoted, type_word, value_words};
use nt2::{CopyTable, Entry};

/// The names of the fields.
pub const HEAD: &str = "id name type number value";

/// An entry's line. An array has a field for each element.
pub fn entry_line(id: u16, entry: &Entry<'_>) -> String {
    let name = quoted(entry.name);
    let mut line = format!("{id} {name} {} {}", type_word(entry.value_type), entry.number);
    for word in value_words(entry.value_type, entry.value) {
        line.push(' ');
        line.push_str(&word);
    }
    line
}

/// The lines of a whole copy. The end line has the bytes that the copy took and the entry count.
pub fn table_lines(copy: &CopyTable, taken: usize) -> Vec<String> {
    let mut lines = vec![HEAD.to_string()];
    lines.extend(copy.entries().map(|(id, entry)| entry_line(id, &entry)));
    lines.push(format!("end {taken} entries {}", copy.count()));
    lines
}
