//! The numbers that calls answer with, as in `nt2.h`.

pub const DONE: u8 = 0;
pub const INCOMPLETE: u8 = 1;
pub const NO_SUCH_CONNECTION: u8 = 2;
pub const STATE: u8 = 3;
pub const KIND: u8 = 4;
pub const ASSIGNMENT_ID: u8 = 5;
pub const UNKNOWN_ID: u8 = 6;
pub const TYPE: u8 = 7;
pub const NOT_BOOLEAN: u8 = 8;
pub const NOT_TEXT: u8 = 9;
pub const TOO_LONG: u8 = 10;
pub const FULL: u8 = 11;
pub const ROOM: u8 = 12;
pub const NAME_HELD: u8 = 13;
pub const UNSOUND: u8 = 14;
pub const FILLING: u8 = 15;
pub const IGNORED: u8 = 16;
