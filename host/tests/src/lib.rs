//! Tests of an implementation of the table server: the acceptance cases, a differential test of
//! two implementations, and demand 3 on random runs.

#![forbid(unsafe_code)]

pub mod acceptance;
pub mod arguments;
pub mod call;
pub mod convergence;
pub mod delivery;
pub mod differential;
pub mod ending;
pub mod fingerprint;
pub mod generate;
pub mod implementation;
pub mod json;
pub mod line_record;
pub mod memory;
pub mod program;
pub mod random;
pub mod reason;
pub mod saved;
pub mod table_text;
