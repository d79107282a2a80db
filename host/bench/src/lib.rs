//! Timing of every call on tables of several sizes.

#![forbid(unsafe_code)]

pub mod measure;
pub mod record;
pub mod subject;
