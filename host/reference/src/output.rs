//! Where a call writes what it sends.

use crate::wire::{Judged, Refusal};

pub trait Output {
    /// Refuses if there is no room for so many bytes.
    fn demand(&self, length: usize) -> Judged<()>;

    /// Lends the output to a writer, which answers how much it wrote.
    fn write(&mut self, writer: impl FnOnce(&mut [u8]) -> usize);
}

impl Output for [u8] {
    fn demand(&self, length: usize) -> Judged<()> {
        if self.len() < length { Err(Refusal::Room.into()) } else { Ok(()) }
    }

    fn write(&mut self, writer: impl FnOnce(&mut [u8]) -> usize) {
        writer(self);
    }
}

/// What is sent is read by no one, so it is not written.
pub struct Unread;

impl Output for Unread {
    fn demand(&self, _: usize) -> Judged<()> {
        Ok(())
    }

    fn write(&mut self, _: impl FnOnce(&mut [u8]) -> usize) {}
}
