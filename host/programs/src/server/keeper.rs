//! The table on its way to its file.

use super::notices::Notices;
use super::{Fault, spawn};
use crate::notice::Notice;
use crate::table_file::TableFile;
use nt2::{LONGEST_SAVED, ServerTable};
use std::io;
use std::sync::{Arc, Condvar, Mutex, MutexGuard, PoisonError};
use std::thread::JoinHandle;
use std::time::{Duration, Instant};

/// The pause after a table that could not be written.
const WRITE_PAUSE: Duration = Duration::from_secs(2);

/// Saves a table after its changes. A thread of its own writes the file, so that no call waits for
/// the disk.
pub struct Keeper {
    file: Arc<TableFile>,
    waiting: Arc<Waiting>,
    thread: Option<JoinHandle<Result<(), Fault>>>,
    delay: Duration,
    /// When the table is to be saved, if it has changed.
    due: Option<Instant>,
}

#[derive(Default)]
struct Waiting {
    state: Mutex<State>,
    changed: Condvar,
}

#[derive(Default)]
struct State {
    /// The newest saved table, unless it is taken already.
    newest: Option<Vec<u8>>,
    /// No newer one will come.
    is_last: bool,
    /// How long writing takes, by the last ones.
    took: Duration,
}

impl Keeper {
    /// A change is saved after the delay.
    pub fn start(file: TableFile, delay: Duration, notices: Notices) -> io::Result<Self> {
        let waiting = Arc::new(Waiting::default());
        let file = Arc::new(file);
        let (written, taken) = (Arc::clone(&file), Arc::clone(&waiting));
        let thread = Some(spawn("keeper", move || taken.write_to(&written, &notices))?);
        Ok(Keeper { file, waiting, thread, delay, due: None })
    }

    /// The table has changed, or has no file yet. Where writing takes long, the delay is the
    /// shorter for it, so that the file has the change after about the same time.
    pub fn changed(&mut self) {
        let delay = || self.delay.saturating_sub(self.waiting.lock().took);
        self.due.get_or_insert_with(|| Instant::now() + delay());
    }

    /// The time until the table is to be saved, if it is.
    pub fn time_left(&self) -> Option<Duration> {
        self.due.map(|due| due.saturating_duration_since(Instant::now()))
    }

    /// Hands the table over to be written. One that still waits for that is not written any more.
    pub fn save(&mut self, table: &ServerTable) {
        self.due = None;
        let mut saved = vec![0; LONGEST_SAVED];
        let length = table.save(&mut saved).expect("an owned table is sound").len();
        saved.truncate(length);
        self.waiting.change(|state| state.newest = Some(saved));
    }

    /// Saves a table that will not change any more, unless the file has it.
    pub fn save_last(&mut self, table: &ServerTable) {
        if self.due.is_some() || !self.file.exists() {
            self.save(table);
        }
    }

    /// Waits until what waits is written.
    pub fn end(mut self) -> Result<(), Fault> {
        self.finish()
    }

    fn finish(&mut self) -> Result<(), Fault> {
        self.waiting.change(|state| state.is_last = true);
        match self.thread.take() {
            Some(thread) => thread.join().unwrap_or(Err(Fault::Panicked)),
            None => Ok(()),
        }
    }
}

impl Drop for Keeper {
    /// Where the owner of the table has failed, what it handed over is written all the same.
    fn drop(&mut self) {
        let _ = self.finish();
    }
}

impl Waiting {
    /// Writes each table, or the newest where several came, until there are no more. One that
    /// cannot be written is tried again, unless a newer one has come.
    fn write_to(&self, file: &TableFile, notices: &Notices) -> Result<(), Fault> {
        let mut failed_before = false;
        while let Some((saved, is_last)) = self.next() {
            let start = Instant::now();
            let (written, file) = (file.replace(&saved), file.path().to_path_buf());
            let failed = written.is_err();
            match written {
                Ok(()) => {
                    self.note(start.elapsed());
                    if failed_before {
                        notices.add(Notice::SavedAgain { file });
                    }
                }
                Err(error) if is_last => return Err(Fault::NotSaved { file, error }),
                Err(error) => {
                    notices.add(Notice::NotSaved { file, error });
                    self.put_back(saved);
                }
            }
            failed_before = failed;
        }
        Ok(())
    }

    /// The newest table once there is one, and whether it is the last; none where no more will
    /// come.
    fn next(&self) -> Option<(Vec<u8>, bool)> {
        let idle = |state: &mut State| state.newest.is_none() && !state.is_last;
        let waited = self.changed.wait_while(self.lock(), idle);
        let mut state = waited.unwrap_or_else(PoisonError::into_inner);
        let is_last = state.is_last;
        state.newest.take().map(|newest| (newest, is_last))
    }

    /// Lets a table wait again after a pause, which the end cuts short.
    fn put_back(&self, saved: Vec<u8>) {
        let goes_on = |state: &mut State| !state.is_last;
        let waited = self.changed.wait_timeout_while(self.lock(), WRITE_PAUSE, goes_on);
        let (mut state, _) = waited.unwrap_or_else(PoisonError::into_inner);
        state.newest.get_or_insert(saved);
    }

    /// Notes how long writing took. A long time is forgotten by halves.
    fn note(&self, took: Duration) {
        let mut state = self.lock();
        state.took = took.max(state.took / 2);
    }

    fn change(&self, change: impl FnOnce(&mut State)) {
        change(&mut self.lock());
        self.changed.notify_all();
    }

    /// No part of the state is left half changed, so a panic elsewhere does not matter.
    fn lock(&self) -> MutexGuard<'_, State> {
        self.state.lock().unwrap_or_else(PoisonError::into_inner)
    }
}

#[cfg(test)]
mod tests {
    use super::*;

    #[test]
    fn newest_is_written_alone() {
        let waiting = Waiting::default();
        let hand_over = |byte| waiting.change(|state| state.newest = Some(vec![byte]));
        hand_over(1);
        hand_over(2);
        assert_eq!(waiting.next(), Some((vec![2], false)));
        hand_over(3);
        waiting.change(|state| state.is_last = true);
        // One that could not be written gives way to a newer one, and comes again where there is
        // none.
        waiting.put_back(vec![2]);
        assert_eq!(waiting.next(), Some((vec![3], true)));
        waiting.put_back(vec![3]);
        assert_eq!(waiting.next(), Some((vec![3], true)));
        assert_eq!(waiting.next(), None);
    }

    #[test]
    fn long_time_is_forgotten_by_halves() {
        let waiting = Waiting::default();
        let took = |milliseconds| {
            waiting.note(Duration::from_millis(milliseconds));
            waiting.lock().took.as_millis()
        };
        assert_eq!([5, 400, 20, 150, 10, 60].map(took), [5, 400, 200, 150, 75, 60]);
    }
}
