//! Notices on their way out.

use super::explain::IgnoredMessages;
use super::spawn;
use crate::notice::Notice;
use std::convert::Infallible;
use std::io;
use std::sync::Arc;
use std::sync::atomic::{AtomicU64, Ordering};
use std::sync::mpsc::{Receiver, SyncSender, TryRecvError, channel, sync_channel};

/// At most so many notices wait, beside the one that is being handed over. Those of the messages that
/// a delivery ignored count as one.
pub const MOST_NOTICES: usize = 64;

/// Notices that a thread of their own hands over, so that whoever does not take them stops no call. It
/// finds out why messages were ignored, too.
#[derive(Clone)]
pub struct Notices {
    waiting: SyncSender<Waiting>,
    dropped: Arc<AtomicU64>,
}

enum Waiting {
    Notice(Notice),
    Ignored(IgnoredMessages),
}

impl Notices {
    /// The receiver is disconnected once there are no more, and all are handed over.
    pub fn start(
        notify: impl FnMut(&Notice) + Send + 'static,
    ) -> io::Result<(Self, Receiver<Infallible>)> {
        let (waiting, received) = sync_channel(MOST_NOTICES);
        let dropped = Arc::new(AtomicU64::new(0));
        let counted = Arc::clone(&dropped);
        let (at_work, end) = channel();
        spawn("notices", move || {
            hand_over(&received, &counted, notify);
            drop(at_work);
        })?;
        Ok((Notices { waiting, dropped }, end))
    }

    /// Lets a notice wait. Where too many do, it is dropped and counted.
    pub fn add(&self, notice: Notice) {
        self.push(Waiting::Notice(notice), 1);
    }

    /// Lets the notices of a delivery's ignored messages wait, or drops and counts them all.
    pub fn add_ignored(&self, messages: IgnoredMessages) {
        let count = messages.count() as u64;
        self.push(Waiting::Ignored(messages), count);
    }

    fn push(&self, waiting: Waiting, count: u64) {
        if self.waiting.try_send(waiting).is_err() {
            self.dropped.fetch_add(count, Ordering::Relaxed);
        }
    }
}

impl Waiting {
    fn hand_over(self, notify: &mut impl FnMut(&Notice)) {
        match self {
            Waiting::Notice(notice) => notify(&notice),
            Waiting::Ignored(messages) => messages.notices().iter().for_each(notify),
        }
    }
}

/// Hands over each notice, and how many were dropped once none waits.
fn hand_over(waiting: &Receiver<Waiting>, dropped: &AtomicU64, mut notify: impl FnMut(&Notice)) {
    loop {
        let next = waiting.try_recv();
        if next.is_err() {
            let count = dropped.swap(0, Ordering::Relaxed);
            if count > 0 {
                notify(&Notice::Dropped { count });
            }
        }
        match next {
            Ok(waiting) => waiting.hand_over(&mut notify),
            Err(TryRecvError::Disconnected) => return,
            Err(TryRecvError::Empty) => match waiting.recv() {
                Ok(waiting) => waiting.hand_over(&mut notify),
                Err(_) => return,
            },
        }
    }
}
