//! Waiting for busy stripes: an event count, and a right of way.

use std::sync::atomic::{AtomicBool, AtomicU32, Ordering::SeqCst};
use std::sync::{Condvar, Mutex, MutexGuard, PoisonError};
use std::time::{Duration, Instant};

/// The longest sleep. A refused try of a call that waits may have stood in another one's way for a
/// moment, and doesn't ring: so nobody sleeps longer than this before it tries again. In this
/// crate's own tests it is so long that only a ring ends it.
const NAP: Duration = if cfg!(test) {
    Duration::from_secs(60)
} else {
    Duration::from_millis(1)
};

/// How long a call waits before it takes the right of way.
const PATIENCE: Duration = if cfg!(test) {
    NAP
} else {
    Duration::from_millis(5)
};

/// For how long at most a call has the right of way: what is in the way may be prepared and stay for
/// long, and then others would wait for what they need not.
const WAY: Duration = Duration::from_millis(10);

/// Counts the calls that have given stripes back, for those that wait. A waiter is counted before
/// it tries, and whoever gives stripes back looks for waiters after that.
///
/// A stripe that readers always share is never free for a writer. So a call that has waited for
/// `PATIENCE` takes the right of way, which one at a time has, and others stand back before they try:
/// the calls that are under way end, and the stripe is free.
#[derive(Default)]
pub struct EventCount {
    waiters: AtomicU32,
    /// Whether a call has the right of way; it changes under the lock.
    taken: AtomicBool,
    epoch: Mutex<u64>,
    /// The epoch has changed.
    rung: Condvar,
    /// Nobody has the right of way.
    given: Condvar,
}

/// The right of way. It is given back when it is dropped.
struct RightOfWay<'e>(&'e EventCount);

impl Drop for RightOfWay<'_> {
    fn drop(&mut self) {
        let _epoch = self.0.lock();
        self.0.taken.store(false, SeqCst);
        self.0.given.notify_all();
    }
}

/// How long it is until the moment, and at most so long. `None` never comes.
fn until(moment: Option<Instant>, longest: Duration) -> Duration {
    moment.map_or(longest, |moment| {
        longest.min(moment.saturating_duration_since(Instant::now()))
    })
}

impl EventCount {
    fn lock(&self) -> MutexGuard<'_, u64> {
        self.epoch.lock().unwrap_or_else(PoisonError::into_inner)
    }

    /// Tells those that wait that stripes are free. Where nobody waits it costs one load.
    pub fn ring(&self) {
        if self.waiters.load(SeqCst) == 0 {
            return;
        }
        *self.lock() += 1;
        self.rung.notify_all();
    }

    /// How many calls sleep, or are about to.
    #[cfg(test)]
    pub fn waiters(&self) -> u32 {
        self.waiters.load(SeqCst)
    }

    /// Sleeps while another call has the right of way, until the end at most. Where none has, it costs
    /// one load.
    pub fn stand_back(&self, end: Option<Instant>) {
        if self.taken.load(SeqCst) {
            let taken = |_: &mut u64| self.taken.load(SeqCst);
            let longest = until(end, WAY);
            drop(self.given.wait_timeout_while(self.lock(), longest, taken));
        }
    }

    fn take_right_of_way(&self) -> Option<RightOfWay<'_>> {
        let _epoch = self.lock();
        let is_free = !self.taken.swap(true, SeqCst);
        is_free.then(|| RightOfWay(self))
    }

    /// Tries until there is an answer, and sleeps between; `None` where there is none at the end.
    pub fn wait<T>(&self, end: Option<Instant>, attempt: impl FnMut() -> Option<T>) -> Option<T> {
        self.waiters.fetch_add(1, SeqCst);
        let answer = self.try_on(end, attempt);
        self.waiters.fetch_sub(1, SeqCst);
        answer
    }

    fn try_on<T>(&self, end: Option<Instant>, mut attempt: impl FnMut() -> Option<T>) -> Option<T> {
        let mut patience = PATIENCE;
        // when the right of way is taken next, or given back
        let mut turn = Instant::now() + patience;
        let mut way = None;
        loop {
            let before = *self.lock();
            if let Some(answer) = attempt() {
                return Some(answer);
            }
            let now = Instant::now();
            if end.is_some_and(|end| now >= end) {
                return None;
            }
            if now >= turn {
                way = match way.take() {
                    // it got nothing by it, and waits twice as long before it takes it again
                    Some(RightOfWay(_)) => {
                        patience *= 2;
                        turn = now + patience;
                        None
                    }
                    None => {
                        let way = self.take_right_of_way();
                        turn = now + if way.is_some() { WAY } else { NAP };
                        way
                    }
                };
            }
            let longest = until(end, until(Some(turn), NAP));
            let epoch = self.lock();
            drop(
                self.rung
                    .wait_timeout_while(epoch, longest, |epoch| *epoch == before),
            );
        }
    }
}
