//! A cache whose entries expire: three threads put and look up, and a fourth one clears what is due.
//!
//! Time goes by ticks. An entry is found by its key, and by the tick at which it is due, so that whoever clears a tick
//! lists just the entries that are due then (`expiry.relc`). By hand these are a map and a wheel of lists, in which a
//! refreshed entry has to be moved under both locks, or it is cleared too early.
//!
//! A refreshed entry is taken out and put in again in one group: nobody misses it between the two. And the clearer
//! removes by key and tick, so that what was refreshed since it looked stays.
//!
//!     cargo run --release --example expiry

use relc::{Error, Group, Insert, Inserted, Options, Query, Remove, Session, Store};
use std::sync::atomic::{AtomicU64, Ordering};
use std::thread;

const THREADS: u64 = 3;
const CALLS: u64 = 4_000;
const KEYS: u64 = 200;

/// How many ticks an entry lives, and after how many calls of the first thread a tick is over.
const LIFE: u64 = 4;
const CALLS_A_TICK: u64 = 100;
const TICKS: u64 = CALLS / CALLS_A_TICK;

struct Cache {
    store: Store,
    /// The tick of now.
    now: AtomicU64,
    put: Insert<3>,
    drop: Remove<1, 3>,
    expire: Remove<2, 3>,
    get: Query<1, 2>,
    due: Query<1, 1>,
}

/// How many entries a thread put, refreshed and found.
#[derive(Clone, Copy, Debug, Default)]
struct Tally {
    put: u64,
    refreshed: u64,
    found: u64,
}

fn value_of(key: u64) -> u64 {
    key * key + 1
}

impl Cache {
    fn open() -> Result<Cache, Error> {
        let options = Options::sessions(THREADS as u32 + 1);
        let store = Store::open(include_str!("expiry.relc"), options)?;
        Ok(Cache {
            now: AtomicU64::new(0),
            put: store.insert_of("put", ["key", "value", "due"])?,
            drop: store.remove_of("drop", ["key"], ["key", "value", "due"])?,
            expire: store.remove_of("expire", ["key", "due"], ["key", "value", "due"])?,
            get: store.query_of("get", ["key"], ["value", "due"])?,
            due: store.query_of("due", ["due"], ["key"])?,
            store,
        })
    }

    /// Puts an entry, or gives the one that is there a new time; whether it was there.
    fn touch(&self, session: &mut Session, key: u64) -> Result<bool, Error> {
        let entry = [key, value_of(key), self.now.load(Ordering::SeqCst) + LIFE];
        let mut group = Group::new();
        let gone = group.add(self.drop, [key])?;
        let come = group.add(self.put, entry)?;
        let mut done = session.transaction(&group)?;
        assert_eq!(done.reply(come)?, Inserted::Added);
        Ok(done.reply(gone)?.is_some())
    }

    fn work(&self, thread: u64) -> Result<Tally, Error> {
        let mut session = self.store.session()?;
        let mut tally = Tally::default();
        for call in 0..CALLS {
            let random = (call * THREADS + thread).wrapping_mul(0x9e3779b97f4a7c15) >> 32;
            let key = random % KEYS;
            if random / KEYS % 3 == 0 {
                if self.touch(&mut session, key)? {
                    tally.refreshed += 1;
                } else {
                    tally.put += 1;
                }
            } else if let Some([value, _]) = session.first(self.get, [key])? {
                assert_eq!(value, value_of(key));
                tally.found += 1;
            }
            if thread == 0 && call % CALLS_A_TICK == CALLS_A_TICK - 1 {
                self.now.fetch_add(1, Ordering::SeqCst);
            }
        }
        Ok(tally)
    }

    /// Clears each tick once it is over, and says how many entries it took.
    fn clear(&self, until: u64) -> Result<u64, Error> {
        let mut session = self.store.session()?;
        let mut cleared = 0;
        for tick in 0..until {
            while self.now.load(Ordering::SeqCst) <= tick && tick < TICKS {
                thread::yield_now();
            }
            for [key] in session.call(self.due, [tick])?.rows()? {
                cleared += u64::from(session.call(self.expire, [key, tick])?.is_some());
            }
        }
        Ok(cleared)
    }
}

fn main() -> Result<(), Error> {
    let cache = &Cache::open()?;
    let (tallies, mut cleared) = thread::scope(|scope| {
        let clearer = scope.spawn(|| cache.clear(TICKS));
        let started = (0..THREADS).map(|thread| scope.spawn(move || cache.work(thread)));
        let started: Vec<_> = started.collect();
        let ended = started.into_iter().map(|thread| thread.join().unwrap());
        let tallies = ended.collect::<Result<Vec<Tally>, Error>>()?;
        Ok::<_, Error>((tallies, clearer.join().unwrap()?))
    })?;
    let sum = |of: fn(&Tally) -> u64| tallies.iter().map(of).sum::<u64>();
    let (put, refreshed, found) = (sum(|t| t.put), sum(|t| t.refreshed), sum(|t| t.found));
    // what was put and not cleared is there by its key, and is cleared once all ticks are over
    let mut session = cache.store.session()?;
    let mut left = 0;
    for key in 0..KEYS {
        left += session.count(cache.get, [key])?;
    }
    assert_eq!(left, put - cleared);
    cleared += cache.clear(TICKS + LIFE + 1)?;
    assert_eq!(cleared, put);
    println!("put {put}, refreshed {refreshed}, found {found}; {left} were left, and then cleared");
    Ok(())
}
