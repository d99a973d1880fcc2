//! A cache of files that has two keys, and four threads that load, look up and evict.
//!
//! A cached file is found by its device and inode, and by the hash of its path: a hash for each,
//! and both lead to rows that hold all that a look-up answers (`cache.relc`). So a look-up is one
//! look into one hash, and locks one stripe of one class, shared. The second dependency, `path ->
//! dev ino`, keeps the keys one to one: `load` answers `Conflict(2)` where the path is another
//! file's, as when a file was moved over one that is cached. By hand that is what goes wrong: two
//! maps, an entry left in one of them.
//!
//! Locks are taken in the order of the classes, so `evict`, which knows the inode, locks its stripe
//! of `inodes`, reads the path, and locks that one's stripe of `paths`. `evictpath` comes from the
//! other side: before it has read the inode it must lock `inodes`, and locks all 16 stripes. Put
//! the class first by whose key more is removed.
//!
//!     cargo run --release --example cache

use relc::{Error, Insert, Inserted, Options, Query, Remove, Store};
use std::thread;

const THREADS: u64 = 4;
const CALLS: u64 = 5_000;
const PATHS: u64 = 50;

/// Each path is that of one of so many inodes at a time.
const MOVES: u64 = 3;
const INODES: u64 = PATHS * MOVES;
const DEVICE: u64 = 8;

struct Cache {
    store: Store,
    load: Insert<4>,
    by_inode: Query<2, 2>,
    by_path: Query<1, 3>,
    evict: Remove<2, 4>,
    evict_path: Remove<1, 4>,
}

/// How many files a thread loaded, evicted and found.
#[derive(Clone, Copy, Default)]
struct Tally {
    loaded: usize,
    evicted: usize,
    found: usize,
}

/// What the disk has at an inode, and the inode's path.
fn on_disk(ino: u64) -> (u64, u64) {
    (ino * ino + DEVICE, ino % PATHS)
}

impl Cache {
    fn open() -> Result<Cache, Error> {
        let store = Store::open(
            include_str!("cache.relc"),
            Options::sessions(THREADS as u32),
        )?;
        Ok(Cache {
            load: store.insert("load")?,
            by_inode: store.query("byinode")?,
            by_path: store.query("bypath")?,
            evict: store.remove("evict")?,
            evict_path: store.remove("evictpath")?,
            store,
        })
    }

    fn work(&self, thread: u64) -> Result<Tally, Error> {
        let mut session = self.store.session()?;
        let mut tally = Tally::default();
        for call in 0..CALLS {
            // numbers that look random
            let random = (call * THREADS + thread).wrapping_mul(0x9e3779b97f4a7c15) >> 32;
            let ino = random % INODES;
            let (data, path) = on_disk(ino);
            match random / INODES % 10 {
                0..6 => match session.call(self.by_path, [path])?.rows()?[..] {
                    // what is found is whole, whatever the other threads do
                    [[dev, ino, data]] => {
                        assert_eq!((dev, on_disk(ino)), (DEVICE, (data, path)));
                        tally.found += 1;
                    }
                    _ => match session.call(self.load, [DEVICE, ino, path, data])? {
                        Inserted::Added => tally.loaded += 1,
                        Inserted::Present => {} // another thread has loaded it meanwhile
                        Inserted::Conflict(dependency) => assert_eq!(dependency, 2),
                    },
                },
                6 | 7 => {
                    let rows = session.call(self.by_inode, [DEVICE, ino])?.rows()?;
                    assert!(rows.iter().all(|row| *row == [path, data]));
                    tally.found += rows.len();
                }
                8 => {
                    let gone = session.call(self.evict, [DEVICE, ino])?;
                    tally.evicted += usize::from(gone.is_some());
                }
                _ => match session.call(self.load, [DEVICE, ino, path, data])? {
                    // the path leads to this file now: what it led to before is stale
                    Inserted::Conflict(_) => {
                        let gone = session.call(self.evict_path, [path])?;
                        tally.evicted += usize::from(gone.is_some());
                    }
                    reply => tally.loaded += usize::from(reply == Inserted::Added),
                },
            }
        }
        Ok(tally)
    }
}

fn main() -> Result<(), Error> {
    let cache = &Cache::open()?;
    let tallies: Vec<Tally> = thread::scope(|scope| {
        let started = (0..THREADS).map(|thread| scope.spawn(move || cache.work(thread)));
        let started: Vec<_> = started.collect();
        let ended = started.into_iter().map(|thread| thread.join().unwrap());
        ended.collect::<Result<_, Error>>()
    })?;
    let sum = |of: fn(&Tally) -> usize| tallies.iter().map(of).sum::<usize>();
    let (loaded, evicted) = (sum(|tally| tally.loaded), sum(|tally| tally.evicted));
    println!("loaded {loaded}, evicted {evicted}");
    println!("{} look-ups found a file", sum(|tally| tally.found));
    // each file that is left is found by both keys, and none was lost
    let mut session = cache.store.session()?;
    let mut left = 0;
    for ino in 0..INODES {
        for [path, data] in session.call(cache.by_inode, [DEVICE, ino])?.rows()? {
            let found = session.call(cache.by_path, [path])?.rows()?;
            assert_eq!(found, [[DEVICE, ino, data]]);
            left += 1;
        }
    }
    let mut paths = 0;
    for path in 0..PATHS {
        paths += session.call(cache.by_path, [path])?.rows()?.len();
    }
    assert_eq!((left, paths), (loaded - evicted, left));
    println!("{left} files are left, each by both keys");
    Ok(())
}
