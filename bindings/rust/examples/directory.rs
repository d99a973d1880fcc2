//! The entries of a file system's directories, and four threads that create, look up, list and
//! unlink. (PLDI 2012, the directory tree.)
//!
//! An entry is looked up by directory and name, and the entries of a directory are listed. So there
//! are two ways to it (`directory.relc`): a hash over both, and for each directory an ordered map
//! of names. Both meet at the entry, and the inode below it is kept once, whichever way one comes.
//!
//! `dirs` is striped by the directory, and `entries` by directory and name: a look-up locks one of
//! 64 stripes, shared, and doesn't meet those of other names of the same directory, as the root's.
//! `names` locks the directory's stripe alone. `list` wants the inodes too, and locks the entries'
//! stripes as well: that is what it costs to keep them once. `create` and `unlink` write one stripe
//! of each: two of them in one directory come one after the other, as its list of names needs.
//!
//!     cargo run --release --example directory

use relc::{Error, Insert, Inserted, Options, Query, Remove, Store};
use std::thread;

const THREADS: u64 = 4;
const CALLS: u64 = 4_000;
const DIRECTORIES: u64 = 5;
const NAMES: u64 = 20;

struct Directories {
    store: Store,
    create: Insert<3>,
    unlink: Remove<2, 3>,
    lookup: Query<2, 1>,
    names: Query<1, 1>,
    list: Query<1, 2>,
}

/// The inodes that a thread made, and those whose entries it unlinked.
#[derive(Default)]
struct Work {
    made: Vec<u64>,
    gone: Vec<u64>,
}

/// The one directory and name under which an inode is ever entered: they look random.
fn home(child: u64) -> [u64; 2] {
    let random = child.wrapping_mul(0x9e3779b97f4a7c15) >> 40;
    [random % DIRECTORIES, random / DIRECTORIES % NAMES]
}

impl Directories {
    fn open() -> Result<Directories, Error> {
        let options = Options::sessions(THREADS as u32);
        let store = Store::open(include_str!("directory.relc"), options)?;
        Ok(Directories {
            create: store.insert("create")?,
            unlink: store.remove("unlink")?,
            lookup: store.query("lookup")?,
            names: store.query("names")?,
            list: store.query("list")?,
            store,
        })
    }

    fn work(&self, thread: u64) -> Result<Work, Error> {
        let mut session = self.store.session()?;
        let mut work = Work::default();
        for child in (0..CALLS).map(|call| call * THREADS + thread) {
            let [parent, name] = home(child);
            match child / THREADS % 4 {
                // of all threads that create a name, one does
                0 => {
                    if session.call(self.create, [parent, name, child])? == Inserted::Added {
                        work.made.push(child);
                    }
                }
                1 => {
                    let found = session.call(self.lookup, [parent, name])?.rows()?;
                    assert!(found.iter().all(|[child]| home(*child) == [parent, name]));
                }
                2 => {
                    let entries = session.call(self.list, [parent])?.rows()?;
                    assert!(entries.is_sorted());
                    assert!(
                        entries
                            .iter()
                            .all(|[name, child]| home(*child) == [parent, *name])
                    );
                }
                // and of all threads that unlink it, one
                _ => {
                    let unlinked = session.call(self.unlink, [parent, name])?;
                    work.gone.extend(unlinked.map(|[_, _, child]| child));
                }
            }
        }
        Ok(work)
    }
}

fn main() -> Result<(), Error> {
    let directories = &Directories::open()?;
    let work: Vec<Work> = thread::scope(|scope| {
        let started = (0..THREADS).map(|thread| scope.spawn(move || directories.work(thread)));
        let started: Vec<_> = started.collect();
        let ended = started.into_iter().map(|thread| thread.join().unwrap());
        ended.collect::<Result<_, Error>>()
    })?;
    // what is there is what was made and wasn't unlinked
    let mut left: Vec<u64> = work.iter().flat_map(|work| work.made.clone()).collect();
    let made = left.len();
    for child in work.iter().flat_map(|work| &work.gone) {
        let at = left
            .iter()
            .position(|made| made == child)
            .expect("it was made, and gone once");
        left.swap_remove(at);
    }
    println!("made {made}, unlinked {}", made - left.len());
    let mut session = directories.store.session()?;
    let mut found = Vec::new();
    for parent in 0..DIRECTORIES {
        let entries = session.call(directories.list, [parent])?.rows()?;
        let names = session.call(directories.names, [parent])?.rows()?;
        assert!(
            names
                .into_iter()
                .eq(entries.iter().map(|[name, _]| [*name]))
        );
        for [name, child] in entries {
            assert_eq!(
                session.call(directories.lookup, [parent, name])?.rows()?,
                [[child]]
            );
            found.push(child);
        }
    }
    left.sort();
    found.sort();
    assert_eq!(left, found);
    println!("{} entries are left", left.len());
    Ok(())
}
