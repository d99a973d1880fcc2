//! Processes that change their states, while a reader counts them: it finds each once, at any time.
//!
//! A process changes its state by a `take` and a `spawn` that are one group. Each alone would be an entry
//! of its own, and who looks between them finds one process too few. (An update by the name does the same
//! by one call; but it keeps the name, and a group may do anything.)
//!
//! The reader, too, makes a group: of a query for each state, so that it sees both at one place of the
//! history. By two calls it would see the states at two places, and a process that moves meanwhile twice,
//! or not at all.
//!
//!     cargo run --release --example states

use relc::{Answer, Error, Group, Insert, Inserted, Options, Query, Remove, Store};
use std::sync::atomic::{AtomicBool, Ordering::SeqCst};
use std::thread;

/// How many threads change states; one more reads.
const MOVERS: u64 = 3;
const PROCESSES: u64 = 30;
const CHANGES: u64 = 3_000;

const RUNNABLE: u64 = 0;
const SLEEPING: u64 = 1;

struct Processes {
    store: Store,
    spawn: Insert<4>,
    take: Remove<2, 4>,
    all: Query<1, 3>,
}

impl Processes {
    fn open() -> Result<Processes, Error> {
        let options = Options::sessions(MOVERS as u32 + 1);
        let store = Store::open(include_str!("scheduler.relc"), options)?;
        Ok(Processes {
            spawn: store.insert("spawn")?,
            take: store.remove("take")?,
            all: store.query("all")?,
            store,
        })
    }

    /// Lets one after another of a thread's processes change its state.
    fn change(&self, thread: u64) -> Result<(), Error> {
        let mut session = self.store.session()?;
        let mut moved = Group::new();
        let out = moved.add(self.take, [0, 0])?;
        let back = moved.add(self.spawn, [0, 0, RUNNABLE, 0])?;
        for change in 0..CHANGES {
            let pid = change % PROCESSES;
            let [from, to] = match change / PROCESSES % 2 {
                0 => [RUNNABLE, SLEEPING],
                _ => [SLEEPING, RUNNABLE],
            };
            moved.set(out, self.take, [thread, pid])?;
            moved.set(back, self.spawn, [thread, pid, to, thread])?;
            let mut done = session.transaction(&moved)?;
            assert_eq!(done.reply(out)?, Some([thread, pid, from, thread]));
            assert_eq!(done.reply(back)?, Inserted::Added);
        }
        Ok(())
    }

    /// Counts all processes, until the movers have ended, and at least once; how often, and how often some
    /// were in each state.
    fn count(&self, ended: &AtomicBool) -> Result<(u64, u64), Error> {
        let mut session = self.store.session()?;
        let mut both = Group::new();
        let runnable = both.add(self.all, [RUNNABLE])?;
        let sleeping = both.add(self.all, [SLEEPING])?;
        let (mut counted, mut mixed) = (0, 0);
        loop {
            let last = ended.load(SeqCst);
            let mut done = session.transaction(&both)?;
            let runnable = done.reply(runnable)?.rows()?;
            let sleeping = done.reply(sleeping)?.rows()?;
            mixed += u64::from(!runnable.is_empty() && !sleeping.is_empty());
            let mut names: Vec<_> = (runnable.into_iter().chain(sleeping))
                .map(|[ns, pid, _]| (ns, pid))
                .collect();
            names.sort();
            let each = (0..MOVERS).flat_map(|ns| (0..PROCESSES).map(move |pid| (ns, pid)));
            assert!(names.into_iter().eq(each), "each process is there once");
            counted += 1;
            if last {
                return Ok((counted, mixed));
            }
        }
    }
}

fn main() -> Result<(), Error> {
    let processes = &Processes::open()?;
    let mut session = processes.store.session()?;
    for ns in 0..MOVERS {
        for pid in 0..PROCESSES {
            let spawned = session.call(processes.spawn, [ns, pid, RUNNABLE, ns])?;
            assert_eq!(spawned, Inserted::Added);
        }
    }
    drop(session);
    let ended = &AtomicBool::new(false);
    let (counted, mixed) = thread::scope(|scope| {
        let reader = scope.spawn(move || processes.count(ended));
        let movers: Vec<_> = (0..MOVERS)
            .map(|thread| scope.spawn(move || processes.change(thread)))
            .collect();
        let moved: Result<(), Error> = movers
            .into_iter()
            .map(|mover| mover.join().unwrap())
            .collect();
        ended.store(true, SeqCst);
        moved.and(reader.join().unwrap())
    })?;
    let all = MOVERS * PROCESSES;
    println!("{} changes of state, one call for two", MOVERS * CHANGES);
    println!("{counted} counts found all {all} processes, {mixed} of them in both states");
    let mut session = processes.store.session()?;
    let left = session.call(processes.all, [RUNNABLE])?;
    assert!(matches!(left, Answer::Rows(rows) if rows.len() as u64 == all));
    Ok(())
}
