//! A scheduler's table of processes, which the threads of four processors share.
//!
//! A call knows a process by its name, or knows the queue it wants one of: so the relation has a
//! way for each (`scheduler.relc`). By name there is one hash over namespace and number together,
//! and not one of namespaces with one of numbers in each: nothing here lists a namespace, and so
//! calls on two processes of one namespace are on different stripes. A queue is an ordered map,
//! since its processes are listed, and taken from its midst.
//!
//! Each way has a lock class that is striped by what its calls know. `find` locks one stripe of
//! `names`, and `queue` one of `queues`, both shared; `spawn` and `take` write one of each, so
//! processors that work on their own queues seldom meet. `all`, which asks for a state at all
//! processors, knows no name and no queue: it reads every process, and locks all stripes of
//! `names`, shared. That is a call for now and then.
//!
//!     cargo run --release --example scheduler

use relc::{Error, Insert, Inserted, Options, Query, Remove, Session, Store};
use std::thread;

const PROCESSORS: u64 = 4;

/// How many processes each processor spawns.
const SPAWNED: u64 = 60;

const RUNNABLE: u64 = 0;
const SLEEPING: u64 = 1;

struct Processes {
    store: Store,
    spawn: Insert<4>,
    take: Remove<2, 4>,
    find: Query<2, 2>,
    queue: Query<2, 2>,
    all: Query<1, 3>,
}

/// What a processor did: the numbers of the processes that it ran, and of those that it killed.
#[derive(Default)]
struct Work {
    ran: Vec<u64>,
    killed: Vec<u64>,
    stolen: usize,
}

impl Processes {
    fn open() -> Result<Processes, Error> {
        let options = Options::sessions(PROCESSORS as u32);
        let store = Store::open(include_str!("scheduler.relc"), options)?;
        Ok(Processes {
            spawn: store.insert("spawn")?,
            take: store.remove("take")?,
            find: store.query("find")?,
            queue: store.query("queue")?,
            all: store.query("all")?,
            store,
        })
    }

    /// Takes a process out of a queue of this processor, or of one after it.
    fn take_one(&self, session: &mut Session, cpu: u64) -> Result<Option<[u64; 4]>, Error> {
        for at in (cpu..cpu + PROCESSORS).map(|at| at % PROCESSORS) {
            for state in [RUNNABLE, SLEEPING] {
                for name in session.call(self.queue, [state, at])?.rows()? {
                    // since the queue was read, another thread may have been faster
                    if let Some(process) = session.call(self.take, name)? {
                        return Ok(Some(process));
                    }
                }
            }
        }
        Ok(None)
    }

    /// Spawns processes; then runs each runnable one that it gets hold of, and lets it sleep at the
    /// next processor; and kills each sleeping one. It acts on what `take` answers, since a process
    /// may have moved on since the queue was read. Between `take` and `spawn` the process isn't
    /// there, so that no other thread can run it, nor find it (after an update it would be), and a
    /// processor that finds all queues empty in that time leaves.
    fn work(&self, cpu: u64) -> Result<Work, Error> {
        let mut session = self.store.session()?;
        for pid in cpu * SPAWNED..(cpu + 1) * SPAWNED {
            let spawned = session.call(self.spawn, [pid % 3, pid, RUNNABLE, cpu])?;
            assert_eq!(spawned, Inserted::Added);
        }
        let mut work = Work::default();
        while let Some([ns, pid, state, at]) = self.take_one(&mut session, cpu)? {
            work.stolen += usize::from(at != cpu);
            if state == RUNNABLE {
                work.ran.push(pid);
                let next = (cpu + 1) % PROCESSORS;
                let moved = session.call(self.spawn, [ns, pid, SLEEPING, next])?;
                assert_eq!(moved, Inserted::Added);
            } else {
                work.killed.push(pid);
            }
        }
        Ok(work)
    }
}

fn main() -> Result<(), Error> {
    let processes = &Processes::open()?;
    let work: Vec<Work> = thread::scope(|scope| {
        let started = (0..PROCESSORS).map(|cpu| scope.spawn(move || processes.work(cpu)));
        let started: Vec<_> = started.collect();
        let ended = started.into_iter().map(|thread| thread.join().unwrap());
        ended.collect::<Result<_, Error>>()
    })?;
    for (cpu, work) in work.iter().enumerate() {
        let [ran, killed] = [&work.ran, &work.killed].map(Vec::len);
        println!(
            "processor {cpu}: ran {ran}, killed {killed}, took {} from others",
            work.stolen
        );
    }
    // each process ran once, at one processor, and was killed once
    for what in [
        |work: &Work| work.ran.clone(),
        |work: &Work| work.killed.clone(),
    ] {
        let mut pids: Vec<u64> = work.iter().flat_map(what).collect();
        pids.sort();
        assert!(pids.into_iter().eq(0..PROCESSORS * SPAWNED));
    }
    let mut session = processes.store.session()?;
    assert!(session.call(processes.find, [0, 0])?.rows()?.is_empty());
    for state in [RUNNABLE, SLEEPING] {
        assert!(session.call(processes.all, [state])?.rows()?.is_empty());
    }
    println!("{} processes ran once each", PROCESSORS * SPAWNED);
    Ok(())
}
