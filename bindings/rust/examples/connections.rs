//! The connections of a server, which four threads make, look up and end: by number, by user and by address.
//!
//! Users and hosts are texts, and a store's values are numbers: `relc::Texts` has a number for each text. The second
//! dependency of `connections.relc` says that an address has one connection: `connect` answers `Conflict(2)` where
//! another one has it. By hand that is a test in a second map, under a second lock, and in the right order.
//!
//! The operations are looked up with the names of their columns, so that a column that is exchanged with another one
//! is told when the program starts, and not by a wrong row.
//!
//!     cargo run --release --example connections

use relc::{Error, Insert, Inserted, Options, Query, Remove, Session, Store, Texts};
use std::sync::atomic::{AtomicU64, Ordering};
use std::thread;

const THREADS: u64 = 4;
const CALLS: u64 = 4_000;
const USERS: u64 = 20;
const HOSTS: u64 = 8;
const PORTS: u64 = 16;

struct Connections {
    store: Store,
    texts: Texts,
    next: AtomicU64,
    connect: Insert<4>,
    close: Remove<1, 4>,
    hangup: Remove<2, 4>,
    of: Query<1, 3>,
    at: Query<2, 2>,
}

/// How many connections a thread made, and ended, and how often an address was in use.
#[derive(Clone, Copy, Debug, Default)]
struct Tally {
    made: u64,
    ended: u64,
    refused: u64,
}

impl Connections {
    fn open() -> Result<Connections, Error> {
        let options = Options::sessions(THREADS as u32);
        let store = Store::open(include_str!("connections.relc"), options)?;
        let all = ["id", "user", "host", "port"];
        Ok(Connections {
            texts: Texts::new(),
            next: AtomicU64::new(0),
            connect: store.insert_of("connect", all)?,
            close: store.remove_of("close", ["id"], all)?,
            hangup: store.remove_of("hangup", ["host", "port"], all)?,
            of: store.query_of("of", ["user"], ["id", "host", "port"])?,
            at: store.query_of("at", ["host", "port"], ["id", "user"])?,
            store,
        })
    }

    /// Makes a connection of the user at the address, where no other one has it.
    fn connect(
        &self,
        session: &mut Session,
        user: &str,
        host: &str,
        port: u64,
    ) -> Result<bool, Error> {
        let id = self.next.fetch_add(1, Ordering::Relaxed);
        let values = [id, self.texts.number(user), self.texts.number(host), port];
        match session.call(self.connect, values)? {
            Inserted::Added => Ok(true),
            Inserted::Conflict(2) => Ok(false),
            other => unreachable!("no other connection has this number: {other:?}"),
        }
    }

    /// Closes one of the user's connections, if there is one, and says whether it was still there.
    fn close_one(&self, session: &mut Session, user: &str) -> Result<bool, Error> {
        let Some(number) = self.texts.find(user) else {
            return Ok(false);
        };
        let Some([id, _, _]) = session.first(self.of, [number])? else {
            return Ok(false);
        };
        let closed = session.call(self.close, [id])?;
        assert!(closed.is_none_or(|[_, user, _, _]| user == number));
        Ok(closed.is_some())
    }

    fn work(&self, thread: u64) -> Result<Tally, Error> {
        let mut session = self.store.session()?;
        let mut tally = Tally::default();
        for call in 0..CALLS {
            let random = (call * THREADS + thread).wrapping_mul(0x9e3779b97f4a7c15) >> 32;
            let user = format!("user-{}", random % USERS);
            let host = format!("10.0.0.{}", random / USERS % HOSTS);
            let port = random / USERS / HOSTS % PORTS;
            match random / USERS / HOSTS / PORTS % 8 {
                0..4 => {
                    if self.connect(&mut session, &user, &host, port)? {
                        tally.made += 1;
                    } else {
                        tally.refused += 1;
                    }
                }
                4 => tally.ended += u64::from(self.close_one(&mut session, &user)?),
                5 => {
                    let address = [self.texts.number(&host), port];
                    tally.ended += u64::from(session.call(self.hangup, address)?.is_some());
                }
                _ => {
                    let address = [self.texts.number(&host), port];
                    if let Some([_, user]) = session.first(self.at, address)? {
                        let user = self.texts.text(user).expect("a user's text was told");
                        assert!(user.starts_with("user-"));
                    }
                }
            }
        }
        Ok(tally)
    }
}

fn main() -> Result<(), Error> {
    let connections = &Connections::open()?;
    let tallies: Vec<Tally> = thread::scope(|scope| {
        let started = (0..THREADS).map(|thread| scope.spawn(move || connections.work(thread)));
        let started: Vec<_> = started.collect();
        let ended = started.into_iter().map(|thread| thread.join().unwrap());
        ended.collect::<Result<_, Error>>()
    })?;
    // what is left is found by user and by address, and is what was made and not ended
    let mut session = connections.store.session()?;
    let mut left = 0;
    for user in (0..USERS).filter_map(|user| connections.texts.find(&format!("user-{user}"))) {
        for [id, host, port] in session.call(connections.of, [user])?.rows()? {
            let found = session.call(connections.at, [host, port])?.rows()?;
            assert_eq!(found, [[id, user]]);
            left += 1;
        }
    }
    let sum = |of: fn(&Tally) -> u64| tallies.iter().map(of).sum::<u64>();
    let (made, ended, refused) = (sum(|t| t.made), sum(|t| t.ended), sum(|t| t.refused));
    assert_eq!(left, made - ended);
    println!("made {made}, ended {ended}, {refused} times an address was in use; {left} are left");
    Ok(())
}
