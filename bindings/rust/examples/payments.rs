//! Accounts, between which four threads transfer money, as in `accounts.rs`, but by transactions whose
//! later calls depend on the replies to earlier ones.
//!
//! A transaction declares the calls that it may make: those that close and open both accounts. It takes
//! their stripes first, so nothing can come between its calls, and never begins again: it closes both
//! accounts, looks at what was there, and opens them with what is to be, or leaves all as it was. Its
//! calls stand in the history as one entry.
//!
//!     cargo run --release --example payments

use relc::{Declared, Error, Insert, Inserted, Options, Query, Remove, Session, Store};
use std::thread;

const THREADS: u64 = 4;
const TRANSFERS: u64 = 1_000;
const OWNERS: u64 = 10;
const MONEY: u64 = 100;

struct Accounts {
    store: Store,
    open: Insert<2>,
    close: Remove<1, 2>,
    all: Query<0, 2>,
}

/// How many transfers a thread made, and how many it left since the money was wanted.
#[derive(Debug, Default)]
struct Work {
    made: u64,
    left: u64,
}

impl Accounts {
    fn open() -> Result<Accounts, Error> {
        // one session for each thread, and the main one's
        let options = Options::sessions(THREADS as u32 + 1);
        let store = Store::open(include_str!("accounts.relc"), options)?;
        Ok(Accounts {
            open: store.insert("open")?,
            close: store.remove("close")?,
            all: store.query("all")?,
            store,
        })
    }

    /// The sum of all balances, each of which is there once.
    fn sum(&self, session: &mut Session) -> Result<u64, Error> {
        let mut owners = 0;
        let mut sum = 0;
        for [owner, balance] in session.query(self.all, [])? {
            assert_eq!(owner, owners);
            owners += 1;
            sum += balance;
        }
        assert_eq!(owners, OWNERS);
        Ok(sum)
    }

    /// Transfers so much from one account to another; whether it was there.
    fn pay(
        &self,
        session: &mut Session,
        over: &mut Declared,
        [from, to]: [u64; 2],
        money: u64,
    ) -> Result<bool, Error> {
        over.clear();
        for owner in [from, to] {
            over.at(self.close, [owner])?;
            over.at(self.open, [owner])?;
        }
        let mut transaction = session.open(over)?;
        let gone = [
            transaction.call(self.close, [from])?,
            transaction.call(self.close, [to])?,
        ];
        let [Some([_, payer]), Some([_, payee])] = gone else {
            panic!("each owner has one balance")
        };
        if payer < money {
            transaction.cancel();
            return Ok(false);
        }
        for (owner, balance) in [(from, payer - money), (to, payee + money)] {
            let come = transaction.call(self.open, [owner, balance])?;
            assert_eq!(come, Inserted::Added);
        }
        transaction.commit()?;
        Ok(true)
    }

    fn work(&self, thread: u64) -> Result<Work, Error> {
        let mut session = self.store.session()?;
        let mut over = Declared::new();
        let mut work = Work::default();
        let mut random = thread + 0x9e3779b97f4a7c15;
        for turn in 0..TRANSFERS {
            // numbers that look random (xorshift)
            random ^= random << 13;
            random ^= random >> 7;
            random ^= random << 17;
            let from = (random >> 11) % OWNERS;
            let to = (from + 1 + (random >> 23) % (OWNERS - 1)) % OWNERS;
            let money = 1 + (random >> 37) % MONEY;
            if self.pay(&mut session, &mut over, [from, to], money)? {
                work.made += 1;
            } else {
                work.left += 1;
            }
            if turn % 10 == 0 {
                assert_eq!(self.sum(&mut session)?, OWNERS * MONEY);
            }
        }
        Ok(work)
    }
}

fn main() -> Result<(), Error> {
    let accounts = &Accounts::open()?;
    let mut session = accounts.store.session()?;
    for owner in 0..OWNERS {
        assert_eq!(
            session.call(accounts.open, [owner, MONEY])?,
            Inserted::Added
        );
    }
    let work: Vec<Work> = thread::scope(|scope| {
        let started = (0..THREADS).map(|thread| scope.spawn(move || accounts.work(thread)));
        let started: Vec<_> = started.collect();
        let ended = started.into_iter().map(|thread| thread.join().unwrap());
        ended.collect::<Result<_, Error>>()
    })?;
    for (thread, Work { made, left }) in work.iter().enumerate() {
        println!("thread {thread}: {made} transfers, {left} with too little there");
    }
    assert_eq!(accounts.sum(&mut session)?, OWNERS * MONEY);
    println!(
        "the sum of all balances was {} all the time",
        OWNERS * MONEY
    );
    Ok(())
}
