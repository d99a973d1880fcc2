//! Accounts, between which four threads transfer money: the sum of all balances never changes.
//!
//! A balance is changed by a remove and an insert, and a transfer changes two of them. These four calls
//! are one group: it takes the stripes of both accounts first, and stands in the history as one entry. So
//! whoever lists all accounts finds each with one balance, and all of the money.
//!
//! A group's calls give values, which the program must know before: so a transfer reads both balances,
//! prepares the group that takes out what it read and puts in what is to be, and looks at what the
//! removes answer. Where somebody was there before, it cancels, and reads again.
//!
//!     cargo run --release --example accounts

use relc::{Error, Group, Insert, Inserted, Options, Query, Remove, Session, Slot, Store};
use std::thread;

const THREADS: u64 = 4;
const TRANSFERS: u64 = 1_000;
const OWNERS: u64 = 10;
const MONEY: u64 = 100;

struct Accounts {
    store: Store,
    open: Insert<2>,
    close: Remove<1, 2>,
    balance: Query<1, 1>,
    all: Query<0, 2>,
}

/// The calls of a transfer: the balances that go, and those that come.
struct Transfer {
    group: Group,
    gone: [Slot<Option<[u64; 2]>>; 2],
    come: [Slot<Inserted>; 2],
}

/// How many transfers a thread made, how many it left since the money was wanted, and how often it began
/// again since somebody was there before.
#[derive(Debug, Default)]
struct Work {
    made: u64,
    left: u64,
    again: u64,
}

impl Accounts {
    fn open() -> Result<Accounts, Error> {
        // one session for each thread, and the main one's
        let options = Options::sessions(THREADS as u32 + 1);
        let store = Store::open(include_str!("accounts.relc"), options)?;
        Ok(Accounts {
            open: store.insert("open")?,
            close: store.remove("close")?,
            balance: store.query("balance")?,
            all: store.query("all")?,
            store,
        })
    }

    fn transfer(&self) -> Result<Transfer, Error> {
        let mut group = Group::new();
        let gone = [group.add(self.close, [0])?, group.add(self.close, [0])?];
        let come = [group.add(self.open, [0, 0])?, group.add(self.open, [0, 0])?];
        Ok(Transfer { group, gone, come })
    }

    /// An owner's balance, anywhere in the history.
    fn balance(&self, session: &mut Session, owner: u64) -> Result<u64, Error> {
        let rows = session.call(self.balance, [owner])?.rows()?;
        let [[balance]] = rows[..] else {
            panic!("each owner has one balance")
        };
        Ok(balance)
    }

    /// The sum of all balances, each of which is there once.
    fn sum(&self, session: &mut Session) -> Result<u64, Error> {
        let mut owners = 0;
        let mut sum = 0;
        for [owner, balance] in session.query(self.all, [])? {
            assert_eq!(owner, owners);
            owners += 1;
            sum += balance;
        }
        assert_eq!(owners, OWNERS);
        Ok(sum)
    }

    /// Transfers so much from one account to another; whether it was there.
    fn pay(
        &self,
        session: &mut Session,
        calls: &mut Transfer,
        [from, to]: [u64; 2],
        money: u64,
        work: &mut Work,
    ) -> Result<bool, Error> {
        loop {
            let there = [self.balance(session, from)?, self.balance(session, to)?];
            if there[0] < money {
                return Ok(false);
            }
            let then = [there[0] - money, there[1] + money];
            for (at, owner) in [from, to].into_iter().enumerate() {
                calls.group.set(calls.gone[at], self.close, [owner])?;
                calls
                    .group
                    .set(calls.come[at], self.open, [owner, then[at]])?;
            }
            let mut prepared = session.begin_transaction_waiting(&calls.group)?;
            let gone = [
                prepared.reply(calls.gone[0])?,
                prepared.reply(calls.gone[1])?,
            ];
            if gone == [Some([from, there[0]]), Some([to, there[1]])] {
                let mut done = prepared.commit();
                for slot in calls.come {
                    assert_eq!(done.reply(slot)?, Inserted::Added);
                }
                return Ok(true);
            }
            prepared.cancel();
            work.again += 1;
        }
    }

    fn work(&self, thread: u64) -> Result<Work, Error> {
        let mut session = self.store.session()?;
        let mut calls = self.transfer()?;
        let mut work = Work::default();
        let mut random = thread + 0x9e3779b97f4a7c15;
        for turn in 0..TRANSFERS {
            // numbers that look random (xorshift)
            random ^= random << 13;
            random ^= random >> 7;
            random ^= random << 17;
            let from = (random >> 11) % OWNERS;
            let to = (from + 1 + (random >> 23) % (OWNERS - 1)) % OWNERS;
            let money = 1 + (random >> 37) % MONEY;
            if self.pay(&mut session, &mut calls, [from, to], money, &mut work)? {
                work.made += 1;
            } else {
                work.left += 1;
            }
            if turn % 10 == 0 {
                assert_eq!(self.sum(&mut session)?, OWNERS * MONEY);
            }
        }
        Ok(work)
    }
}

fn main() -> Result<(), Error> {
    let accounts = &Accounts::open()?;
    let mut session = accounts.store.session()?;
    for owner in 0..OWNERS {
        assert_eq!(
            session.call(accounts.open, [owner, MONEY])?,
            Inserted::Added
        );
    }
    let work: Vec<Work> = thread::scope(|scope| {
        let started = (0..THREADS).map(|thread| scope.spawn(move || accounts.work(thread)));
        let started: Vec<_> = started.collect();
        let ended = started.into_iter().map(|thread| thread.join().unwrap());
        ended.collect::<Result<_, Error>>()
    })?;
    for (thread, Work { made, left, again }) in work.iter().enumerate() {
        println!(
            "thread {thread}: {made} transfers, {left} with too little there, {again} begun again"
        );
    }
    assert_eq!(accounts.sum(&mut session)?, OWNERS * MONEY);
    println!(
        "the sum of all balances was {} all the time",
        OWNERS * MONEY
    );
    Ok(())
}
