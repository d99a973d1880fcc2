//! Measures transfers between accounts, each of two removes and two inserts: as one group of calls, as
//! four calls, and on a store written by hand that holds two mutexes. All make the same transfers, and
//! end with the same balances. `sh bench/transfers.sh` runs it.
//!
//!     cd bindings/rust && cargo run --offline --release --example transfers HOW TRANSFERS [THREADS]
//!
//! HOW is `group`, `calls` or `hand`. Prints the nanoseconds of a thread's transfer, where there are any.

use relc::{Error, Group, Insert, Inserted, Options, Remove, Session, Slot, Store};
use std::collections::HashMap;
use std::hint::black_box;
use std::sync::atomic::{AtomicU64, Ordering};
use std::sync::{Mutex, MutexGuard};
use std::time::Instant;
use std::{env, thread};

const OWNERS: u64 = 1024;
const MONEY: u64 = 1 << 32;
const STRIPES: usize = 16;

/// So much goes from one account to another. Each thread has owners of its own, so that it knows their
/// balances.
#[derive(Clone, Copy)]
struct Transfer {
    accounts: [u64; 2],
    before: [u64; 2],
    after: [u64; 2],
}

/// The transfers of a thread among owners of its own, and what balances they lead to.
fn transfers_of(thread: u64, threads: u64, count: usize) -> Vec<Transfer> {
    let mut random = thread + 0x9e3779b97f4a7c15;
    let own = OWNERS / threads;
    let mut balances = vec![MONEY; own as usize];
    let one = |_| {
        // numbers that look random (xorshift)
        random ^= random << 13;
        random ^= random >> 7;
        random ^= random << 17;
        let from = (random >> 11) % own;
        let to = (from + 1 + (random >> 23) % (own - 1)) % own;
        let money = 1 + (random >> 37) % 100;
        let before = [balances[from as usize], balances[to as usize]];
        let after = [before[0] - money, before[1] + money];
        balances[from as usize] = after[0];
        balances[to as usize] = after[1];
        // those of a thread lie side by side, so that threads share stripes
        let accounts = [from, to].map(|owner| owner * threads + thread);
        Transfer {
            accounts,
            before,
            after,
        }
    };
    (0..count).map(one).collect()
}

/// Something on which transfers are made.
trait Bank: Sync {
    fn make_all(&self, transfers: &[Transfer]);
}

/// A store of RELC with its operations.
struct Accounts {
    store: Store,
    open: Insert<2>,
    close: Remove<1, 2>,
}

impl Accounts {
    fn new(threads: u64) -> Result<Accounts, Error> {
        let text = include_str!("../../bindings/rust/examples/accounts.relc");
        let store = Store::open(text, Options::sessions(threads as u32 + 1))?;
        let accounts = Accounts {
            open: store.insert("open")?,
            close: store.remove("close")?,
            store,
        };
        let mut session = accounts.store.session()?;
        for owner in 0..OWNERS {
            let _ = session.call(accounts.open, [owner, MONEY])?;
        }
        Ok(accounts)
    }
}

/// Each transfer is one group.
struct Groups(Accounts);

type Closed = Slot<Option<[u64; 2]>>;

impl Groups {
    fn make(
        &self,
        session: &mut Session,
        group: &mut Group,
        gone: [Closed; 2],
        transfer: &Transfer,
    ) -> Result<(), Error> {
        let mut done = session.transaction(group)?;
        for (slot, (owner, balance)) in gone
            .into_iter()
            .zip(transfer.accounts.into_iter().zip(transfer.before))
        {
            assert_eq!(done.reply(slot)?, Some([owner, balance]));
        }
        Ok(())
    }

    fn work(&self, transfers: &[Transfer]) -> Result<(), Error> {
        let Accounts { store, open, close } = &self.0;
        let mut session = store.session()?;
        let mut group = Group::new();
        let gone = [group.add(*close, [0])?, group.add(*close, [0])?];
        let come = [group.add(*open, [0, 0])?, group.add(*open, [0, 0])?];
        for transfer in transfers {
            for at in 0..2 {
                let owner = transfer.accounts[at];
                group.set(gone[at], *close, [owner])?;
                group.set(come[at], *open, [owner, transfer.after[at]])?;
            }
            self.make(&mut session, &mut group, gone, transfer)?;
        }
        Ok(())
    }
}

impl Bank for Groups {
    fn make_all(&self, transfers: &[Transfer]) {
        self.work(transfers).expect("no group is refused");
    }
}

/// Each transfer is four calls, between which others see what is missing.
struct Calls(Accounts);

impl Calls {
    fn work(&self, transfers: &[Transfer]) -> Result<(), Error> {
        let Accounts { store, open, close } = &self.0;
        let mut session = store.session()?;
        for transfer in transfers {
            for at in 0..2 {
                let owner = transfer.accounts[at];
                let gone = session.call(*close, [owner])?;
                assert_eq!(gone, Some([owner, transfer.before[at]]));
            }
            for at in 0..2 {
                let come = session.call(*open, [transfer.accounts[at], transfer.after[at]])?;
                assert_eq!(come, Inserted::Added);
            }
        }
        Ok(())
    }
}

impl Bank for Calls {
    fn make_all(&self, transfers: &[Transfer]) {
        self.work(transfers).expect("no call is refused");
    }
}

/// The accounts of a stripe. It has cache lines of its own.
#[derive(Default)]
#[repr(align(64))]
struct Stripe(Mutex<HashMap<u64, u64>>);

/// Written by hand: a transfer locks the stripes of both accounts, takes both balances out, puts both in,
/// and takes its place before it gives the locks back.
struct Hand {
    stripes: [Stripe; STRIPES],
    places: AtomicU64,
}

impl Hand {
    fn new() -> Hand {
        let hand = Hand {
            stripes: Default::default(),
            places: AtomicU64::new(0),
        };
        for owner in 0..OWNERS {
            hand.lock(owner).insert(owner, MONEY);
        }
        hand
    }

    fn lock(&self, owner: u64) -> MutexGuard<'_, HashMap<u64, u64>> {
        let Stripe(accounts) = &self.stripes[owner as usize % STRIPES];
        accounts.lock().expect("no transfer panics")
    }

    /// It isn't inlined, as a call of a library wouldn't be.
    #[inline(never)]
    fn transfer(&self, transfer: &Transfer) -> (u64, [Option<u64>; 2]) {
        let [from, to] = transfer.accounts;
        let [low, high] = if from % STRIPES as u64 <= to % STRIPES as u64 {
            [from, to]
        } else {
            [to, from]
        };
        let mut first = self.lock(low);
        let mut second =
            (low as usize % STRIPES != high as usize % STRIPES).then(|| self.lock(high));
        let mut gone = [None; 2];
        for (at, owner) in transfer.accounts.into_iter().enumerate() {
            let accounts = match &mut second {
                Some(second) if owner == high => second,
                _ => &mut first,
            };
            gone[at] = accounts.remove(&owner);
        }
        for (at, owner) in transfer.accounts.into_iter().enumerate() {
            let accounts = match &mut second {
                Some(second) if owner == high => second,
                _ => &mut first,
            };
            accounts.insert(owner, transfer.after[at]);
        }
        (self.places.fetch_add(1, Ordering::Relaxed), gone)
    }
}

impl Bank for Hand {
    fn make_all(&self, transfers: &[Transfer]) {
        for transfer in transfers {
            let (_, gone) = black_box(self.transfer(transfer));
            assert_eq!(gone, transfer.before.map(Some));
        }
    }
}

fn time(bank: &impl Bank, threads: u64, count: usize) {
    let all: Vec<_> = (0..threads)
        .map(|thread| transfers_of(thread, threads, count))
        .collect();
    let start = Instant::now();
    thread::scope(|scope| {
        for own in &all {
            scope.spawn(move || bank.make_all(own));
        }
    });
    if count > 0 {
        println!("{}", start.elapsed().as_nanos() / count as u128);
    }
}

fn main() {
    let words: Vec<String> = env::args().collect();
    let count = words[2].parse().expect("how many transfers");
    let threads = words
        .get(3)
        .map_or(1, |word| word.parse().expect("how many threads"));
    let accounts = || Accounts::new(threads).expect("the text keeps all rules");
    match words[1].as_str() {
        "group" => time(&Groups(accounts()), threads, count),
        "calls" => time(&Calls(accounts()), threads, count),
        _ => time(&Hand::new(), threads, count),
    }
}
