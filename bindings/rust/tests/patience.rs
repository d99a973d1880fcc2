//! Waits that have an end, and a writer that gets on beside readers that leave no gap.

use relc::{Declared, Error, Found, Group, Inserted, Options, Store};
use std::sync::Barrier;
use std::sync::atomic::{AtomicBool, Ordering::Relaxed};
use std::thread;
use std::time::{Duration, Instant};

/// All tuples of a list on one stripe.
const TEXT: &str = "relc 1
col key num
col value num
col list num
fd key -> value list
node root
node l list
node k key value list
edge e1 root l hash list
edge e2 l k ordered key
lock k1 1 list
place e1 k1
place e2 k1
op put insert list key
op drop remove list key
op all query list -> key value
end
";

const READERS: u32 = 7;
const KEYS: u64 = 200;
const CHANGES: usize = 50;

/// What a wait of some milliseconds takes at most on a busy machine, and what all changes do.
const SOON: Duration = Duration::from_secs(30);

fn opened() -> Store {
    Store::open(TEXT, Options::sessions(READERS + 2)).unwrap()
}

#[test]
fn waits_end() {
    let store = opened();
    let put = store.insert::<3>("put").unwrap();
    let (mut holder, mut waiter) = (store.session().unwrap(), store.session().unwrap());
    let number = holder.number();
    let held = holder.begin(put, [1, 1, 1]).unwrap();
    let mut group = Group::new();
    group.add(put, [2, 2, 1]).unwrap();
    let mut declared = Declared::new();
    declared.any(put).unwrap();
    for timeout in [Duration::ZERO, Duration::from_millis(20)] {
        let mut busy = |waited: &dyn Fn(&mut relc::Session) -> Option<Error>| {
            let since = Instant::now();
            let Some(Error::Busy { found, .. }) = waited(&mut waiter) else {
                panic!("the wait has an end");
            };
            assert_eq!(found, Found::Writer(number));
            assert!((timeout..SOON).contains(&since.elapsed()));
        };
        busy(&|waiter| waiter.call_timeout(put, [2, 2, 1], timeout).err());
        busy(&|waiter| waiter.call_placed_timeout(put, [2, 2, 1], timeout).err());
        busy(&|waiter| waiter.begin_timeout(put, [2, 2, 1], timeout).err());
        busy(&|waiter| waiter.transaction_timeout(&group, timeout).err());
        busy(&|waiter| waiter.begin_transaction_timeout(&group, timeout).err());
        busy(&|waiter| waiter.open_timeout(&declared, timeout).err());
    }
    let _ = held.commit();
    for timeout in [Duration::ZERO, Duration::MAX] {
        let inserted = waiter.call_timeout(put, [2, 2, 1], timeout).unwrap();
        assert_eq!(inserted == Inserted::Added, timeout.is_zero());
    }
}

#[test]
fn a_writer_gets_on_beside_readers() {
    let store = opened();
    let put = store.insert::<3>("put").unwrap();
    let drop = store.remove::<2, 3>("drop").unwrap();
    let all = store.query::<1, 2>("all").unwrap();
    let mut writer = store.session().unwrap();
    for key in 0..KEYS {
        assert_eq!(writer.call(put, [key, key, 1]).unwrap(), Inserted::Added);
    }
    let is_over = &AtomicBool::new(false);
    let begun = &Barrier::new(READERS as usize + 1);
    let took = thread::scope(|scope| {
        for _ in 0..READERS {
            let mut reader = store.session().unwrap();
            scope.spawn(move || {
                begun.wait();
                while !is_over.load(Relaxed) {
                    let rows = reader.query(all, [1]).unwrap().len() as u64;
                    assert!((KEYS..=KEYS + 1).contains(&rows));
                }
            });
        }
        begun.wait();
        let since = Instant::now();
        for change in 0..CHANGES {
            // a writer that comes again at once finds those asleep that it kept out
            thread::sleep(Duration::from_millis(2));
            if change % 2 == 0 {
                assert_eq!(writer.call(put, [KEYS, 0, 1]).unwrap(), Inserted::Added);
            } else {
                assert!(writer.call(drop, [1, KEYS]).unwrap().is_some());
            }
        }
        is_over.store(true, Relaxed);
        since.elapsed()
    });
    assert!(took < SOON, "{CHANGES} changes took {took:?}");
}
