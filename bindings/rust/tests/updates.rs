//! Threads whose updates move guests from seat to seat: a reader sees each guest once, and all calls, by their places, are one
//! legal history.

mod common;

use common::Random;
use relc::{Answer, Options, Position, Query, Store, Update, Updated};
use std::collections::BTreeMap;
use std::thread;

const HOUSE: &str = "relc 2
col guest num
col seat num
fd guest -> seat
node root
node g guest seat
node s seat
edge e1 root g hash guest
edge e2 root s hash seat
edge e3 s g ordered guest
lock guests 8 guest
lock seats 4 seat
place e1 guests
place e2 seats
place e3 seats
op add insert guest
op move update guest
op all query -> guest seat
op between query : seat -> guest seat
end
";

const THREADS: u64 = 4;
const CALLS: usize = 2_000;
const GUESTS: u64 = 12;
const SEATS: u64 = 5;

/// A call with what it was answered.
enum Entry {
    Move([u64; 2], Updated<2>),
    All(Answer<2>),
    Between([u64; 2], Answer<2>),
}

struct House {
    store: Store,
    to: Update<2>,
    all: Query<0, 2>,
    between: Query<2, 2>,
}

impl House {
    /// Each guest at the first seat.
    fn open() -> House {
        let store = Store::open(HOUSE, Options::sessions(THREADS as u32 + 1)).unwrap();
        let add = store.insert::<2>("add").unwrap();
        let mut session = store.session().unwrap();
        for guest in 0..GUESTS {
            assert_eq!(
                session.call(add, [guest, 0]).unwrap(),
                relc::Inserted::Added
            );
        }
        House {
            to: store.update("move").unwrap(),
            all: store.query("all").unwrap(),
            between: store.query("between").unwrap(),
            store,
        }
    }

    /// The calls of one thread, with their places. A guest above all that were added is nowhere.
    fn work(&self, thread: u64) -> Vec<(Position, Entry)> {
        let mut session = self.store.session().unwrap();
        let mut random = Random(thread + 0x9e3779b97f4a7c15);
        (0..CALLS)
            .map(|_| match random.below(8) {
                0 => {
                    let (answer, position) = session.call_placed(self.all, []).unwrap();
                    (position, Entry::All(answer))
                }
                1 => {
                    let bounds = [random.below(SEATS), random.below(SEATS)];
                    let (answer, position) = session.call_placed(self.between, bounds).unwrap();
                    (position, Entry::Between(bounds, answer))
                }
                _ => {
                    let moved = [random.below(GUESTS + 1), random.below(SEATS)];
                    let (answer, position) = session.call_placed(self.to, moved).unwrap();
                    (position, Entry::Move(moved, answer))
                }
            })
            .collect()
    }
}

/// Whether the map of guests to seats answers the call so, and then has its effect.
fn is_legal(map: &mut BTreeMap<u64, u64>, entry: &Entry) -> bool {
    let rows = |map: &BTreeMap<u64, u64>, keep: &dyn Fn(u64) -> bool| {
        let kept = map.iter().filter(|(_, seat)| keep(**seat));
        Answer::Rows(kept.map(|(guest, seat)| [*guest, *seat]).collect())
    };
    match entry {
        Entry::Move([guest, seat], reply) => match map.get_mut(guest) {
            None => *reply == Updated::Absent,
            Some(at) => *reply == Updated::Replaced([*guest, std::mem::replace(at, *seat)]),
        },
        Entry::All(reply) => *reply == rows(map, &|_| true),
        Entry::Between([low, high], reply) => {
            *reply == rows(map, &|seat| *low <= seat && seat <= *high)
        }
    }
}

#[test]
fn updates_are_one_history() {
    let house = &House::open();
    let threads: Vec<_> = thread::scope(|scope| {
        let started: Vec<_> = (0..THREADS)
            .map(|thread| scope.spawn(move || house.work(thread)))
            .collect();
        started
            .into_iter()
            .map(|thread| thread.join().unwrap())
            .collect()
    });
    let history: BTreeMap<u64, Entry> = (threads.into_iter().flatten())
        .map(|(position, entry)| (position.place, entry))
        .collect();
    assert_eq!(history.len(), THREADS as usize * CALLS);
    let mut map: BTreeMap<u64, u64> = (0..GUESTS).map(|guest| (guest, 0)).collect();
    for (place, entry) in &history {
        if let Entry::All(Answer::Rows(rows)) = entry {
            assert_eq!(rows.len(), GUESTS as usize, "at place {place}");
        }
        assert!(is_legal(&mut map, entry), "the call at place {place}");
    }
}
