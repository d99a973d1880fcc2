//! Groups: their calls, by the groups' places, are one legal history.

mod common;

use common::{Graph, Random, graph, specification};
use relc::{Answer, Done, Error, Found, Group, Inserted, Options, Position, Session, Slot, Store};
use std::collections::BTreeMap;
use std::thread;

/// Each call goes on from what those before it left.
#[test]
fn goes_on_within_a_group() {
    let graph = graph(Options::sessions(1));
    let mut session = graph.store.session().unwrap();
    let mut group = Group::new();
    assert_eq!(session.try_transaction(&group).err(), Some(Error::Count));
    let added = group.add(graph.ins, [1, 2, 10]).unwrap();
    let there = group.add(graph.succ, [1]).unwrap();
    let again = group.add(graph.ins, [1, 2, 11]).unwrap();
    let gone = group.add(graph.del, [1, 2]).unwrap();
    let left = group.add(graph.find, [1, 2]).unwrap();
    for nth in 0..3 {
        let mut done = session.try_transaction(&group).unwrap();
        assert_eq!((done.position().place, done.position().nth), (nth, nth));
        // in any order, and again
        assert_eq!(done.reply(gone).unwrap(), Some([1, 2, 10]));
        assert_eq!(done.reply(there).unwrap(), Answer::Rows(vec![[2, 10]]));
        assert_eq!(done.reply(added).unwrap(), Inserted::Added);
        assert_eq!(done.reply(again).unwrap(), Inserted::Present);
        assert_eq!(done.reply(left).unwrap(), Answer::Rows(vec![]));
        assert_eq!(done.reply(there).unwrap(), Answer::Rows(vec![[2, 10]]));
    }
    // a reply of several pages
    group.clear();
    let mut all: Vec<[u64; 2]> = (0..600).map(|end| [end, end + 5]).collect();
    for [end, weight] in &all {
        let _ = session.call(graph.ins, [7, *end, *weight]).unwrap();
    }
    let before = group.add(graph.succ, [7]).unwrap();
    let gone = group.add(graph.del, [7, 0]).unwrap();
    let after = group.add(graph.succ, [7]).unwrap();
    let mut done = session.transaction(&group).unwrap();
    assert_eq!(done.reply(before).unwrap().rows().unwrap(), all);
    assert_eq!(done.reply(gone).unwrap(), Some([7, 0, 5]));
    all.remove(0);
    assert_eq!(done.reply(after).unwrap().rows().unwrap(), all);
}

#[test]
fn refuses_groups() {
    let graph = graph(Options {
        limit: 1,
        ..Options::sessions(1)
    });
    let mut session = graph.store.session().unwrap();
    let mut group = Group::new();
    let slots: Vec<_> = (0..16)
        .map(|dst| group.add(graph.find, [1, dst]).unwrap())
        .collect();
    assert_eq!(group.add(graph.find, [1, 2]).err(), Some(Error::Count));

    // slots and operations of others
    let mut other = Group::new();
    let foreign = other.add(graph.find, [1, 2]).unwrap();
    assert_eq!(
        group.set(foreign, graph.find, [1, 3]).err(),
        Some(Error::Slot)
    );
    let store = Store::open(specification(), Options::sessions(1)).unwrap();
    let find = store.query::<2, 1>("find").unwrap();
    assert_eq!(
        group.set(slots[0], find, [1, 3]).err(),
        Some(Error::Foreign)
    );
    assert_eq!(other.add(find, [1, 3]).err(), Some(Error::Foreign));
    let mut foreigners = Group::new();
    foreigners.add(find, [1, 2]).unwrap();
    assert_eq!(session.transaction(&foreigners).err(), Some(Error::Foreign));

    let mut prepared = session.begin_transaction(&group).unwrap();
    assert_eq!(prepared.reply(foreign).err(), Some(Error::Slot));
    assert_eq!(prepared.reply(slots[15]).unwrap(), Answer::Rows(vec![]));
    let mut done = prepared.commit();
    assert_eq!(done.reply(foreign).err(), Some(Error::Slot));
    assert_eq!(done.reply(slots[0]).unwrap(), Answer::Rows(vec![]));
    assert_eq!(session.try_transaction(&group).err(), Some(Error::Spent));
    assert_eq!(session.begin_transaction(&group).err(), Some(Error::Spent));

    // a call that was added since has no reply, and a cleared group's slots none at all
    let mut session = store.session().unwrap();
    let mut grown = Group::new();
    grown.add(find, [1, 2]).unwrap();
    let mut done = session.transaction(&grown).unwrap();
    let late = grown.add(find, [1, 3]).unwrap();
    assert_eq!(done.reply(late).err(), Some(Error::Slot));
    grown.clear();
    assert_eq!(grown.set(late, find, [1, 3]).err(), Some(Error::Slot));
}

#[test]
fn prepares_groups() {
    let graph = graph(Options::sessions(2));
    let mut session = graph.store.session().unwrap();
    let mut other = graph.store.session().unwrap();
    let mut group = Group::new();
    let added = group.add(graph.ins, [1, 2, 10]).unwrap();
    let there = group.add(graph.find, [1, 2]).unwrap();
    for cancels in [true, false, true] {
        let mut prepared = session.begin_transaction(&group).unwrap();
        let is_new = prepared.reply(added).unwrap() == Inserted::Added;
        assert_eq!(prepared.reply(there).unwrap(), Answer::Rows(vec![[10]]));
        let busy = other.try_transaction(&group).err();
        let found = Found::Writer(0);
        assert!(matches!(busy, Some(Error::Busy { found: f, .. }) if f == found));
        assert!(matches!(
            other.begin_transaction(&group).err(),
            Some(Error::Busy { .. })
        ));
        if cancels {
            prepared.cancel();
        } else {
            assert!(is_new);
            let done = prepared.commit();
            let seen = done.position().seen();
            assert!(other.learn(seen).unwrap().length() >= seen.length());
        }
    }
    let rows = other.call(graph.find, [1, 2]).unwrap();
    assert_eq!(rows, Answer::Rows(vec![[10]]));
    assert_eq!(session.look().unwrap().length(), 2);
}

// ---- threads

const THREADS: u64 = 4;
const GROUPS: usize = 1_500;

/// A call of a group with what it was answered.
enum Entry {
    Insert([u64; 3], Inserted),
    Remove([u64; 2], Option<[u64; 3]>),
    Successors(u64, Answer<2>),
}

/// A call, and where its reply will stand.
enum Asked {
    Insert([u64; 3], Slot<Inserted>),
    Remove([u64; 2], Slot<Option<[u64; 3]>>),
    Successors(u64, Slot<Answer<2>>),
}

impl Asked {
    /// Adds a call on few keys to the group.
    fn add(graph: &Graph, random: &mut Random, group: &mut Group) -> Asked {
        let (src, dst, weight) = (random.below(3), random.below(4), random.below(100));
        match random.below(3) {
            0 => {
                let values = [src, dst, weight];
                Asked::Insert(values, group.add(graph.ins, values).unwrap())
            }
            1 => Asked::Remove([src, dst], group.add(graph.del, [src, dst]).unwrap()),
            _ => Asked::Successors(src, group.add(graph.succ, [src]).unwrap()),
        }
    }

    fn answered(&self, done: &mut Done) -> Entry {
        match *self {
            Asked::Insert(values, slot) => Entry::Insert(values, done.reply(slot).unwrap()),
            Asked::Remove(values, slot) => Entry::Remove(values, done.reply(slot).unwrap()),
            Asked::Successors(value, slot) => Entry::Successors(value, done.reply(slot).unwrap()),
        }
    }
}

/// The groups of one thread that weren't cancelled, with their places.
fn work(graph: &Graph, thread: u64) -> Vec<(Position, Vec<Entry>)> {
    let mut session = graph.store.session().unwrap();
    let mut random = Random(thread + 0x9e3779b97f4a7c15);
    let mut group = Group::new();
    let mut made = Vec::new();
    for turn in 0..GROUPS {
        group.clear();
        let count = 1 + random.below(if turn % 10 == 0 { 16 } else { 4 });
        let asked: Vec<_> = (0..count)
            .map(|_| Asked::add(graph, &mut random, &mut group))
            .collect();
        made.extend(made_in_turn(&mut session, turn, &group, |mut done| {
            let entries = asked.iter().map(|asked| asked.answered(&mut done));
            let entries = entries.collect();
            (done.position(), entries)
        }));
    }
    made
}

/// What is read of a group, which is tried, waits, is prepared, or is prepared and cancelled.
fn made_in_turn<T>(
    session: &mut Session,
    turn: usize,
    group: &Group,
    read: impl FnOnce(Done) -> T,
) -> Option<T> {
    match turn % 4 {
        0 => loop {
            match session.try_transaction(group) {
                Ok(done) => break Some(read(done)),
                Err(Error::Busy { .. }) => thread::yield_now(),
                Err(error) => panic!("{error}"),
            }
        },
        1 => Some(read(session.transaction(group).unwrap())),
        2 => Some(read(
            session.begin_transaction_waiting(group).unwrap().commit(),
        )),
        _ => {
            session.begin_transaction_waiting(group).unwrap().cancel();
            None
        }
    }
}

/// Whether the map answers the call so, and then has its effect.
fn is_legal(map: &mut BTreeMap<(u64, u64), u64>, entry: &Entry) -> bool {
    match entry {
        Entry::Insert([src, dst, weight], reply) => {
            let there = map.contains_key(&(*src, *dst));
            map.entry((*src, *dst)).or_insert(*weight);
            (*reply == Inserted::Present) == there
        }
        Entry::Remove([src, dst], reply) => {
            *reply == map.remove(&(*src, *dst)).map(|weight| [*src, *dst, weight])
        }
        Entry::Successors(src, reply) => {
            let range = map.range((*src, 0)..=(*src, u64::MAX));
            let rows = range.map(|((_, dst), weight)| [*dst, *weight]).collect();
            *reply == Answer::Rows(rows)
        }
    }
}

#[test]
fn groups_are_one_history() {
    let graph = &graph(Options::sessions(THREADS as u32));
    let threads: Vec<_> = thread::scope(|scope| {
        let started: Vec<_> = (0..THREADS)
            .map(|thread| scope.spawn(move || work(graph, thread)))
            .collect();
        started
            .into_iter()
            .map(|thread| thread.join().unwrap())
            .collect()
    });
    let history: BTreeMap<u64, Vec<Entry>> = (threads.into_iter().flatten())
        .map(|(position, entries)| (position.place, entries))
        .collect();
    assert_eq!(history.len(), THREADS as usize * GROUPS / 4 * 3);
    let mut map = BTreeMap::new();
    for (nth, (place, entries)) in history.iter().enumerate() {
        assert_eq!(*place, nth as u64);
        for entry in entries {
            assert!(is_legal(&mut map, entry), "a call at place {place}");
        }
    }
}

/// Groups that want the same stripes in another order don't wait for each other in a circle.
#[test]
fn no_circle() {
    let graph = &graph(Options::sessions(2));
    thread::scope(|scope| {
        for nodes in [[1, 2, 3, 4], [4, 3, 2, 1]] {
            scope.spawn(move || {
                let mut session = graph.store.session().unwrap();
                let mut group = Group::new();
                for node in nodes {
                    group.add(graph.ins, [node, 1, 1]).unwrap();
                    group.add(graph.del, [node, 1]).unwrap();
                }
                for _ in 0..5_000 {
                    session.transaction(&group).unwrap();
                }
            });
        }
    });
    let mut session = graph.store.session().unwrap();
    for node in 1..5 {
        let left = session.call(graph.succ, [node]).unwrap();
        assert_eq!(left, Answer::Rows(vec![]));
    }
}

/// Makes the group, in another way each turn: it waits or tries, at once or prepared first.
fn make_in_turn(session: &mut Session, turn: u64, group: &Group) {
    loop {
        let made = match turn % 4 {
            0 => session.transaction(group).map(drop),
            1 => session.try_transaction(group).map(drop),
            2 => (session.begin_transaction_waiting(group)).map(|prepared| drop(prepared.commit())),
            _ => (session.begin_transaction(group)).map(|prepared| drop(prepared.commit())),
        };
        match made {
            Ok(()) => break,
            Err(Error::Busy { .. }) if turn % 2 == 1 => thread::yield_now(),
            Err(error) => panic!("{error}"),
        }
    }
}

/// Two threads move edges from one node to another, and back: they want the same stripes in another
/// order. Each edge is at one of both nodes in every state of the history.
#[test]
fn moves_that_cross_end() {
    const EDGES: u64 = 8;
    const MOVES: u64 = 10_000;
    let graph = &graph(Options::sessions(2));
    let other = graph.node_apart();
    let mut session = graph.store.session().unwrap();
    for dst in 0..EDGES {
        assert_eq!(session.call(graph.ins, [1, dst, 0]), Ok(Inserted::Added));
    }
    drop(session);
    thread::scope(|scope| {
        for [from, to] in [[1, other], [other, 1]] {
            scope.spawn(move || {
                let mut session = graph.store.session().unwrap();
                let mut moved = Group::new();
                let mut both = Group::new();
                let edges = [from, to].map(|src| both.add(graph.succ, [src]).unwrap());
                for turn in 0..MOVES {
                    moved.clear();
                    moved.add(graph.del, [from, turn % EDGES]).unwrap();
                    moved.add(graph.ins, [to, turn % EDGES, turn]).unwrap();
                    make_in_turn(&mut session, turn, &moved);
                    let mut done = session.transaction(&both).unwrap();
                    let edges = edges.map(|slot| done.reply(slot).unwrap().rows().unwrap());
                    let mut ends: Vec<u64> = edges.concat().iter().map(|[dst, _]| *dst).collect();
                    ends.sort();
                    assert!(ends.into_iter().eq(0..EDGES));
                }
            });
        }
    });
}
