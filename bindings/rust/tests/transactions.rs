//! Transactions: calls that depend on the replies before them, and are one entry of the history.

mod common;

use common::{Graph, Random, graph, specification};
use relc::{Answer, Declared, Error, Found, Inserted, Options, Store, Transaction};
use std::thread;

/// Each call goes on from what those before it left, and nobody sees it before the commit.
#[test]
fn goes_on_by_its_replies() {
    let graph = graph(Options::sessions(2));
    let mut session = graph.store.session().unwrap();
    let mut other = graph.store.session().unwrap();
    assert_eq!(session.call(graph.ins, [1, 2, 10]), Ok(Inserted::Added));
    let mut over = Declared::new();
    over.at(graph.del, [1, 2]).unwrap();
    over.at(graph.ins, [1, 3]).unwrap();
    for weight in [10, 11, 12] {
        let mut moves = session.open(&over).unwrap();
        let gone = moves.call(graph.del, [1, 2]).unwrap();
        assert_eq!(gone, Some([1, 2, weight]));
        assert_eq!(
            moves.call(graph.ins, [1, 3, weight + 1]),
            Ok(Inserted::Added)
        );
        let there = moves.call(graph.succ, [1]).unwrap();
        assert_eq!(there, Answer::Rows(vec![[3, weight + 1]]));
        let busy = other.try_call(graph.succ, [1]).err();
        let found = Found::Writer(0);
        assert!(matches!(busy, Some(Error::Busy { found: f, .. }) if f == found));
        assert!(matches!(
            other.try_open(&over).err(),
            Some(Error::Busy { .. })
        ));
        let position = moves.commit().unwrap();
        assert!(other.learn(position.seen()).unwrap().length() > position.place);
        let rows = other.call(graph.succ, [1]).unwrap();
        assert_eq!(rows, Answer::Rows(vec![[3, weight + 1]]));

        // dropped, cancelled, and back again
        drop(session.open(&over).unwrap());
        let mut cancelled = session.try_open(&over).unwrap();
        assert_eq!(cancelled.call(graph.ins, [1, 2, 0]), Ok(Inserted::Added));
        cancelled.cancel();
        let mut dropped = session.open(&over).unwrap();
        assert_eq!(dropped.call(graph.ins, [1, 2, 0]), Ok(Inserted::Added));
        drop(dropped);
        let mut back = Declared::new();
        back.any(graph.ins).unwrap();
        back.any(graph.del).unwrap();
        let mut moves = session.open(&back).unwrap();
        let gone = moves.call(graph.del, [1, 3]).unwrap();
        assert_eq!(gone, Some([1, 3, weight + 1]));
        let again = moves.call(graph.ins, [1, 2, weight + 1]);
        assert_eq!(again, Ok(Inserted::Added));
        moves.commit().unwrap();
    }
}

#[test]
fn refuses_what_is_not_declared() {
    let graph = graph(Options {
        limit: 1,
        ..Options::sessions(1)
    });
    let mut session = graph.store.session().unwrap();
    let mut over = Declared::new();
    assert_eq!(session.open(&over).err(), Some(Error::Count));
    // a pattern has as many values as columns: who means all calls says so
    assert_eq!(graph.store.pattern("ins"), Ok(vec![0, 1]));
    assert_eq!(
        graph.store.pattern("put"),
        Err(Error::Unknown("put".into()))
    );
    assert_eq!(over.at(graph.del, []), Err(Error::Pattern));
    assert_eq!(over.at(graph.ins, [1, 2, 10]), Err(Error::Pattern));
    assert_eq!(over.at(graph.ins, [0; 65]), Err(Error::Pattern));
    assert_eq!(session.open(&over).err(), Some(Error::Count));
    for dst in 0..16 {
        over.at(graph.find, [1, dst]).unwrap();
    }
    assert_eq!(over.at(graph.find, [1, 2]), Err(Error::Count));
    assert_eq!(over.any(graph.find), Err(Error::Count));

    // operations of others
    let store = Store::open(specification(), Options::sessions(1)).unwrap();
    let find = store.query::<2, 1>("find").unwrap();
    let mut foreigners = Declared::new();
    foreigners.any(find).unwrap();
    assert_eq!(foreigners.any(graph.find), Err(Error::Foreign));
    assert_eq!(session.open(&foreigners).err(), Some(Error::Foreign));

    // a commit of no call, which cancels
    let none = session.open(&over).unwrap();
    assert_eq!(none.commit().err(), Some(Error::Count));
    assert!(session.look().is_ok());
    let mut reads = session.open(&over).unwrap();
    assert_eq!(reads.call(find, [1, 2]), Err(Error::Foreign));
    // they hold their stripes to read, and not to write
    assert_eq!(reads.call(graph.ins, [1, 2, 10]), Err(Error::Uncovered));
    for dst in 0..16 {
        assert_eq!(reads.call(graph.find, [1, dst]), Ok(Answer::Rows(vec![])));
    }
    assert_eq!(reads.call(graph.find, [1, 2]), Err(Error::Count));
    assert_eq!(reads.commit().unwrap().nth, 0);
    assert_eq!(session.open(&over).err(), Some(Error::Spent));
}

/// A forgotten transaction gives its stripes back with its session.
#[test]
fn a_session_cancels() {
    let graph = graph(Options::sessions(2));
    let mut session = graph.store.session().unwrap();
    let mut over = Declared::new();
    over.at(graph.ins, [1, 2]).unwrap();
    let mut forgotten = session.open(&over).unwrap();
    assert_eq!(forgotten.call(graph.ins, [1, 2, 10]), Ok(Inserted::Added));
    std::mem::forget(forgotten);
    assert_eq!(session.open(&over).err(), Some(Error::Prepared));
    assert_eq!(
        session.try_call(graph.find, [1, 2]).err(),
        Some(Error::Prepared)
    );
    drop(session);
    let mut other = graph.store.session().unwrap();
    let rows = other.call(graph.find, [1, 2]).unwrap();
    assert_eq!(rows, Answer::Rows(vec![]));
}

/// Weights that four threads move between two edges have one sum at each place of the history.
#[test]
fn sums_stay() {
    const THREADS: u64 = 4;
    const MOVES: u64 = 2_000;
    let graph = &graph(Options::sessions(THREADS as u32));
    let mut session = graph.store.session().unwrap();
    for src in 0..3 {
        assert_eq!(session.call(graph.ins, [src, 0, 100]), Ok(Inserted::Added));
    }
    drop(session);
    thread::scope(|scope| {
        for thread in 0..THREADS {
            scope.spawn(move || {
                let mut session = graph.store.session().unwrap();
                let mut random = Random(thread + 0x9e3779b97f4a7c15);
                let mut over = Declared::new();
                for _ in 0..MOVES {
                    let from = random.below(3);
                    let to = (from + 1 + random.below(2)) % 3;
                    over.clear();
                    for src in [from, to] {
                        over.at(graph.del, [src, 0]).unwrap();
                        over.at(graph.ins, [src, 0]).unwrap();
                    }
                    let mut moves = session.open(&over).unwrap();
                    let gone = [from, to].map(|src| moves.call(graph.del, [src, 0]).unwrap());
                    let [Some([.., a]), Some([.., b])] = gone else {
                        panic!("each node has its edge")
                    };
                    let weight = random.below(150);
                    if a < weight {
                        continue;
                    }
                    for values in [[from, 0, a - weight], [to, 0, b + weight]] {
                        assert_eq!(moves.call(graph.ins, values), Ok(Inserted::Added));
                    }
                    moves.commit().unwrap();
                    let mut all = Declared::new();
                    all.any(graph.find).unwrap();
                    let mut reads = session.open(&all).unwrap();
                    let weights = (0..3).map(|src| {
                        let rows = reads.call(graph.find, [src, 0]).unwrap().rows().unwrap();
                        rows[0][0]
                    });
                    assert_eq!(weights.sum::<u64>(), 300);
                }
            });
        }
    });
}

/// Moves some of the weight of one node's edge to another's, where their sum is 200.
fn transfer(graph: &Graph, mut moves: Transaction, [from, to]: [u64; 2], weight: u64) {
    let gone = [from, to].map(|src| moves.call(graph.del, [src, 0]).unwrap());
    let [Some([.., a]), Some([.., b])] = gone else {
        panic!("each node has its edge")
    };
    assert_eq!(a + b, 200);
    let weight = weight.min(a);
    for values in [[from, 0, a - weight], [to, 0, b + weight]] {
        assert_eq!(moves.call(graph.ins, values), Ok(Inserted::Added));
    }
    moves.commit().unwrap();
}

/// Two threads move weights between two edges, one this way and one that way: they declare the same
/// stripes in another order, and wait for them, or try until they are free.
#[test]
fn transfers_that_cross_end() {
    const MOVES: u64 = 10_000;
    let graph = &graph(Options::sessions(2));
    let other = graph.node_apart();
    let mut session = graph.store.session().unwrap();
    let before = session.look().unwrap().length();
    for src in [1, other] {
        assert_eq!(session.call(graph.ins, [src, 0, 100]), Ok(Inserted::Added));
    }
    drop(session);
    thread::scope(|scope| {
        for way in [[1, other], [other, 1]] {
            scope.spawn(move || {
                let mut session = graph.store.session().unwrap();
                let mut over = Declared::new();
                for src in way {
                    over.at(graph.del, [src, 0]).unwrap();
                    over.at(graph.ins, [src, 0]).unwrap();
                }
                for turn in 0..MOVES {
                    if turn % 2 == 0 {
                        transfer(graph, session.open(&over).unwrap(), way, turn % 7);
                        continue;
                    }
                    loop {
                        match session.try_open(&over) {
                            Ok(moves) => break transfer(graph, moves, way, turn % 7),
                            Err(Error::Busy { .. }) => thread::yield_now(),
                            Err(error) => panic!("{error}"),
                        }
                    }
                }
            });
        }
    });
    let mut session = graph.store.session().unwrap();
    assert_eq!(session.look().unwrap().length(), before + 2 + 2 * MOVES);
}
