//! Threads on few keys: their calls, by their places, are one legal history.

mod common;

use common::{Graph, Random, graph, specification};
use relc::{Answer, Error, Found, Inserted, Options, Position, Session};
use std::collections::BTreeMap;
use std::sync::atomic::{AtomicBool, Ordering::Relaxed};
use std::thread;
use std::time::{Duration, Instant};

const THREADS: u64 = 4;
const CALLS: usize = 6_000;

/// A call with what it was answered.
enum Entry {
    Insert([u64; 3], Inserted),
    Remove([u64; 2], Option<[u64; 3]>),
    Successors(u64, Answer<2>),
}

/// How a call is made.
#[derive(Clone, Copy)]
enum How {
    Waits,
    /// It tries until nobody is in the way.
    Tries,
    /// It is prepared first.
    Commits,
    /// It is prepared, and then cancelled: nobody sees anything of it.
    Cancels,
}

/// Of twelve calls three are prepared, one of which is cancelled, and three more wait.
const HOW: [How; 12] = {
    use How::{Cancels, Commits, Tries, Waits};
    [
        Waits, Tries, Commits, Tries, Waits, Tries, Cancels, Tries, Waits, Tries, Commits, Tries,
    ]
};

/// The calls of one thread that weren't cancelled, with their places.
fn work(graph: &Graph, mut session: Session, thread: u64) -> Vec<(Position, Entry)> {
    let mut random = Random(thread + 0x9e3779b97f4a7c15);
    (HOW.into_iter().cycle().take(CALLS))
        .filter_map(|how| entry(graph, &mut session, &mut random, how))
        .collect()
}

fn entry(
    graph: &Graph,
    session: &mut Session,
    random: &mut Random,
    how: How,
) -> Option<(Position, Entry)> {
    let (src, dst, weight) = (random.below(3), random.below(4), random.below(100));
    Some(match random.below(3) {
        0 => {
            let (reply, position) = made(session, how, graph.ins, [src, dst, weight])?;
            (position, Entry::Insert([src, dst, weight], reply))
        }
        1 => {
            let (reply, position) = made(session, how, graph.del, [src, dst])?;
            (position, Entry::Remove([src, dst], reply))
        }
        _ => {
            let (reply, position) = made(session, how, graph.succ, [src])?;
            (position, Entry::Successors(src, reply))
        }
    })
}

/// What the call was answered, with its place; nothing where it was cancelled.
fn made<const N: usize, O: relc::Operation<N>>(
    session: &mut Session,
    how: How,
    op: O,
    values: [u64; N],
) -> Option<(O::Reply, Position)> {
    match how {
        How::Waits => Some(session.call_placed(op, values).unwrap()),
        How::Tries => loop {
            match session.try_call_placed(op, values) {
                Ok(answer) => break Some(answer),
                Err(Error::Busy { .. }) => thread::yield_now(),
                Err(error) => panic!("{error}"),
            }
        },
        How::Commits => Some(session.begin_waiting(op, values).unwrap().commit()),
        How::Cancels => {
            drop(session.begin_waiting(op, values).unwrap());
            None
        }
    }
}

/// Whether the map answers the call so, and then has its effect.
fn is_legal(map: &mut BTreeMap<(u64, u64), u64>, entry: &Entry) -> bool {
    match entry {
        Entry::Insert([src, dst, weight], reply) => {
            let there = map.contains_key(&(*src, *dst));
            map.entry((*src, *dst)).or_insert(*weight);
            *reply
                == if there {
                    Inserted::Present
                } else {
                    Inserted::Added
                }
        }
        Entry::Remove([src, dst], reply) => {
            *reply == map.remove(&(*src, *dst)).map(|weight| [*src, *dst, weight])
        }
        Entry::Successors(src, reply) => {
            let range = map.range((*src, 0)..=(*src, u64::MAX));
            let rows = range.map(|((_, dst), weight)| [*dst, *weight]).collect();
            *reply == Answer::Rows(rows)
        }
    }
}

/// What threads call side by side, each by the session of its number: for each its calls.
fn work_of_threads(graph: &Graph, turn: u64) -> Vec<Vec<(Position, Entry)>> {
    // (before any thread: one that ends leaves its session, which goes on counting, to one that starts)
    let sessions: Vec<_> = (0..THREADS)
        .map(|_| graph.store.session().unwrap())
        .collect();
    thread::scope(|scope| {
        let started: Vec<_> = (0..THREADS)
            .zip(sessions)
            .map(|(thread, session)| {
                scope.spawn(move || work(graph, session, turn * THREADS + thread))
            })
            .collect();
        started
            .into_iter()
            .map(|thread| thread.join().unwrap())
            .collect()
    })
}

/// The calls of the threads, by their places, are one legal history, each thread's in its order. Answers how many they are.
fn check_history(threads: Vec<Vec<(Position, Entry)>>) -> usize {
    let mut history = BTreeMap::new();
    for entries in threads {
        let mut last = None;
        for (nth, (position, entry)) in entries.into_iter().enumerate() {
            assert_eq!(position.nth, nth as u64);
            assert!(last < Some(position.place));
            last = Some(position.place);
            assert!(history.insert(position.place, entry).is_none());
        }
    }
    let mut map = BTreeMap::new();
    for (nth, (place, entry)) in history.iter().enumerate() {
        assert_eq!(*place, nth as u64);
        assert!(is_legal(&mut map, entry), "the call at place {place}");
    }
    history.len()
}

#[test]
fn calls_are_one_history() {
    let graph = graph(Options::sessions(THREADS as u32));
    let length = check_history(work_of_threads(&graph, 0));
    assert_eq!(length, THREADS as usize * CALLS / 12 * 11);
}

/// So they are where the store is closed between them, and goes on.
#[test]
fn one_history_goes_on() {
    const TURNS: u64 = 4;
    let options = Options::sessions(THREADS as u32);
    let mut graph = graph(options);
    let mut threads = work_of_threads(&graph, 0);
    for turn in 1..TURNS {
        let closed = graph.store.close().unwrap();
        let store = closed.resume(specification(), options).unwrap();
        graph = Graph { store, ..graph };
        for (entries, more) in threads.iter_mut().zip(work_of_threads(&graph, turn)) {
            entries.extend(more);
        }
    }
    let length = check_history(threads);
    assert_eq!(length, TURNS as usize * THREADS as usize * CALLS / 12 * 11);
}

/// Two threads that read one stripe get in each other's way by its latch alone, which each holds
/// for a moment. How often is a matter of chance.
#[test]
fn readers_meet_at_a_latch() {
    let graph = &graph(Options::sessions(2));
    let (met, until) = (
        &AtomicBool::new(false),
        Instant::now() + Duration::from_secs(10),
    );
    let read = |mut session: Session| {
        while !met.load(Relaxed) && Instant::now() < until {
            match session.try_call(graph.succ, [1]) {
                Ok(rows) => assert_eq!(rows, Answer::Rows(vec![])),
                Err(Error::Busy {
                    found: Found::Latch(other),
                    stripe: 0..8,
                }) => {
                    assert_eq!(other, 1 - session.number());
                    met.store(true, Relaxed);
                }
                Err(error) => panic!("{error}"),
            }
        }
    };
    thread::scope(|scope| {
        for _ in 0..2 {
            let session = graph.store.session().unwrap();
            scope.spawn(move || read(session));
        }
    });
    if !met.load(Relaxed) {
        eprintln!("no reader met another's latch here: that isn't tested");
    }
}
