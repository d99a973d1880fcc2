//! Whoever gives stripes back wakes those that sleep. A nap takes a minute here (`NAP`), and so
//! whoever is back soon was woken.

use super::*;
use crate::{Declared, Group, Insert, Inserted, Options, Query, Store};
use memory::failing;
use std::mem::forget;
use std::thread;
use std::time::{Duration, Instant};

#[path = "../../tests/common/memory.rs"]
mod memory;

/// Well below the length of a nap, and more than a busy machine takes to run a thread again.
const SOON: Duration = Duration::from_secs(30);

/// The edge that everybody wants.
const EDGE: [u64; 3] = [1, 2, 10];

struct Graph {
    store: Store,
    insert: Insert<3>,
    find: Query<2, 1>,
}

impl Graph {
    fn open() -> Graph {
        let text = include_str!("../../../../examples/graph.relc");
        let specification = text.split("\nwork").next().unwrap();
        let store = Store::open(specification, Options::sessions(4)).unwrap();
        Graph {
            insert: store.insert("ins").unwrap(),
            find: store.query("find").unwrap(),
            store,
        }
    }

    fn session(&self) -> Session {
        self.store.session().unwrap()
    }

    /// A group that puts an edge of the node in, and looks for it.
    fn group(&self, node: u64) -> Group {
        let mut group = Group::new();
        group.add(self.insert, [node, 2, 10]).unwrap();
        group.add(self.find, [node, 2]).unwrap();
        group
    }
}

/// What a transaction declares that puts an edge of the node in.
fn declared(graph: &Graph, node: u64) -> Declared {
    let mut declared = Declared::new();
    declared.at(graph.insert, [node, 2]).unwrap();
    declared
}

fn prepared(session: &mut Session) -> Prepared<'_, Inserted> {
    Prepared {
        session,
        reply: Some(Inserted::Added),
    }
}

/// Lets a thread fall asleep behind a prepared call of another session, in each way to wait, and
/// sees that it is back soon after `let_go`, which is given that other session.
fn wakes(let_go: impl Fn(&Graph, Session)) {
    let call = |graph: &Graph, waiter: &mut Session| {
        let _ = waiter.call(graph.insert, EDGE).unwrap();
    };
    let begin = |graph: &Graph, waiter: &mut Session| {
        drop(waiter.begin_waiting(graph.insert, EDGE).unwrap());
    };
    let transaction = |graph: &Graph, waiter: &mut Session| {
        waiter.transaction(&graph.group(1)).unwrap();
    };
    let begin_transaction = |graph: &Graph, waiter: &mut Session| {
        drop(waiter.begin_transaction_waiting(&graph.group(1)).unwrap());
    };
    let open = |graph: &Graph, waiter: &mut Session| {
        drop(waiter.open(&declared(graph, 1)).unwrap());
    };
    for waits in [
        call as fn(&Graph, &mut Session),
        begin,
        transaction,
        begin_transaction,
        open,
    ] {
        let graph = &Graph::open();
        let (mut holder, mut waiter) = (graph.session(), graph.session());
        forget(holder.begin(graph.insert, EDGE).unwrap());
        let shared = holder.shared.clone();
        let took = thread::scope(|scope| {
            let back = scope.spawn(move || {
                waits(graph, &mut waiter);
                Instant::now()
            });
            while shared.events.waiters() == 0 {
                thread::yield_now();
            }
            thread::sleep(Duration::from_millis(100));
            let from = Instant::now();
            let_go(graph, holder);
            back.join().unwrap() - from
        });
        assert!(took < SOON, "the waiter was back after {took:?}");
    }
}

/// Gives the session's stripes back, and tells nobody.
fn commit_silently(mut holder: Session) {
    assert_eq!(holder.ask_frame(sys::relc_commit), sys::DONE);
    // (the drop of a session that has prepared nothing doesn't ring)
}

/// A node whose stripes a third session has: it prepares an edge of it, and is forgotten, since its
/// drop would ring.
fn other_node(graph: &Graph) -> u64 {
    let mut session = graph.session();
    let is_free = |node: &u64| {
        let prepared = session.begin(graph.insert, [*node, 1, 1]);
        prepared.map(forget).is_ok()
    };
    let node = (2..100).find(is_free).unwrap();
    forget(session);
    node
}

#[test]
fn a_commit_wakes() {
    wakes(|_, mut holder| {
        let _ = prepared(&mut holder).commit();
    });
}

#[test]
fn a_cancel_wakes() {
    wakes(|_, mut holder| drop(prepared(&mut holder)));
}

#[test]
fn a_dropped_session_wakes() {
    wakes(|_, holder| drop(holder));
}

#[test]
fn a_call_wakes() {
    wakes(|graph, holder| {
        commit_silently(holder);
        graph.session().call(graph.find, [1, 2]).unwrap();
    });
    wakes(|graph, holder| {
        commit_silently(holder);
        graph.session().try_call(graph.find, [1, 2]).unwrap();
    });
}

#[test]
fn a_group_wakes() {
    wakes(|graph, holder| {
        commit_silently(holder);
        graph.session().transaction(&graph.group(1)).unwrap();
    });
    wakes(|graph, holder| {
        commit_silently(holder);
        graph.session().try_transaction(&graph.group(1)).unwrap();
    });
    wakes(|graph, holder| {
        commit_silently(holder);
        let mut session = graph.session();
        let group = graph.group(1);
        let _ = session.begin_transaction_waiting(&group).unwrap().commit();
    });
}

#[test]
fn a_transaction_wakes() {
    wakes(|graph, holder| {
        commit_silently(holder);
        let mut session = graph.session();
        let over = declared(graph, 1);
        let mut transaction = session.open(&over).unwrap();
        let _ = transaction.call(graph.insert, EDGE).unwrap();
        transaction.commit().unwrap();
    });
    wakes(|graph, holder| {
        commit_silently(holder);
        drop(graph.session().open(&declared(graph, 1)).unwrap());
    });
    // want of memory ends it, and it rings then: not as it is dropped
    wakes(|graph, holder| {
        commit_silently(holder);
        let mut session = graph.session();
        let over = declared(graph, 1);
        let mut transaction = session.open(&over).unwrap();
        let wanted = failing(0, || transaction.call(graph.insert, EDGE));
        assert_eq!(wanted, Err(Error::Memory));
    });
}

#[test]
fn a_refused_call_wakes() {
    let is_busy = |error: Option<Error>| matches!(error, Some(Error::Busy { .. }));
    wakes(|graph, holder| {
        let node = other_node(graph);
        commit_silently(holder);
        assert!(is_busy(
            graph.session().try_call(graph.find, [node, 1]).err()
        ));
    });
    wakes(|graph, holder| {
        let node = other_node(graph);
        commit_silently(holder);
        assert!(is_busy(graph.session().begin(graph.find, [node, 1]).err()));
    });
    wakes(|graph, holder| {
        let group = graph.group(other_node(graph));
        commit_silently(holder);
        assert!(is_busy(graph.session().try_transaction(&group).err()));
    });
    wakes(|graph, holder| {
        let group = graph.group(other_node(graph));
        commit_silently(holder);
        assert!(is_busy(graph.session().begin_transaction(&group).err()));
    });
    wakes(|graph, holder| {
        let over = declared(graph, other_node(graph));
        commit_silently(holder);
        assert!(is_busy(graph.session().try_open(&over).err()));
    });
}
