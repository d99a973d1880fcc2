//! Stores that are closed and go on: with their tuples, their history and what was looked up, with further operations and sessions,
//! and again and again; and what is refused gives the store, or the closed store, back as it was.

mod common;
#[path = "common/memory.rs"]
mod memory;

use common::{Graph, graph, specification};
use memory::failing;
use relc::{
    CloseError, ClosedStore, Error, Group, Inserted, Options, Position, ResumeError, Session,
    Shape, Store, Texts,
};
use std::num::NonZeroU32;
use std::thread;
use std::time::Duration;

/// The specification with this operation behind its own.
fn with_operation(line: &str) -> String {
    let text = specification();
    let end = text.rfind("end").unwrap();
    format!("{}{line}\nend\n", &text[..end])
}

/// Three edges, which the first session of two put there by two calls, and the second by one.
fn with_edges() -> Graph {
    let graph = graph(Options::sessions(2));
    let mut one = graph.store.session().unwrap();
    let mut two = graph.store.session().unwrap();
    assert_eq!(one.call(graph.ins, [1, 2, 10]), Ok(Inserted::Added));
    assert_eq!(two.call(graph.ins, [2, 3, 20]), Ok(Inserted::Added));
    assert_eq!(one.call(graph.ins, [1, 3, 30]), Ok(Inserted::Added));
    drop((one, two));
    graph
}

impl Graph {
    /// The graph of the store that goes on so, with the operations that were looked up before.
    fn go_on(self, by: impl FnOnce(ClosedStore) -> Result<Store, ResumeError>) -> Graph {
        let store = by(self.store.close().unwrap()).unwrap();
        Graph { store, ..self }
    }

    /// The edges are those of `with_edges`, whose three calls are all that was made.
    fn check(&self) {
        let mut session = self.store.session().unwrap();
        let (answer, position) = session.call_placed(self.succ, [1]).unwrap();
        assert_eq!(answer.rows(), Ok(vec![[2, 10], [3, 30]]));
        let before = [2, 1].get(session.number() as usize).copied();
        assert_eq!(
            (position.place, position.nth),
            (3, before.unwrap_or_default())
        );
        assert_eq!(session.first(self.succ, [2]), Ok(Some([3, 20])));
    }
}

fn same(closed: ClosedStore) -> Result<Store, ResumeError> {
    closed.resume(specification(), Options::sessions(2))
}

/// Where a call stands that adds an edge.
fn add(graph: &Graph, session: &mut Session, edge: [u64; 3]) -> Position {
    let (added, position) = session.call_placed(graph.ins, edge).unwrap();
    assert_eq!(added, Inserted::Added);
    position
}

#[test]
fn a_closed_store_goes_on() {
    let graph = with_edges().go_on(same);
    graph.check();
    // each session with what that of its number had made
    let graph = graph.go_on(same);
    let mut one = graph.store.session().unwrap();
    let mut two = graph.store.session().unwrap();
    assert_eq!((one.number(), two.number()), (0, 1));
    let at = add(&graph, &mut two, [5, 6, 7]);
    assert_eq!((at.place, at.nth), (5, 1));
    let at = add(&graph, &mut one, [5, 7, 7]);
    assert_eq!((at.place, at.nth), (6, 4));
    assert_eq!(
        graph.store.session().err(),
        Some(Error::NoneLeft),
        "there are two"
    );
    drop((one, two));
    // again and again
    let graph = (0..20).fold(graph, |graph, turn| {
        let graph = graph.go_on(same);
        let mut session = graph.store.session().unwrap();
        assert_eq!(
            add(&graph, &mut session, [9, turn, turn]).place,
            7 + turn,
            "a call for each turn"
        );
        drop(session);
        graph
    });
    let mut session = graph.store.session().unwrap();
    assert_eq!(session.count(graph.succ, [9]), Ok(20));
    assert_eq!(session.count(graph.succ, [5]), Ok(2));
}

#[test]
fn what_was_looked_up_and_seen_is_of_the_store_that_goes_on() {
    let graph = with_edges();
    let mut group = Group::new();
    let out = group.add(graph.del, [1, 2]).unwrap();
    let back = group.add(graph.ins, [1, 5, 10]).unwrap();
    let mut session = graph.store.session().unwrap();
    let seen = add(&graph, &mut session, [8, 8, 8]).seen();
    drop(session);
    let graph = graph.go_on(same);
    let mut session = graph.store.session().unwrap();
    assert_eq!(session.learn(seen).map(|seen| seen.length()), Ok(4));
    let mut done = session.transaction(&group).unwrap();
    assert_eq!(done.reply(out), Ok(Some([1, 2, 10])));
    assert_eq!(done.reply(back), Ok(Inserted::Added));
    assert_eq!(done.position().place, 4);
    // and of no other one
    let other = common::graph(Options::sessions(1));
    let mut session = other.store.session().unwrap();
    assert_eq!(session.learn(seen), Err(Error::Foreign));
    assert_eq!(session.call(graph.ins, [1, 2, 3]), Err(Error::Foreign));
}

#[test]
fn a_store_goes_on_with_further_operations() {
    let text = with_operation("op into query dst -> src weight");
    let graph = with_edges().go_on(|closed| closed.resume(&text, Options::sessions(2)));
    graph.check();
    let into = graph
        .store
        .query_of("into", ["dst"], ["src", "weight"])
        .unwrap();
    let mut session = graph.store.session().unwrap();
    let rows: Vec<_> = session.query(into, [3]).unwrap().collect();
    assert_eq!(rows, [[1, 30], [2, 20]]);
    drop(session);
    // by a shape behind that, and by another one behind both
    let find = Shape::query(["src", "dst"], ["weight", "src"]);
    let light = Shape::query(["weight"], ["src", "dst"]);
    let shapes = [find.clone(), light.clone()];
    let graph = graph.go_on(|closed| closed.resume_with(&text, &shapes[..1], Options::sessions(2)));
    let found = graph.store.shape_query::<2, 2>(&find).unwrap();
    let mut session = graph.store.session().unwrap();
    assert_eq!(session.first(found, [2, 3]), Ok(Some([20, 2])));
    assert_eq!(
        session.ask(&light, [30]),
        Err(Error::Undeclared(light.to_string()))
    );
    drop(session);
    let closed = graph.store.close().unwrap();
    let closed = refused(closed, Error::Specification, same);
    let closed = refused(closed, Error::Specification, |closed| {
        closed.resume_with(&text, &shapes[1..], Options::sessions(2))
    });
    let store = closed
        .resume_with(&text, &shapes, Options::sessions(2))
        .unwrap();
    let light = store.shape_query::<1, 2>(&light).unwrap();
    let mut session = store.session().unwrap();
    assert_eq!(session.first(light, [30]), Ok(Some([1, 3])));
    assert_eq!(session.first(found, [2, 3]), Ok(Some([20, 2])));
    assert_eq!(session.first(into, [2]), Ok(Some([1, 10])));
}

#[test]
fn plans_may_be_others() {
    let graph = with_edges();
    let plans = graph.store.plans().unwrap();
    let at = plans.find("plan succ\n").unwrap();
    let lock = plans[at..].lines().nth(1).unwrap();
    let by_hand = plans[at..]
        .lines()
        .take_while(|line| line.starts_with("plan succ") || !line.starts_with("plan "))
        .fold(String::new(), |text, line| {
            text + &line.replace(" keyed", " all") + "\n"
        });
    assert!(lock.contains("keyed") && by_hand.contains("all"));
    let by_hand = format!("{by_hand}end\n");
    let graph = graph.go_on(|closed| {
        closed.resume_with_plans(specification(), &[], &by_hand, Options::sessions(2))
    });
    assert_ne!(graph.store.plans().unwrap(), plans);
    graph.check();
    let graph = graph.go_on(same);
    assert_eq!(graph.store.plans().unwrap(), plans);
}

#[test]
fn more_sessions_and_other_limits() {
    let graph = with_edges().go_on(|closed| closed.resume(specification(), Options::sessions(4)));
    let mut sessions: Vec<_> = (0..4).map(|_| graph.store.session().unwrap()).collect();
    for (session, nth) in sessions.iter_mut().zip([2, 1, 0, 0]) {
        let end = u64::from(session.number());
        assert_eq!(add(&graph, session, [9, end, 0]).nth, nth);
    }
    drop(sessions);
    let closed = refused(graph.store.close().unwrap(), Error::FewerSessions, same);
    // they have made 3, 2, 1 and 1 calls: with a limit of 2 none goes on, and with one of 3 three do
    let limited = |limit| Options {
        limit,
        ..Options::sessions(4)
    };
    let closed = refused(closed, Error::LowerLimit, |closed| {
        closed.resume(specification(), limited(2))
    });
    let store = closed.resume(specification(), limited(3)).unwrap();
    let mut sessions: Vec<_> = (0..3).map(|_| store.session().unwrap()).collect();
    assert_eq!(store.session().err(), Some(Error::NoneLeft), "one is spent");
    let left = sessions.iter_mut().map(|session| {
        let number = session.number();
        let calls = (0..).take_while(|_| session.call(graph.succ, [9]).is_ok());
        (number, calls.count())
    });
    assert_eq!(left.collect::<Vec<_>>(), [(1, 1), (2, 2), (3, 2)]);
    drop(sessions);
    assert_eq!(store.session().err(), Some(Error::NoneLeft), "all are");
    // with a higher limit they go on
    let closed = store.close().unwrap();
    let store = closed.resume(specification(), limited(4)).unwrap();
    let mut session = store.session().unwrap();
    assert_eq!(session.call_placed(graph.succ, [9]).unwrap().1.nth, 3);
}

/// The closed store, which doesn't go on so, for this reason.
fn refused(
    closed: ClosedStore,
    reason: Error,
    by: impl FnOnce(ClosedStore) -> Result<Store, ResumeError>,
) -> ClosedStore {
    let back = by(closed).unwrap_err();
    assert_eq!(back.error, reason);
    let source = std::error::Error::source(&back).unwrap();
    assert_eq!(source.to_string(), reason.to_string());
    back.closed
}

/// The closed store, which doesn't go on so, since a text is refused.
fn refused_text(
    closed: ClosedStore,
    said: &str,
    by: impl FnOnce(ClosedStore) -> Result<Store, ResumeError>,
) -> ClosedStore {
    match by(closed) {
        Err(ResumeError {
            closed,
            error: Error::Refused(refusal),
        }) => {
            assert_eq!(refusal.as_str(), said);
            closed
        }
        other => panic!("{other:?}"),
    }
}

#[test]
fn a_refusal_gives_the_closed_store_back() {
    let text = specification();
    let two = Options::sessions(2);
    let graph = with_edges();
    let (ins, del, succ, find) = (graph.ins, graph.del, graph.succ, graph.find);
    let mut closed = graph.store.close().unwrap();
    let rows = NonZeroU32::new(7);
    for (options, reason) in [
        (Options::sessions(0), Error::Options),
        (Options { limit: 0, ..two }, Error::Options),
        (Options::sessions(1), Error::FewerSessions),
        (Options { limit: 1, ..two }, Error::LowerLimit),
        (Options { rows, ..two }, Error::Specification),
    ] {
        closed = refused(closed, reason, |closed| closed.resume(text, options));
    }
    let blank = "\n".repeat((1 << 24) + 1);
    closed = refused(closed, Error::TooLong, |closed| closed.resume(&blank, two));
    // a specification with another item, fewer operations, one in front, and others in another order
    let inserts = "op ins insert src dst\n";
    let removes = "op del remove src dst\n";
    assert!(text.contains(&format!("{inserts}{removes}")));
    for other in [
        text.replace(removes, ""),
        text.replace(inserts, &format!("op into query dst -> src\n{inserts}")),
        text.replace(
            &format!("{inserts}{removes}"),
            &format!("{removes}{inserts}"),
        ),
        text.replace(inserts, "op ins insert dst src\n"),
    ] {
        closed = refused(closed, Error::Specification, |closed| {
            closed.resume(&other, two)
        });
    }
    closed = refused_text(closed, "refused S1 line 1", |closed| {
        closed.resume("relc 3\n", two)
    });
    closed = refused_text(closed, "refused W4 line 2", |closed| {
        let shapes = [Shape::query(["dst"], ["src"]), Shape::remove(["src"])];
        closed.resume_with(text, &shapes, two)
    });
    closed = refused_text(closed, "refused H1 line 1", |closed| {
        closed.resume_with_plans(text, &[], "plan nothing\nend\n", two)
    });
    closed = refused_text(closed, "refused K1 plan succ statement 0", |closed| {
        closed.resume_with_plans(text, &[], "plan succ\nend\n", two)
    });
    let store = same(closed).unwrap();
    let graph = Graph {
        store,
        ins,
        del,
        succ,
        find,
    };
    graph.check();
}

#[test]
fn a_store_that_is_in_use_is_given_back() {
    let Graph {
        store, ins, succ, ..
    } = with_edges();
    let in_use = |store: Store| {
        let back = store.close().unwrap_err();
        assert_eq!(back.error, Error::InUse);
        back.store
    };
    // by a session, which works on
    let mut session = store.session().unwrap();
    let store = in_use(store);
    assert_eq!(session.call(ins, [7, 7, 7]), Ok(Inserted::Added));
    let other = store.session().unwrap();
    let store = in_use(store);
    // by a clone
    drop((session, other));
    let clone = store.clone();
    let store = in_use(store);
    let mut session = clone.session().unwrap();
    assert_eq!(session.first(succ, [7]), Ok(Some([7, 7])));
    drop((session, clone));
    // by a session that is never dropped
    let closed = store.close().unwrap();
    let store = same(closed).unwrap();
    std::mem::forget(store.session().unwrap());
    let store = in_use(store);
    assert_eq!(store.session().unwrap().number(), 1);
}

/// What a session had prepared and forgot is cancelled before the store is closed.
#[test]
fn what_was_forgotten_is_cancelled() {
    let graph = with_edges();
    let mut session = graph.store.session().unwrap();
    std::mem::forget(session.begin(graph.ins, [1, 9, 9]).unwrap());
    drop(session);
    let graph = graph.go_on(same);
    graph.check();
    let mut session = graph.store.session().unwrap();
    assert_eq!(session.try_call(graph.ins, [1, 9, 9]), Ok(Inserted::Added));
}

/// Calls that wait are made before the store is closed, and others wait on the one that goes on.
#[test]
fn sessions_that_wait_go_on() {
    let mut graph = with_edges();
    for turn in 0..3 {
        thread::scope(|threads| {
            let mut holder = graph.store.session().unwrap();
            let held = holder.begin(graph.ins, [1, 100 + turn, 0]).unwrap();
            let mut waiter = graph.store.session().unwrap();
            let ins = graph.ins;
            let waiting = threads.spawn(move || waiter.call_placed(ins, [1, 200 + turn, 0]));
            thread::sleep(Duration::from_millis(20));
            assert!(!waiting.is_finished());
            let (added, first) = held.commit();
            let (also, second) = waiting.join().unwrap().unwrap();
            assert_eq!((added, also), (Inserted::Added, Inserted::Added));
            assert_eq!((first.place, second.place), (3 + 2 * turn, 4 + 2 * turn));
        });
        graph = graph.go_on(same);
    }
    let mut session = graph.store.session().unwrap();
    let ends: Vec<_> = session.query(graph.succ, [1]).unwrap().collect();
    assert_eq!(
        ends.iter().map(|row| row[0]).collect::<Vec<_>>(),
        [2, 3, 100, 101, 102, 200, 201, 202]
    );
}

/// Texts have the numbers that the program's own table gives them: so they outlive the store.
#[test]
fn texts_keep_their_numbers() {
    let texts = Texts::new();
    let graph = graph(Options::sessions(1));
    let put = |graph: &Graph, from: &str, to: &str| {
        let edge = [texts.number(from), texts.number(to), 1];
        let mut session = graph.store.session().unwrap();
        session.call(graph.ins, edge).unwrap()
    };
    assert_eq!(put(&graph, "here", "there"), Inserted::Added);
    let graph = graph.go_on(|closed| closed.resume(specification(), Options::sessions(1)));
    assert_eq!(put(&graph, "there", "nowhere"), Inserted::Added);
    assert_eq!(put(&graph, "here", "there"), Inserted::Present);
    let mut session = graph.store.session().unwrap();
    let mut ends = |from: &str| {
        let from = texts.find(from).unwrap();
        let [to, _] = session.first(graph.succ, [from]).unwrap().unwrap();
        texts.text(to).unwrap().to_string()
    };
    assert_eq!(
        (ends("here"), ends("there")),
        ("there".into(), "nowhere".into())
    );
}

/// Where memory is wanted, the store or the closed store comes back as it was.
#[test]
fn want_of_memory_gives_all_back() {
    let mut failed = 0;
    loop {
        let Graph {
            store,
            ins,
            del,
            succ,
            find,
        } = with_edges();
        let mut wanted = false;
        let closed = match failing(failed, || store.close()) {
            Ok(closed) => closed,
            Err(CloseError { store, error }) => {
                assert_eq!(error, Error::Memory);
                wanted = true;
                // (a session goes on with what it had made)
                assert_eq!(store.session().unwrap().number(), 0);
                store.close().unwrap()
            }
        };
        let store = match failing(failed, || same(closed)) {
            Ok(store) => store,
            Err(ResumeError { closed, error }) => {
                assert_eq!(error, Error::Memory);
                wanted = true;
                same(closed).unwrap()
            }
        };
        let graph = Graph {
            store,
            ins,
            del,
            succ,
            find,
        };
        graph.check();
        if !wanted {
            break;
        }
        failed += 1;
    }
    assert!(failed > 0, "a store takes memory");
}

#[test]
fn closed_stores_move() {
    fn moves<T: Send + Sync + 'static>() {}
    moves::<ClosedStore>();
    moves::<CloseError>();
    moves::<ResumeError>();
    let graph = with_edges();
    let closed = graph.store.close().unwrap();
    let store = thread::spawn(|| same(closed).unwrap()).join().unwrap();
    assert_eq!(store.session().unwrap().count(graph.succ, [1]), Ok(2));
    // one that is dropped is gone
    drop(store.close().unwrap());
}
