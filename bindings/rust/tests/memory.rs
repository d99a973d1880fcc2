//! Want of memory: a transaction that meets it is over, and nothing of it is made.

mod common;
#[path = "common/memory.rs"]
mod memory;

use common::{Graph, graph};
use memory::failing;
use relc::{Answer, Declared, Error, Inserted, Options, Session};

/// Moves an edge in a transaction, in which the allocation behind so many fails.
fn moves(graph: &Graph, session: &mut Session, over: &Declared, left: u32) -> Result<(), Error> {
    let mut transaction = session.open(over)?;
    let (gone, back) = failing(left, || {
        let gone = transaction.call(graph.del, [1, 2]);
        let back = transaction.call(graph.ins, [1, 3, 11]);
        (gone, back)
    });
    if gone.is_ok() && back.is_ok() {
        assert_eq!(gone, Ok(Some([1, 2, 10])));
        assert_eq!(back, Ok(Inserted::Added));
    } else {
        // the call that wanted memory has ended it, and whatever is asked of it then says so
        assert!(gone == Err(Error::Memory) || gone == Ok(Some([1, 2, 10])));
        assert_eq!(back, Err(Error::Memory));
        let late = transaction.call(graph.succ, [1]);
        assert_eq!(late, Err(Error::Memory));
    }
    transaction.commit().map(|_| ())
}

#[test]
fn want_of_memory_ends_a_transaction() {
    let mut ended = 0;
    loop {
        let graph = &graph(Options::sessions(2));
        let mut session = graph.store.session().unwrap();
        let mut other = graph.store.session().unwrap();
        assert_eq!(session.call(graph.ins, [1, 2, 10]), Ok(Inserted::Added));
        let mut over = Declared::new();
        over.at(graph.del, [1, 2]).unwrap();
        over.at(graph.ins, [1, 3]).unwrap();
        let made = moves(graph, &mut session, &over, ended);
        assert!(made.is_ok() || made == Err(Error::Memory));
        let row = if made.is_ok() { [3, 11] } else { [2, 10] };
        // its stripes are free
        let rows = other.try_call(graph.succ, [1]);
        assert_eq!(rows, Ok(Answer::Rows(vec![row])));
        assert_eq!(other.try_call(graph.ins, [1, 4, 0]), Ok(Inserted::Added));
        // and the session goes on: one that is over isn't committed or cancelled again
        let length = session.look().unwrap().length();
        assert_eq!(length, if made.is_ok() { 4 } else { 3 });
        if made.is_ok() {
            break;
        }
        assert_eq!(moves(graph, &mut session, &over, u32::MAX), Ok(()));
        ended += 1;
    }
    assert!(ended > 0, "the calls of a new session take memory");
}

/// Dropped or committed, it is over as it was: its session may open the next one.
#[test]
fn what_is_over_may_be_dropped() {
    let graph = &graph(Options::sessions(2));
    let mut session = graph.store.session().unwrap();
    let mut over = Declared::new();
    over.any(graph.ins).unwrap();
    let mut ended = session.open(&over).unwrap();
    let wanted = failing(0, || ended.call(graph.ins, [1, 2, 10]));
    assert_eq!(wanted, Err(Error::Memory));
    drop(ended);
    let mut next = session.open(&over).unwrap();
    assert_eq!(next.call(graph.ins, [1, 2, 20]), Ok(Inserted::Added));
    assert_eq!(next.commit().unwrap().nth, 0);
}
