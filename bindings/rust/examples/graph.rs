//! A graph that four threads change and walk, along its edges and against them.
//!
//! There are two ways to an edge, by the node that it leaves and by the one that it enters
//! (`graph.relc`): a hash of nodes, and for each an ordered map of its other ends. Each way has the
//! weights: a walk reads and locks one stripe of its own direction, shared, and nothing of the
//! other's. The alternative is to let the two meet at the edge, and to keep its weight below that
//! once; then both walks would lock the weights too.
//!
//! `from` is striped by the source and `to` by the target: `succ`, `find` and `pred` lock one
//! stripe, and `link` and `unlink` write one of each class. No call locks all stripes.
//!
//!     cargo run --release --example graph

use relc::{Error, Insert, Inserted, Options, Query, Remove, Session, Store};
use std::collections::BTreeSet;
use std::thread;

const THREADS: u64 = 4;
const CALLS: u64 = 5_000;
const NODES: u64 = 32;

struct Graph {
    store: Store,
    link: Insert<3>,
    unlink: Remove<2, 3>,
    find: Query<2, 1>,
    succ: Query<1, 2>,
    pred: Query<1, 2>,
}

/// How many edges a thread added and removed, and how many nodes its walks came to.
#[derive(Clone, Copy, Default)]
struct Tally {
    added: usize,
    removed: usize,
    walked: usize,
}

impl Graph {
    fn open() -> Result<Graph, Error> {
        let store = Store::open(
            include_str!("graph.relc"),
            Options::sessions(THREADS as u32),
        )?;
        Ok(Graph {
            link: store.insert("link")?,
            unlink: store.remove("unlink")?,
            find: store.query("find")?,
            succ: store.query("succ")?,
            pred: store.query("pred")?,
            store,
        })
    }

    /// The nodes to which a walk from this one comes. While others change the graph each step sees
    /// it as it is then, and the walk as a whole no one state of it.
    fn walk(
        &self,
        session: &mut Session,
        from: u64,
        ends: Query<1, 2>,
    ) -> Result<BTreeSet<u64>, Error> {
        let mut reached = BTreeSet::from([from]);
        let mut next = vec![from];
        while let Some(node) = next.pop() {
            let ends = session.call(ends, [node])?.rows()?;
            next.extend(
                ends.iter()
                    .map(|[end, _]| *end)
                    .filter(|end| reached.insert(*end)),
            );
        }
        Ok(reached)
    }

    fn work(&self, thread: u64) -> Result<Tally, Error> {
        let mut session = self.store.session()?;
        let mut tally = Tally::default();
        for call in 0..CALLS {
            // numbers that look random
            let random = (call * THREADS + thread).wrapping_mul(0x9e3779b97f4a7c15) >> 32;
            let (src, dst) = (random % NODES, random / NODES % NODES);
            match call % 8 {
                0..3 => {
                    let reply = session.call(self.link, [src, dst, src * dst])?;
                    tally.added += usize::from(reply == Inserted::Added);
                }
                3..7 => {
                    let edge = session.call(self.unlink, [src, dst])?;
                    assert!(edge.is_none_or(|edge| edge == [src, dst, src * dst]));
                    tally.removed += usize::from(edge.is_some());
                }
                _ => {
                    let ends = if call % 16 < 8 { self.succ } else { self.pred };
                    tally.walked += self.walk(&mut session, src, ends)?.len();
                }
            }
        }
        Ok(tally)
    }
}

fn main() -> Result<(), Error> {
    let graph = &Graph::open()?;
    let tallies: Vec<Tally> = thread::scope(|scope| {
        let started = (0..THREADS).map(|thread| scope.spawn(move || graph.work(thread)));
        let started: Vec<_> = started.collect();
        let ended = started.into_iter().map(|thread| thread.join().unwrap());
        ended.collect::<Result<_, Error>>()
    })?;
    let sum = |of: fn(&Tally) -> usize| tallies.iter().map(of).sum::<usize>();
    let (added, removed) = (sum(|tally| tally.added), sum(|tally| tally.removed));
    println!("added {added}, removed {removed}");
    println!("walks came to {} nodes", sum(|tally| tally.walked));
    // the edges from the nodes are those to the nodes, and none was lost
    let mut session = graph.store.session()?;
    let (mut from, mut to) = (BTreeSet::new(), BTreeSet::new());
    for node in 0..NODES {
        let succ = session.call(graph.succ, [node])?.rows()?;
        from.extend(succ.into_iter().map(|[end, weight]| [node, end, weight]));
        let pred = session.call(graph.pred, [node])?.rows()?;
        to.extend(pred.into_iter().map(|[end, weight]| [end, node, weight]));
    }
    assert_eq!(from, to);
    assert_eq!(from.len(), added - removed);
    for [src, dst, weight] in &from {
        assert_eq!(session.call(graph.find, [*src, *dst])?.rows()?, [[*weight]]);
        // there and back again
        assert!(graph.walk(&mut session, *src, graph.succ)?.contains(dst));
        assert!(graph.walk(&mut session, *dst, graph.pred)?.contains(src));
    }
    println!("{} edges are left, in both directions", from.len());
    Ok(())
}
