//! Measures calls through this crate, and on maps under one lock: the mixes of
//! `bench/peers/store.rs` in the same order, by one, two and four threads, each of which waits where
//! another is in the way, or, with `ONE_THREAD` in the environment, by one. `sh bench/embed.sh` runs
//! it.
//!
//!     cd bindings/rust && cargo run --offline --release --example calls [NODES [CALLS]]
//!
//! Each line: the mix, the threads, what was called, and the nanoseconds of a thread's call.

use relc::{Answer, Insert, Options, Query, Remove, Session, Store};
use std::collections::{BTreeMap, HashMap};
use std::hint::black_box;
use std::sync::RwLock;
use std::time::Instant;
use std::{env, thread};

/// How many of a hundred calls are of successors, predecessors, inserts and removes.
const MIXES: [[u64; 4]; 5] = [
    [70, 0, 20, 10],
    [35, 35, 20, 10],
    [0, 0, 50, 50],
    [45, 45, 9, 1],
    [100, 0, 0, 0],
];

/// So many rows a reply lists at most.
const MAX_ROWS: usize = 256;

#[derive(Clone, Copy)]
enum Call {
    Successors(u64),
    Predecessors(u64),
    Insert(u64, u64, u64),
    Remove(u64, u64),
}

/// Numbers that look random (xorshift).
struct Random(u64);

impl Random {
    fn below(&mut self, limit: u64) -> u64 {
        self.0 ^= self.0 << 13;
        self.0 ^= self.0 >> 7;
        self.0 ^= self.0 << 17;
        (self.0 >> 11) % limit.max(1)
    }
}

fn calls_of(mix: [u64; 4], nodes: u64, count: usize) -> Vec<Call> {
    let mut random = Random(1);
    let one = |_| {
        let chance = random.below(100);
        let (source, target) = (random.below(nodes), random.below(nodes));
        let weight = random.below(1024);
        if chance < mix[0] {
            Call::Successors(source)
        } else if chance < mix[0] + mix[1] {
            Call::Predecessors(target)
        } else if chance < mix[0] + mix[1] + mix[2] {
            Call::Insert(source, target, weight)
        } else {
            Call::Remove(source, target)
        }
    };
    (0..count).map(one).collect()
}

/// A relation on which threads make calls; a reply that nobody reads is made all the same.
trait Graph: Sync {
    fn new(threads: usize) -> Self;

    fn make_all(&self, calls: &[Call]);
}

/// A store of RELC with its operations.
struct Relation {
    store: Store,
    ins: Insert<3>,
    del: Remove<2, 3>,
    succ: Query<1, 2>,
    pred: Query<1, 2>,
}

impl Relation {
    fn open(threads: usize) -> Result<Relation, relc::Error> {
        let text = include_str!("../split.relc");
        let store = Store::open(text, Options::sessions(threads as u32))?;
        Ok(Relation {
            ins: store.insert("ins")?,
            del: store.remove("del")?,
            succ: store.query("succ")?,
            pred: store.query("pred")?,
            store,
        })
    }

    fn make(&self, session: &mut Session, call: Call) -> Result<(), relc::Error> {
        match call {
            Call::Successors(node) => drop(black_box(session.call(self.succ, [node])?)),
            Call::Predecessors(node) => drop(black_box(session.call(self.pred, [node])?)),
            Call::Insert(source, target, weight) => {
                let _ = black_box(session.call(self.ins, [source, target, weight])?);
            }
            Call::Remove(source, target) => {
                black_box(session.call(self.del, [source, target])?);
            }
        }
        Ok(())
    }
}

impl Graph for Relation {
    fn new(threads: usize) -> Relation {
        Relation::open(threads).expect("the text keeps all rules")
    }

    fn make_all(&self, calls: &[Call]) {
        let mut session = self.store.session().expect("there is one for each thread");
        for call in calls {
            self.make(&mut session, *call).expect("no call is refused");
        }
    }
}

/// The edges at each node that has some: their other ends with their weights.
type Nodes = HashMap<u64, BTreeMap<u64, u64>>;

/// The edges from each node and those to each, under one lock.
#[derive(Default)]
struct Directions {
    from: Nodes,
    to: Nodes,
}

struct OneLock(RwLock<Directions>);

impl OneLock {
    fn neighbours(nodes: &Nodes, node: u64) -> Answer<2> {
        match nodes.get(&node) {
            Some(ends) if ends.len() > MAX_ROWS => Answer::Many(ends.len() as u64),
            Some(ends) => Answer::Rows(ends.iter().map(|(end, weight)| [*end, *weight]).collect()),
            None => Answer::Rows(Vec::new()),
        }
    }

    fn make(&self, call: Call) {
        let OneLock(lock) = self;
        match call {
            Call::Successors(node) => {
                drop(black_box(Self::neighbours(
                    &lock.read().unwrap().from,
                    node,
                )));
            }
            Call::Predecessors(node) => {
                drop(black_box(Self::neighbours(&lock.read().unwrap().to, node)));
            }
            Call::Insert(source, target, weight) => {
                let Directions { from, to } = &mut *lock.write().unwrap();
                let ends = from.entry(source).or_default();
                let is_added = !ends.contains_key(&target);
                if is_added {
                    ends.insert(target, weight);
                    to.entry(target).or_default().insert(source, weight);
                }
                black_box(is_added);
            }
            Call::Remove(source, target) => {
                let Directions { from, to } = &mut *lock.write().unwrap();
                let weight = from.get_mut(&source).and_then(|ends| ends.remove(&target));
                if weight.is_some() {
                    to.get_mut(&target).map(|ends| ends.remove(&source));
                }
                black_box(weight);
            }
        }
    }
}

impl Graph for OneLock {
    fn new(_: usize) -> OneLock {
        OneLock(RwLock::default())
    }

    fn make_all(&self, calls: &[Call]) {
        for call in calls {
            self.make(*call);
        }
    }
}

/// The nanoseconds of a thread's call. Threads begin and end in that time.
fn measure<G: Graph>(calls: &[Call], threads: usize) -> u128 {
    let graph = &G::new(threads);
    let each = calls.len() / threads;
    let begun = Instant::now();
    thread::scope(|scope| {
        for share in calls.chunks(each) {
            scope.spawn(move || graph.make_all(share));
        }
    });
    begun.elapsed().as_nanos() / each as u128
}

fn main() {
    let mut words = env::args()
        .skip(1)
        .map(|word| word.parse().expect("a number"));
    let nodes: usize = words.next().unwrap_or(16);
    let each: usize = words.next().unwrap_or(1_000);
    let counts: &[usize] = match env::var_os("ONE_THREAD") {
        Some(_) => &[1],
        None => &[1, 2, 4],
    };
    for mix in MIXES {
        let [succ, pred, ins, del] = mix;
        for &threads in counts {
            let calls = calls_of(mix, nodes as u64, threads * each);
            let line = |how: &str, time: u128| {
                println!("split {succ}-{pred}-{ins}-{del}, {threads}, {how}: {time} ns a call");
            };
            line("one lock", measure::<OneLock>(&calls, threads));
            line("through Rust", measure::<Relation>(&calls, threads));
        }
    }
}
