//! A graph that threads share, written by hand for its relations and its calls: what RELC is measured against. It makes the calls
//! of `mixes.h` in the same order, by one, two and four threads, or, with `ONE_THREAD` in the environment, by one. Its words are
//! `time NODES CALLS`, or `check`, which compares it with a plain list of edges. `rustc -O --edition 2021 store.rs` builds it.

use std::collections::btree_map::{BTreeMap, Entry as Slot};
use std::collections::HashMap;
use std::hint::black_box;
use std::process::ExitCode;
use std::sync::atomic::{AtomicU64, Ordering};
use std::sync::{Mutex, MutexGuard};
use std::time::{Duration, Instant};
use std::{env, thread};

/// How many stripes a direction has: as many as a class of the specification.
const STRIPES: usize = 8;

/// So many rows a reply lists at most.
const MAX_ROWS: usize = 256;

#[derive(Clone, Copy, Debug, PartialEq, Eq)]
struct Edge {
    source: u64,
    target: u64,
    weight: u64,
}

#[derive(Clone, Copy, Debug)]
enum Call {
    Successors(u64),
    Predecessors(u64),
    /// Adds the edge where none leads from its source to its target.
    Insert(Edge),
    Remove(u64, u64),
}

/// What a call is answered. No insert is a conflict here: where an edge has another weight it is present, as RELC answers too.
#[derive(Debug, PartialEq, Eq)]
enum Reply {
    /// The other ends with their weights, rising.
    Neighbours(Vec<(u64, u64)>),
    /// How many neighbours there are, above `MAX_ROWS`.
    Many(usize),
    Inserted,
    Present,
    Removed(Edge),
    Absent,
}

/// A reply with its place in the one order of all calls.
struct Receipt {
    place: u64,
    reply: Reply,
}

/// The edges at each node that has some: their other ends with their weights.
type Nodes = HashMap<u64, BTreeMap<u64, u64>>;

/// The nodes of a stripe. It has cache lines of its own, so that calls on other stripes don't slow its lock down.
#[derive(Default)]
#[repr(align(64))]
struct Stripe(Mutex<Nodes>);

/// The edges from each node, or those to each.
#[derive(Default)]
struct Direction([Stripe; STRIPES]);

impl Direction {
    /// A lock that lets readers in together gained nothing where it was tried: calls are short.
    fn lock(&self, node: u64) -> MutexGuard<'_, Nodes> {
        let Stripe(nodes) = &self.0[node as usize % STRIPES];
        nodes.lock().expect("no call panics")
    }
}

/// Counts calls, on a cache line of its own.
#[derive(Default)]
#[repr(align(64))]
struct Counter(AtomicU64);

/// A graph. A call takes its place before it gives a lock back, so that one thread which makes the calls by their places has the
/// same replies. The lock of a source comes before that of a target.
#[derive(Default)]
struct Graph {
    from: Direction,
    to: Direction,
    places: Counter,
}

impl Graph {
    /// Makes a call. It isn't inlined, as a call of a library wouldn't be.
    #[inline(never)]
    fn call(&self, call: &Call) -> Receipt {
        match *call {
            Call::Successors(source) => self.neighbours(&self.from, source),
            Call::Predecessors(target) => self.neighbours(&self.to, target),
            Call::Insert(edge) => self.insert(edge),
            Call::Remove(source, target) => self.remove(source, target),
        }
    }

    fn neighbours(&self, direction: &Direction, node: u64) -> Receipt {
        let nodes = direction.lock(node);
        self.answer(match nodes.get(&node) {
            Some(ends) if ends.len() > MAX_ROWS => Reply::Many(ends.len()),
            Some(ends) => Reply::Neighbours(ends.iter().map(|(end, w)| (*end, *w)).collect()),
            None => Reply::Neighbours(Vec::new()),
        })
    }

    fn insert(&self, edge: Edge) -> Receipt {
        let mut nodes = self.from.lock(edge.source);
        match nodes.entry(edge.source).or_default().entry(edge.target) {
            Slot::Occupied(_) => self.answer(Reply::Present),
            Slot::Vacant(slot) => {
                slot.insert(edge.weight);
                let mut nodes = self.to.lock(edge.target);
                let ends = nodes.entry(edge.target).or_default();
                ends.insert(edge.source, edge.weight);
                self.answer(Reply::Inserted)
            }
        }
    }

    fn remove(&self, source: u64, target: u64) -> Receipt {
        let mut nodes = self.from.lock(source);
        let Some(weight) = take(&mut nodes, source, target) else {
            return self.answer(Reply::Absent);
        };
        let mut nodes = self.to.lock(target);
        take(&mut nodes, target, source);
        self.answer(Reply::Removed(Edge {
            source,
            target,
            weight,
        }))
    }

    /// The reply with the next place. Calls that meet at a lock are ordered by it, so the counter needn't order anything.
    fn answer(&self, reply: Reply) -> Receipt {
        let place = self.places.0.fetch_add(1, Ordering::Relaxed);
        Receipt { place, reply }
    }
}

/// Takes an edge out of one direction, and the node where it was its last; its weight.
fn take(nodes: &mut Nodes, node: u64, end: u64) -> Option<u64> {
    let ends = nodes.get_mut(&node)?;
    let weight = ends.remove(&end)?;
    if ends.is_empty() {
        nodes.remove(&node);
    }
    Some(weight)
}

/// A call that was made.
struct Entry {
    place: u64,
    call: Call,
    reply: Reply,
}

impl Entry {
    fn of(graph: &Graph, call: &Call) -> Entry {
        let Receipt { place, reply } = graph.call(call);
        let call = *call;
        Entry { place, call, reply }
    }
}

/// Each of so many threads acts on its share of the calls, at once; what they give, added up.
fn share_out<T: Send>(
    threads: u32,
    calls: &[Call],
    act: &(impl Fn(&[Call]) -> T + Sync),
    add: fn(T, T) -> T,
) -> T {
    if threads == 1 {
        return act(calls);
    }
    let (low, high) = calls.split_at(calls.len() / 2);
    thread::scope(|scope| {
        let other = scope.spawn(|| share_out(threads / 2, high, act, add));
        let own = share_out(threads / 2, low, act, add);
        add(own, other.join().expect("no call panics"))
    })
}

/// The numbers by chance of `mixes.h`: Marsaglia's xorshift of 64 bits.
struct Random(u64);

impl Random {
    fn below(&mut self, limit: u64) -> u64 {
        self.0 ^= self.0 << 13;
        self.0 ^= self.0 >> 7;
        self.0 ^= self.0 << 17;
        (self.0 >> 11) % limit.max(1)
    }
}

/// Makes a call of an edge.
type Operation = fn(Edge) -> Call;

const SUCCESSORS: Operation = |edge| Call::Successors(edge.source);
const PREDECESSORS: Operation = |edge| Call::Predecessors(edge.target);
const INSERT: Operation = Call::Insert;
const REMOVE: Operation = |edge| Call::Remove(edge.source, edge.target);

/// The operations in the order of the shares of a mix.
const OPERATIONS: [Operation; 4] = [SUCCESSORS, PREDECESSORS, INSERT, REMOVE];

/// How many of a hundred calls are of each operation.
struct Mix([u64; 4]);

const MIXES: [Mix; 5] = [
    Mix([70, 0, 20, 10]),
    Mix([35, 35, 20, 10]),
    Mix([0, 0, 50, 50]),
    Mix([45, 45, 9, 1]),
    Mix([100, 0, 0, 0]),
];

impl Mix {
    /// Calls by chance. Those of seed 1 are the calls of `mixes.h`, the first thread's first.
    fn calls(&self, seed: u64, nodes: u64, count: u32) -> Vec<Call> {
        let mut random = Random(seed);
        let one = |_| {
            let operation = self.operation(random.below(100));
            operation(Edge {
                source: random.below(nodes),
                target: random.below(nodes),
                weight: random.below(1024),
            })
        };
        (0..count).map(one).collect()
    }

    fn operation(&self, mut chance: u64) -> Operation {
        for (operation, percent) in OPERATIONS.into_iter().zip(self.0) {
            if chance < percent {
                return operation;
            }
            chance -= percent;
        }
        INSERT
    }
}

/// Measures each mix with each number of threads, each of which makes so many calls.
fn measure_all(nodes: u64, each: u32) {
    let counts: &[u32] = match env::var_os("ONE_THREAD") {
        Some(_) => &[1],
        None => &[1, 2, 4],
    };
    for mix in &MIXES {
        let [succ, pred, ins, del] = mix.0;
        for &threads in counts {
            let calls = mix.calls(1, nodes, threads * each);
            let time = measure(&calls, threads).as_nanos() / u128::from(each.max(1));
            println!("split {succ}-{pred}-{ins}-{del}, {threads}, by hand: {time} ns a call");
        }
    }
}

/// How long the calls took. They and the graph are there before; threads begin and end in that time. A reply that nobody reads is
/// made all the same.
fn measure(calls: &[Call], threads: u32) -> Duration {
    let graph = Graph::default();
    let begun = Instant::now();
    let act = |calls: &[Call]| {
        for call in calls {
            drop(black_box(graph.call(call)));
        }
    };
    share_out(threads, calls, &act, |(), ()| ());
    begun.elapsed()
}

/// The graph as a plain list of edges.
#[derive(Default)]
struct Plain(Vec<Edge>);

impl Plain {
    fn call(&mut self, call: &Call) -> Reply {
        match *call {
            Call::Successors(node) => neighbours(self.ends().filter(|row| row.0 == node)),
            Call::Predecessors(node) => {
                let turned = self.ends().map(|(source, target, w)| (target, source, w));
                neighbours(turned.filter(|row| row.0 == node))
            }
            Call::Insert(edge) if self.at(edge.source, edge.target).is_some() => Reply::Present,
            Call::Insert(edge) => {
                self.0.push(edge);
                Reply::Inserted
            }
            Call::Remove(source, target) => match self.at(source, target) {
                Some(at) => Reply::Removed(self.0.remove(at)),
                None => Reply::Absent,
            },
        }
    }

    fn at(&self, source: u64, target: u64) -> Option<usize> {
        self.ends()
            .position(|row| (row.0, row.1) == (source, target))
    }

    fn ends(&self) -> impl Iterator<Item = (u64, u64, u64)> + '_ {
        self.0
            .iter()
            .map(|edge| (edge.source, edge.target, edge.weight))
    }
}

fn neighbours(rows: impl Iterator<Item = (u64, u64, u64)>) -> Reply {
    let mut found: Vec<_> = rows.map(|(_, end, weight)| (end, weight)).collect();
    found.sort_unstable();
    match found.len() {
        ..=MAX_ROWS => Reply::Neighbours(found),
        count => Reply::Many(count),
    }
}

impl Direction {
    /// All edges by their nodes, rising. None of the nodes is without edges.
    fn listed(&self) -> Vec<(u64, u64, u64)> {
        let mut listed = Vec::new();
        for Stripe(nodes) in &self.0 {
            for (node, ends) in nodes.lock().expect("no call panics").iter() {
                assert!(!ends.is_empty(), "node {node} is kept without edges");
                listed.extend(ends.iter().map(|(end, weight)| (*node, *end, *weight)));
            }
        }
        listed.sort_unstable();
        listed
    }
}

fn sorted(rows: impl Iterator<Item = (u64, u64, u64)>) -> Vec<(u64, u64, u64)> {
    let mut rows: Vec<_> = rows.collect();
    rows.sort_unstable();
    rows
}

/// Lets threads make the calls. Panics unless a plain list of edges gives the same replies to the calls by their places, and has
/// the same edges then.
fn compare(calls: &[Call], threads: u32) {
    let graph = Graph::default();
    let act = |calls: &[Call]| {
        let entries: Vec<_> = calls.iter().map(|call| Entry::of(&graph, call)).collect();
        assert!(entries.is_sorted_by_key(|entry| entry.place));
        entries
    };
    let mut entries = share_out(threads, calls, &act, |mut entries, others| {
        entries.extend(others);
        entries
    });
    entries.sort_by_key(|entry| entry.place);
    assert_eq!(entries.len(), calls.len());
    let mut plain = Plain::default();
    for (place, entry) in (0..).zip(&entries) {
        assert_eq!(entry.place, place);
        let (call, reply) = (&entry.call, &entry.reply);
        assert_eq!(*reply, plain.call(call), "{call:?} at {place}");
    }
    assert_eq!(graph.from.listed(), sorted(plain.ends()));
    let turned = plain.ends().map(|(source, target, w)| (target, source, w));
    assert_eq!(graph.to.listed(), sorted(turned));
}

/// Compares the mixes between few nodes and many, and nodes that get and lose more neighbours than a reply lists.
fn check() {
    let mut compared = 0;
    let mut compare_all = |calls: &[Call]| {
        for threads in [1, 2, 4] {
            compare(calls, threads);
            compared += calls.len();
        }
    };
    for mix in &MIXES {
        for (nodes, count) in [(1, 20_000), (3, 20_000), (16, 20_000), (256, 2_000)] {
            for seed in 1..=10 {
                compare_all(&mix.calls(seed, nodes, count));
            }
        }
    }
    let mut star = Vec::new();
    for change in [INSERT, REMOVE] {
        for end in 0..300 {
            for (source, target) in [(0, end), (end, 0)] {
                let edge = Edge {
                    source,
                    target,
                    weight: end,
                };
                star.push(change(edge));
                star.extend([Call::Successors(0), Call::Predecessors(0)]);
            }
        }
    }
    compare_all(&star);
    println!("{compared} calls agree");
}

fn main() -> ExitCode {
    let words: Vec<String> = env::args().skip(1).collect();
    let words: Vec<&str> = words.iter().map(String::as_str).collect();
    match words[..] {
        ["check"] => check(),
        ["time", nodes, calls] => match (nodes.parse(), calls.parse()) {
            (Ok(nodes), Ok(calls)) => measure_all(nodes, calls),
            _ => return ExitCode::FAILURE,
        },
        _ => return ExitCode::FAILURE,
    }
    ExitCode::SUCCESS
}
