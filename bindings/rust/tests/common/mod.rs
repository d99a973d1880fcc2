//! What the tests share.
#![allow(dead_code, reason = "not each test uses all of it")]

use relc::{Insert, Options, Query, Remove, Store};

/// The specification of `examples/graph.relc`, without its workload: ins, del, succ and find.
pub fn specification() -> &'static str {
    let text = include_str!("../../../../examples/graph.relc");
    text.split("\nwork").next().unwrap()
}

/// A graph with its operations.
pub struct Graph {
    pub store: Store,
    pub ins: Insert<3>,
    pub del: Remove<2, 3>,
    pub succ: Query<1, 2>,
    pub find: Query<2, 1>,
}

pub fn graph(options: Options) -> Graph {
    let store = Store::open(specification(), options).unwrap();
    Graph {
        ins: store.insert("ins").unwrap(),
        del: store.remove("del").unwrap(),
        succ: store.query("succ").unwrap(),
        find: store.query("find").unwrap(),
        store,
    }
}

impl Graph {
    /// A node none of whose stripes is one of node 1's, as two sessions of the graph see.
    pub fn node_apart(&self) -> u64 {
        let mut holder = self.store.session().unwrap();
        let mut other = self.store.session().unwrap();
        let _held = holder.begin(self.ins, [1, 0, 0]).unwrap();
        (2..100)
            .find(|node| other.try_call(self.find, [*node, 0]).is_ok())
            .unwrap()
    }
}

/// Numbers that look random (xorshift), the same in each run.
pub struct Random(pub u64);

impl Random {
    pub fn below(&mut self, limit: u64) -> u64 {
        self.0 ^= self.0 << 13;
        self.0 ^= self.0 >> 7;
        self.0 ^= self.0 << 17;
        (self.0 >> 11) % limit
    }
}
