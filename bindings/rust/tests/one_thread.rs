//! Calls of one thread, beside a map.

mod common;

use common::{Random, graph, specification};
use relc::{Answer, Error, Found, Inserted, Many, Options, Store, Updated};
use std::collections::BTreeMap;
use std::num::NonZeroU32;
use std::ops::RangeInclusive;

#[test]
fn follows_a_map() {
    let options = Options {
        rows: NonZeroU32::new(256),
        ..Options::sessions(1)
    };
    let graph = graph(options);
    let mut session = graph.store.session().unwrap();
    let mut map: BTreeMap<(u64, u64), u64> = BTreeMap::new();
    let mut random = Random(88172645463325252);
    let mut many = 0;
    for place in 0..100_000 {
        let (src, dst, weight) = (random.below(8), random.below(400), random.below(1024));
        let position = match random.below(8) {
            0..3 => {
                let there = map.contains_key(&(src, dst));
                map.entry((src, dst)).or_insert(weight);
                let (reply, position) = session
                    .try_call_placed(graph.ins, [src, dst, weight])
                    .unwrap();
                assert_eq!(
                    reply,
                    if there {
                        Inserted::Present
                    } else {
                        Inserted::Added
                    }
                );
                position
            }
            3 => {
                let gone = map.remove(&(src, dst)).map(|weight| [src, dst, weight]);
                let (reply, position) = session.call_placed(graph.del, [src, dst]).unwrap();
                assert_eq!(reply, gone);
                position
            }
            4..7 => {
                let rows = map.get(&(src, dst)).map(|weight| [*weight]);
                let (reply, position) = session.call_placed(graph.find, [src, dst]).unwrap();
                assert_eq!(reply, Answer::Rows(rows.into_iter().collect()));
                position
            }
            _ => {
                let range = map.range((src, 0)..=(src, u64::MAX));
                let rows: Vec<[u64; 2]> = range.map(|((_, dst), weight)| [*dst, *weight]).collect();
                let (reply, position) = session.call_placed(graph.succ, [src]).unwrap();
                if rows.len() > 256 {
                    many += 1;
                    let number = rows.len() as u64;
                    assert_eq!(reply, Answer::Many(number));
                    assert_eq!(reply.rows(), Err(Many(number)));
                } else {
                    assert_eq!(reply, Answer::Rows(rows));
                }
                position
            }
        };
        assert_eq!((position.place, position.nth), (place, place));
    }
    assert!(many > 100);
    assert_eq!(session.look().unwrap().length(), 100_000);
}

#[test]
fn refuses_texts() {
    let open = |text: &str| Store::open(text, Options::sessions(1)).err();
    let refused = |text: &str| match open(text) {
        Some(Error::Refused(refusal)) => refusal,
        other => panic!("{other:?}"),
    };
    assert_eq!(refused("relc 3\n").as_str(), "refused S1 line 1");
    let what = refused(&specification().replace("col weight num", "col weight what"));
    assert_eq!(what.as_str(), "refused S2 line 5");
    assert_eq!((what.rule(), what.line_number()), ("S2", Some(5)));
    assert_eq!(what.forms(), ["col NAME num", "col NAME text"]);
    assert!(what.to_string().contains("`col weight what`"));
    let marked = refused(&format!("\u{feff}{}", specification()));
    assert_eq!(marked.as_str(), "refused S1 line 1");
    assert!(marked.to_string().contains("(`\\u{feff}"));
    let unknown = refused(&specification().replace("col weight num", "column weight num"));
    assert!(unknown.forms().len() > 10);
    let placed = refused(&specification().replace("lock k2 4 src", "lock k2 4 dst"));
    assert_eq!(placed.as_str(), "refused P5 edge e2");
    let item = (
        placed.rule(),
        placed.kind(),
        placed.item(),
        placed.line_number(),
    );
    assert_eq!(item, ("P5", "edge", "e2", None));
    for part in [placed.asks(), placed.does(), placed.advice()] {
        assert!(!part.is_empty() && placed.to_string().contains(part));
    }
    assert_eq!(open(&"#".repeat((1 << 24) + 1)), Some(Error::TooLong));
    for sessions in [0, 256] {
        assert_eq!(
            Store::open(specification(), Options::sessions(sessions)).err(),
            Some(Error::Options)
        );
    }
    for limit in [0, (1 << 48) + 1] {
        let options = Options {
            limit,
            ..Options::sessions(1)
        };
        assert_eq!(
            Store::open(specification(), options).err(),
            Some(Error::Options)
        );
    }
}

#[test]
fn refuses_operations() {
    let store = Store::open(specification(), Options::sessions(1)).unwrap();
    let unknown = |name: &str| Some(Error::Unknown(name.into()));
    assert_eq!(store.insert::<3>("put").err(), unknown("put"));
    assert_eq!(store.insert::<3>("").err(), unknown(""));
    assert_eq!(
        store.insert::<3>("a_very_long_name_indeed").err(),
        unknown("a_very_long_name_indeed")
    );
    assert_eq!(
        store.insert::<3>("del").err(),
        Some(Error::Kind("del".into()))
    );
    assert_eq!(
        store.insert::<2>("ins").err(),
        Some(Error::Arity {
            name: "ins".into(),
            has: 3,
            asked: 2
        })
    );
    assert_eq!(
        store.query::<1, 3>("succ").err(),
        Some(Error::Arity {
            name: "succ".into(),
            has: 2,
            asked: 3
        })
    );
    assert_eq!(store.columns(), ["src", "dst", "weight"]);
    assert!(store.insert_of("ins", ["src", "dst", "weight"]).is_ok());
    let columns = |name: &str, has: [&str; 3], asked: [&str; 3]| {
        Some(Error::Columns {
            name: name.into(),
            has: has.map(String::from).into(),
            asked: asked.map(String::from).into(),
        })
    };
    let asked = ["dst", "src", "weight"];
    assert_eq!(
        store.insert_of("ins", asked).err(),
        columns("ins", ["src", "dst", "weight"], asked)
    );
    assert!(
        store
            .remove_of("del", ["src", "dst"], ["src", "dst", "weight"])
            .is_ok()
    );
    assert!(
        store
            .remove_of("del", ["dst", "src"], ["src", "dst", "weight"])
            .is_err()
    );
    assert!(store.query_of("succ", ["src"], ["dst", "weight"]).is_ok());
    let kind = store.remove_of("succ", ["src"], ["dst", "weight"]);
    assert_eq!(kind.err(), Some(Error::Kind("succ".into())));
    assert!(store.query_of("succ", ["src"], ["weight", "dst"]).is_err());
    let other = Store::open(specification(), Options::sessions(1)).unwrap();
    let foreign = other.insert::<3>("ins").unwrap();
    assert_eq!(
        store.session().unwrap().call(foreign, [1, 2, 3]),
        Err(Error::Foreign)
    );
}

#[test]
fn prepares() {
    let graph = graph(Options::sessions(2));
    let mut session = graph.store.session().unwrap();
    let mut other = graph.store.session().unwrap();
    assert_eq!(graph.store.session().err(), Some(Error::NoneLeft));
    assert_eq!((session.number(), other.number()), (0, 1));
    let prepared = session.begin(graph.ins, [1, 2, 10]).unwrap();
    assert_eq!(*prepared.reply(), Inserted::Added);
    assert!(matches!(
        other.try_call(graph.find, [1, 2]),
        Err(Error::Busy {
            found: Found::Writer(0),
            ..
        })
    ));
    drop(prepared);
    assert_eq!(other.call(graph.find, [1, 2]), Ok(Answer::Rows(vec![])));
    let (reply, position) = session.begin(graph.ins, [1, 2, 10]).unwrap().commit();
    assert_eq!(
        (reply, position.place, position.nth),
        (Inserted::Added, 1, 0)
    );
    assert_eq!(other.call(graph.find, [1, 2]), Ok(Answer::Rows(vec![[10]])));
    std::mem::forget(session.begin(graph.del, [1, 2]).unwrap());
    assert_eq!(session.call(graph.find, [1, 2]), Err(Error::Prepared));
    drop(session);
    assert_eq!(other.call(graph.find, [1, 2]), Ok(Answer::Rows(vec![[10]])));
}

#[test]
fn prepares_and_waits() {
    let graph = graph(Options::sessions(2));
    let mut session = graph.store.session().unwrap();
    let prepared = session.begin_waiting(graph.ins, [1, 2, 10]).unwrap();
    assert_eq!(*prepared.reply(), Inserted::Added);
    let (reply, position) = prepared.commit();
    assert_eq!((reply, position.place), (Inserted::Added, 0));
    std::mem::forget(session.begin(graph.del, [1, 2]).unwrap());
    assert_eq!(
        session.begin_waiting(graph.del, [1, 2]).err(),
        Some(Error::Prepared)
    );
}

#[test]
fn tells_what_is_in_the_way() {
    let graph = graph(Options::sessions(3));
    let [mut one, mut two, mut three] = [(); 3].map(|()| graph.store.session().unwrap());
    // a node whose first stripe has another number than there are kinds of what is found
    let node = (1..100).find(|node| {
        let first = one.begin(graph.succ, [*node]).unwrap();
        let second = two.begin(graph.succ, [*node]).unwrap();
        assert_eq!(
            (first.reply(), second.reply()),
            (&Answer::Rows(vec![]), &Answer::Rows(vec![]))
        );
        match three.try_call(graph.ins, [*node, 2, 10]) {
            Err(Error::Busy {
                stripe,
                found: Found::Readers(2),
            }) => (3..8).contains(&stripe),
            answer => panic!("{answer:?}"),
        }
    });
    let node = node.expect("nodes are on several stripes");
    let prepared = three.begin(graph.ins, [node, 2, 10]).unwrap();
    match one.try_call(graph.succ, [node]) {
        Err(Error::Busy {
            stripe,
            found: Found::Writer(2),
        }) => assert!((3..8).contains(&stripe)),
        answer => panic!("{answer:?}"),
    }
    drop(prepared);
    assert_eq!(one.call(graph.succ, [node]), Ok(Answer::Rows(vec![])));
}

#[test]
fn tells_which_dependency_breaks() {
    let text = include_str!("../examples/cache.relc");
    let store = Store::open(text, Options::sessions(1)).unwrap();
    let load = store.insert::<4>("load").unwrap();
    let mut session = store.session().unwrap();
    assert_eq!(session.call(load, [8, 1, 5, 70]), Ok(Inserted::Added));
    assert_eq!(session.call(load, [8, 1, 6, 70]), Ok(Inserted::Present));
    assert_eq!(session.call(load, [8, 2, 5, 70]), Ok(Inserted::Conflict(2)));
}

/// The graph with an update of a weight, and a query for the targets in a range.
fn version_two() -> String {
    specification().replace("relc 1", "relc 2").replace(
        "\nend",
        "\nop set update src dst\nop near query src : dst -> dst weight\nend",
    )
}

#[test]
fn updates() {
    let store = Store::open(&version_two(), Options::sessions(1)).unwrap();
    let insert = store.insert::<3>("ins").unwrap();
    let set = store.update::<3>("set").unwrap();
    let find = store.query::<2, 1>("find").unwrap();
    let mut session = store.session().unwrap();
    assert_eq!(session.call(set, [1, 2, 10]), Ok(Updated::Absent));
    assert_eq!(session.call(insert, [1, 2, 10]), Ok(Inserted::Added));
    let (reply, _) = session.begin(set, [1, 2, 11]).unwrap().commit();
    assert_eq!(reply, Updated::Replaced([1, 2, 10]));
    assert_eq!(session.call(find, [1, 2]), Ok(Answer::Rows(vec![[11]])));
    assert_eq!(
        store.update::<3>("ins").err(),
        Some(Error::Kind("ins".into()))
    );
}

#[test]
fn asks_for_ranges() {
    let store = Store::open(&version_two(), Options::sessions(1)).unwrap();
    let insert = store.insert::<3>("ins").unwrap();
    let near = store.query::<3, 2>("near").unwrap();
    let mut session = store.session().unwrap();
    for (dst, weight) in [(2, 10), (3, 7), (5, 1)] {
        assert_eq!(session.call(insert, [1, dst, weight]), Ok(Inserted::Added));
    }
    let mut rows = |low, high| {
        let rows = session.query(near, [1, low, high]);
        rows.unwrap().collect::<Vec<_>>()
    };
    assert_eq!(rows(2, 3), [[2, 10], [3, 7]]);
    assert_eq!(rows(4, 3), [[0; 2]; 0]);
    assert_eq!(rows(0, u64::MAX), [[2, 10], [3, 7], [5, 1]]);
}

/// Of the 300 rows that the pattern finds, those in the range are told, or else how many there are.
#[test]
fn counts_the_rows_in_a_range() {
    let options = Options {
        rows: NonZeroU32::new(256),
        ..Options::sessions(1)
    };
    let store = Store::open(&version_two(), options).unwrap();
    let insert = store.insert::<3>("ins").unwrap();
    let near = store.query::<3, 2>("near").unwrap();
    let mut session = store.session().unwrap();
    for dst in 0..300 {
        let added = session.call(insert, [1, dst, 1000 - dst]);
        assert_eq!(added, Ok(Inserted::Added));
    }
    let mut rows = |low, high| session.call(near, [1, low, high]).unwrap();
    let those = |range: RangeInclusive<u64>| {
        let rows = range.map(|dst| [dst, 1000 - dst]);
        Answer::Rows(rows.collect())
    };
    assert_eq!(rows(0, 255), those(0..=255));
    assert_eq!(rows(44, u64::MAX), those(44..=299));
    assert_eq!(rows(7, 7), those(7..=7));
    assert_eq!(rows(0, 256), Answer::Many(257));
    assert_eq!(rows(0, u64::MAX), Answer::Many(300));
    assert_eq!(rows(300, u64::MAX), Answer::Rows(vec![]));
}

/// A relation of 32 columns, with queries that take 33, 63 and 64 values: a pattern and bounds.
fn wide() -> String {
    let names = |from: usize| {
        let names = (from..32).map(|at| format!(" c{at}"));
        names.collect::<String>()
    };
    let columns: String = (0..32).map(|at| format!("col c{at} num\n")).collect();
    format!(
        "relc 2\n{columns}fd c0 ->{}\nnode root\nnode x{}\nedge e root x hash c0\nlock k 4 c0
place e k\nop add insert c0\nop half query c0 :{} -> c1\nop near query c0 :{} ->{}
op all query :{} -> c0\nend\n",
        names(1),
        names(0),
        names(16),
        names(1),
        names(0),
        names(0),
    )
}

#[test]
fn takes_sixty_four_values() {
    let store = Store::open(&wide(), Options::sessions(1)).unwrap();
    let add = store.insert::<32>("add").unwrap();
    let half = store.query::<33, 1>("half").unwrap();
    let near = store.query::<63, 32>("near").unwrap();
    let all = store.query::<64, 1>("all").unwrap();
    let mut session = store.session().unwrap();
    // each column of a tuple has the next number
    let tuple = |first: u64| std::array::from_fn::<u64, 32, _>(|at| first + at as u64);
    for first in [100, 200] {
        assert_eq!(session.call(add, tuple(first)), Ok(Inserted::Added));
    }
    // the bounds of a column are its values in the two tuples
    let bound = |at: usize| (if at % 2 == 0 { 100 } else { 200 }) + at as u64 / 2;
    let mut values = std::array::from_fn::<u64, 64, _>(bound);
    assert_eq!(
        session.call(all, values),
        Ok(Answer::Rows(vec![[100], [200]]))
    );
    values[63] -= 1;
    assert_eq!(session.call(all, values), Ok(Answer::Rows(vec![[100]])));
    values[62] += 1;
    assert_eq!(session.call(all, values), Ok(Answer::Rows(vec![])));

    let mut values = std::array::from_fn::<u64, 63, _>(|at| 200 + (at as u64 + 1) / 2);
    let found = session.call(near, values);
    assert_eq!(found, Ok(Answer::Rows(vec![tuple(200)])));
    values[61] += 1;
    assert_eq!(session.call(near, values), Ok(Answer::Rows(vec![])));

    let mut values =
        std::array::from_fn::<u64, 33, _>(|at| if at == 0 { 100 } else { bound(at + 31) });
    assert_eq!(session.call(half, values), Ok(Answer::Rows(vec![[101]])));
    values[32] = 130;
    assert_eq!(session.call(half, values), Ok(Answer::Rows(vec![])));
}

#[test]
fn lists_every_row_of_a_long_reply() {
    let graph = graph(Options::sessions(1));
    let mut session = graph.store.session().unwrap();
    for dst in 0..100_000 {
        assert_eq!(session.call(graph.ins, [1, dst, 7]), Ok(Inserted::Added));
    }
    let rows = session.query(graph.succ, [1]).unwrap();
    assert_eq!(rows.len(), 100_000);
    assert!(rows.eq((0..100_000).map(|dst| [dst, 7])));
}

#[test]
fn lends_rows_page_by_page() {
    let graph = graph(Options::sessions(1));
    let mut session = graph.store.session().unwrap();
    for dst in 0..1500 {
        assert_eq!(
            session.call(graph.ins, [1, dst, dst / 2]),
            Ok(Inserted::Added)
        );
    }
    let rows = session.query(graph.succ, [1]).unwrap();
    assert_eq!(rows.len(), 1500);
    assert!(rows.eq((0..1500).map(|dst| [dst, dst / 2])));
    assert_eq!(session.query(graph.succ, [2]).unwrap().next(), None);
    let listed = session.call(graph.succ, [1]).unwrap().rows().unwrap();
    assert_eq!(listed.len(), 1500);
}

#[test]
fn ends_calls_at_the_limit() {
    let options = Options {
        limit: 2,
        ..Options::sessions(1)
    };
    let graph = graph(options);
    let mut session = graph.store.session().unwrap();
    for _ in 0..2 {
        session.call(graph.find, [1, 2]).unwrap();
    }
    assert_eq!(session.call(graph.find, [1, 2]), Err(Error::Spent));
    assert_eq!(session.begin(graph.find, [1, 2]).err(), Some(Error::Spent));
    drop(session);
    assert_eq!(graph.store.session().err(), Some(Error::NoneLeft));
}

#[test]
fn hands_out_no_session_without_calls() {
    let options = Options {
        limit: 2,
        ..Options::sessions(1)
    };
    let graph = graph(options);
    let mut session = graph.store.session().unwrap();
    session.call(graph.find, [1, 2]).unwrap();
    drop(session);
    // one call is left, and after that none
    let mut session = graph.store.session().unwrap();
    let (_, position) = session.begin(graph.find, [1, 2]).unwrap().commit();
    assert_eq!((session.number(), position.nth), (0, 1));
    drop(session);
    assert_eq!(graph.store.session().err(), Some(Error::NoneLeft));
}

#[test]
fn learns() {
    let graph = graph(Options::sessions(2));
    let mut one = graph.store.session().unwrap();
    let mut other = graph.store.session().unwrap();
    let (_, position) = one.call_placed(graph.ins, [1, 2, 3]).unwrap();
    let seen = one.look().unwrap();
    assert_eq!((seen.length(), position.seen()), (1, seen));
    assert_eq!(other.learn(seen), Ok(seen));
    one.call(graph.find, [1, 2]).unwrap();
    // it sees all that is there, which is more
    assert_eq!(other.learn(seen).unwrap().length(), 2);
    let elsewhere = common::graph(Options::sessions(1));
    let foreign = elsewhere.store.session().unwrap().look().unwrap();
    assert_eq!(one.learn(foreign), Err(Error::Foreign));
}

#[test]
fn tells() {
    let graph = graph(Options::sessions(2));
    let mut one = graph.store.session().unwrap();
    let mut other = graph.store.session().unwrap();
    let (_, told) = one.call_placed(graph.ins, [1, 2, 3]).unwrap();
    assert_eq!(one.tell(&mut other), Ok(()));
    let (_, after) = other.call_placed(graph.del, [1, 2]).unwrap();
    assert!(after.place > told.place);
    let elsewhere = common::graph(Options::sessions(1));
    let mut foreign = elsewhere.store.session().unwrap();
    assert_eq!(one.tell(&mut foreign), Err(Error::Foreign));
    let prepared = other.begin(graph.ins, [1, 2, 4]).unwrap();
    drop(prepared);
    assert_eq!(other.tell(&mut one), Ok(()));
}

#[test]
fn sessions_outlive_their_store() {
    let graph = graph(Options::sessions(2));
    let mut session = graph.store.session().unwrap();
    let ins = graph.ins;
    drop(graph);
    assert_eq!(session.call(ins, [1, 2, 3]), Ok(Inserted::Added));
    std::thread::spawn(move || drop(session)).join().unwrap();
}

#[test]
fn rows_have_names() {
    relc::row! {
        #[derive(Clone, Copy, Debug, PartialEq, Eq)]
        struct Edge { src, dst, weight }
    }
    // (as the other tests' text, with line ends of the other kind)
    let text = specification().replace('\n', "\r\n");
    let store = Store::open(&text, Options::sessions(2)).unwrap();
    let insert = store.insert_of("ins", Edge::COLUMNS).unwrap();
    let successors = store.query_of("succ", ["src"], ["dst", "weight"]).unwrap();
    let mut session = store.session().unwrap();
    assert_eq!(session.first(successors, [1]).unwrap(), None);
    assert!(!session.contains(successors, [1]).unwrap());
    let edge = Edge {
        src: 1,
        dst: 3,
        weight: 7,
    };
    for values in [edge.into(), [1, 2, 9]] {
        assert_eq!(session.call(insert, values).unwrap(), Inserted::Added);
    }
    assert_eq!(session.first(successors, [1]).unwrap(), Some([2, 9]));
    assert_eq!(session.count(successors, [1]).unwrap(), 2);
    assert!(session.contains(successors, [1]).unwrap());
    assert_eq!(Edge::from([1, 3, 7]), edge);
    // a session that was dropped comes before a new one
    let number = session.number();
    drop(session);
    let again = store.session().unwrap();
    assert_eq!(again.number(), number);
    assert_ne!(store.session().unwrap().number(), number);
}
