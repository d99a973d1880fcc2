//! Operations that the specification doesn't declare: they are given as shapes where a store is opened, looked up by what they ask,
//! and called, once by a handle and once by the shape; what breaks a rule is told with the number of its shape.

use relc::{Error, Inserted, Options, Refusal, Reply, Shape, Store, Updated};
use std::num::NonZeroU32;

const GRAPH: &str = "relc 2
col src num
col dst num
col weight num
fd src dst -> weight
node root
node u src
node w src dst weight
edge e1 root u hash src
edge e2 u w list dst weight
lock k1 8 src
place e1 k1
place e2 k1
op ins insert src dst
op succ query src -> dst weight
end
";

fn open(shapes: &[Shape]) -> Result<Store, Error> {
    Store::open_with(GRAPH, shapes, Options::sessions(2))
}

fn refused(shapes: &[Shape]) -> Refusal {
    match open(shapes) {
        Err(Error::Refused(refusal)) => refusal,
        other => panic!("{other:?}"),
    }
}

#[test]
fn shapes_are_lines() {
    assert_eq!(Shape::query(["src"], ["dst"]).as_str(), "query src -> dst");
    assert_eq!(
        Shape::query(vec!["src", "dst"], ["weight"]).to_string(),
        "query src dst -> weight"
    );
    assert_eq!(
        Shape::ranges(["src"], ["weight"], ["dst"]).as_str(),
        "query src : weight -> dst"
    );
    let none: [&str; 0] = [];
    assert_eq!(
        Shape::ranges(["src"], none, ["dst"]),
        Shape::query(["src"], ["dst"])
    );
    assert_eq!(Shape::insert(["src"]).as_str(), "insert src");
    assert_eq!(Shape::remove(["src", "dst"]).as_str(), "remove src dst");
    assert_eq!(Shape::update(["src", "dst"]).as_str(), "update src dst");
    assert_ne!(Shape::remove(["src", "dst"]), Shape::remove(["dst", "src"]));
}

#[test]
fn shapes_are_called_by_handles() {
    let into = Shape::query(["dst"], ["src"]);
    let light = Shape::ranges(["src"], ["weight"], ["dst"]);
    let change = Shape::update(["src", "dst"]);
    let drop = Shape::remove(["dst", "src"]);
    let store = open(&[into.clone(), light.clone(), change.clone(), drop.clone()]).unwrap();
    let insert = store
        .shape_insert::<3>(&Shape::insert(["src", "dst"]))
        .unwrap();
    let into = store.shape_query::<1, 1>(&into).unwrap();
    let light = store.shape_query::<3, 1>(&light).unwrap();
    let change = store.shape_update::<3>(&change).unwrap();
    let drop = store.shape_remove::<2, 3>(&drop).unwrap();
    let mut session = store.session().unwrap();
    assert_eq!(session.call(insert, [1, 9, 10]), Ok(Inserted::Added));
    assert_eq!(session.call(insert, [2, 9, 20]), Ok(Inserted::Added));
    let sources: Vec<_> = session.query(into, [9]).unwrap().collect();
    assert_eq!(sources, [[1], [2]]);
    assert_eq!(
        session.call(change, [1, 9, 30]),
        Ok(Updated::Replaced([1, 9, 10]))
    );
    assert_eq!(session.count(light, [1, 5, 20]), Ok(0));
    assert_eq!(session.count(light, [1, 5, 30]), Ok(1));
    assert_eq!(session.call(drop, [9, 1]), Ok(Some([1, 9, 30])));
    // the declared ones are as they were, and are found by what they ask too
    let succ = store.query::<1, 2>("succ").unwrap();
    assert_eq!(session.count(succ, [2]), Ok(1));
    let same = Shape::query(["src"], ["dst", "weight"]);
    let same = store.shape_query::<1, 2>(&same).unwrap();
    assert_eq!(session.first(same, [2]), Ok(Some([9, 20])));
    assert!(store.plans().unwrap().contains("plan ?1\n"));
}

#[test]
fn shapes_are_asked() {
    let out = Shape::query(["src"], ["dst"]);
    let all = Shape::query([] as [&str; 0], ["src", "dst", "weight"]);
    let drop = Shape::remove(["src", "dst"]);
    let change = Shape::update(["src", "dst"]);
    let options = Options {
        rows: NonZeroU32::new(2),
        ..Options::sessions(1)
    };
    let shapes = [out.clone(), all.clone(), drop.clone(), change.clone()];
    let store = Store::open_with(GRAPH, &shapes, options).unwrap();
    let mut session = store.session().unwrap();
    let insert = Shape::insert(["src", "dst"]);
    assert_eq!(session.ask(&insert, [1, 2, 10]), Ok(Reply::Added));
    assert_eq!(session.ask(&insert, [1, 2, 11]), Ok(Reply::Present));
    assert_eq!(session.ask(&insert, [1, 3, 10]), Ok(Reply::Added));
    let rows = vec![vec![2], vec![3]];
    assert_eq!(session.ask(&out, [1]), Ok(Reply::Rows(rows)));
    assert_eq!(session.ask(&out, vec![7]), Ok(Reply::Rows(vec![])));
    assert_eq!(
        session.ask(&change, [1, 3, 12]),
        Ok(Reply::Replaced(vec![1, 3, 10]))
    );
    assert_eq!(session.ask(&change, [5, 5, 5]), Ok(Reply::Absent));
    assert_eq!(session.ask(&insert, [4, 4, 4]), Ok(Reply::Added));
    assert_eq!(session.ask(&all, []), Ok(Reply::Many(3)));
    assert_eq!(
        session.ask(&drop, [1, 2]),
        Ok(Reply::Removed(vec![1, 2, 10]))
    );
    assert_eq!(session.ask(&drop, [1, 2]), Ok(Reply::Absent));
    assert_eq!(
        session.ask(&drop, [1]),
        Err(Error::Arity {
            name: "remove src dst".into(),
            has: 2,
            asked: 1
        })
    );
    let all = store.shape_query::<0, 3>(&all).unwrap();
    assert_eq!(
        session.call(all, []).unwrap().rows(),
        Ok(vec![[1, 3, 12], [4, 4, 4]])
    );
}

#[test]
fn what_was_not_given_is_undeclared() {
    let store = open(&[Shape::query(["dst"], ["src"])]).unwrap();
    let mut session = store.session().unwrap();
    for shape in [
        Shape::query(["src"], ["weight", "dst"]),
        Shape::query(["cost"], ["src"]),
        Shape::remove(["src", "dst"]),
        Shape::insert(["dst", "src"]),
        Shape::insert(["src dst"]),
        Shape::insert(["src", "dst\nremove src"]),
    ] {
        let undeclared = Error::Undeclared(shape.to_string());
        assert_eq!(session.ask(&shape, [1, 2]), Err(undeclared));
    }
    let shape = Shape::query(["dst"], ["src"]);
    assert!(matches!(
        store.shape_remove::<1, 3>(&shape),
        Err(Error::Kind(_))
    ));
    assert!(matches!(
        store.shape_query::<2, 1>(&shape),
        Err(Error::Arity {
            has: 1,
            asked: 2,
            ..
        })
    ));
    assert!(matches!(
        store.shape_query::<1, 3>(&shape),
        Err(Error::Arity {
            has: 1,
            asked: 3,
            ..
        })
    ));
}

#[test]
fn shapes_are_refused_by_their_number() {
    let good = Shape::query(["dst"], ["src"]);
    let told = |bad: Shape, said: &str| {
        let refusal = refused(&[good.clone(), bad]);
        assert_eq!(refusal.as_str(), said);
        assert!(refusal.is_of_shapes() && !refusal.is_of_plans());
        assert_eq!(refusal.line_number(), Some(2));
        assert!(!refusal.asks().is_empty());
        refusal
    };
    let form = told(Shape::insert(["Src"]), "refused S2 line 2");
    assert_eq!(form.forms(), ["insert COLUMNS"]);
    told(Shape::insert(["src", "src"]), "refused S3 line 2");
    told(
        Shape::ranges(["src"], ["src"], ["dst"]),
        "refused S3 line 2",
    );
    told(Shape::insert(["cost"]), "refused S4 line 2");
    told(Shape::remove(["src"]), "refused W4 line 2");
    told(Shape::query(["src"], ["dst", "dst"]), "refused W4 line 2");
    told(Shape::query(["src"], [] as [&str; 0]), "refused W4 line 2");
    // 32 are enough; one that asks alike is none more
    let columns = ["src", "dst", "weight"];
    let mut many = Vec::new();
    for first in columns {
        for second in columns.iter().filter(|second| **second != first) {
            for out in columns {
                many.push(Shape::query([first, second], [out]));
                many.push(Shape::ranges([first], [*second], [out]));
            }
        }
    }
    assert_eq!(many.len(), 36);
    assert!(open(&[&many[..32], &many[..8]].concat()).is_ok());
    assert_eq!(refused(&many).as_str(), "refused S6 line 33");
    // a text with `relc 1` has no update and no range
    let one = GRAPH.replace("relc 2", "relc 1");
    for (shape, said) in [
        (Shape::update(["src", "dst"]), "refused S2 line 1"),
        (
            Shape::ranges(["src"], ["weight"], ["dst"]),
            "refused S4 line 1",
        ),
    ] {
        match Store::open_with(&one, &[shape], Options::sessions(1)) {
            Err(Error::Refused(refusal)) => assert_eq!(refusal.as_str(), said),
            other => panic!("{other:?}"),
        }
    }
}
