//! Plans that are written by hand: those of a store are given back, one that holds fewer locks is taken, and what breaks a rule is
//! told with its line, or with its operation and statement.

use relc::{Error, Inserted, Options, Refusal, Store};

/// A graph whose successors the planner reads by the edge that has all rows, under all of its stripes: its costs know no sizes.
const GRAPH: &str = "relc 1
col src num
col dst num
col weight num
fd src dst -> weight
node root
node u src
node w src dst weight
node p src dst weight
edge e1 root u hash src
edge e2 u w list dst weight
edge e3 root p hash src dst
lock k1 8 src
lock k2 2 dst
place e1 k1
place e2 k1
place e3 k2
op ins insert src dst
op del remove src dst
op succ query src -> dst weight
op find query src dst -> weight
end
";

/// A plan that reads the successors alone, under one stripe of eight.
const BY_HAND: &str = "plan succ
lock k1 keyed shared
read e1 lookup
read e2 scan
emit
commit
release k1
";

fn open(plans: &str) -> Result<Store, Error> {
    Store::open_with_plans(GRAPH, plans, Options::sessions(2))
}

fn refused(plans: &str) -> Refusal {
    match open(plans) {
        Err(Error::Refused(refusal)) => refusal,
        other => panic!("{other:?}"),
    }
}

#[test]
fn plans_are_given_back() {
    let planned = Store::open(GRAPH, Options::sessions(2))
        .unwrap()
        .plans()
        .unwrap();
    assert!(planned.contains("plan succ\nlock k2 all shared\nread e3 scan\n"));
    assert_eq!(open("").unwrap().plans().unwrap(), planned);
    assert_eq!(
        open(&format!("{planned}end\n")).unwrap().plans().unwrap(),
        planned
    );
    let written = open(&format!("{BY_HAND}end\n\n# nothing more\n"))
        .unwrap()
        .plans()
        .unwrap();
    assert!(written.contains(BY_HAND) && written != planned);
    assert_eq!(
        open(&format!("{written}end\n")).unwrap().plans().unwrap(),
        written
    );
}

/// Whether an insert is answered beside a query that is prepared for another source.
fn goes_on_beside(store: &Store) -> bool {
    let insert = store.insert::<3>("ins").unwrap();
    let successors = store.query::<1, 2>("succ").unwrap();
    let mut writer = store.session().unwrap();
    let mut reader = store.session().unwrap();
    assert_eq!(writer.call(insert, [1, 2, 10]).unwrap(), Inserted::Added);
    let prepared = reader.begin(successors, [1]).unwrap();
    let beside = writer.try_call(insert, [2, 2, 5]);
    let (reply, _) = prepared.commit();
    assert_eq!(reply.rows().unwrap(), [[2, 10]]);
    match beside {
        Ok(added) => added == Inserted::Added,
        Err(Error::Busy { .. }) => false,
        Err(error) => panic!("{error}"),
    }
}

#[test]
fn a_plan_with_fewer_locks_is_taken() {
    assert!(!goes_on_beside(&open("").unwrap()));
    assert!(goes_on_beside(&open(&format!("{BY_HAND}end\n")).unwrap()));
}

#[test]
fn plans_are_refused_by_their_lines() {
    let told = |plans: &str, said: &str| {
        let refusal = refused(plans);
        assert_eq!(refusal.as_str(), said);
        assert!(refusal.is_of_plans() && refusal.kind() == "line" && refusal.statement().is_none());
        assert!(
            !refusal.asks().is_empty()
                && !refusal.does().is_empty()
                && !refusal.advice().is_empty()
        );
        refusal
    };
    let nothing = told("plan nothing\nend\n", "refused H1 line 1");
    assert!(
        nothing
            .to_string()
            .starts_with("refused H1 line 1 (`plan nothing`). ")
    );
    let lock = told("# a plan\nplan succ\nlock k1\nend\n", "refused H2 line 3");
    assert_eq!(lock.forms(), ["lock CLASS keyed|all [shared]"]);
    assert!(
        lock.to_string()
            .ends_with(" `lock CLASS keyed|all [shared]`.")
    );
    told("plan succ\nread e9 scan\nend\n", "refused H3 line 2");
    let many = "lock k1 keyed shared\n".repeat(257);
    assert_eq!(
        told(&format!("plan succ\n{many}end\n"), "refused H4 line 258").line_number(),
        Some(258)
    );
    told("plan succ\nemit\n", "refused S8 line 3");
    told("end\nplan succ\n", "refused S8 line 2");
}

#[test]
fn plans_are_refused_by_their_rules() {
    let refusal = refused("plan succ\nlock k2 all shared\nlock k1 keyed shared\nend\n");
    assert_eq!(refusal.as_str(), "refused K2 plan succ statement 1");
    assert_eq!(
        (refusal.rule(), refusal.kind(), refusal.item()),
        ("K2", "plan", "succ")
    );
    assert_eq!(
        (refusal.statement(), refusal.line_number()),
        (Some(1), None)
    );
    assert!(refusal.is_of_plans() && !refusal.asks().is_empty());
    // the specification comes first
    match Store::open_with_plans("relc 3\n", "emit\n", Options::sessions(1)) {
        Err(Error::Refused(refusal)) => {
            assert!(!refusal.is_of_plans() && refusal.as_str() == "refused S1 line 1");
        }
        other => panic!("{other:?}"),
    }
}
