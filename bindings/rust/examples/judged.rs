//! A store whose calls are judged: four threads call it and write down what they were answered, and the proved judge
//! of journals, `relc audit bare`, says whether these are the replies of one history.
//!
//! The judge knows nothing of the store. It reads a specification, each thread's calls in their order, and the entries
//! in the order of their places: so a store of any other kind, in any language, may be judged in this way, where it can
//! tell the order in which its calls took effect. Here the same journal with one reply changed is judged too, and the
//! judge names its line.
//!
//!     cargo run --release --example judged             # prints what is to be judged
//!     cargo run --release --example judged -- RELC     # has it judged by the program RELC

use relc::{Answer, Error, Insert, Inserted, Options, Query, Remove, Session, Store};
use std::fmt::{self, Display, Write as _};
use std::io::Write as _;
use std::process::{Command, Stdio};
use std::{env, error, thread};

const SPECIFICATION: &str = include_str!("graph.relc");
const THREADS: u64 = 4;
const CALLS: u64 = 500;
const NODES: u64 = 12;

struct Graph {
    store: Store,
    link: Insert<3>,
    unlink: Remove<2, 3>,
    find: Query<2, 1>,
    succ: Query<1, 2>,
}

/// A call that was made: where it stands in the history, who made it, and how both are written.
struct Made {
    place: u64,
    thread: u64,
    call: String,
    reply: String,
}

/// Values as a text has them.
struct Values<'a>(&'a [u64]);

impl Display for Values<'_> {
    fn fmt(&self, f: &mut fmt::Formatter<'_>) -> fmt::Result {
        for (at, value) in self.0.iter().enumerate() {
            let space = if at == 0 { "" } else { " " };
            write!(f, "{space}{value}")?;
        }
        Ok(())
    }
}

fn inserted(reply: Inserted) -> String {
    match reply {
        Inserted::Added => "inserted".into(),
        Inserted::Present => "present".into(),
        Inserted::Conflict(dependency) => format!("conflict {dependency}"),
    }
}

fn removed<const N: usize>(reply: Option<[u64; N]>) -> String {
    match reply {
        Some(tuple) => format!("removed ({})", Values(&tuple)),
        None => "absent".into(),
    }
}

fn listed<const N: usize>(answer: Answer<N>) -> String {
    match answer {
        Answer::Rows(rows) => {
            let shown = rows.iter().map(|row| format!(" ({})", Values(row)));
            format!("{} rows{}", rows.len(), shown.collect::<String>())
        }
        Answer::Many(number) => format!("many {number}"),
    }
}

impl Graph {
    fn open() -> Result<Graph, Error> {
        let store = Store::open(SPECIFICATION, Options::sessions(THREADS as u32))?;
        Ok(Graph {
            link: store.insert("link")?,
            unlink: store.remove("unlink")?,
            find: store.query("find")?,
            succ: store.query("succ")?,
            store,
        })
    }

    /// Makes a call of numbers that look random: its words, its reply, and its place.
    fn call(&self, session: &mut Session, random: u64) -> Result<(String, String, u64), Error> {
        let (src, dst, weight) = (random % NODES, random / NODES % NODES, random % 100);
        let ends = Values(&[src, dst]).to_string();
        Ok(match random / NODES / NODES % 4 {
            0 => {
                let (reply, at) = session.call_placed(self.link, [src, dst, weight])?;
                (format!("link {ends} {weight}"), inserted(reply), at.place)
            }
            1 => {
                let (reply, at) = session.call_placed(self.unlink, [src, dst])?;
                (format!("unlink {ends}"), removed(reply), at.place)
            }
            2 => {
                let (answer, at) = session.call_placed(self.find, [src, dst])?;
                (format!("find {ends}"), listed(answer), at.place)
            }
            _ => {
                let (answer, at) = session.call_placed(self.succ, [src])?;
                (format!("succ {src}"), listed(answer), at.place)
            }
        })
    }

    fn work(&self, thread: u64) -> Result<Vec<Made>, Error> {
        let mut session = self.store.session()?;
        let calls = (0..CALLS).map(|call| {
            let random = (call * THREADS + thread).wrapping_mul(0x9e3779b97f4a7c15) >> 32;
            let (call, reply, place) = self.call(&mut session, random)?;
            Ok(Made {
                place,
                thread,
                call,
                reply,
            })
        });
        calls.collect()
    }
}

/// The text that is judged: the specification, each thread's calls in its order, and the entries in that of their
/// places. (A thread's calls are in the order of their places too.)
fn text_of(history: &[Made]) -> String {
    let mut text = format!("{SPECIFICATION}work {THREADS}\nround\n");
    for Made { thread, call, .. } in history {
        writeln!(text, "{thread} {call}").expect("a string takes all");
    }
    writeln!(text, "end\njournal {}", history.len()).expect("a string takes all");
    for entry in history {
        let Made {
            place,
            thread,
            call,
            reply,
        } = entry;
        writeln!(text, "{place} {thread} {call} -> {reply}").expect("a string takes all");
    }
    text + "end\n"
}

/// What the judge says of a text.
fn verdict(relc: &str, text: &str) -> Result<String, Box<dyn error::Error>> {
    let mut judge = Command::new(relc)
        .args(["audit", "bare"])
        .stdin(Stdio::piped())
        .stdout(Stdio::piped())
        .spawn()?;
    let mut input = judge.stdin.take().expect("it is piped");
    input.write_all(text.as_bytes())?;
    drop(input);
    Ok(String::from_utf8(judge.wait_with_output()?.stdout)?)
}

fn main() -> Result<(), Box<dyn error::Error>> {
    let graph = &Graph::open()?;
    let made: Vec<Vec<Made>> = thread::scope(|scope| {
        let started = (0..THREADS).map(|thread| scope.spawn(move || graph.work(thread)));
        let started: Vec<_> = started.collect();
        let ended = started.into_iter().map(|thread| thread.join().unwrap());
        ended.collect::<Result<_, Error>>()
    })?;
    let mut history: Vec<Made> = made.into_iter().flatten().collect();
    history.sort_by_key(|made| made.place);
    let text = text_of(&history);
    let Some(relc) = env::args().nth(1) else {
        print!("{text}");
        return Ok(());
    };
    assert_eq!(verdict(&relc, &text)?, format!("legal {}\n", history.len()));
    // one insert that added its edge is said to have found one
    let changed = text.replacen("-> inserted", "-> present", 1);
    let line = 1 + text
        .lines()
        .zip(changed.lines())
        .take_while(|(line, other)| line == other)
        .count();
    assert_eq!(verdict(&relc, &changed)?, format!("bad line {line}\n"));
    println!(
        "{} calls are legal; with another reply line {line} is bad",
        history.len()
    );
    Ok(())
}
