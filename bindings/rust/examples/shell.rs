//! A shell to which any call may be typed: a specification's file is its argument, and each line that it reads brings its own
//! operation, which is called at once. A store that doesn't know the operation yet is closed, and goes on with it, with its tuples.
//!
//!     ? src = 1 -> dst                  a query by src
//!     + src dst weight = 1 2 10         an insert of a tuple of all columns, where none has the same values of these
//!     - src dst = 1 2                   a remove
//!
//!     cargo run --release --example shell -- examples/graph.relc

use relc::{Options, Reply, Shape, Store};
use std::error::Error;

/// The operation that a line brings, and the values.
fn parse(line: &str) -> Option<(Shape, Vec<u64>)> {
    let (sign, rest) = line.trim().split_once(' ')?;
    let (columns, rest) = rest.split_once('=')?;
    let (values, outs) = rest.split_once("->").unwrap_or((rest, ""));
    let names = |text| str::split_whitespace(text).collect::<Vec<_>>();
    let shape = match sign {
        "?" => Shape::query(names(columns), names(outs)),
        "+" => Shape::insert(names(columns)),
        "-" => Shape::remove(names(columns)),
        _ => return None,
    };
    let values: Result<_, _> = values.split_whitespace().map(str::parse).collect();
    Some((shape, values.ok()?))
}

fn main() -> Result<(), Box<dyn Error>> {
    let file = std::env::args().nth(1).ok_or("which specification?")?;
    let (text, options) = (std::fs::read_to_string(file)?, Options::sessions(1));
    let (mut store, mut shapes) = (Store::open(&text, options)?, Vec::new());
    for line in std::io::stdin().lines() {
        let line = line?;
        let Some((shape, values)) = parse(&line) else {
            println!("not a call: {line}");
            continue;
        };
        let mut reply = store.session()?.ask(&shape, &values);
        if let Err(relc::Error::Undeclared(_)) = reply {
            shapes.push(shape.clone());
            store = match store.close()?.resume_with(&text, &shapes, options) {
                Ok(resumed) => {
                    reply = resumed.session()?.ask(&shape, &values);
                    resumed
                }
                Err(refused) => {
                    shapes.pop();
                    reply = Err(refused.error);
                    refused.closed.resume_with(&text, &shapes, options)?
                }
            };
        }
        match reply {
            Ok(Reply::Rows(rows)) => println!("{shape} {values:?}: {rows:?}"),
            Ok(reply) => println!("{shape} {values:?}: {reply:?}"),
            Err(error) => println!("{shape} {values:?}: {error}"),
        }
    }
    Ok(())
}
