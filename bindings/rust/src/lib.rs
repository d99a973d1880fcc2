//! Relations that several threads share: a store is opened by a specification's text, each thread
//! has a session of it, and operations are called by names that were looked up once.
//!
//! ```no_run
//! # fn main() -> Result<(), relc::Error> {
//! # let text = include_str!("../../../examples/graph.relc").split("\nwork").next().unwrap();
//! let store = relc::Store::open(text, relc::Options::sessions(8))?;
//! let insert = store.insert::<3>("ins")?;
//! let successors = store.query::<1, 2>("succ")?;
//! let mut session = store.session()?;
//! assert_eq!(session.call(insert, [1, 2, 10])?, relc::Inserted::Added);
//! for [node, weight] in session.query(successors, [1])? {
//!     println!("{node} {weight}");
//! }
//! // several calls as one: nobody sees a state between them
//! let remove = store.remove::<2, 3>("del")?;
//! let mut moved = relc::Group::new();
//! let out = moved.add(remove, [1, 2])?;
//! let back = moved.add(insert, [1, 3, 10])?;
//! let mut done = session.transaction(&moved)?;
//! println!("{:?} {:?}", done.reply(out)?, done.reply(back)?);
//! // and calls that depend on the replies before them
//! let mut over = relc::Declared::new();
//! over.at(remove, [1, 3])?;
//! over.at(insert, [1, 4])?; // its pattern, of two columns
//! let mut transaction = session.open(&over)?;
//! if let Some([src, _, weight]) = transaction.call(remove, [1, 3])? {
//!     let _ = transaction.call(insert, [src, 4, weight + 1])?;
//! }
//! transaction.commit()?;
//! # Ok(())
//! # }
//! ```
//!
//! What the calls of the archive promise is proved (`crates/rc_c`); this crate, and that it agrees
//! with the archive, are tested.

mod closed;
mod error;
mod group;
mod handle;
mod names;
mod opening;
mod operation;
mod refusal;
mod row;
mod session;
mod shape;
mod store;
mod sys;
mod texts;
mod transaction;
mod waiting;

pub use closed::{CloseError, ClosedStore, ResumeError};
pub use error::{Error, Found, Many};
pub use group::{Done, Group, PreparedGroup, Slot};
pub use operation::{Answer, Insert, Inserted, Operation, Query, Reading, Remove, Update, Updated};
pub use refusal::Refusal;
pub use session::{Position, Prepared, Rows, Seen, Session};
pub use shape::{Reply, Shape};
pub use store::{Options, Store};
pub use texts::Texts;
pub use transaction::{Declared, Transaction};
