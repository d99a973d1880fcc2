//! Stores that are closed, and go on.

use crate::error::Error;
use crate::handle::ClosedHandle;
use crate::opening::Opening;
use crate::shape::Shape;
use crate::store::{Options, Shared, Store};
use std::fmt;
use std::sync::Arc;

/// A store that was closed ([`Store::close`]): its tuples and its history. No call is made on it, until it goes on
/// ([`ClosedStore::resume`]); where it is dropped, its tuples are gone.
pub struct ClosedStore {
    pub(crate) handle: ClosedHandle,
    /// The number of the store, also where it goes on: so what was looked up is still its own.
    pub(crate) number: u64,
    /// How many calls the sessions have made, by their numbers; those behind have made none.
    pub(crate) made: Vec<u64>,
}

impl fmt::Debug for ClosedStore {
    fn fmt(&self, f: &mut fmt::Formatter<'_>) -> fmt::Result {
        f.debug_struct("ClosedStore").finish_non_exhaustive()
    }
}

/// Why a store isn't closed: [`Error::InUse`], or [`Error::Memory`].
#[derive(Debug)]
pub struct CloseError {
    /// The store, as it was.
    pub store: Store,
    /// The reason.
    pub error: Error,
}

impl fmt::Display for CloseError {
    fn fmt(&self, f: &mut fmt::Formatter<'_>) -> fmt::Result {
        write!(f, "the store isn't closed")
    }
}

impl std::error::Error for CloseError {
    fn source(&self) -> Option<&(dyn std::error::Error + 'static)> {
        Some(&self.error)
    }
}

/// Why a closed store doesn't go on.
#[derive(Debug)]
pub struct ResumeError {
    /// The closed store, as it was.
    pub closed: ClosedStore,
    /// The reason.
    pub error: Error,
}

impl fmt::Display for ResumeError {
    fn fmt(&self, f: &mut fmt::Formatter<'_>) -> fmt::Result {
        write!(f, "the closed store doesn't go on")
    }
}

impl std::error::Error for ResumeError {
    fn source(&self) -> Option<&(dyn std::error::Error + 'static)> {
        Some(&self.error)
    }
}

impl Store {
    /// Closes the store: its tuples and its history are the closed store's, which may go on by other options and with further
    /// operations. (A store that is dropped is gone, with its tuples.)
    ///
    /// ```
    /// # const GRAPH: &str = "relc 1\ncol src num\ncol dst num\nnode root\nnode u src dst\nedge e1 root u hash src dst\nlock k1 8 src\n\
    /// #     place e1 k1\nop ins insert src dst\nop succ query src -> dst\nend\n";
    /// use relc::{Options, Shape, Store};
    ///
    /// # fn main() -> Result<(), Box<dyn std::error::Error>> {
    /// let store = Store::open(GRAPH, Options::sessions(2))?;
    /// let insert = store.insert::<2>("ins")?;
    /// let _ = store.session()?.call(insert, [1, 2])?;
    ///
    /// let into = Shape::query(["dst"], ["src"]); // nobody had thought of it
    /// let store = store.close()?.resume_with(GRAPH, &[into.clone()], Options::sessions(8))?;
    /// let into = store.shape_query::<1, 1>(&into)?;
    /// assert_eq!(store.session()?.first(into, [2])?, Some([1]));
    /// assert_eq!(store.session()?.call_placed(insert, [1, 3])?.1.place, 2); // as looked up before
    /// # Ok(())
    /// # }
    /// ```
    ///
    /// # Errors
    ///
    /// The store comes back as it was, in [`CloseError::store`], with [`Error::InUse`] where a clone of it or a session is alive
    /// (sessions that were dropped are given back), or with [`Error::Memory`].
    ///
    /// # Cost
    ///
    /// The time rises with the stripes and the sessions; no tuple is copied.
    pub fn close(self) -> Result<ClosedStore, CloseError> {
        self.shared.close().map_err(|(shared, error)| CloseError {
            store: Store { shared },
            error,
        })
    }
}

impl ClosedStore {
    /// Makes a store of it again, by a specification's text: with its tuples, and its one history goes on. The specification is
    /// that of the closed store, or that with further operations behind its own. Operations that were looked up before,
    /// groups, and what was seen ([`Seen`](crate::Seen)) are this store's too.
    ///
    /// A session has made what the one with its number had made (a [`Position`](crate::Position) counts on), and its calls
    /// stand behind all that were made before. There may be more sessions than before ([`Options::sessions`]) and not fewer,
    /// more calls of each or fewer ([`Options::limit`]); [`Options::rows`] is as it was.
    ///
    /// # Errors
    ///
    /// The closed store comes back as it was, in [`ResumeError::closed`], and may be resumed again. The reasons are those of
    /// [`Store::open`], and besides [`Error::FewerSessions`], [`Error::LowerLimit`], where a session has made more calls, and
    /// [`Error::Specification`], where it is another one, as with other operations in front, or [`Options::rows`] is another.
    ///
    /// # Cost
    ///
    /// The time rises with the text, the stripes and the sessions: no tuple is copied, and no call is made again.
    pub fn resume(self, text: &str, options: Options) -> Result<Store, ResumeError> {
        self.resume_with_plans(text, &[], "", options)
    }

    /// Makes a store of it again as [`ClosedStore::resume`] does, with further operations: those of these shapes, as
    /// [`Store::open_with`] takes them. They stand behind those of the text: so where the closed store had shapes, these
    /// begin with them, in the same order, and the text declares no more than it did.
    pub fn resume_with(
        self,
        text: &str,
        shapes: &[Shape],
        options: Options,
    ) -> Result<Store, ResumeError> {
        self.resume_with_plans(text, shapes, "", options)
    }

    /// Makes a store of it again as [`ClosedStore::resume_with`] does, with plans that are written by hand, as
    /// [`Store::open_with_plans`] takes them. They may be other ones than those of the closed store.
    pub fn resume_with_plans(
        self,
        text: &str,
        shapes: &[Shape],
        plans: &str,
        options: Options,
    ) -> Result<Store, ResumeError> {
        let opening = Opening::new(text, shapes, plans, options);
        match opening.resume(self.handle) {
            Ok(handle) => {
                let shared = Shared::new(handle, &opening, self.number, self.made);
                Ok(Store {
                    shared: Arc::new(shared),
                })
            }
            Err((handle, error)) => Err(ResumeError {
                closed: ClosedStore { handle, ..self },
                error,
            }),
        }
    }
}
