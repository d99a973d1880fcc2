//! Operations that were looked up, and what their calls answer.

use crate::error::Many;
use crate::session::{Rows, Session};
use crate::sys;

/// The number of an operation, how many columns its pattern has, and the number of its store among all
/// that the program opened.
#[derive(Clone, Copy, Debug)]
pub struct Number {
    pub(crate) op: u32,
    pub(crate) pattern: usize,
    pub(crate) store: u64,
}

/// An operation of a store, which takes `N` values: an [`Insert`], an [`Update`], a [`Remove`] or a
/// [`Query`].
pub trait Operation<const N: usize>: Copy + Sealed {
    /// What its calls answer.
    type Reply: Reading;
}

/// What only this crate implements: so an operation takes as many values as its store said.
pub trait Sealed {
    fn number(&self) -> Number;
}

/// The kind of a reply, and its number: of rows, or of the dependency that would be broken.
#[derive(Clone, Copy, Debug)]
pub struct Told {
    pub(crate) kind: u32,
    pub(crate) number: u64,
}

/// What an operation answers. Only this crate implements it.
pub trait Reading: Sized {
    /// Reads the session's reply, which is told so.
    #[doc(hidden)]
    fn read(session: &mut Session, told: Told) -> Self;
}

/// A kind of reply that the contract of the operation rules out.
fn no_such_kind(kind: u32) -> ! {
    unreachable!("the operation has no reply of kind {kind}")
}

/// A row of the session's reply that is there.
fn row<const N: usize>(session: &mut Session, at: u64) -> [u64; N] {
    session
        .row(at)
        .expect("a reply has the rows that it counts")
}

/// An insert of tuples of `N` values, in the order of the columns.
#[derive(Clone, Copy, Debug)]
pub struct Insert<const N: usize>(pub(crate) Number);

/// What an insert answers.
#[derive(Clone, Copy, Debug, PartialEq, Eq)]
#[must_use = "an insert may add nothing: `Present` and `Conflict` are no errors"]
pub enum Inserted {
    /// The tuple was added.
    Added,
    /// A tuple with the same pattern values is there.
    Present,
    /// It would break the dependency with this number, counted from 1.
    Conflict(u64),
}

impl<const N: usize> Operation<N> for Insert<N> {
    type Reply = Inserted;
}

impl<const N: usize> Sealed for Insert<N> {
    fn number(&self) -> Number {
        self.0
    }
}

impl Reading for Inserted {
    fn read(_: &mut Session, told: Told) -> Inserted {
        match told.kind {
            sys::INSERTED => Inserted::Added,
            sys::PRESENT => Inserted::Present,
            sys::CONFLICT => Inserted::Conflict(told.number),
            kind => no_such_kind(kind),
        }
    }
}

/// A remove by a pattern of `K` values; a removed tuple has `N`, in the order of the columns.
#[derive(Clone, Copy, Debug)]
pub struct Remove<const K: usize, const N: usize>(pub(crate) Number);

impl<const K: usize, const N: usize> Operation<K> for Remove<K, N> {
    type Reply = Option<[u64; N]>;
}

impl<const K: usize, const N: usize> Sealed for Remove<K, N> {
    fn number(&self) -> Number {
        self.0
    }
}

impl<const N: usize> Reading for Option<[u64; N]> {
    fn read(session: &mut Session, told: Told) -> Option<[u64; N]> {
        match told.kind {
            sys::REMOVED => Some(row(session, 0)),
            sys::ABSENT => None,
            kind => no_such_kind(kind),
        }
    }
}

/// An update to tuples of `N` values, in the order of the columns.
#[derive(Clone, Copy, Debug)]
pub struct Update<const N: usize>(pub(crate) Number);

/// What an update answers.
#[derive(Clone, Copy, Debug, PartialEq, Eq)]
#[must_use = "an update may change nothing: `Absent` and `Conflict` are no errors"]
pub enum Updated<const N: usize> {
    /// The tuple is in the place of this one, which had its pattern values.
    Replaced([u64; N]),
    /// No tuple has its pattern values.
    Absent,
    /// It would break the dependency with this number, counted from 1.
    Conflict(u64),
}

impl<const N: usize> Operation<N> for Update<N> {
    type Reply = Updated<N>;
}

impl<const N: usize> Sealed for Update<N> {
    fn number(&self) -> Number {
        self.0
    }
}

impl<const N: usize> Reading for Updated<N> {
    fn read(session: &mut Session, told: Told) -> Updated<N> {
        match told.kind {
            sys::UPDATED => Updated::Replaced(row(session, 0)),
            sys::ABSENT => Updated::Absent,
            sys::CONFLICT => Updated::Conflict(told.number),
            kind => no_such_kind(kind),
        }
    }
}

/// A query whose rows have `N` values. It takes `K`: those of its pattern, and then for each range
/// column the least value and the greatest, both of which count.
#[derive(Clone, Copy, Debug)]
pub struct Query<const K: usize, const N: usize>(pub(crate) Number);

/// What a query answers. (`Session::query` lends the rows in place of listing them.) Where more rows
/// than the store was opened for are no error, match on it in place of `rows`.
#[derive(Clone, Debug, PartialEq, Eq)]
pub enum Answer<const N: usize> {
    /// Its distinct rows, rising.
    Rows(Vec<[u64; N]>),
    /// It has more than `Options::rows` says: so many.
    Many(u64),
}

impl<const N: usize> Answer<N> {
    /// The rows, or how many they are where they are more than the store was opened for.
    pub fn rows(self) -> Result<Vec<[u64; N]>, Many> {
        match self {
            Answer::Rows(rows) => Ok(rows),
            Answer::Many(number) => Err(Many(number)),
        }
    }

    /// How many rows it has, listed or not.
    pub fn count(&self) -> u64 {
        match self {
            Answer::Rows(rows) => rows.len() as u64,
            Answer::Many(number) => *number,
        }
    }

    /// Whether it has no row.
    pub fn is_empty(&self) -> bool {
        self.count() == 0
    }
}

impl<const K: usize, const N: usize> Operation<K> for Query<K, N> {
    type Reply = Answer<N>;
}

impl<const K: usize, const N: usize> Sealed for Query<K, N> {
    fn number(&self) -> Number {
        self.0
    }
}

impl<const N: usize> Reading for Answer<N> {
    fn read(session: &mut Session, told: Told) -> Answer<N> {
        match told.kind {
            sys::ROWS => Answer::Rows(Rows::new(session, told.number).collect()),
            sys::MANY => Answer::Many(told.number),
            kind => no_such_kind(kind),
        }
    }
}
