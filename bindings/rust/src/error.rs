//! Errors.

use crate::refusal::Refusal;
use std::fmt;

/// What stood in the way of a call. A session's number is that of `Session::number`.
#[derive(Clone, Copy, Debug, PartialEq, Eq)]
#[non_exhaustive]
pub enum Found {
    /// The session with this number writes the stripe.
    Writer(u32),
    /// So many sessions read it. One that finds a writer counts until it is out again.
    Readers(u32),
    /// The session with this number begins to read it.
    Latch(u32),
}

impl fmt::Display for Found {
    fn fmt(&self, f: &mut fmt::Formatter<'_>) -> fmt::Result {
        match self {
            Found::Writer(session) => write!(f, "session {session} writes it"),
            Found::Readers(1) => write!(f, "one session reads it"),
            Found::Readers(sessions) => write!(f, "{sessions} sessions read it"),
            Found::Latch(session) => write!(f, "session {session} begins to read it"),
        }
    }
}

/// A query has more rows than its store was opened to list: so many.
#[derive(Clone, Copy, Debug, PartialEq, Eq)]
pub struct Many(pub u64);

impl fmt::Display for Many {
    fn fmt(&self, f: &mut fmt::Formatter<'_>) -> fmt::Result {
        write!(f, "{} rows, which are more than the store lists", self.0)
    }
}

impl std::error::Error for Many {}

/// Why something isn't done. The store is as before, and so is the session but for `Unseen`, and for
/// `Memory` of a call of a transaction, which is over then; only `Many` speaks of a call that was made.
#[derive(Clone, Debug, PartialEq, Eq)]
#[non_exhaustive]
pub enum Error {
    /// Memory was wanted.
    Memory,
    /// There are not 1 to 255 sessions, or not 1 to 2^48 calls each.
    Options,
    /// One of the texts is longer than 2^24 bytes.
    TooLong,
    /// The specification is refused, or a shape, or plans that are written: the first broken rule, with its line or its
    /// item, and why.
    Refused(Refusal),
    /// No operation has this name.
    Unknown(String),
    /// No operation asks as this shape does: the store was opened without it.
    Undeclared(String),
    /// The operation is of another kind.
    Kind(String),
    /// The operation takes, or its rows have, another number of values.
    Arity {
        /// The operation's name.
        name: String,
        /// How many values there are.
        has: usize,
        /// How many were asked for.
        asked: usize,
    },
    /// The operation is of other columns.
    Columns {
        /// The operation's name.
        name: String,
        /// Its columns.
        has: Vec<String>,
        /// Those that were asked for.
        asked: Vec<String>,
    },
    /// All sessions are out, or spent.
    NoneLeft,
    /// The operation, the session, or what was seen, is another store's.
    Foreign,
    /// A clone of the store, or a session of it, is alive.
    InUse,
    /// The closed store had more sessions than it is to have now.
    FewerSessions,
    /// A session of the closed store has made more calls than each may make now.
    LowerLimit,
    /// The specification isn't that of the closed store, nor that with further operations behind its own; or another limit of
    /// rows is asked for.
    Specification,
    /// Another session was in the way at this stripe. Only calls that don't wait, or not without an
    /// end, are told so.
    Busy {
        /// The stripe, over all classes.
        stripe: u32,
        /// What was found.
        found: Found,
    },
    /// The session has made as many calls as its store lets it.
    Spent,
    /// A prepared call or group, or a transaction, was forgotten, and is neither committed nor cancelled.
    /// Drop the session: it is cancelled.
    Prepared,
    /// A group, or what is declared of a transaction, has no call, or would have more than 16; or a
    /// transaction has made 16 calls and is asked for one more, or is committed and has made none.
    Count,
    /// What is declared of an operation has another number of values than its pattern has columns.
    Pattern,
    /// What the transaction declared doesn't suffice for the call.
    Uncovered,
    /// The slot is another group's, or one of before this group was cleared.
    Slot,
    /// The session has looked, and has seen less than what was to be learned. What a session of
    /// this store has seen is never refused so: it is built so, but that isn't proved.
    Unseen,
    /// The query was answered, but with more rows than its store was opened to list: `Answer::rows`
    /// and `Session::query` say so.
    Many(Many),
}

impl From<Many> for Error {
    fn from(many: Many) -> Error {
        Error::Many(many)
    }
}

impl fmt::Display for Error {
    fn fmt(&self, f: &mut fmt::Formatter<'_>) -> fmt::Result {
        match self {
            Error::Memory => write!(f, "memory was wanted"),
            Error::Options => write!(f, "1 to 255 sessions, and 1 to 2^48 calls each"),
            Error::TooLong => write!(f, "one of the texts is longer than 2^24 bytes"),
            Error::Refused(refusal) => refusal.fmt(f),
            Error::Unknown(name) => write!(f, "no operation is named {name}"),
            Error::Undeclared(shape) => {
                write!(
                    f,
                    "no operation asks `{shape}`: open the store with this shape"
                )
            }
            Error::Kind(name) => write!(f, "the operation {name} is of another kind"),
            Error::Arity { name, has, asked } => {
                write!(f, "{name} has {has} values, and {asked} were asked for")
            }
            Error::Columns { name, has, asked } => {
                let (has, asked) = (has.join(" "), asked.join(" "));
                write!(
                    f,
                    "{name} is of the columns {has}, and {asked} were asked for"
                )
            }
            Error::NoneLeft => write!(f, "all sessions are out, or spent"),
            Error::Foreign => write!(f, "the operation, the session, or what was seen, is another store's"),
            Error::InUse => write!(f, "a clone of the store, or a session of it, is alive"),
            Error::FewerSessions => write!(f, "the closed store had more sessions"),
            Error::LowerLimit => write!(f, "a session of the closed store has made more calls"),
            Error::Specification => {
                write!(
                    f,
                    "the specification isn't the closed store's with operations behind its own"
                )
            }
            Error::Busy { stripe, found } => write!(f, "busy at stripe {stripe}: {found}"),
            Error::Spent => write!(f, "the session has made all its calls"),
            Error::Prepared => write!(f, "a prepared call, or a transaction, was forgotten"),
            Error::Count => write!(f, "a group or a transaction has 1 to 16 calls"),
            Error::Pattern => write!(f, "the operation's pattern has another number of columns"),
            Error::Uncovered => write!(f, "what was declared doesn't suffice for the call"),
            Error::Slot => write!(f, "the slot is another group's"),
            Error::Unseen => write!(f, "the session has seen less than that"),
            Error::Many(many) => many.fmt(f),
        }
    }
}

impl std::error::Error for Error {}
