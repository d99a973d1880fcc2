//! Stores.

use crate::closed::ClosedStore;
use crate::error::Error;
use crate::handle::{ClosedHandle, SessionHandle, StoreHandle};
use crate::names::Names;
use crate::opening::Opening;
use crate::operation::{Insert, Number, Query, Remove, Update};
use crate::session::Session;
use crate::shape::Shape;
use crate::sys;
use crate::waiting::EventCount;
use std::fmt;
use std::num::NonZeroU32;
use std::ptr;
use std::sync::atomic::{AtomicU64, Ordering::Relaxed};
use std::sync::{Arc, Mutex, MutexGuard, PoisonError};

/// How much a store is opened for.
#[derive(Clone, Copy, Debug)]
pub struct Options {
    /// How many sessions there may be at a time, 1 to 255; of a store that goes on no fewer than before.
    pub sessions: u32,
    /// How many calls each may make over all that it is handed out to, 1 to 2^48. The session that was dropped last is
    /// handed out first, however few are left to it.
    pub limit: u64,
    /// The most rows that a query lists; of more it answers their number. None sets no limit. A store that goes on has the
    /// limit that it had.
    pub rows: Option<NonZeroU32>,
}

impl Options {
    /// So many sessions, without a limit that is ever met.
    pub fn sessions(sessions: u32) -> Options {
        Options {
            sessions,
            limit: 1 << 48,
            rows: None,
        }
    }
}

/// A store with no tuple at first, which threads share: clones are the same store. It may be closed, and go on by other options
/// and with further operations ([`Store::close`]).
#[derive(Clone)]
pub struct Store {
    pub(crate) shared: Arc<Shared>,
}

impl fmt::Debug for Store {
    fn fmt(&self, f: &mut fmt::Formatter<'_>) -> fmt::Result {
        f.debug_struct("Store")
            .field("columns", &self.shared.names.columns)
            .finish_non_exhaustive()
    }
}

/// A store of the archive's, and how many sessions were begun of it.
struct Opened {
    handle: StoreHandle,
    begun: u32,
    /// How many calls those had made, by their numbers, that were given back; those behind have made none.
    made: Vec<u64>,
}

impl Opened {
    /// Gives a session back.
    fn take_back(&mut self, session: Begun) {
        let number = session.number as usize;
        self.made.resize(self.made.len().max(number + 1), 0);
        self.made[number] = session.made;
        // SAFETY: `&mut self` lets one call at a time use the store, of which the session was begun, and this is the last
        // use of the session.
        unsafe { sys::relc_give_back(self.handle.as_ptr(), session.handle.into_raw()) };
    }
}

/// A session of the archive's.
pub(crate) struct Begun {
    pub(crate) handle: SessionHandle,
    /// Its number among those of its store.
    pub(crate) number: u32,
    /// How many calls it has made.
    pub(crate) made: u64,
}

pub(crate) struct Shared {
    number: u64,
    /// How many calls each session may make.
    pub(crate) limit: u64,
    names: Names,
    store: Mutex<Opened>,
    /// Sessions that were dropped before they were spent, to be handed out again.
    idle: Mutex<Vec<Begun>>,
    /// Those that have made all their calls.
    spent: Mutex<Vec<Begun>>,
    pub(crate) events: EventCount,
}

/// What a poisoned lock guards here is never half done.
fn locked<T>(lock: &Mutex<T>) -> MutexGuard<'_, T> {
    lock.lock().unwrap_or_else(PoisonError::into_inner)
}

/// What the lock guards, where nobody else has it.
fn unlocked<T>(lock: &mut Mutex<T>) -> &mut T {
    lock.get_mut().unwrap_or_else(PoisonError::into_inner)
}

impl Shared {
    /// A store of which no session is begun yet, and of which those have made so many calls that were given back.
    pub(crate) fn new(
        handle: StoreHandle,
        opening: &Opening<'_>,
        number: u64,
        made: Vec<u64>,
    ) -> Shared {
        Shared {
            number,
            limit: opening.options.limit,
            names: Names::of(opening.text),
            store: Mutex::new(Opened {
                handle,
                begun: 0,
                made,
            }),
            idle: Mutex::default(),
            spent: Mutex::default(),
            events: EventCount::default(),
        }
    }

    /// Gives all sessions back, none of which anybody has, and closes the store. Where it is done, the store's handle is ended.
    fn end(&mut self) -> Result<ClosedHandle, Error> {
        let store = unlocked(&mut self.store);
        for sessions in [&mut self.idle, &mut self.spent] {
            for session in unlocked(sessions).drain(..) {
                store.take_back(session);
            }
        }
        store.begun = 0;
        let mut closed = ptr::null_mut();
        // SAFETY: nobody else has the store, and `closed` is written where it answers 0.
        match unsafe { sys::relc_close(store.handle.as_ptr(), &mut closed) } {
            sys::DONE => Ok(ClosedHandle::of(closed)),
            // `SHARED` is built never to come.
            sys::OUTSIDE | sys::SHARED => Err(Error::InUse),
            sys::MEMORY => Err(Error::Memory),
            code => unreachable!("closing is never refused by code {code}"),
        }
    }

    /// The closed store, or the store as it was, and why it isn't closed.
    pub(crate) fn close(mut self: Arc<Shared>) -> Result<ClosedStore, (Arc<Shared>, Error)> {
        let ended = Arc::get_mut(&mut self).ok_or(Error::InUse);
        let handle = match ended.and_then(Shared::end) {
            Ok(handle) => handle,
            Err(error) => return Err((self, error)),
        };
        let shared = Arc::into_inner(self).expect("nobody else had it");
        let store = shared.store.into_inner();
        let Opened {
            handle: ended,
            made,
            ..
        } = store.unwrap_or_else(PoisonError::into_inner);
        ended.into_raw();
        Ok(ClosedStore {
            handle,
            number: shared.number,
            made,
        })
    }

    pub(crate) fn number(&self) -> u64 {
        self.number
    }

    /// Looks the first operation up that asks as the shape does.
    pub(crate) fn shape(&self, shape: &Shape) -> Result<sys::OperationFrame, Error> {
        let line = shape.as_str();
        let mut frame = sys::OperationFrame::new();
        let store = locked(&self.store);
        // SAFETY: the lock lets one call at a time use the store; the line and the frame are lent for the call.
        let code = unsafe {
            sys::relc_shape(store.handle.as_ptr(), line.as_ptr(), line.len(), &mut frame)
        };
        match code {
            sys::DONE => Ok(frame),
            sys::MEMORY => Err(Error::Memory),
            sys::OPERATION => Err(Error::Undeclared(line.into())),
            code => unreachable!("a shape is never refused by code {code}"),
        }
    }

    /// Keeps a session that holds nothing.
    pub(crate) fn keep(&self, session: Begun) {
        let is_spent = session.made >= self.limit;
        locked(if is_spent { &self.spent } else { &self.idle }).push(session);
    }
}

impl Store {
    /// Opens a store by its specification's text. The secret of its hash tables is drawn at
    /// random, so that nobody who gives it values can tell which collide.
    pub fn open(text: &str, options: Options) -> Result<Store, Error> {
        Store::open_by(Opening::new(text, &[], "", options))
    }

    /// Opens a store so, with further operations: those of these shapes, at most 32, which the specification needn't declare.
    /// [`Store::shape_query`] and its like look them up, and [`Session::ask`] calls them. Each is planned as the declared
    /// operations are, behind them.
    ///
    /// A shape that names what is no column, or breaks a rule of operations, is `Error::Refused`, whose
    /// [`Refusal`](crate::Refusal) says the number of the shape as its line.
    pub fn open_with(text: &str, shapes: &[Shape], options: Options) -> Result<Store, Error> {
        Store::open_by(Opening::new(text, shapes, "", options))
    }

    /// Opens a store so, with plans of operations that are written by hand: in the form in which
    /// [`Store::plans`] has them, each under a line `plan NAME`, with the line `end` behind the last. They name the
    /// edges, classes and columns of the specification that the store has, in which singletons are inlined. An
    /// operation without a plan there has the one that is planned for it, as all have where the text is empty.
    ///
    /// A plan is taken exactly where it keeps the rules of plans; what calls answer is the same by any. Else it is
    /// `Error::Refused`, whose [`Refusal`](crate::Refusal) says whether the plans are refused, with the line, or the
    /// operation and the statement.
    pub fn open_with_plans(text: &str, plans: &str, options: Options) -> Result<Store, Error> {
        Store::open_by(Opening::new(text, &[], plans, options))
    }

    fn open_by(opening: Opening<'_>) -> Result<Store, Error> {
        static STORES: AtomicU64 = AtomicU64::new(0);
        let handle = opening.open()?;
        let number = STORES.fetch_add(1, Relaxed);
        let shared = Shared::new(handle, &opening, number, Vec::new());
        Ok(Store {
            shared: Arc::new(shared),
        })
    }

    /// A session, for one thread at a time: one that was dropped before it was spent, where there is one,
    /// and else a new one.
    pub fn session(&self) -> Result<Session, Error> {
        if let Some(begun) = locked(&self.shared.idle).pop() {
            return Ok(Session::new(self.shared.clone(), begun));
        }
        let mut store = locked(&self.shared.store);
        loop {
            let mut session = ptr::null_mut();
            // SAFETY: the lock lets one call at a time use the store.
            match unsafe { sys::relc_open_session(store.handle.as_ptr(), &mut session) } {
                sys::DONE => {}
                // (one may have been dropped meanwhile)
                sys::NONE_LEFT => {
                    let begun = locked(&self.shared.idle).pop().ok_or(Error::NoneLeft)?;
                    return Ok(Session::new(self.shared.clone(), begun));
                }
                sys::MEMORY => return Err(Error::Memory),
                code => unreachable!("a session is never refused by code {code}"),
            }
            let number = store.begun;
            store.begun += 1;
            let begun = Begun {
                handle: SessionHandle::of(session),
                number,
                made: store.made.get(number as usize).copied().unwrap_or(0),
            };
            if begun.made < self.shared.limit {
                return Ok(Session::new(self.shared.clone(), begun));
            }
            // (it was spent before the store was closed)
            self.shared.keep(begun);
        }
    }

    /// The plans by which operations are answered, in the order of these: of each a line `plan NAME`, and a line for
    /// each statement. With `end` behind it is what [`Store::open_with_plans`] reads.
    pub fn plans(&self) -> Result<String, Error> {
        let mut page = sys::TextPage {
            at: 0,
            length: 0,
            count: 0,
            bytes: [0; sys::TEXT],
        };
        let mut text = Vec::new();
        let store = locked(&self.shared.store);
        loop {
            page.at = text.len() as u64;
            // SAFETY: the lock lets one call at a time use the store.
            match unsafe { sys::relc_plans(store.handle.as_ptr(), &mut page) } {
                sys::DONE => {}
                sys::MEMORY => return Err(Error::Memory),
                code => unreachable!("plans are never refused by code {code}"),
            }
            text.extend_from_slice(&page.bytes[..page.count as usize]);
            if text.len() as u64 >= page.length {
                return Ok(String::from_utf8_lossy(&text).into_owned());
            }
        }
    }

    /// The names of the columns, in the order of the specification.
    pub fn columns(&self) -> &[String] {
        &self.shared.names.columns
    }

    /// The insert with this name, of tuples of these columns, which are all, in the specification's order. Others
    /// are `Error::Columns`, also where they are more or fewer.
    pub fn insert_of<const N: usize>(
        &self,
        name: &str,
        columns: [&str; N],
    ) -> Result<Insert<N>, Error> {
        self.check(name, sys::INSERT, &columns, None)?;
        self.insert(name)
    }

    /// The update with this name, to tuples of these columns, which are all, in the specification's order.
    pub fn update_of<const N: usize>(
        &self,
        name: &str,
        columns: [&str; N],
    ) -> Result<Update<N>, Error> {
        self.check(name, sys::UPDATE, &columns, None)?;
        self.update(name)
    }

    /// The remove with this name, by a pattern of these columns, in the order in which it is written, of
    /// tuples of these, which are all.
    pub fn remove_of<const K: usize, const N: usize>(
        &self,
        name: &str,
        pattern: [&str; K],
        columns: [&str; N],
    ) -> Result<Remove<K, N>, Error> {
        self.check(name, sys::REMOVE, &pattern, Some(&columns))?;
        self.remove(name)
    }

    /// The query with this name, by these columns, in the order in which they are written, those of its
    /// pattern and then each range column twice, with rows of these.
    pub fn query_of<const K: usize, const N: usize>(
        &self,
        name: &str,
        given: [&str; K],
        rows: [&str; N],
    ) -> Result<Query<K, N>, Error> {
        self.check(name, sys::QUERY, &given, Some(&rows))?;
        self.query(name)
    }

    /// Refuses an operation of another kind, and one whose calls give, or whose rows have, other columns.
    fn check(
        &self,
        name: &str,
        kind: u32,
        given: &[&str],
        rows: Option<&[&str]>,
    ) -> Result<(), Error> {
        let frame = self.look_up(name)?;
        if frame.kind != kind {
            return Err(Error::Kind(name.into()));
        }
        let names = &self.shared.names;
        let gives: Vec<_> = (frame.columns[..frame.count as usize].iter())
            .map(|column| names.columns[*column as usize].clone())
            .collect();
        self.same(name, &gives, given)?;
        let has = match kind {
            sys::QUERY => names.outputs(name),
            _ => &names.columns,
        };
        rows.map_or(Ok(()), |rows| self.same(name, has, rows))
    }

    /// Refuses other columns than those that the operation has.
    fn same(&self, name: &str, has: &[String], asked: &[&str]) -> Result<(), Error> {
        if has == asked {
            return Ok(());
        }
        Err(Error::Columns {
            name: name.into(),
            has: has.to_vec(),
            asked: asked.iter().map(|column| column.to_string()).collect(),
        })
    }

    /// The insert with this name, of tuples of `N` values.
    pub fn insert<const N: usize>(&self, name: &str) -> Result<Insert<N>, Error> {
        self.operation(name, sys::INSERT, N, None).map(Insert)
    }

    /// The update with this name, to tuples of `N` values.
    pub fn update<const N: usize>(&self, name: &str) -> Result<Update<N>, Error> {
        self.operation(name, sys::UPDATE, N, Some(N)).map(Update)
    }

    /// The remove with this name, by a pattern of `K` values, of tuples of `N`.
    pub fn remove<const K: usize, const N: usize>(
        &self,
        name: &str,
    ) -> Result<Remove<K, N>, Error> {
        self.operation(name, sys::REMOVE, K, Some(N)).map(Remove)
    }

    /// The query with this name, for rows of `N` values. `K` counts the values of its pattern, and two
    /// for each range column.
    pub fn query<const K: usize, const N: usize>(&self, name: &str) -> Result<Query<K, N>, Error> {
        self.operation(name, sys::QUERY, K, Some(N)).map(Query)
    }

    /// The insert that asks as the shape does, declared or not, of tuples of `N` values. Of a store that was opened without
    /// it, that is `Error::Undeclared`.
    pub fn shape_insert<const N: usize>(&self, shape: &Shape) -> Result<Insert<N>, Error> {
        self.shaped(shape, sys::INSERT, N, None).map(Insert)
    }

    /// The update that asks as the shape does, to tuples of `N` values.
    pub fn shape_update<const N: usize>(&self, shape: &Shape) -> Result<Update<N>, Error> {
        self.shaped(shape, sys::UPDATE, N, Some(N)).map(Update)
    }

    /// The remove that asks as the shape does, by a pattern of `K` values, of tuples of `N`.
    pub fn shape_remove<const K: usize, const N: usize>(
        &self,
        shape: &Shape,
    ) -> Result<Remove<K, N>, Error> {
        self.shaped(shape, sys::REMOVE, K, Some(N)).map(Remove)
    }

    /// The query that asks as the shape does, for rows of `N` values. `K` counts the values of its pattern, and two for
    /// each range column.
    pub fn shape_query<const K: usize, const N: usize>(
        &self,
        shape: &Shape,
    ) -> Result<Query<K, N>, Error> {
        self.shaped(shape, sys::QUERY, K, Some(N)).map(Query)
    }

    fn shaped(
        &self,
        shape: &Shape,
        kind: u32,
        count: usize,
        width: Option<usize>,
    ) -> Result<Number, Error> {
        let name = shape.as_str();
        if shape.kind() != kind {
            return Err(Error::Kind(name.into()));
        }
        self.fitting(name, self.shared.shape(shape)?, kind, count, width)
    }

    /// The columns of the pattern of the operation with this name, by their numbers in the
    /// specification, in the order in which the pattern is written: `Declared::at` takes a value of
    /// each, in this order.
    pub fn pattern(&self, name: &str) -> Result<Vec<u8>, Error> {
        let frame = self.look_up(name)?;
        Ok(frame.pattern[..frame.pattern_count as usize].to_vec())
    }

    /// Looks the operation with this name up.
    fn look_up(&self, name: &str) -> Result<sys::OperationFrame, Error> {
        let unknown = || Error::Unknown(name.into());
        let mut frame = sys::OperationFrame::new();
        frame.length = name.len() as u32;
        frame
            .name
            .get_mut(..name.len())
            .ok_or_else(unknown)?
            .copy_from_slice(name.as_bytes());
        // SAFETY: the lock lets one call at a time use the store.
        let code =
            unsafe { sys::relc_operation(locked(&self.shared.store).handle.as_ptr(), &mut frame) };
        match code {
            sys::DONE => Ok(frame),
            _ => Err(unknown()),
        }
    }

    fn operation(
        &self,
        name: &str,
        kind: u32,
        count: usize,
        width: Option<usize>,
    ) -> Result<Number, Error> {
        self.fitting(name, self.look_up(name)?, kind, count, width)
    }

    /// The operation that the frame tells of, where it is of the kind, and takes and has so many values.
    fn fitting(
        &self,
        name: &str,
        frame: sys::OperationFrame,
        kind: u32,
        count: usize,
        width: Option<usize>,
    ) -> Result<Number, Error> {
        if frame.kind != kind {
            return Err(Error::Kind(name.into()));
        }
        for (has, asked) in [(u64::from(frame.count), Some(count)), (frame.width, width)] {
            if let Some(asked) = asked.filter(|asked| *asked != has as usize) {
                let has = has as usize;
                let name = name.into();
                return Err(Error::Arity { name, has, asked });
            }
        }
        Ok(Number {
            op: frame.op,
            pattern: frame.pattern_count as usize,
            store: self.shared.number,
        })
    }
}
