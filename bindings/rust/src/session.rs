//! Sessions.

use crate::error::{Error, Found, Many};
use crate::operation::{Operation, Query, Reading, Told};
use crate::shape::{Reply, Shape};
use crate::store::{Begun, Shared};
use crate::sys::{self, Frame, Page};
use std::ffi::c_void;
use std::fmt;
use std::mem::ManuallyDrop;
use std::sync::Arc;
use std::time::{Duration, Instant};

#[cfg(test)]
mod tests;

/// How often a call that waits tries before it sleeps.
const TRIES: u32 = 20;

/// An export that takes a session and a frame.
type Export = unsafe extern "C" fn(*mut c_void, *mut Frame) -> u32;

/// An export that takes a session and a group's frames.
type GroupExport = unsafe extern "C" fn(*mut c_void, *mut Frame, usize) -> u32;

/// Where a call, or a group, stands in the one history of all calls of its store, in which a group
/// counts as one.
#[derive(Clone, Copy, Debug, PartialEq, Eq)]
pub struct Position {
    /// Its place, counted from 0.
    pub place: u64,
    /// Its number among the calls of its session, counted from 0. A session that is handed out
    /// again goes on counting.
    pub nth: u64,
    store: u64,
}

impl Position {
    /// The history up to this call, and with it, for another session to learn.
    pub fn seen(&self) -> Seen {
        Seen {
            store: self.store,
            length: self.place + 1,
        }
    }
}

/// How much of its store's history somebody has seen. It may be handed to any thread, whose session
/// learns it.
#[derive(Clone, Copy, Debug, PartialEq, Eq)]
pub struct Seen {
    store: u64,
    length: u64,
}

impl Seen {
    /// How many calls.
    pub fn length(&self) -> u64 {
        self.length
    }
}

/// The end of a wait that lasts so long; `None` where it lies too far for the clock.
pub(crate) fn end_of(timeout: Duration) -> Option<Instant> {
    Instant::now().checked_add(timeout)
}

/// What the frame tells of a stripe that was busy.
fn busy(frame: &Frame) -> Error {
    Error::Busy {
        stripe: frame.stripe,
        found: match frame.found {
            sys::WRITER => Found::Writer(frame.who),
            sys::READERS => Found::Readers(frame.who),
            sys::LATCH => Found::Latch(frame.who),
            found => unreachable!("a stripe has nothing of kind {found}"),
        },
    }
}

/// A thread's end of a store.
pub struct Session {
    shared: Arc<Shared>,
    begun: ManuallyDrop<Begun>,
    pub(crate) frame: Box<Frame>,
    /// Those of the group that it made, prepared or opened last.
    pub(crate) frames: Vec<Frame>,
    /// Where rows are read, many at a time; none before the first.
    page: Option<Box<Page>>,
}

impl fmt::Debug for Session {
    fn fmt(&self, f: &mut fmt::Formatter<'_>) -> fmt::Result {
        f.debug_struct("Session")
            .field("number", &self.number())
            .field("made", &self.begun.made)
            .finish_non_exhaustive()
    }
}

impl Drop for Session {
    fn drop(&mut self) {
        // a call that was prepared and forgotten gives its stripes back
        if self.ask_frame(sys::relc_cancel) == sys::DONE {
            self.ring();
        }
        // SAFETY: it is taken once, here.
        self.shared
            .keep(unsafe { ManuallyDrop::take(&mut self.begun) });
    }
}

impl Session {
    pub(crate) fn new(shared: Arc<Shared>, begun: Begun) -> Session {
        Session {
            shared,
            begun: ManuallyDrop::new(begun),
            frame: Box::new(Frame::new()),
            frames: Vec::new(),
            page: None,
        }
    }

    /// Its number among the sessions of its store, in the order in which they were begun, from 0:
    /// by it `Found` names a session. One that is handed out again has the number that it had.
    pub fn number(&self) -> u32 {
        self.begun.number
    }

    /// Calls one of the session's exports.
    pub(crate) fn ask_frame(&mut self, export: Export) -> u32 {
        // SAFETY: `&mut self` lets one call at a time use the session, and the frame is initialised
        // and lent for the call.
        unsafe { export(self.begun.handle.as_ptr(), &mut *self.frame) }
    }

    /// Calls one of the exports that take a group, with the session's frames.
    pub(crate) fn ask_group(&mut self, export: GroupExport) -> u32 {
        // SAFETY: as above; and there are as many frames as are said.
        unsafe {
            export(
                self.begun.handle.as_ptr(),
                self.frames.as_mut_ptr(),
                self.frames.len(),
            )
        }
    }

    /// Asks until no other session is in the way, or until the end, which is the moment `None` where
    /// it never comes.
    pub(crate) fn until_free(
        &mut self,
        end: Option<Instant>,
        ask: impl Fn(&mut Session) -> u32,
    ) -> u32 {
        self.shared.events.stand_back(end);
        for _ in 0..TRIES {
            match ask(self) {
                sys::BUSY => std::hint::spin_loop(),
                code => return code,
            }
        }
        // only who waits holds on to what is shared: a count of all threads would be changed at each call
        let shared = self.shared.clone();
        let code = shared.events.wait(end, || match ask(self) {
            sys::BUSY => None,
            code => Some(code),
        });
        code.unwrap_or(sys::BUSY)
    }

    fn ask_waiting(&mut self, end: Option<Instant>, export: Export) -> u32 {
        self.until_free(end, |session| session.ask_frame(export))
    }

    /// Wakes those that wait.
    pub(crate) fn ring(&self) {
        self.shared.events.ring();
    }

    /// The number of its store.
    pub(crate) fn store(&self) -> u64 {
        self.shared.number()
    }

    pub(crate) fn put<const N: usize, O: Operation<N>>(
        &mut self,
        op: &O,
        values: [u64; N],
    ) -> Result<(), Error> {
        let number = op.number();
        if number.store != self.store() {
            return Err(Error::Foreign);
        }
        self.frame.ask(number.op, &values);
        Ok(())
    }

    /// The error of a code other than 0 of a call.
    fn error(&mut self, code: u32) -> Error {
        match code {
            sys::BUSY => busy(&self.frame),
            sys::SPENT => Error::Spent,
            sys::PREPARED => Error::Prepared,
            sys::MEMORY => Error::Memory,
            other => {
                unreachable!("an operation that was looked up is never refused by code {other}")
            }
        }
    }

    /// The error of a code other than 0 of a group.
    pub(crate) fn group_error(&mut self, code: u32) -> Error {
        match (code, self.frames.first()) {
            (sys::BUSY, Some(frame)) => busy(frame),
            (sys::COUNT, _) => Error::Count,
            _ => self.error(code),
        }
    }

    /// Where the call stands that was made just now, as the frame tells. The last one that the session
    /// may make leaves it spent.
    pub(crate) fn position(&mut self) -> Position {
        let Frame { place, nth, .. } = *self.frame;
        self.placed(place, nth)
    }

    pub(crate) fn placed(&mut self, place: u64, nth: u64) -> Position {
        self.begun.made = nth + 1;
        Position {
            place,
            nth,
            store: self.store(),
        }
    }

    /// The reply that the frame tells of.
    pub(crate) fn reply<R: Reading>(&mut self) -> R {
        let Frame { kind, number, .. } = *self.frame;
        R::read(self, Told { kind, number })
    }

    /// What a call was answered, and where it stands, or why it wasn't made.
    fn made<const N: usize, O: Operation<N>>(
        &mut self,
        code: u32,
    ) -> Result<(O::Reply, Position), Error> {
        match code {
            sys::DONE => {
                let position = self.position();
                Ok((self.reply(), position))
            }
            code => Err(self.error(code)),
        }
    }

    /// The call that was prepared, or why it wasn't.
    fn prepared<const N: usize, O: Operation<N>>(
        &mut self,
        code: u32,
    ) -> Result<Prepared<'_, O::Reply>, Error> {
        match code {
            sys::DONE => Ok(Prepared {
                reply: Some(self.reply()),
                session: self,
            }),
            code => {
                // a refused call may have stood in another one's way for a moment
                self.ring();
                Err(self.error(code))
            }
        }
    }

    /// Picks the reply to a call of the group: rows are its from then on.
    pub(crate) fn pick(&mut self, call: usize) {
        self.frame.row = call as u64;
        let code = self.ask_frame(sys::relc_pick);
        assert_eq!(code, sys::DONE, "the group has the call");
    }

    /// Row `row` of the reply that is picked.
    pub(crate) fn row<const N: usize>(&mut self, row: u64) -> Option<[u64; N]> {
        self.frame.row = row;
        if self.ask_frame(sys::relc_row) != sys::DONE {
            return None;
        }
        self.frame.cells[..self.frame.width as usize]
            .try_into()
            .ok()
    }

    /// Reads the rows from `row` on into the page, as many as it has room for, and answers how many.
    fn turn(&mut self, row: u64) -> u64 {
        let page = self.page.get_or_insert_with(|| Box::new(Page::new()));
        page.row = row;
        // SAFETY: `&mut self` lets one call at a time use the session, and the page is initialised
        // and lent for the call.
        unsafe { sys::relc_rows(self.begun.handle.as_ptr(), &mut **page) };
        page.rows
    }

    /// Calls the query as `call` does, and lends its rows one by one, rising, with no list of them:
    /// `Many` where they are more than the store was opened for.
    pub fn query<const K: usize, const N: usize>(
        &mut self,
        query: Query<K, N>,
        values: [u64; K],
    ) -> Result<Rows<'_, N>, Error> {
        self.put(&query, values)?;
        let code = self.ask_waiting(None, sys::relc_try_call);
        self.ring();
        if code != sys::DONE {
            return Err(self.error(code));
        }
        self.position();
        let number = self.frame.number;
        match self.frame.kind {
            sys::MANY => Err(Error::Many(Many(number))),
            _ => Ok(Rows::new(self, number)),
        }
    }

    /// Calls the query as `call` does: its first row, the least one, if it has a row. The reply has all rows, as
    /// with `query`, and costs as much; `Many` where they are more than the store was opened for.
    pub fn first<const K: usize, const N: usize>(
        &mut self,
        query: Query<K, N>,
        values: [u64; K],
    ) -> Result<Option<[u64; N]>, Error> {
        Ok(self.query(query, values)?.next())
    }

    /// Calls the query as `call` does: how many rows it has, also where they are more than the store was
    /// opened for. Costs what `query` does.
    pub fn count<const K: usize, const N: usize>(
        &mut self,
        query: Query<K, N>,
        values: [u64; K],
    ) -> Result<u64, Error> {
        match self.query(query, values) {
            Ok(rows) => Ok(rows.len() as u64),
            Err(Error::Many(Many(number))) => Ok(number),
            Err(error) => Err(error),
        }
    }

    /// Calls the query as `call` does: whether it has a row. Costs what `query` does.
    pub fn contains<const K: usize, const N: usize>(
        &mut self,
        query: Query<K, N>,
        values: [u64; K],
    ) -> Result<bool, Error> {
        Ok(self.count(query, values)? > 0)
    }

    /// Calls the operation, and waits for nobody: the reply, with the call's place in the history.
    pub fn try_call_placed<const N: usize, O: Operation<N>>(
        &mut self,
        op: O,
        values: [u64; N],
    ) -> Result<(O::Reply, Position), Error> {
        self.put(&op, values)?;
        let code = self.ask_frame(sys::relc_try_call);
        self.ring();
        self.made::<N, O>(code)
    }

    /// Calls the operation, and waits for nobody.
    pub fn try_call<const N: usize, O: Operation<N>>(
        &mut self,
        op: O,
        values: [u64; N],
    ) -> Result<O::Reply, Error> {
        self.try_call_placed(op, values).map(|answer| answer.0)
    }

    /// Calls the operation, and waits while another session is in the way: the reply, with the
    /// call's place in the history.
    ///
    /// Wait for nothing by another session while the thread has something prepared, or a transaction
    /// open: the wait may have no end, also where another thread's does the same. (It has none where the
    /// stripes that it has are wanted, nor where each of two threads waits for what the other one has.)
    ///
    /// Where some calls come so thick that another one finds no gap between them, it gets the right of
    /// way once it has waited for some milliseconds: calls that wait stand back then before they try,
    /// for some milliseconds at most.
    pub fn call_placed<const N: usize, O: Operation<N>>(
        &mut self,
        op: O,
        values: [u64; N],
    ) -> Result<(O::Reply, Position), Error> {
        self.call_by(None, op, values)
    }

    /// Calls the operation as `call_placed` does, and waits no longer than so: `Busy` where another
    /// session is in the way still.
    pub fn call_placed_timeout<const N: usize, O: Operation<N>>(
        &mut self,
        op: O,
        values: [u64; N],
        timeout: Duration,
    ) -> Result<(O::Reply, Position), Error> {
        self.call_by(end_of(timeout), op, values)
    }

    fn call_by<const N: usize, O: Operation<N>>(
        &mut self,
        end: Option<Instant>,
        op: O,
        values: [u64; N],
    ) -> Result<(O::Reply, Position), Error> {
        self.put(&op, values)?;
        let code = self.ask_waiting(end, sys::relc_try_call);
        self.ring();
        self.made::<N, O>(code)
    }

    /// Calls the operation, and waits while another session is in the way, as `call_placed` does.
    pub fn call<const N: usize, O: Operation<N>>(
        &mut self,
        op: O,
        values: [u64; N],
    ) -> Result<O::Reply, Error> {
        self.call_placed(op, values).map(|answer| answer.0)
    }

    /// Calls the operation as `call` does, and waits no longer than so: `Busy` where another session is
    /// in the way still.
    pub fn call_timeout<const N: usize, O: Operation<N>>(
        &mut self,
        op: O,
        values: [u64; N],
        timeout: Duration,
    ) -> Result<O::Reply, Error> {
        let answer = self.call_placed_timeout(op, values, timeout);
        answer.map(|answer| answer.0)
    }

    /// Calls the operation that asks as the shape does, declared or not, as `call` does. It looks the operation up at each
    /// call, under the store's lock: `Store::shape_query` and its like do that once. `Undeclared` where the store has no such
    /// operation, `Arity` where it takes another number of values.
    pub fn ask(&mut self, shape: &Shape, values: impl AsRef<[u64]>) -> Result<Reply, Error> {
        let values = values.as_ref();
        let operation = self.shared.shape(shape)?;
        if values.len() != operation.count as usize {
            return Err(Error::Arity {
                name: shape.to_string(),
                has: operation.count as usize,
                asked: values.len(),
            });
        }
        self.frame.ask(operation.op, values);
        let code = self.ask_waiting(None, sys::relc_try_call);
        self.ring();
        if code != sys::DONE {
            return Err(self.error(code));
        }
        self.position();
        Ok(self.any_reply())
    }

    /// The reply that the frame tells of, of whatever operation.
    fn any_reply(&mut self) -> Reply {
        let Frame { kind, number, .. } = *self.frame;
        match kind {
            sys::ROWS => Reply::Rows(self.any_rows(number)),
            sys::MANY => Reply::Many(number),
            sys::INSERTED => Reply::Added,
            sys::PRESENT => Reply::Present,
            sys::CONFLICT => Reply::Conflict(number),
            sys::REMOVED => Reply::Removed(self.cells(0)),
            sys::UPDATED => Reply::Replaced(self.cells(0)),
            sys::ABSENT => Reply::Absent,
            kind => unreachable!("there is no reply of kind {kind}"),
        }
    }

    /// The rows of the reply that is there, which are so many and of one length: a page at a time.
    fn any_rows(&mut self, count: u64) -> Vec<Vec<u64>> {
        let mut rows = Vec::new();
        let width = match count {
            0 => 0,
            _ => self.cells(0).len(),
        };
        while (rows.len() as u64) < count {
            let told = self.turn(rows.len() as u64) as usize;
            assert!(told > 0, "a reply has the rows that it counts");
            let cells = &self.page.as_ref().expect("a page was read").cells;
            rows.extend((0..told).map(|row| cells[row * width..(row + 1) * width].to_vec()));
        }
        rows
    }

    /// The values of a row of the reply that is there.
    fn cells(&mut self, row: u64) -> Vec<u64> {
        self.frame.row = row;
        let code = self.ask_frame(sys::relc_row);
        assert_eq!(code, sys::DONE, "a reply has the rows that it counts");
        self.frame.cells[..self.frame.width as usize].to_vec()
    }

    /// Prepares a call, and waits for nobody: it has its reply, and holds its stripes until it is
    /// committed, or dropped.
    pub fn begin<const N: usize, O: Operation<N>>(
        &mut self,
        op: O,
        values: [u64; N],
    ) -> Result<Prepared<'_, O::Reply>, Error> {
        self.put(&op, values)?;
        let code = self.ask_frame(sys::relc_begin);
        self.prepared::<N, O>(code)
    }

    /// Prepares a call as `begin` does, and waits while another session is in the way. What
    /// `call_placed` says of waiting holds here too.
    pub fn begin_waiting<const N: usize, O: Operation<N>>(
        &mut self,
        op: O,
        values: [u64; N],
    ) -> Result<Prepared<'_, O::Reply>, Error> {
        self.put(&op, values)?;
        let code = self.ask_waiting(None, sys::relc_begin);
        self.prepared::<N, O>(code)
    }

    /// Prepares a call as `begin_waiting` does, and waits no longer than so: `Busy` where another session
    /// is in the way still.
    pub fn begin_timeout<const N: usize, O: Operation<N>>(
        &mut self,
        op: O,
        values: [u64; N],
        timeout: Duration,
    ) -> Result<Prepared<'_, O::Reply>, Error> {
        self.put(&op, values)?;
        let code = self.ask_waiting(end_of(timeout), sys::relc_begin);
        self.prepared::<N, O>(code)
    }

    /// Sees what stands in the history now: later calls come after all of it. Answers how much that
    /// is; it is above the place of each of the session's calls.
    pub fn look(&mut self) -> Result<Seen, Error> {
        self.see(0)
    }

    /// Learns what somebody has seen, by `look` or by a call's `Position`: later calls of this
    /// session come after all of it. Answers how much this one has seen then, at least as much. It
    /// looks also where it has seen less and answers `Unseen`.
    pub fn learn(&mut self, seen: Seen) -> Result<Seen, Error> {
        if seen.store != self.store() {
            return Err(Error::Foreign);
        }
        self.see(seen.length)
    }

    /// Tells another session of the store all that this one was told of the history: its own calls,
    /// and what others told it. Later calls of the other come after all of it.
    ///
    /// `Foreign` where the other is of another store, and `Prepared` where what one of the two had
    /// prepared or open was forgotten (`mem::forget`). Then nothing changes.
    pub fn tell(&mut self, other: &mut Session) -> Result<(), Error> {
        if other.store() != self.store() {
            return Err(Error::Foreign);
        }
        // SAFETY: each `&mut` lets one call at a time use its session, and both are of one store.
        let code = unsafe {
            sys::relc_tell(
                self.begun.handle.as_ptr(),
                other.begun.handle.as_ptr(),
            )
        };
        match code {
            sys::DONE => Ok(()),
            code => Err(self.error(code)),
        }
    }

    fn see(&mut self, length: u64) -> Result<Seen, Error> {
        self.frame.seen = length;
        match self.ask_frame(sys::relc_learn) {
            sys::DONE => Ok(Seen {
                store: self.store(),
                length: self.frame.seen,
            }),
            sys::UNSEEN => Err(Error::Unseen),
            code => Err(self.error(code)),
        }
    }
}

/// The rows of a session's last reply, each of `N` values.
pub struct Rows<'s, const N: usize> {
    session: &'s mut Session,
    /// The next row, how many rows are in the page from which it comes, and how many there are.
    next: u64,
    page_end: u64,
    count: u64,
}

impl<'s, const N: usize> Rows<'s, N> {
    pub(crate) fn new(session: &'s mut Session, count: u64) -> Rows<'s, N> {
        Rows {
            session,
            next: 0,
            page_end: 0,
            count,
        }
    }
}

impl<const N: usize> Iterator for Rows<'_, N> {
    type Item = [u64; N];

    fn next(&mut self) -> Option<[u64; N]> {
        if self.next == self.count {
            return None;
        }
        if self.next == self.page_end {
            self.page_end += self.session.turn(self.next);
        }
        if self.next == self.page_end {
            return None;
        }
        let page = self.session.page.as_ref()?;
        let at = N * (self.next - page.row) as usize;
        self.next += 1;
        page.cells.get(at..at + N)?.try_into().ok()
    }

    fn size_hint(&self) -> (usize, Option<usize>) {
        let left = (self.count - self.next) as usize;
        (left, Some(left))
    }
}

impl<const N: usize> ExactSizeIterator for Rows<'_, N> {}

/// A call that has its reply and holds its stripes. One that is dropped is cancelled.
#[must_use = "a prepared call that is dropped is cancelled"]
pub struct Prepared<'s, R> {
    session: &'s mut Session,
    /// None once it is committed.
    reply: Option<R>,
}

impl<R> Prepared<'_, R> {
    /// The reply that the call has if it is committed.
    pub fn reply(&self) -> &R {
        self.reply.as_ref().expect("it is there until the commit")
    }

    /// Makes the call. It isn't refused.
    pub fn commit(mut self) -> (R, Position) {
        let code = self.session.ask_frame(sys::relc_commit);
        assert_eq!(code, sys::DONE, "a call is prepared");
        self.session.ring();
        let reply = self.reply.take().expect("it is there until the commit");
        (reply, self.session.position())
    }
}

impl<R> Drop for Prepared<'_, R> {
    fn drop(&mut self) {
        if self.reply.is_some() {
            self.session.ask_frame(sys::relc_cancel);
            self.session.ring();
        }
    }
}
