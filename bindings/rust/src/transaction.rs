//! Open groups: what is declared, and the calls that are made of it one after another.

use crate::error::Error;
use crate::group::Call;
use crate::operation::{Number, Operation};
use crate::session::{Position, Session, end_of};
use crate::sys;
use std::time::Duration;

/// Up to 16 operations of one store that a transaction may call, each with the values of its pattern or
/// with any. Transactions may be opened over it again and again, also by other sessions.
#[derive(Debug, Default)]
pub struct Declared {
    calls: Vec<Call>,
}

impl Declared {
    /// Nothing yet.
    pub fn new() -> Declared {
        Declared::default()
    }

    /// Takes all out.
    pub fn clear(&mut self) {
        self.calls.clear();
    }

    /// Declares the calls of the operation that have these values of its pattern's columns, in the order
    /// in which the pattern is written (`Store::pattern`). `Pattern` where it has another number of
    /// columns, `Count` where 16 are declared, and `Foreign` where the others are another store's.
    pub fn at<const K: usize, const N: usize, O: Operation<N>>(
        &mut self,
        op: O,
        pattern: [u64; K],
    ) -> Result<(), Error> {
        // (no values are below to declare all calls: so it is where the pattern has no columns)
        if K != op.number().pattern {
            return Err(Error::Pattern);
        }
        self.declare(op.number(), &pattern)
    }

    /// Declares all calls of the operation. A transaction takes all stripes that they may want then, which
    /// keeps all others out that want one of them.
    pub fn any<const N: usize, O: Operation<N>>(&mut self, op: O) -> Result<(), Error> {
        self.declare(op.number(), &[])
    }

    fn declare(&mut self, of: Number, pattern: &[u64]) -> Result<(), Error> {
        match self.calls.first() {
            _ if self.calls.len() == sys::GROUP => Err(Error::Count),
            Some(first) if first.of.store != of.store => Err(Error::Foreign),
            _ => {
                let values = pattern.to_vec();
                self.calls.push(Call { of, values });
                Ok(())
            }
        }
    }
}

impl Session {
    /// Opens a transaction over what is declared, and waits for nobody: it takes the stripes that these
    /// calls may want, and holds them until it is committed, or dropped.
    pub fn try_open(&mut self, over: &Declared) -> Result<Transaction<'_>, Error> {
        self.put_all(&over.calls)?;
        let code = self.ask_group(sys::relc_open_group);
        self.opened(code)
    }

    /// Opens a transaction as `try_open` does, and waits while another session is in the way. What
    /// `call_placed` says of waiting holds here too, and for as long as the transaction is open: wait for
    /// nothing by another session then.
    pub fn open(&mut self, over: &Declared) -> Result<Transaction<'_>, Error> {
        self.put_all(&over.calls)?;
        let code = self.until_free(None, |session| session.ask_group(sys::relc_open_group));
        self.opened(code)
    }

    /// Opens a transaction as `open` does, and waits no longer than so: `Busy` where another session is in
    /// the way still.
    pub fn open_timeout(
        &mut self,
        over: &Declared,
        timeout: Duration,
    ) -> Result<Transaction<'_>, Error> {
        self.put_all(&over.calls)?;
        let asks = |session: &mut Session| session.ask_group(sys::relc_open_group);
        let code = self.until_free(end_of(timeout), asks);
        self.opened(code)
    }

    fn opened(&mut self, code: u32) -> Result<Transaction<'_>, Error> {
        if code == sys::DONE {
            return Ok(Transaction {
                session: self,
                is_over: false,
            });
        }
        // a refused group may have stood in another one's way for a moment
        self.ring();
        Err(self.group_error(code))
    }
}

/// Calls that are made one after another, each with the replies before it known, and stand in the
/// history as one once they are committed: nobody sees a state between them. One that is dropped is
/// cancelled.
#[must_use = "a transaction that is dropped is cancelled"]
pub struct Transaction<'s> {
    session: &'s mut Session,
    /// It is committed, or want of memory has ended it.
    is_over: bool,
}

impl Transaction<'_> {
    /// Makes one call more, over what those before it left. `Foreign` where the operation is another
    /// store's, `Uncovered` where what was declared doesn't suffice for it, and `Count` after 16 calls: the
    /// transaction is as before then. `Memory` where memory was wanted, for it or for a call before it: the
    /// transaction is over, and nothing of it is made.
    pub fn call<const N: usize, O: Operation<N>>(
        &mut self,
        op: O,
        values: [u64; N],
    ) -> Result<O::Reply, Error> {
        self.session.put(&op, values)?;
        match self.session.ask_frame(sys::relc_call_open) {
            sys::DONE => Ok(self.session.reply()),
            sys::COUNT => Err(Error::Count),
            sys::UNCOVERED => Err(Error::Uncovered),
            sys::MEMORY | sys::NOT_OPEN => {
                self.is_over = true;
                self.session.ring();
                Err(Error::Memory)
            }
            code => unreachable!("an open group never refuses a call by code {code}"),
        }
    }

    /// Makes its calls, which have their replies, as one. Refused only where there is none of them, and the
    /// transaction is over then as if it had been cancelled: `Count` where no call was made, and `Memory`
    /// where want of memory has ended it.
    pub fn commit(mut self) -> Result<Position, Error> {
        if self.is_over {
            return Err(Error::Memory);
        }
        let code = self.session.ask_frame(sys::relc_commit);
        self.is_over = true;
        self.session.ring();
        match code {
            sys::DONE => Ok(self.session.position()),
            sys::NO_CALL => Err(Error::Count),
            code => unreachable!("a commit is never refused by code {code}"),
        }
    }

    /// Makes none of them.
    pub fn cancel(self) {}
}

impl Drop for Transaction<'_> {
    fn drop(&mut self) {
        if !self.is_over {
            self.session.ask_frame(sys::relc_cancel);
            self.session.ring();
        }
    }
}
