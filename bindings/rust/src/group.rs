//! Groups: several calls as one.

use crate::error::Error;
use crate::operation::{Number, Operation, Reading, Told};
use crate::session::{Position, Session, end_of};
use crate::sys::{self, Frame};
use std::marker::PhantomData;
use std::sync::atomic::{AtomicU64, Ordering::Relaxed};
use std::time::Duration;

/// Up to 16 calls of one store that are to be made as one, in their order. It may be made again and
/// again, also by other sessions, and with other values.
#[derive(Debug)]
pub struct Group {
    /// Its number among all that were begun or cleared.
    number: u64,
    calls: Vec<Call>,
}

/// A call that a group asks for, or calls that a transaction declares.
#[derive(Debug)]
pub(crate) struct Call {
    pub(crate) of: Number,
    pub(crate) values: Vec<u64>,
}

/// Where a group's call, and its reply, stand.
#[derive(Debug)]
pub struct Slot<R> {
    group: u64,
    call: usize,
    reading: PhantomData<fn() -> R>,
}

impl<R> Clone for Slot<R> {
    fn clone(&self) -> Slot<R> {
        *self
    }
}

impl<R> Copy for Slot<R> {}

/// A number that no other group has.
fn next_number() -> u64 {
    static GROUPS: AtomicU64 = AtomicU64::new(0);
    GROUPS.fetch_add(1, Relaxed)
}

impl Default for Group {
    fn default() -> Group {
        Group::new()
    }
}

impl Group {
    /// A group with no call yet.
    pub fn new() -> Group {
        Group {
            number: next_number(),
            calls: Vec::new(),
        }
    }

    /// Takes all calls out. The slots of before are of no use then.
    pub fn clear(&mut self) {
        self.number = next_number();
        self.calls.clear();
    }

    /// Adds a call of the operation behind the others, and answers where its reply will stand. `Count`
    /// where there are 16 calls, and `Foreign` where the others are another store's.
    pub fn add<const N: usize, O: Operation<N>>(
        &mut self,
        op: O,
        values: [u64; N],
    ) -> Result<Slot<O::Reply>, Error> {
        let call = self.calls.len();
        if call == sys::GROUP {
            return Err(Error::Count);
        }
        self.calls.push(Call {
            of: self.known(op.number())?,
            values: values.to_vec(),
        });
        Ok(Slot {
            group: self.number,
            call,
            reading: PhantomData,
        })
    }

    /// Puts another call in the place of one, whose reply is of the same type.
    pub fn set<const N: usize, O: Operation<N>>(
        &mut self,
        slot: Slot<O::Reply>,
        op: O,
        values: [u64; N],
    ) -> Result<(), Error> {
        if slot.group != self.number {
            return Err(Error::Slot);
        }
        let of = self.known(op.number())?;
        let call = &mut self.calls[slot.call];
        call.of = of;
        call.values.clear();
        call.values.extend(values);
        Ok(())
    }

    /// The number of an operation, where it is of the store of which the others are.
    fn known(&self, of: Number) -> Result<Number, Error> {
        match self.calls.first() {
            Some(first) if first.of.store != of.store => Err(Error::Foreign),
            _ => Ok(of),
        }
    }
}

impl Session {
    /// Fills the session's frames with the calls.
    pub(crate) fn put_all(&mut self, calls: &[Call]) -> Result<(), Error> {
        let store = self.store();
        if calls.iter().any(|call| call.of.store != store) {
            return Err(Error::Foreign);
        }
        self.frames.resize_with(calls.len(), Frame::new);
        for (frame, call) in self.frames.iter_mut().zip(calls) {
            frame.ask(call.of.op, &call.values);
        }
        Ok(())
    }

    fn done(&mut self, group: &Group, code: u32) -> Result<Done<'_>, Error> {
        self.ring();
        match (code, self.frames.first()) {
            (sys::DONE, Some(first)) => {
                let (place, nth) = (first.place, first.nth);
                Ok(Done {
                    position: self.placed(place, nth),
                    replies: Replies {
                        session: self,
                        group: group.number,
                    },
                })
            }
            _ => Err(self.group_error(code)),
        }
    }

    fn prepared_group(&mut self, group: &Group, code: u32) -> Result<PreparedGroup<'_>, Error> {
        match code {
            sys::DONE => Ok(PreparedGroup {
                replies: Some(Replies {
                    session: self,
                    group: group.number,
                }),
            }),
            code => {
                // a refused group may have stood in another one's way for a moment
                self.ring();
                Err(self.group_error(code))
            }
        }
    }

    /// Makes the group's calls as one, and waits for nobody: each goes on from what those before it
    /// left, and nobody sees a state between them. A reply such as `Conflict` is a reply, and the
    /// group goes on.
    pub fn try_transaction(&mut self, group: &Group) -> Result<Done<'_>, Error> {
        self.put_all(&group.calls)?;
        let code = self.ask_group(sys::relc_try_group);
        self.done(group, code)
    }

    /// Makes the group's calls as one as `try_transaction` does, and waits while another session is in
    /// the way. What `call_placed` says of waiting holds here too.
    pub fn transaction(&mut self, group: &Group) -> Result<Done<'_>, Error> {
        self.put_all(&group.calls)?;
        let code = self.until_free(None, |session| session.ask_group(sys::relc_try_group));
        self.done(group, code)
    }

    /// Makes the group's calls as `transaction` does, and waits no longer than so: `Busy` where another
    /// session is in the way still.
    pub fn transaction_timeout(
        &mut self,
        group: &Group,
        timeout: Duration,
    ) -> Result<Done<'_>, Error> {
        self.put_all(&group.calls)?;
        let asks = |session: &mut Session| session.ask_group(sys::relc_try_group);
        let code = self.until_free(end_of(timeout), asks);
        self.done(group, code)
    }

    /// Prepares the group's calls as one, and waits for nobody: they have their replies, and hold their
    /// stripes until they are committed, or dropped.
    pub fn begin_transaction(&mut self, group: &Group) -> Result<PreparedGroup<'_>, Error> {
        self.put_all(&group.calls)?;
        let code = self.ask_group(sys::relc_begin_group);
        self.prepared_group(group, code)
    }

    /// Prepares the group's calls as `begin_transaction` does, and waits while another session is in
    /// the way. What `call_placed` says of waiting holds here too.
    pub fn begin_transaction_waiting(&mut self, group: &Group) -> Result<PreparedGroup<'_>, Error> {
        self.put_all(&group.calls)?;
        let code = self.until_free(None, |session| session.ask_group(sys::relc_begin_group));
        self.prepared_group(group, code)
    }

    /// Prepares the group's calls as `begin_transaction_waiting` does, and waits no longer than so: `Busy`
    /// where another session is in the way still.
    pub fn begin_transaction_timeout(
        &mut self,
        group: &Group,
        timeout: Duration,
    ) -> Result<PreparedGroup<'_>, Error> {
        self.put_all(&group.calls)?;
        let asks = |session: &mut Session| session.ask_group(sys::relc_begin_group);
        let code = self.until_free(end_of(timeout), asks);
        self.prepared_group(group, code)
    }
}

/// The replies of a group that a session made or prepared.
struct Replies<'s> {
    session: &'s mut Session,
    /// The group's number.
    group: u64,
}

impl Replies<'_> {
    fn reply<R: Reading>(&mut self, slot: Slot<R>) -> Result<R, Error> {
        if slot.group != self.group {
            return Err(Error::Slot);
        }
        // a call that was added to the group since has no reply
        let frame = self.session.frames.get(slot.call).ok_or(Error::Slot)?;
        let told = Told {
            kind: frame.kind,
            number: frame.number,
        };
        self.session.pick(slot.call);
        Ok(R::read(self.session, told))
    }
}

/// A group that was made.
pub struct Done<'s> {
    replies: Replies<'s>,
    position: Position,
}

impl Done<'_> {
    /// The reply that the call in the slot has. `Slot` where it is another group's.
    pub fn reply<R: Reading>(&mut self, slot: Slot<R>) -> Result<R, Error> {
        self.replies.reply(slot)
    }

    /// Where the group stands in the history.
    pub fn position(&self) -> Position {
        self.position
    }
}

/// A group whose calls have their replies and hold their stripes. One that is dropped is cancelled.
#[must_use = "a prepared group that is dropped is cancelled"]
pub struct PreparedGroup<'s> {
    /// None once it is committed.
    replies: Option<Replies<'s>>,
}

impl<'s> PreparedGroup<'s> {
    /// The reply that the call in the slot has if the group is committed. `Slot` where it is another
    /// group's.
    pub fn reply<R: Reading>(&mut self, slot: Slot<R>) -> Result<R, Error> {
        let replies = self.replies.as_mut();
        replies
            .expect("they are there until the commit")
            .reply(slot)
    }

    /// Makes the calls. They aren't refused.
    pub fn commit(mut self) -> Done<'s> {
        let replies = self.replies.take();
        let replies = replies.expect("they are there until the commit");
        let code = replies.session.ask_frame(sys::relc_commit);
        assert_eq!(code, sys::DONE, "a group is prepared");
        replies.session.ring();
        Done {
            position: replies.session.position(),
            replies,
        }
    }

    /// Makes none of them.
    pub fn cancel(self) {}
}

impl Drop for PreparedGroup<'_> {
    fn drop(&mut self) {
        if let Some(Replies { session, .. }) = &mut self.replies {
            session.ask_frame(sys::relc_cancel);
            session.ring();
        }
    }
}
