//! How stores are opened, and how closed ones go on.

use crate::error::Error;
use crate::handle::{ClosedHandle, StoreHandle};
use crate::refusal::{Refusal, Text};
use crate::shape::Shape;
use crate::store::Options;
use crate::sys;
use std::ffi::c_void;
use std::hash::{BuildHasher, Hasher, RandomState};
use std::ptr;

/// What a store is opened with, or goes on with.
pub(crate) struct Opening<'t> {
    pub(crate) text: &'t str,
    /// A line for each.
    shapes: String,
    plans: &'t str,
    pub(crate) options: Options,
}

/// The secret of a store's hash tables: two numbers drawn at random.
fn drawn_seed() -> [u64; 2] {
    [(); 2].map(|()| RandomState::new().build_hasher().finish())
}

impl<'t> Opening<'t> {
    pub(crate) fn new(
        text: &'t str,
        shapes: &[Shape],
        plans: &'t str,
        options: Options,
    ) -> Opening<'t> {
        let lines: Vec<_> = shapes.iter().map(Shape::as_str).collect();
        Opening {
            text,
            shapes: lines.join("\n"),
            plans,
            options,
        }
    }

    /// Opens a store.
    pub(crate) fn open(&self) -> Result<StoreHandle, Error> {
        self.ask(|frame, store| {
            // SAFETY: the texts and the frame are lent for the call, and `store` is written by it
            // where it answers 0.
            unsafe {
                sys::relc_open_with(
                    self.text.as_ptr(),
                    self.text.len(),
                    self.shapes.as_ptr(),
                    self.shapes.len(),
                    self.plans.as_ptr(),
                    self.plans.len(),
                    frame,
                    store,
                )
            }
        })
    }

    /// Makes a store of the closed one, which comes back as it was with an error.
    pub(crate) fn resume(
        &self,
        closed: ClosedHandle,
    ) -> Result<StoreHandle, (ClosedHandle, Error)> {
        let resumed = self.ask(|frame, store| {
            // SAFETY: as above; and nobody else has the closed store.
            unsafe {
                sys::relc_resume(
                    closed.as_ptr(),
                    self.text.as_ptr(),
                    self.text.len(),
                    self.shapes.as_ptr(),
                    self.shapes.len(),
                    self.plans.as_ptr(),
                    self.plans.len(),
                    frame,
                    store,
                )
            }
        });
        match resumed {
            Ok(store) => {
                // (it is ended)
                closed.into_raw();
                Ok(store)
            }
            Err(error) => Err((closed, error)),
        }
    }

    /// Asks for a store, by an export that takes the texts, this frame and where the handle is written.
    fn ask(
        &self,
        export: impl FnOnce(&mut sys::OpenFrame, &mut *mut c_void) -> u32,
    ) -> Result<StoreHandle, Error> {
        let mut frame = sys::OpenFrame {
            passes: self.options.sessions,
            length: 0,
            limit: self.options.limit,
            rows: self.options.rows.map_or(0, |rows| u64::from(rows.get())),
            seed: drawn_seed(),
            refusal: [0; sys::REFUSAL],
        };
        let mut store = ptr::null_mut();
        match export(&mut frame, &mut store) {
            sys::DONE => Ok(StoreHandle::of(store)),
            code => Err(self.error(code, &frame)),
        }
    }

    /// Why there is no store.
    fn error(&self, code: u32, frame: &sys::OpenFrame) -> Error {
        let refused = |of, text| {
            let said = String::from_utf8_lossy(&frame.refusal[..frame.length as usize]);
            Error::Refused(Refusal::new(said.into_owned(), of, text))
        };
        match code {
            sys::OPTIONS => Error::Options,
            sys::TOO_LONG => Error::TooLong,
            sys::LINE | sys::RULE => refused(Text::Specification, self.text),
            sys::SHAPE_LINE => refused(Text::Shapes, &self.shapes),
            sys::PLAN_LINE | sys::PLAN => refused(Text::Plans, self.plans),
            sys::SESSIONS => Error::FewerSessions,
            sys::LIMIT => Error::LowerLimit,
            sys::OTHER => Error::Specification,
            sys::MEMORY => Error::Memory,
            code => unreachable!("a store is never refused by code {code}"),
        }
    }
}
