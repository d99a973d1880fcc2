//! Handles of the archive's: whoever has one ends it.

use crate::sys;
use std::ffi::c_void;
use std::mem::ManuallyDrop;
use std::ptr::NonNull;

/// A handle, which is ended where it is dropped.
macro_rules! handle {
    ($(#[$doc:meta])* $name:ident, $end:path) => {
        $(#[$doc])*
        pub(crate) struct $name(NonNull<c_void>);

        impl $name {
            /// The handle that an export has written.
            pub(crate) fn of(written: *mut c_void) -> $name {
                $name(NonNull::new(written).expect("where it is done a handle is written"))
            }

            pub(crate) fn as_ptr(&self) -> *mut c_void {
                self.0.as_ptr()
            }

            /// The handle, for an export that ends it.
            pub(crate) fn into_raw(self) -> *mut c_void {
                ManuallyDrop::new(self).as_ptr()
            }
        }

        impl Drop for $name {
            fn drop(&mut self) {
                // SAFETY: the handle is live, and nobody has it any more.
                unsafe { $end(self.0.as_ptr()) }
            }
        }

        // SAFETY: what lies behind a handle may go to another thread (`sessions_are_send` and
        // `stores_are_send` of rc_embed are proved, and a closed store has no more than a store has),
        // and it is used by one call at a time: a session's by `&mut Session`, the store's under its
        // lock, a closed store's by its owner. Rattle wants a move to be ordered by a lock, by a
        // thread's start or end, or by a sequentially consistent atomic; in safe Rust at the least a
        // release that an acquire sees orders it, as a channel's, and a lock orders no more than that.
        unsafe impl Send for $name {}
    };
}

handle!(
    /// A store's.
    StoreHandle,
    sys::relc_close_store
);
handle!(
    /// A session's.
    SessionHandle,
    sys::relc_close_session
);
handle!(
    /// A closed store's.
    ClosedHandle,
    sys::relc_drop_closed
);

// SAFETY: by a shared reference nothing is done with what lies behind it.
unsafe impl Sync for ClosedHandle {}
