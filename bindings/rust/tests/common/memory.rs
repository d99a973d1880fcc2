//! The memory of the archive, which takes it by three functions that a program may have its own of
//! (`bindings/c/heap.c`): those here fail where a test tells them to.

use std::cell::Cell;
use std::ffi::c_void;
use std::ptr;

thread_local! {
    /// How many allocations of this thread succeed before one fails; without it none fails.
    static LEFT: Cell<Option<u32>> = const { Cell::new(None) };
}

/// Runs it, while the allocation of this thread fails that comes behind so many, and it alone.
pub fn failing<T>(left: u32, run: impl FnOnce() -> T) -> T {
    LEFT.set(Some(left));
    let answer = run();
    LEFT.set(None);
    answer
}

fn fails() -> bool {
    let left = LEFT.get();
    LEFT.set(left.and_then(|left| left.checked_sub(1)));
    left == Some(0)
}

unsafe extern "C" {
    fn malloc(size: usize) -> *mut c_void;
    fn realloc(old: *mut c_void, size: usize) -> *mut c_void;
    fn free(block: *mut c_void);
}

/// A block, and whether it was given. Where it wasn't, the pointer is never read or written by.
#[repr(C)]
struct Block {
    given: u64,
    block: *mut c_void,
}

impl Block {
    fn of(block: *mut c_void) -> Block {
        let is_none = block.is_null();
        Block {
            given: u64::from(!is_none),
            block: if is_none {
                ptr::dangling_mut::<u8>().cast()
            } else {
                block
            },
        }
    }
}

#[unsafe(no_mangle)]
extern "C" fn rattle_alloc(size: usize, align: usize) -> Block {
    if fails() {
        return Block::of(ptr::null_mut());
    }
    // SAFETY: any size may be asked for.
    Block::of(unsafe { malloc(if size == 0 { align } else { size }) })
}

#[unsafe(no_mangle)]
extern "C" fn rattle_realloc(old: *mut c_void, _was: usize, size: usize, align: usize) -> Block {
    if fails() {
        return Block::of(ptr::null_mut());
    }
    // SAFETY: the archive has `old` from here, and uses it no more where it is given another block.
    Block::of(unsafe { realloc(old, if size == 0 { align } else { size }) })
}

#[unsafe(no_mangle)]
extern "C" fn rattle_dealloc(block: *mut c_void) {
    // SAFETY: the archive has the block from here, and uses it no more.
    unsafe { free(block) }
}
