//! How much stack a call takes. It is made on a thread whose stack was painted before; the deepest
//! byte without its paint says how far the call went.

use std::ffi::{c_int, c_void};
use std::hint::black_box;
use std::ptr;

/// How many bytes of stack a call takes: from where it is made down to the deepest byte that it
/// writes. What is needed to make it counts too: an empty call takes some bytes.
///
/// The stack has 512 KiB. A call that takes more, or that panics, ends the program.
///
/// ```
/// let mut ones = 0;
/// let taken = stack::taken(|| {
///     let list = std::hint::black_box([1_u8; 10_000]);
///     ones = list.iter().filter(|&&v| v == 1).count();
/// });
/// assert_eq!(ones, 10_000);
/// assert!(taken > 10_000);
/// ```
pub fn taken(call: impl FnMut() + Send) -> usize {
    let mut pages = vec![Page([PAINT; PAGE]); GUARD + STACK];
    let (guard, stack) = pages.split_at_mut(GUARD);
    let mut work = Work { call, began: 0 };
    protect(guard, NONE);
    run_on(stack, &mut work);
    protect(guard, READ | WRITE);
    let whole = stack.iter().take_while(|page| page.0 == [PAINT; PAGE]);
    let whole = whole.count();
    let rest = stack[whole..].iter().flat_map(|page| &page.0);
    let rest = rest.take_while(|&&byte| byte == PAINT).count();
    work.began - (stack.as_ptr().addr() + whole * PAGE + rest)
}

/// No call stores many of these in a row.
const PAINT: u8 = 0xa5;

/// A stack begins where a page does.
#[derive(Clone)]
#[repr(C, align(4096))]
struct Page([u8; PAGE]);

const PAGE: usize = 4_096;

/// The pages of the stack.
const STACK: usize = 128;

/// The pages below it that may not be touched during the call. A function with larger tables of its
/// own could step over them.
const GUARD: usize = 64;

/// One call, made on the painted stack.
struct Work<F> {
    call: F,
    /// Where the stack stood before the call.
    began: usize,
}

extern "C" fn start<F: FnMut()>(work: *mut c_void) -> *mut c_void {
    let work = unsafe { &mut *work.cast::<Work<F>>() };
    let here = 0_u8;
    work.began = black_box(&raw const here).addr();
    (work.call)();
    ptr::null_mut()
}

/// Makes the call on a thread with this stack, and waits until it has ended.
fn run_on<F: FnMut()>(stack: &mut [Page], work: &mut Work<F>) {
    let mut attributes = Attributes([0; 32]);
    let mut thread = 0;
    let mut result = ptr::null_mut();
    let size = size_of_val(stack);
    let stack = stack.as_mut_ptr().cast();
    let work = (&raw mut *work).cast();
    unsafe {
        assert_eq!(pthread_attr_init(&mut attributes), 0);
        assert_eq!(pthread_attr_setstack(&mut attributes, stack, size), 0);
        assert_eq!(
            pthread_create(&mut thread, &attributes, start::<F>, work),
            0
        );
        assert_eq!(pthread_join(thread, &mut result), 0);
        assert_eq!(pthread_attr_destroy(&mut attributes), 0);
    }
}

fn protect(pages: &mut [Page], protection: c_int) {
    let done = unsafe { mprotect(pages.as_mut_ptr().cast(), size_of_val(pages), protection) };
    assert_eq!(done, 0, "the pages cannot be protected");
}

// As Linux has them.
const NONE: c_int = 0;
const READ: c_int = 1;
const WRITE: c_int = 2;

/// Larger than any system's.
#[repr(C, align(16))]
struct Attributes([u64; 32]);

unsafe extern "C" {
    fn mprotect(address: *mut c_void, length: usize, protection: c_int) -> c_int;
    fn pthread_attr_init(attributes: *mut Attributes) -> c_int;
    fn pthread_attr_setstack(attributes: *mut Attributes, stack: *mut c_void, size: usize)
    -> c_int;
    fn pthread_attr_destroy(attributes: *mut Attributes) -> c_int;
    fn pthread_create(
        thread: *mut usize,
        attributes: *const Attributes,
        start: extern "C" fn(*mut c_void) -> *mut c_void,
        argument: *mut c_void,
    ) -> c_int;
    fn pthread_join(thread: usize, result: *mut *mut c_void) -> c_int;
}

#[cfg(test)]
mod tests {
    use super::taken;
    use std::hint::black_box;

    #[test]
    fn an_empty_call_takes_next_to_nothing() {
        let taken = taken(|| ());
        assert!((1..1_000).contains(&taken), "{taken}");
    }

    /// Each level has its list, and is not done with it when the next begins.
    fn descend(levels: usize) {
        let list = black_box([levels; 100]);
        if levels > 1 {
            descend(levels - 1);
        }
        black_box(list);
    }

    #[test]
    fn every_level_counts() {
        for levels in [1, 10, 50] {
            let lists = levels * size_of::<[usize; 100]>();
            let taken = taken(|| descend(levels));
            assert!((lists..4 * lists).contains(&taken), "{levels}: {taken}");
        }
    }

    #[test]
    fn a_call_made_twice_takes_as_much() {
        let mut calls = 0;
        let mut call = || calls += 1;
        assert_eq!(taken(&mut call), taken(&mut call));
        assert_eq!(calls, 2);
    }
}
