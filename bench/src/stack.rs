//! How much stack a call takes: it is made in a thread on a stack that was painted before, and what
//! is no longer paint afterwards was used.

use std::ffi::{c_int, c_ulong, c_void};
use std::hint::black_box;
use std::ptr::null_mut;

/// A part of the stack, as a thread's stack has to be aligned.
#[repr(C, align(4096))]
#[derive(Clone, Copy)]
struct Page([u8; 4096]);

const PAINTED: Page = Page([0xa5; 4096]);
const PAGES: usize = 256;

/// The attributes of a thread, whose fields are the system's own: at least as long as there.
#[repr(C, align(16))]
struct Attributes([u8; 128]);

extern "C" {
    fn pthread_attr_init(attributes: *mut Attributes) -> c_int;
    fn pthread_attr_setstack(
        attributes: *mut Attributes,
        stack: *mut c_void,
        length: usize,
    ) -> c_int;
    fn pthread_create(
        thread: *mut c_ulong,
        attributes: *const Attributes,
        start: extern "C" fn(*mut c_void) -> *mut c_void,
        argument: *mut c_void,
    ) -> c_int;
    fn pthread_join(thread: c_ulong, result: *mut *mut c_void) -> c_int;
}

/// What the thread is given.
struct Run<'a> {
    call: &'a mut dyn FnMut(),
    /// Where the stack stood before the call.
    top: usize,
}

/// Notes where the stack stands and makes the call.
extern "C" fn start(argument: *mut c_void) -> *mut c_void {
    // Safe: the argument is the `Run` that `used` waits with until the thread has ended.
    let run = unsafe { &mut *argument.cast::<Run>() };
    let mark = 0u8;
    run.top = black_box(&raw const mark) as usize;
    (run.call)();
    null_mut()
}

/// The bytes of stack that a call takes, down to the lowest byte that was written, with the few of
/// the frame that makes the call.
pub fn used(call: &mut dyn FnMut()) -> usize {
    let mut stack = vec![PAINTED; PAGES];
    let mut run = Run { call, top: 0 };
    let mut attributes = Attributes([0; 128]);
    let mut thread = 0;
    // Safe: all pointers are to locals and to the painted pages, which outlive the thread; nothing
    // else looks at them before the thread has ended.
    let failed = unsafe {
        let pages = stack.as_mut_ptr().cast();
        pthread_attr_init(&mut attributes) != 0
            || pthread_attr_setstack(&mut attributes, pages, size_of::<Page>() * PAGES) != 0
            || pthread_create(&mut thread, &attributes, start, (&raw mut run).cast()) != 0
            || pthread_join(thread, null_mut()) != 0
    };
    assert!(!failed, "no thread with a painted stack");
    let bottom = stack.as_ptr() as usize;
    let bytes = black_box(&stack).iter().flat_map(|page| &page.0);
    let unused = bytes.take_while(|&&byte| byte == PAINTED.0[0]).count();
    assert!(
        unused >= size_of::<Page>(),
        "the painted stack is too short"
    );
    run.top - bottom - unused
}
