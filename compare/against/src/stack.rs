//! The bytes of stack that a call touches: it is made on a thread whose stack is memory of ours, painted
//! with one byte before. What is no longer painted afterwards was touched.
//!
//! The standard library lends no stack to a thread, so that the system's threads are called here.

use std::os::raw::{c_int, c_ulong, c_void};

/// Bytes of the painted stack.
const SIZE: usize = 4 << 20;
/// The paint.
const PAINT: u8 = 0xC5;

/// Room for the system's thread attributes, with some to spare.
#[repr(C, align(16))]
struct Attributes([u8; 256]);

extern "C" {
    fn pthread_attr_init(attributes: *mut Attributes) -> c_int;
    fn pthread_attr_setstack(attributes: *mut Attributes, from: *mut c_void, size: usize) -> c_int;
    fn pthread_attr_destroy(attributes: *mut Attributes) -> c_int;
    fn pthread_create(
        thread: *mut c_ulong,
        attributes: *const Attributes,
        start: extern "C" fn(*mut c_void) -> *mut c_void,
        value: *mut c_void,
    ) -> c_int;
    fn pthread_join(thread: c_ulong, result: *mut *mut c_void) -> c_int;
}

/// What the thread does, and where its stack stood then.
struct Task<'a> {
    call: &'a mut dyn FnMut(),
    entry: usize,
}

/// The bytes from where the call is made down to the lowest byte touched. The end of a thread touches
/// some too: what a call that does nothing shows is the least that can be told.
pub fn touched(call: &mut dyn FnMut()) -> usize {
    let mut stack = vec![PAINT; SIZE + 4096];
    let from = stack.as_ptr() as usize;
    let aligned = (4096 - from % 4096) % 4096;
    let mut task = Task { call, entry: 0 };
    run_on(&mut stack[aligned..][..SIZE], &mut task);
    let lowest = stack[aligned..]
        .iter()
        .position(|&byte| byte != PAINT)
        .expect("a thread touches its stack");
    assert!(lowest > 0, "the stack was too small");
    task.entry - (from + aligned + lowest)
}

/// Runs the task on a thread with this stack, and waits for its end.
fn run_on(stack: &mut [u8], task: &mut Task) {
    let mut attributes = Attributes([0; 256]);
    let mut thread: c_ulong = 0;
    // the thread has ended before stack and task are seen again, so that nobody else has them meanwhile
    unsafe {
        assert_eq!(pthread_attr_init(&mut attributes), 0);
        let from = stack.as_mut_ptr() as *mut c_void;
        assert_eq!(pthread_attr_setstack(&mut attributes, from, stack.len()), 0);
        let value = task as *mut Task as *mut c_void;
        assert_eq!(pthread_create(&mut thread, &attributes, start, value), 0);
        assert_eq!(pthread_join(thread, std::ptr::null_mut()), 0);
        assert_eq!(pthread_attr_destroy(&mut attributes), 0);
    }
}

/// Where the thread begins; the value is the task that `run_on` waits with.
extern "C" fn start(value: *mut c_void) -> *mut c_void {
    let task = unsafe { &mut *(value as *mut Task) };
    let here = 0u8;
    task.entry = &here as *const u8 as usize;
    (task.call)();
    std::ptr::null_mut()
}
