//! How deep a call's stack gets: it is run on a thread whose stack is painted beforehand.
use crate::subjects::{self, Job, Rooms};
use std::ffi::{c_int, c_void};
use std::ptr::null_mut;

type Start = extern "C" fn(*mut c_void) -> *mut c_void;

extern "C" {
    fn pthread_attr_init(attributes: *mut Attributes) -> c_int;
    fn pthread_attr_setstack(attributes: *mut Attributes, stack: *mut c_void, size: usize) -> c_int;
    fn pthread_create(
        thread: *mut usize,
        attributes: *const Attributes,
        start: Start,
        with: *mut c_void,
    ) -> c_int;
    fn pthread_join(thread: usize, result: *mut *mut c_void) -> c_int;
}

/// Larger than pthread_attr_t anywhere on Linux.
#[repr(C, align(16))]
struct Attributes([u8; 256]);

const PAINT: u8 = 0xA5;
const SIZE: usize = 1 << 20;

#[repr(C, align(4096))]
#[derive(Clone)]
struct Page([u8; 4096]);

/// Bytes of stack that Pitavele's call takes, its caller's return address among them.
pub fn depth(job: &Job, rooms: &mut Rooms) -> usize {
    let mut with = || {
        subjects::port(job, rooms);
    };
    let mut without = || ();
    touched(&mut with) - touched(&mut without)
}

/// Bytes from the top of the stack to the deepest one that was written.
fn touched(call: &mut dyn FnMut()) -> usize {
    let mut stack = vec![Page([PAINT; 4096]); SIZE / 4096];
    let start = stack.as_mut_ptr().cast::<c_void>();
    let mut call: &mut dyn FnMut() = call;
    let mut attributes = Attributes([0; 256]);
    let mut thread = 0;
    // The stack and the call outlive the thread: it is joined here.
    unsafe {
        assert_eq!(pthread_attr_init(&mut attributes), 0);
        assert_eq!(pthread_attr_setstack(&mut attributes, start, SIZE), 0);
        let with = (&raw mut call).cast();
        assert_eq!(pthread_create(&mut thread, &attributes, run, with), 0);
        assert_eq!(pthread_join(thread, null_mut()), 0);
    }
    let clean = stack.iter().flat_map(|page| page.0).take_while(|byte| *byte == PAINT).count();
    SIZE - clean
}

extern "C" fn run(call: *mut c_void) -> *mut c_void {
    let call = unsafe { &mut *call.cast::<&mut dyn FnMut()>() };
    call();
    null_mut()
}
