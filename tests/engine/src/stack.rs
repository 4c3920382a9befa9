//! A call on a stack that the test owns, so that what the call leaves there can be
//! looked at after it.

use crate::guard::Guarded;
use std::ffi::c_void;
use std::hint::black_box;
use std::ptr;

mod system {
    use std::ffi::{c_int, c_void};

    /// `pthread_attr_t` has 56 bytes on x86-64 and 64 on ARM; here is room for more.
    #[repr(C, align(16))]
    pub struct Attributes(pub [u8; 128]);

    /// `pthread_t`.
    pub type Thread = usize;

    pub type Start = extern "C" fn(*mut c_void) -> *mut c_void;

    extern "C" {
        pub fn pthread_attr_init(attributes: *mut Attributes) -> c_int;
        pub fn pthread_attr_setstack(
            attributes: *mut Attributes,
            lowest: *mut c_void,
            size: usize,
        ) -> c_int;
        pub fn pthread_attr_destroy(attributes: *mut Attributes) -> c_int;
        pub fn pthread_create(
            thread: *mut Thread,
            attributes: *const Attributes,
            start: Start,
            given: *mut c_void,
        ) -> c_int;
        pub fn pthread_join(thread: Thread, result: *mut *mut c_void) -> c_int;
    }
}

/// A call, and its answer after it.
struct Job<F, A> {
    call: Option<F>,
    answer: Option<A>,
}

/// Bytes above the call's part of the stack. The end of the thread, which the call does
/// not know of, writes over some of them and over nothing below.
const ABOVE: usize = 16_384;

extern "C" fn start<F: FnOnce() -> A, A>(given: *mut c_void) -> *mut c_void {
    // Sound: it is the job that `run` made, which waits for this thread and does not touch it meanwhile.
    let job = unsafe { &mut *given.cast::<Job<F, A>>() };
    let mut above = [0u8; ABOVE];
    black_box(&mut above);
    job.go();
    black_box(&mut above);
    ptr::null_mut()
}

impl<F: FnOnce() -> A, A> Job<F, A> {
    /// Below what its caller has on the stack.
    #[inline(never)]
    fn go(&mut self) {
        self.answer = self.call.take().map(|call| call());
    }
}

/// Memory for a stack, between two pages that cannot be read.
pub struct Stack {
    memory: Guarded,
}

impl Stack {
    /// Of so many bytes, which are whole pages.
    pub fn new(bytes: usize) -> Stack {
        assert_eq!(bytes % 4096, 0);
        Stack {
            memory: Guarded::new(&vec![0; bytes / 2]),
        }
    }

    /// The call on this stack, all of which is 0 before it.
    pub fn run<A: Send>(&mut self, call: impl FnOnce() -> A + Send) -> A {
        self.memory.fill(0);
        let job = Job {
            call: Some(call),
            answer: None,
        };
        on_thread(&mut self.memory, job)
    }

    /// What the last call left there, from the lowest address on.
    pub fn left(&self) -> &[u16] {
        &self.memory
    }
}

fn on_thread<F: FnOnce() -> A + Send, A: Send>(stack: &mut [u16], mut job: Job<F, A>) -> A {
    let mut attributes = system::Attributes([0; 128]);
    let mut thread: system::Thread = 0;
    // Sound: stack and job are the thread's alone until it has ended.
    unsafe {
        assert_eq!(system::pthread_attr_init(&mut attributes), 0);
        let size = size_of_val(stack);
        let lowest = stack.as_mut_ptr().cast();
        let set = system::pthread_attr_setstack(&mut attributes, lowest, size);
        assert_eq!(set, 0, "no stack");
        let given = ptr::from_mut(&mut job).cast();
        let created = system::pthread_create(&mut thread, &attributes, start::<F, A>, given);
        assert_eq!(created, 0, "no thread");
        assert_eq!(system::pthread_join(thread, ptr::null_mut()), 0);
        system::pthread_attr_destroy(&mut attributes);
    }
    job.answer.expect("the call ended")
}
