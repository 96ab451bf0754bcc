//! How much stack a call takes: it runs in a thread on memory that was painted before.

use std::ffi::c_void;
use std::ptr;

/// As large as the C library's, or larger.
#[repr(C, align(16))]
struct Attributes([u8; 128]);

type Start = extern "C" fn(*mut c_void) -> *mut c_void;

extern "C" {
    fn pthread_attr_init(attributes: *mut Attributes) -> i32;
    fn pthread_attr_setstack(attributes: *mut Attributes, low: *mut c_void, size: usize) -> i32;
    fn pthread_attr_destroy(attributes: *mut Attributes) -> i32;
    fn pthread_create(
        thread: *mut usize,
        attributes: *const Attributes,
        start: Start,
        argument: *mut c_void,
    ) -> i32;
    fn pthread_join(thread: usize, result: *mut *mut c_void) -> i32;
}

#[repr(C, align(65536))]
#[derive(Clone, Copy)]
struct Page([u8; 65536]);

const PAINT: u8 = 0xA5;

struct Job<'a> {
    call: &'a mut dyn FnMut(),
    /// Where the stack stood just before the call.
    top: usize,
}

#[inline(never)]
extern "C" fn start(argument: *mut c_void) -> *mut c_void {
    let job = unsafe { &mut *argument.cast::<Job>() };
    let here = 0u8;
    job.top = &raw const here as usize;
    (job.call)();
    ptr::null_mut()
}

/// A stack to be painted and used again.
pub struct Stack {
    pages: Vec<Page>,
}

impl Stack {
    /// A size in KiB, a multiple of 64.
    pub fn new(kib: usize) -> Stack {
        Stack {
            pages: vec![Page([PAINT; 65536]); kib / 64],
        }
    }

    /// Runs the call on this stack; how many bytes below its caller were written.
    pub fn used(&mut self, call: &mut dyn FnMut()) -> usize {
        let low = self.pages.as_mut_ptr().cast::<u8>();
        let size = self.pages.len() * 65536;
        let mut job = Job { call, top: 0 };
        let mut attributes = Attributes([0; 128]);
        let mut thread = 0;
        unsafe {
            // What was used the last time is painted anew.
            ptr::write_bytes(low, PAINT, size);
            assert_eq!(pthread_attr_init(&mut attributes), 0);
            assert_eq!(pthread_attr_setstack(&mut attributes, low.cast(), size), 0);
            let argument = (&raw mut job).cast();
            assert_eq!(pthread_create(&mut thread, &attributes, start, argument), 0);
            assert_eq!(pthread_join(thread, ptr::null_mut()), 0);
            assert_eq!(pthread_attr_destroy(&mut attributes), 0);
            let painted = (0..size)
                .take_while(|place| *low.add(*place) == PAINT)
                .count();
            job.top - (low as usize + painted)
        }
    }
}
