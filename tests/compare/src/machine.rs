//! What machine.c gives: lent memory in two views, and the stack of a call. What is unsafe stands here and in `library`.

use std::ffi::{c_char, c_void, CString};

pub const PAGE: usize = 4096;

#[repr(C)]
struct RawStack {
    _private: [u8; 0],
}

extern "C" {
    fn machine_doing(name: *const c_char);
    fn machine_lend(pages: usize, views: *mut *mut u8);
    fn machine_return(pages: usize, views: *const *mut u8);
    fn machine_hold_at(pages: *const *mut u8);
    fn machine_wait_for_held();
    fn machine_let_go_on();
    fn machine_was_held() -> i32;
    fn machine_stack() -> *mut RawStack;
    fn machine_stack_return(stack: *mut RawStack);
    fn machine_call(stack: *mut RawStack, what: extern "C" fn(*mut c_void), with: *mut c_void) -> usize;
}

/// Say what is being done from now on: the program's last words, should the library touch what it may not.
pub fn doing(name: &str) {
    let name = CString::new(name).expect("a name has no zero byte");
    // SAFETY: the text ends with a zero byte, and is copied.
    unsafe { machine_doing(name.as_ptr()) }
}

/// Wait until the call that is to be held up is.
pub fn wait_for_held() {
    // SAFETY: no conditions.
    unsafe { machine_wait_for_held() }
}

/// Let the call go on that is held up.
pub fn let_go_on() {
    // SAFETY: no conditions.
    unsafe { machine_let_go_on() }
}

/// After a call: whether it was held up. Whoever waits for that waits no longer.
pub fn was_held() -> bool {
    // SAFETY: no conditions.
    unsafe { machine_was_held() != 0 }
}

/// Memory between pages without access, twice: to be written, and only to be read.
pub struct Memory {
    views: [*mut u8; 2],
    pages: usize,
}

// SAFETY: the memory is this value's own.
unsafe impl Send for Memory {}

impl Memory {
    pub fn new(bytes: usize) -> Memory {
        let mut memory = Memory { views: [std::ptr::null_mut(); 2], pages: bytes.div_ceil(PAGE).max(1) };
        // SAFETY: there is room for two pointers.
        unsafe { machine_lend(memory.pages, memory.views.as_mut_ptr()) }
        memory
    }

    pub fn len(&self) -> usize {
        self.pages * PAGE
    }

    pub fn bytes(&self) -> &[u8] {
        // SAFETY: so many bytes were lent, and only a call of the library, which borrows this value, writes them otherwise.
        unsafe { std::slice::from_raw_parts(self.views[0], self.len()) }
    }

    pub fn bytes_mut(&mut self) -> &mut [u8] {
        // SAFETY: as above.
        unsafe { std::slice::from_raw_parts_mut(self.views[0], self.len()) }
    }

    /// The next call that touches the page of this byte is held up there. One at a time.
    pub fn hold_at(&mut self, place: usize) {
        assert!(place < self.len());
        let pages = self.views.map(|view| view.wrapping_add(place / PAGE * PAGE));
        // SAFETY: two views of one page, which is this value's.
        unsafe { machine_hold_at(pages.as_ptr()) }
    }

    /// Where the library is to find the byte at this place.
    pub fn pointer(&mut self, place: usize, read_only: bool) -> *mut u8 {
        assert!(place <= self.len());
        self.views[usize::from(read_only)].wrapping_add(place)
    }
}

impl Drop for Memory {
    fn drop(&mut self) {
        // SAFETY: what was lent for so many pages.
        unsafe { machine_return(self.pages, self.views.as_ptr()) }
    }
}

/// A stack of 64 KiB.
pub struct Stack(*mut RawStack);

// SAFETY: the stack is this value's own.
unsafe impl Send for Stack {}

impl Stack {
    pub fn new() -> Stack {
        // SAFETY: no conditions.
        Stack(unsafe { machine_stack() })
    }

    /// Run on this stack. Answers what it answers, and how many bytes of the stack it took.
    pub fn run<T>(&mut self, what: impl FnOnce() -> T) -> (T, usize) {
        let mut task = Task { what: Some(what), answer: None };
        // SAFETY: the task outlives the call, and `perform` takes it for what it is.
        let taken = unsafe { machine_call(self.0, perform_of(&task), (&raw mut task).cast()) };
        (task.answer.expect("it was run"), taken)
    }
}

impl Drop for Stack {
    fn drop(&mut self) {
        // SAFETY: it was made by machine_stack.
        unsafe { machine_stack_return(self.0) }
    }
}

struct Task<F, T> {
    what: Option<F>,
    answer: Option<T>,
}

/// The function for a task of this type.
fn perform_of<F: FnOnce() -> T, T>(_: &Task<F, T>) -> extern "C" fn(*mut c_void) {
    perform::<F, T>
}

extern "C" fn perform<F: FnOnce() -> T, T>(task: *mut c_void) {
    // SAFETY: `Stack::run` passes a task of this type, and waits.
    let task = unsafe { &mut *task.cast::<Task<F, T>>() };
    task.answer = task.what.take().map(|what| what());
}
