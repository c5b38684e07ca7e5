//! What the driver calls of the C library, behind functions without `unsafe`: a thread's clock, shared libraries,
//! threads on a stack that is given to them, and files in memory.
use std::ffi::{c_char, c_int, c_void, CString};
use std::fs::File;
use std::hint::black_box;
use std::io;
use std::os::fd::AsRawFd;

#[repr(C)]
struct Time {
    seconds: i64,
    nanoseconds: i64,
}

/// As large as the C library's own on x86-64.
#[repr(C)]
struct ThreadAttributes([u64; 7]);

extern "C" {
    fn clock_gettime(clock: c_int, time: *mut Time) -> c_int;
    fn dlopen(file: *const c_char, flags: c_int) -> *mut c_void;
    fn dlsym(library: *mut c_void, name: *const c_char) -> *mut c_void;
    fn pthread_attr_init(attributes: *mut ThreadAttributes) -> c_int;
    fn pthread_attr_setstack(attributes: *mut ThreadAttributes, stack: *mut c_void, size: usize) -> c_int;
    fn pthread_create(
        thread: *mut u64,
        attributes: *const ThreadAttributes,
        start: extern "C" fn(*mut c_void) -> *mut c_void,
        argument: *mut c_void,
    ) -> c_int;
    fn pthread_join(thread: u64, answer: *mut *mut c_void) -> c_int;
    fn mmap(at: *mut c_void, size: usize, access: c_int, kind: c_int, file: c_int, from: i64) -> *mut c_void;
}

const CLOCK_THREAD_CPUTIME_ID: c_int = 3;
const RTLD_NOW: c_int = 2;
const PROT_READ: c_int = 1;
const MAP_SHARED: c_int = 1;

/// The processor time of this thread in seconds: unlike the time of day it does not grow while
/// other programs run.
pub fn thread_time() -> f64 {
    let mut time = Time {
        seconds: 0,
        nanoseconds: 0,
    };
    let done = unsafe { clock_gettime(CLOCK_THREAD_CPUTIME_ID, &mut time) };
    assert_eq!(done, 0, "the system has a clock for each thread");
    time.seconds as f64 + time.nanoseconds as f64 * 1e-9
}

/// A shared library, loaded until the process ends.
pub struct Library(*mut c_void);

impl Library {
    /// The library at this path, or none where it is not there.
    pub fn load(path: &str) -> Option<Library> {
        let file = CString::new(path).ok()?;
        let library = unsafe { dlopen(file.as_ptr(), RTLD_NOW) };
        (!library.is_null()).then_some(Library(library))
    }

    /// What the library has under this name.
    pub fn find(&self, name: &str) -> Option<*mut c_void> {
        let name = CString::new(name).ok()?;
        let found = unsafe { dlsym(self.0, name.as_ptr()) };
        (!found.is_null()).then_some(found)
    }
}

/// A piece of work on a thread of its own, the lowest byte that it may write, and how much of the stack it took.
struct Job<'a> {
    work: &'a mut dyn FnMut(),
    lowest: *mut u8,
    taken: usize,
}

/// The bytes next below the frame of `start` that are not painted, since it may use them itself.
pub const NEAR: usize = 256;
const PAINT: u8 = 0xa5;

/// Paints all that lies below this frame, does the work, and looks how far the paint is gone. What the thread itself
/// takes before and after is left out.
extern "C" fn start(argument: *mut c_void) -> *mut c_void {
    let job = unsafe { &mut *(argument as *mut Job) };
    let mut here = 0u8;
    let frame = black_box(&mut here as *mut u8) as usize;
    let below = frame - job.lowest as usize;
    let painted = below - NEAR;
    for i in 0..painted {
        unsafe { job.lowest.add(i).write_volatile(PAINT) };
    }
    (job.work)();
    let left = (0..painted).take_while(|&i| unsafe { job.lowest.add(i).read_volatile() } == PAINT);
    job.taken = below - left.count();
    std::ptr::null_mut()
}

/// A piece of a stack, aligned as a thread's stack is to be.
#[derive(Clone)]
#[repr(align(64))]
struct Line(#[allow(dead_code)] [u8; 64]);

/// Runs a piece of work on a thread with a stack of this size, and answers how many bytes of it the work took, `NEAR`
/// at least. Work that needs more than the stack takes of the bytes `below` it, and is seen.
pub fn stack_taken(size: usize, below: usize, work: &mut dyn FnMut()) -> usize {
    let mut memory = vec![Line([0; 64]); (below + size) / 64];
    let lowest = memory.as_mut_ptr() as *mut u8;
    let mut job = Job {
        work,
        lowest,
        taken: 0,
    };
    let mut attributes = ThreadAttributes([0; 7]);
    let mut thread = 0;
    unsafe {
        assert_eq!(pthread_attr_init(&mut attributes), 0);
        let stack = lowest.add(below) as *mut c_void;
        assert_eq!(pthread_attr_setstack(&mut attributes, stack, size), 0);
        let argument = &mut job as *mut Job as *mut c_void;
        assert_eq!(pthread_create(&mut thread, &attributes, start, argument), 0);
        assert_eq!(pthread_join(thread, std::ptr::null_mut()), 0);
    }
    job.taken
}

/// The address of so many bytes of memory that show a file. Those behind the file's last page cannot be read.
pub fn map(file: &File, size: usize) -> io::Result<usize> {
    let at = unsafe {
        mmap(
            std::ptr::null_mut(),
            size,
            PROT_READ,
            MAP_SHARED,
            file.as_raw_fd(),
            0,
        )
    };
    if at as isize == -1 {
        return Err(io::Error::last_os_error());
    }
    Ok(at as usize)
}
