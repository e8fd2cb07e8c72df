//! What the operating system lends: memory without a name that two processes map, waiting, locks, and signals. The C library's functions
//! are declared by hand, so that no crate is fetched.

use std::ffi::{c_char, c_void};
use std::fs::File;
use std::io;
use std::os::fd::{AsRawFd, FromRawFd, RawFd};
use std::slice;
use std::sync::atomic::{AtomicBool, AtomicU64, Ordering};
use std::thread;
use std::time::Duration;

extern "C" {
    fn mmap(addr: *mut c_void, len: usize, prot: i32, flags: i32, fd: i32, offset: i64) -> *mut c_void;
    fn munmap(addr: *mut c_void, len: usize) -> i32;
    fn poll(fds: *mut PollFd, count: u64, timeout: i32) -> i32;
    fn memfd_create(name: *const c_char, flags: u32) -> i32;
    fn sched_getcpu() -> i32;
    fn flock(fd: i32, operation: i32) -> i32;
    fn prctl(option: i32, ...) -> i32;
    fn signal(number: i32, handler: usize) -> usize;
    fn _exit(status: i32) -> !;
}

const PROT_READ: i32 = 1;
const PROT_WRITE: i32 = 2;
const MAP_SHARED: i32 = 0x01;
const MAP_POPULATE: i32 = 0x8000;
const POLLIN: i16 = 1;
const LOCK_EX: i32 = 2;
const LOCK_NB: i32 = 4;
const PR_SET_PDEATHSIG: i32 = 1;
const SIGHUP: i32 = 1;
const SIGINT: i32 = 2;
const SIGKILL: u64 = 9;
const SIGTERM: i32 = 15;
/// Opens no symbolic link.
pub const O_NOFOLLOW: i32 = 0x20000;

#[repr(C)]
struct PollFd {
    fd: i32,
    events: i16,
    revents: i16,
}

/// Waits until the socket can be read; at most a tenth of a second.
pub fn wait(fd: RawFd) {
    let mut fds = PollFd { fd, events: POLLIN, revents: 0 };
    // SAFETY: one entry, which outlives the call.
    unsafe { poll(&mut fds, 1, 100) };
}

/// The processor that we run on.
pub fn processor() -> u64 {
    // SAFETY: asks, and no memory is touched.
    unsafe { sched_getcpu() as u64 }
}

/// Memory without a name, which the processes that we start inherit: it is gone when the last of them ends, however that comes.
pub fn memory_file() -> io::Result<File> {
    // SAFETY: a name that ends with a zero; the descriptor is new, and ours.
    unsafe {
        match memfd_create(c"plate".as_ptr(), 0) {
            fd if fd < 0 => Err(io::Error::last_os_error()),
            fd => Ok(File::from_raw_fd(fd)),
        }
    }
}

/// Locks a file until it is closed; false where another process has locked it.
pub fn lock(file: &File) -> bool {
    // SAFETY: an open descriptor.
    unsafe { flock(file.as_raw_fd(), LOCK_EX | LOCK_NB) == 0 }
}

/// This process is killed when the one that started it ends. False where that has ended already.
pub fn end_with(parent: u32) -> bool {
    // SAFETY: sets the signal that this process gets, and no memory is touched.
    unsafe { prctl(PR_SET_PDEATHSIG, SIGKILL) };
    std::os::unix::process::parent_id() == parent
}

static STOPPED: AtomicBool = AtomicBool::new(false);

extern "C" fn stop(number: i32) {
    if STOPPED.swap(true, Ordering::AcqRel) {
        // SAFETY: the second signal ends the process at once.
        unsafe { _exit(128 + number) };
    }
}

/// From now on the first signal that asks us to end is kept for `stopped`.
pub fn keep_signals() {
    for number in [SIGHUP, SIGINT, SIGTERM] {
        // SAFETY: the handler touches one atomic.
        unsafe { signal(number, stop as *const () as usize) };
    }
}

/// Whether we were asked to end.
pub fn stopped() -> bool {
    STOPPED.load(Ordering::Acquire)
}

/// Waiting for a counter that another process moves: some turns at once, then the processor is left to others, then sleep.
#[derive(Default)]
pub struct Patience(u32);

impl Patience {
    pub fn wait(&mut self) {
        match self.0 {
            0..100 => std::hint::spin_loop(),
            100..200 => thread::yield_now(),
            _ => thread::sleep(Duration::from_micros(100)),
        }
        self.0 = self.0.saturating_add(1);
    }

    /// Something came.
    pub fn again(&mut self) {
        self.0 = 0;
    }
}

/// A file mapped by several processes at once. It is handed out as raw pointers, since the others may write to it at any time.
pub struct Map {
    start: *mut u8,
    len: usize,
}

impl Map {
    /// The whole file, its pages touched.
    pub fn of(file: &File, writes: bool) -> io::Result<Map> {
        let len = file.metadata()?.len() as usize;
        if len == 0 {
            return Ok(Map { start: std::ptr::NonNull::dangling().as_ptr(), len });
        }
        let prot = if writes { PROT_READ | PROT_WRITE } else { PROT_READ };
        // SAFETY: a new mapping at an address of the system's choice.
        let start = unsafe { mmap(std::ptr::null_mut(), len, prot, MAP_SHARED | MAP_POPULATE, file.as_raw_fd(), 0) };
        if start as isize == -1 {
            return Err(io::Error::last_os_error());
        }
        Ok(Map { start: start.cast(), len })
    }

    pub fn len(&self) -> usize {
        self.len
    }

    /// Where a part of it begins.
    pub fn part(&self, at: usize, len: usize) -> *mut u8 {
        assert!(at <= self.len && len <= self.len - at, "a part of the mapping");
        // SAFETY: within the mapping.
        unsafe { self.start.add(at) }
    }

    /// The bytes of a file that nobody writes while it is mapped.
    ///
    /// # Safety
    ///
    /// No process may write to the file while the slice is held.
    pub unsafe fn bytes(&self) -> &[u8] {
        slice::from_raw_parts(self.start, self.len)
    }

    /// The bytes of a file that this process alone writes and reads.
    ///
    /// # Safety
    ///
    /// No other process may write to the file while the slice is held, and no other slice of it may be held here.
    #[allow(clippy::mut_from_ref)]
    pub unsafe fn own_bytes(&self) -> &mut [u8] {
        slice::from_raw_parts_mut(self.start, self.len)
    }

    /// Counters that every process reads and writes.
    pub fn counters(&self, at: usize, count: usize) -> &[AtomicU64] {
        let start = self.part(at, count * 8);
        assert_eq!(start as usize % 8, 0, "counters are aligned");
        // SAFETY: within the mapping, aligned, and only ever used as atomics.
        unsafe { slice::from_raw_parts(start.cast(), count) }
    }
}

impl Drop for Map {
    fn drop(&mut self) {
        if self.len > 0 {
            // SAFETY: our own mapping; whoever borrows from it borrows `self`.
            unsafe { munmap(self.start.cast(), self.len) };
        }
    }
}
