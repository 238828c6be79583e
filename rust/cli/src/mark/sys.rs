//! The few calls of the C library that the standard library does not have: limits, groups of processes, orphans, shared memory. Linux on x86-64.

use std::ffi::{c_char, c_void, CString};
use std::io;
use std::os::fd::{AsRawFd, FromRawFd, OwnedFd, RawFd};
use std::time::Duration;

/// A limit: what holds, and the most that may be asked for.
#[repr(C)]
struct RLimit {
    now: u64,
    most: u64,
}

#[repr(C)]
struct PollFd {
    fd: i32,
    events: i16,
    back: i16,
}

/// What a program may use up.
#[derive(Clone, Copy)]
pub struct Limits {
    /// Seconds of processor.
    pub processor: u64,
    /// Bytes of address space.
    pub memory: u64,
    /// Bytes of a file.
    pub file: u64,
    /// Processes of the user, where they are limited.
    pub processes: Option<u64>,
}

const RLIMIT_CPU: i32 = 0;
const RLIMIT_FSIZE: i32 = 1;
const RLIMIT_CORE: i32 = 4;
const RLIMIT_NPROC: i32 = 6;
const RLIMIT_NOFILE: i32 = 7;
const RLIMIT_AS: i32 = 9;
const SIGKILL: i32 = 9;
const WNOHANG: i32 = 1;
const PR_SET_CHILD_SUBREAPER: i32 = 36;
const PR_SET_PDEATHSIG: i32 = 1;
const SYS_PIDFD_OPEN: i64 = 434;
const POLLIN: i16 = 1;
const PROT_NONE: i32 = 0;
const PROT_READ: i32 = 1;
const PROT_WRITE: i32 = 2;
const MAP_SHARED: i32 = 1;
const MAP_FIXED: i32 = 0x10;
const MAP_PRIVATE: i32 = 2;
const MAP_ANONYMOUS: i32 = 0x20;
const RTLD_NOW: i32 = 2;

extern "C" {
    fn setrlimit(what: i32, limit: *const RLimit) -> i32;
    fn setsid() -> i32;
    fn kill(pid: i32, signal: i32) -> i32;
    fn waitpid(pid: i32, status: *mut i32, options: i32) -> i32;
    fn prctl(option: i32, ...) -> i32;
    fn syscall(number: i64, ...) -> i64;
    fn poll(fds: *mut PollFd, count: u64, milliseconds: i32) -> i32;
    fn geteuid() -> u32;
    fn memfd_create(name: *const c_char, flags: u32) -> i32;
    fn mmap(at: *mut c_void, len: usize, prot: i32, flags: i32, fd: i32, from: i64) -> *mut c_void;
    fn mprotect(at: *mut c_void, len: usize, prot: i32) -> i32;
    fn dlopen(name: *const c_char, flags: i32) -> *mut c_void;
    fn dlsym(library: *mut c_void, name: *const c_char) -> *mut c_void;
    fn dlerror() -> *const c_char;
    fn sigaction(signal: i32, action: *const SigAction, old: *mut SigAction) -> i32;
    fn sigaltstack(stack: *const Stack, old: *mut Stack) -> i32;
    fn _exit(status: i32) -> !;
    fn dup(fd: i32) -> i32;
    fn dup2(fd: i32, to: i32) -> i32;
    fn open(name: *const c_char, flags: i32, ...) -> i32;
    fn read(fd: i32, bytes: *mut c_void, len: usize) -> isize;
    fn write(fd: i32, bytes: *const c_void, len: usize) -> isize;
}

/// The user: 0 is root, whose processes are not limited.
pub fn user() -> u32 {
    // SAFETY: the call takes nothing and changes nothing.
    unsafe { geteuid() }
}

/// For a child, before it becomes the program: a session of its own, and its limits. It only makes calls that may be made between fork and exec.
pub fn limit(limits: Limits) -> io::Result<()> {
    let mut wanted = [
        (RLIMIT_CPU, limits.processor),
        (RLIMIT_FSIZE, limits.file),
        (RLIMIT_CORE, 0),
        (RLIMIT_NOFILE, 64),
        (RLIMIT_AS, limits.memory),
        (RLIMIT_CORE, 0),
    ];
    if let Some(processes) = limits.processes {
        wanted[5] = (RLIMIT_NPROC, processes);
    }
    // SAFETY: setsid takes nothing; each limit is a value of this function, which the call only reads.
    unsafe {
        setsid();
        for (what, n) in wanted {
            let limit = RLimit { now: n, most: n };
            if setrlimit(what, &limit) != 0 {
                return Err(io::Error::last_os_error());
            }
        }
    }
    Ok(())
}

/// The same for a compiler: a group of its own and a time, and no other limit but those that it needs.
pub fn limit_compiler(limits: Limits) -> io::Result<()> {
    // SAFETY: setsid takes nothing; each limit is a value of this function, which the call only reads.
    unsafe {
        setsid();
        for (what, n) in [
            (RLIMIT_CPU, limits.processor),
            (RLIMIT_FSIZE, limits.file),
            (RLIMIT_AS, limits.memory),
        ] {
            let limit = RLimit { now: n, most: n };
            if setrlimit(what, &limit) != 0 {
                return Err(io::Error::last_os_error());
            }
        }
    }
    Ok(())
}

/// From now on what a hand-in leaves running becomes a child of this process.
pub fn adopt_orphans() {
    // SAFETY: the call takes numbers alone.
    unsafe { prctl(PR_SET_CHILD_SUBREAPER, 1u64, 0u64, 0u64, 0u64) };
}

/// Ends this process with its parent.
pub fn end_with_parent() {
    // SAFETY: the call takes numbers alone.
    unsafe { prctl(PR_SET_PDEATHSIG, SIGKILL as u64, 0u64, 0u64, 0u64) };
}

/// Waits until a child has ended, at most so long; whether it has. The child is not collected.
pub fn ended_within(pid: u32, time: Duration) -> bool {
    // SAFETY: the call takes numbers alone, and hands back a descriptor that nobody else has.
    let fd = unsafe { syscall(SYS_PIDFD_OPEN, pid as i64, 0i64) };
    if fd < 0 {
        return false;
    }
    // SAFETY: the descriptor was just made, and is closed once.
    let fd = unsafe { OwnedFd::from_raw_fd(fd as RawFd) };
    ready_within(fd.as_raw_fd(), time)
}

/// Waits until something can be read, at most so long.
pub fn ready_within(fd: RawFd, time: Duration) -> bool {
    let mut asked = PollFd {
        fd,
        events: POLLIN,
        back: 0,
    };
    let until = std::time::Instant::now() + time;
    loop {
        let left = until.saturating_duration_since(std::time::Instant::now());
        // SAFETY: one value of this function, which the call writes.
        let ready = unsafe { poll(&mut asked, 1, left.as_millis() as i32 + 1) };
        if ready > 0 {
            return true;
        }
        if left.is_zero() {
            return false;
        }
    }
}

/// Ends a group of processes.
pub fn end_group(pid: u32) {
    // SAFETY: the call takes numbers alone. The group is that of a child of ours, which began a session of its own.
    unsafe { kill(-(pid as i32), SIGKILL) };
}

/// Ends and collects every child that is left: what a hand-in left running has become one. How many there were at once, at most.
pub fn end_orphans() -> usize {
    let mut most = 0;
    for _ in 0..200 {
        let mut status = 0;
        // SAFETY: the status is a value of this function, which the call writes.
        match unsafe { waitpid(-1, &mut status, WNOHANG) } {
            0 => {
                let left = children();
                most = most.max(left.len());
                for pid in left {
                    // SAFETY: the call takes numbers alone, and the process is a child of ours.
                    unsafe { kill(pid, SIGKILL) };
                }
                std::thread::sleep(Duration::from_millis(2));
            }
            collected if collected > 0 => {}
            _ => break,
        }
    }
    most
}

/// Our children, by what the system says of every process.
fn children() -> Vec<i32> {
    let own = std::process::id().to_string();
    let entries = std::fs::read_dir("/proc").into_iter().flatten().flatten();
    let pids = entries.filter_map(|entry| entry.file_name().to_str()?.parse::<i32>().ok());
    let parent = |pid: &i32| {
        let text = std::fs::read_to_string(format!("/proc/{pid}/stat")).unwrap_or_default();
        let (_, after) = text.rsplit_once(") ").unwrap_or_default();
        let mut words = after.split(' ');
        words.next() != Some("Z") && words.next() == Some(&own)
    };
    pids.filter(parent).collect()
}

/// How many processes the user has.
pub fn processes(user: u32) -> u64 {
    use std::os::unix::fs::MetadataExt;
    let entries = std::fs::read_dir("/proc").into_iter().flatten().flatten();
    let own = entries.filter(|entry| {
        let number = entry
            .file_name()
            .to_string_lossy()
            .bytes()
            .all(|c| c.is_ascii_digit());
        number && entry.metadata().is_ok_and(|found| found.uid() == user)
    });
    own.count() as u64
}

/// A file in memory, which a child can be handed.
pub fn shared_file(len: usize) -> io::Result<OwnedFd> {
    // SAFETY: the name is a text with its end, and the descriptor that comes back is ours alone.
    let fd = unsafe { memfd_create(c"vantorel".as_ptr(), 0) };
    if fd < 0 {
        return Err(io::Error::last_os_error());
    }
    // SAFETY: the descriptor was just made, and is closed once.
    let fd = unsafe { OwnedFd::from_raw_fd(fd) };
    std::fs::File::from(fd.try_clone()?).set_len(len as u64)?;
    Ok(fd)
}

/// The bytes of a page of the machine.
pub const PAGE: usize = 4096;

/// Parts of a shared file, each between two pages that may not be touched.
pub struct Shared {
    parts: Vec<(*mut u8, usize)>,
}

impl Shared {
    /// Maps parts of so many pages each, one after the other in the file.
    pub fn map(fd: RawFd, pages: &[usize]) -> io::Result<Shared> {
        let mut parts = Vec::new();
        let mut from = 0;
        for count in pages {
            let len = count * PAGE;
            // SAFETY: new addresses for the part and a page before and after it; then, within them, the part of the file, which has this length.
            let at = unsafe {
                let all = mmap(
                    std::ptr::null_mut(),
                    len + 2 * PAGE,
                    PROT_NONE,
                    MAP_PRIVATE | MAP_ANONYMOUS,
                    -1,
                    0,
                );
                if all as isize == -1 {
                    return Err(io::Error::last_os_error());
                }
                let at = all.cast::<u8>().add(PAGE);
                let inside = mmap(
                    at.cast(),
                    len,
                    PROT_READ | PROT_WRITE,
                    MAP_SHARED | MAP_FIXED,
                    fd,
                    from as i64,
                );
                if inside as isize == -1 {
                    return Err(io::Error::last_os_error());
                }
                at
            };
            parts.push((at, len));
            from += len;
        }
        Ok(Shared { parts })
    }

    /// The bytes of a part.
    pub fn part(&mut self, k: usize) -> &mut [u8] {
        let (at, len) = self.parts[k];
        // SAFETY: the part is mapped for as long as this value is there, and is lent with it. Another process writes it only between a question and
        // its answer, and this one reads and writes it only before and after.
        unsafe { std::slice::from_raw_parts_mut(at, len) }
    }

    /// Where a part begins, and its bytes.
    pub fn address(&self, k: usize) -> (*mut u8, usize) {
        self.parts[k]
    }

    /// A part may be read from now on, and not written.
    pub fn read_only(&self, k: usize) {
        let (at, len) = self.parts[k];
        // SAFETY: the part is mapped.
        unsafe { mprotect(at.cast(), len, PROT_READ) };
    }
}

/// A function of a shared library. Opening it runs its code.
pub fn function(library: &str, name: &str) -> Result<*mut c_void, String> {
    let text = |words: &str| CString::new(words).map_err(|_| "a name with a zero byte".to_string());
    let (library, name) = (text(library)?, text(name)?);
    // SAFETY: the names are texts with their ends; what dlerror hands back is such a text, or none.
    unsafe {
        let opened = dlopen(library.as_ptr(), RTLD_NOW);
        if opened.is_null() {
            let why = dlerror();
            let why = match why.is_null() {
                true => "it cannot be opened".into(),
                false => std::ffi::CStr::from_ptr(why).to_string_lossy().into_owned(),
            };
            return Err(why);
        }
        let found = dlsym(opened, name.as_ptr());
        match found.is_null() {
            true => Err(format!("it has no function {}", name.to_string_lossy())),
            false => Ok(found),
        }
    }
}

#[repr(C)]
struct SigAction {
    handler: usize,
    mask: [u64; 16],
    flags: i32,
    restorer: usize,
}

#[repr(C)]
struct Stack {
    at: *mut c_void,
    flags: i32,
    size: usize,
}

const SA_SIGINFO: i32 = 4;
const SA_ONSTACK: i32 = 0x0800_0000;

/// The signals of a program that does what it may not.
pub const FAULTS: [(i32, &str); 5] = [
    (11, "SIGSEGV"),
    (7, "SIGBUS"),
    (8, "SIGFPE"),
    (4, "SIGILL"),
    (6, "SIGABRT"),
];

/// The name of a signal.
pub fn signal_name(signal: i32) -> String {
    let more = [
        (9, "SIGKILL"),
        (25, "SIGXFSZ"),
        (24, "SIGXCPU"),
        (15, "SIGTERM"),
        (13, "SIGPIPE"),
    ];
    let found = FAULTS
        .iter()
        .chain(&more)
        .find(|(number, _)| *number == signal);
    found.map_or_else(
        || format!("signal {signal}"),
        |(_, name)| (*name).to_string(),
    )
}

/// Calls a handler at every fault, on a stack of its own.
pub fn on_fault(handler: extern "C" fn(i32, *const u8, *const c_void)) {
    let stack = Box::leak(vec![0u8; 1 << 16].into_boxed_slice());
    let stack = Stack {
        at: stack.as_mut_ptr().cast(),
        flags: 0,
        size: stack.len(),
    };
    let action = SigAction {
        handler: handler as usize,
        mask: [0; 16],
        flags: SA_SIGINFO | SA_ONSTACK,
        restorer: 0,
    };
    // SAFETY: the stack is never freed, and the handler has the form that SA_SIGINFO asks for; the layouts are those of glibc on x86-64.
    unsafe {
        sigaltstack(&stack, std::ptr::null_mut());
        for (signal, _) in FAULTS {
            sigaction(signal, &action, std::ptr::null_mut());
        }
    }
}

/// The address of a fault, from what a handler is handed.
///
/// # Safety
///
/// `info` is what the system handed to a handler.
pub unsafe fn fault_address(info: *const u8) -> usize {
    // SAFETY: si_addr stands at byte 16.
    unsafe { info.add(16).cast::<usize>().read_unaligned() }
}

/// Ends the process at once.
pub fn leave(status: i32) -> ! {
    // SAFETY: the call takes a number, and does not come back.
    unsafe { _exit(status) }
}

/// Standard output under another number. What prints to standard output afterwards prints to nothing.
pub fn keep_output() -> i32 {
    // SAFETY: the name is a text with its end; the other calls take numbers alone.
    unsafe {
        let kept = dup(1);
        let nothing = open(c"/dev/null".as_ptr(), 1);
        dup2(nothing, 1);
        kept
    }
}

/// Writes a byte.
pub fn say(fd: i32, byte: u8) {
    say_all(fd, &[byte]);
}

/// Writes some bytes.
pub fn say_all(fd: i32, bytes: &[u8]) {
    // SAFETY: the bytes are there for as long as the call lasts.
    unsafe { write(fd, bytes.as_ptr().cast(), bytes.len()) };
}

/// Waits for a byte of standard input; whether one came.
pub fn heard() -> bool {
    let mut byte = [0u8];
    // SAFETY: one byte of this function, which the call writes.
    unsafe { read(0, byte.as_mut_ptr().cast(), 1) == 1 }
}
