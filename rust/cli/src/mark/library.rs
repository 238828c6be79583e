//! A library that was handed in: `uf2_take` of include/uf2_receiver.h, called in a process of its own over shared memory. Each buffer lies against a page
//! that may not be touched, and what may not be written cannot be.

use super::diagnose::first_byte;
use super::judge::{Byte, Got, Kind, Player};
use super::list::{List, Play};
use super::right::{Answer, Memory, Played};
use super::run::{Program, Room};
use super::sys::{self, Shared, PAGE};
use std::ffi::c_void;
use std::io::{Read, Write};
use std::os::fd::{AsRawFd, OwnedFd};
use std::os::unix::process::{CommandExt, ExitStatusExt};
use std::process::{Child, Stdio};
use std::sync::atomic::{AtomicUsize, Ordering};
use std::time::Duration;

/// The word by which the tool calls itself to open a library.
pub const WORD: &str = "--mark-library";

/// The buffers of a call, in its order, and the pages that the largest of them needs.
const BUFFERS: [(&str, usize); 8] = [
    ("settings", 1),
    ("transfer", 1),
    ("arrival", 1),
    ("flash", 8194),
    ("seen map", 5),
    ("sector map", 1),
    ("main RAM", 131),
    ("XIP RAM", 5),
];
/// The part of the shared memory by which the two processes speak.
const TALK: usize = 8;
/// In it, words of 64 bits: the lengths of the buffers, the side, the result, a signal, and where it was.
const SIDE: usize = 8;
const RESULT: usize = 9;
const SIGNAL: usize = 10;
const PART: usize = 11;
const OFFSET: usize = 12;
const NO_PART: u64 = 99;

/// The time for a call.
const CALL: Duration = Duration::from_secs(2);
/// So many calls are made twice, with either end of each buffer against such a page; later ones by turns.
const BOTH_SIDES: u64 = 20_000;

fn pages() -> Vec<usize> {
    let each = BUFFERS.iter().map(|(_, pages)| *pages);
    each.chain([1]).collect()
}

/// Plays lists by a library.
pub struct Library {
    program: Program,
    file: OwnedFd,
    shared: Shared,
    child: Option<Running>,
    calls: u64,
    late: u32,
}

/// A process that has the library open.
struct Running {
    child: Child,
    _room: Room,
}

/// What a call came to.
enum Called {
    Answer(u32),
    Fault(Kind, String),
}

impl Library {
    /// Those of a library, whose path is the program's one word.
    pub fn new(program: Program) -> std::io::Result<Library> {
        let pages = pages();
        let file = sys::shared_file(pages.iter().sum::<usize>() * PAGE)?;
        let shared = Shared::map(file.as_raw_fd(), &pages)?;
        Ok(Library {
            program,
            file,
            shared,
            child: None,
            calls: 0,
            late: 0,
        })
    }

    fn start(&mut self) -> Result<(), String> {
        let room = Room::new().map_err(|why| why.to_string())?;
        let tool = std::env::current_exe().map_err(|why| why.to_string())?;
        let mut program = self.program.clone();
        let inside = match program.bwrap {
            true => "/vantorel".to_string(),
            false => tool.to_string_lossy().into_owned(),
        };
        program.binds.push((tool, "/vantorel".into()));
        let fd = self.file.as_raw_fd().to_string();
        program.words = vec![inside, WORD.into(), self.program.words[0].clone(), fd];
        let mut command = program.command(room.path(), &[]);
        command
            .stdin(Stdio::piped())
            .stdout(Stdio::piped())
            .stderr(Stdio::null());
        let mut limits = program.limits;
        // many calls are one process
        limits.processor = 110;
        limits.memory += 256 << 20;
        // SAFETY: what is done between fork and exec makes system calls alone, and allocates nothing.
        unsafe { command.pre_exec(move || sys::limit(limits)) };
        let mut child = command.spawn().map_err(|why| why.to_string())?;
        // it says that it is ready, or why not
        let ready = match child.stdout.as_mut() {
            Some(out) if sys::ready_within(out.as_raw_fd(), Duration::from_secs(10)) => {
                let mut first = [0];
                out.read_exact(&mut first).is_ok_and(|()| first == *b"r")
            }
            _ => false,
        };
        if ready {
            self.child = Some(Running { child, _room: room });
            return Ok(());
        }
        let mut why = String::new();
        if let Some(out) = child.stdout.as_mut() {
            let _ = out.take(300).read_to_string(&mut why);
        }
        end(&mut child);
        Err(match why.is_empty() {
            true => "the library could not be opened".into(),
            false => format!(
                "the library could not be opened: {}",
                super::program::short(&why)
            ),
        })
    }

    /// One call, with the ends of the buffers against a page that may not be touched, or their starts.
    fn call(&mut self, memory: &mut Memory, arrival: &[u8], at_end: bool) -> Called {
        if self.child.is_none() {
            if let Err(why) = self.start() {
                return Called::Fault(Kind::Crash, why);
            }
        }
        self.calls += 1;
        let lent: [&[u8]; 8] = [
            &memory.settings,
            &memory.transfer,
            arrival,
            &memory.flash,
            &memory.seen,
            &memory.sectors,
            &memory.main,
            &memory.xip,
        ];
        let mut talk = [0u64; 13];
        for (k, bytes) in lent.iter().enumerate() {
            talk[k] = bytes.len() as u64;
            let part = self.shared.part(k);
            let from = if at_end { part.len() - bytes.len() } else { 0 };
            part[from..from + bytes.len()].copy_from_slice(bytes);
        }
        talk[SIDE] = at_end.into();
        self.tell(&talk);
        let called = self.ask();
        if let Called::Answer(_) = called {
            let written = [
                (1, &mut memory.transfer),
                (3, &mut memory.flash),
                (4, &mut memory.seen),
                (5, &mut memory.sectors),
                (6, &mut memory.main),
                (7, &mut memory.xip),
            ];
            for (k, bytes) in written {
                let part = self.shared.part(k);
                let from = if at_end { part.len() - bytes.len() } else { 0 };
                let len = bytes.len();
                bytes.copy_from_slice(&part[from..from + len]);
            }
        }
        called
    }

    fn tell(&mut self, talk: &[u64]) {
        for (word, x) in self.shared.part(TALK).chunks_exact_mut(8).zip(talk) {
            word.copy_from_slice(&x.to_le_bytes());
        }
    }

    fn told(&mut self, at: usize) -> u64 {
        let bytes = &self.shared.part(TALK)[8 * at..8 * at + 8];
        bytes.try_into().map_or(0, u64::from_le_bytes)
    }

    /// The question asked, and its answer waited for.
    fn ask(&mut self) -> Called {
        let time = if self.late < 3 { CALL } else { CALL / 4 };
        let Some(running) = self.child.as_mut() else {
            return Called::Fault(Kind::Crash, "the library is not open".into());
        };
        let (Some(to), Some(from)) = (running.child.stdin.as_mut(), running.child.stdout.as_mut())
        else {
            return Called::Fault(Kind::Crash, "the library is not open".into());
        };
        let mut said = [0];
        let asked = to.write_all(b"g").and_then(|()| to.flush()).is_ok();
        if asked && !sys::ready_within(from.as_raw_fd(), time) {
            self.late += 1;
            self.fresh();
            let seconds = if time == CALL {
                "2 seconds"
            } else {
                "0.5 seconds"
            };
            return Called::Fault(Kind::NoEnd, format!("no end within {seconds}"));
        }
        let read = from.read_exact(&mut said).is_ok();
        match (asked && read, said[0]) {
            (true, b'a') => Called::Answer(self.told(RESULT) as u32),
            (true, _) => {
                let fault = self.fault();
                self.fresh();
                fault
            }
            (false, _) => {
                let why = self.ended();
                Called::Fault(Kind::Crash, why)
            }
        }
    }

    /// Where the library did what it may not.
    fn fault(&mut self) -> Called {
        let name = sys::signal_name(self.told(SIGNAL) as i32);
        let (part, offset) = (self.told(PART), self.told(OFFSET) as i64);
        let Some((buffer, _)) = BUFFERS.get(part as usize) else {
            return Called::Fault(
                Kind::Crash,
                format!("it crashed: {name}, at no buffer that it was lent"),
            );
        };
        let len = self.told(part as usize);
        let bytes = crate::number::count(len, "byte");
        let what = match (0..len as i64).contains(&offset) {
            true => format!("{name} at byte {offset} of the {buffer}, which it may not write"),
            false => format!("{name} at byte {offset} of the {buffer}, which has {bytes}"),
        };
        Called::Fault(Kind::Outside, what)
    }

    /// How the process ended by itself.
    fn ended(&mut self) -> String {
        let Some(mut running) = self.child.take() else {
            return "it ended".into();
        };
        let in_time = sys::ended_within(running.child.id(), Duration::from_millis(500));
        let status = if in_time {
            running.child.try_wait().ok().flatten()
        } else {
            None
        };
        end(&mut running.child);
        match status.map(|status| (status.code(), status.signal())) {
            Some((Some(code), _)) => format!("it ended the process, with status {code}"),
            Some((_, Some(signal))) => format!("it crashed: {}", sys::signal_name(signal)),
            _ => "it ended the process".into(),
        }
    }

    /// Plays a list.
    fn list(&mut self, list: &List, at_end: bool) -> Got {
        let mut got = Got::default();
        let (mut own, mut right) = (list.boards(), list.boards());
        let mut right_so_far = true;
        for (call, (board, k)) in list.calls().into_iter().enumerate() {
            let arrival = &list.arrivals[k];
            let before = own[board].clone();
            let answer = match self.call(&mut own[board], arrival, at_end) {
                Called::Answer(result) => Answer::of(result),
                Called::Fault(kind, why) => {
                    got.fault = Some((kind, why));
                    return got;
                }
            };
            right_so_far &= answer == right[board].take(arrival);
            got.answers.push(answer);
            let byte = |(buffer, at, got, right): (usize, usize, u8, u8)| Byte {
                call,
                buffer,
                at,
                got,
                right,
            };
            if right_so_far && got.bytes.is_none() {
                got.bytes = first_byte(&own[board], &right[board]).map(byte);
                right_so_far &= got.bytes.is_none();
            }
            if answer.is_refusal() && got.changed.is_none() {
                got.changed = first_byte(&own[board], &before).map(byte);
            }
        }
        got.end = own[0].end().line();
        got
    }
}

/// Ends a process and all that is left of it.
fn end(child: &mut Child) {
    sys::end_group(child.id());
    let _ = child.kill();
    let _ = child.wait();
    sys::end_orphans();
}

impl Drop for Library {
    fn drop(&mut self) {
        self.fresh();
    }
}

impl Player for Library {
    fn play(&mut self, play: &Play, _right: &Played) -> Got {
        let Play::Uf2(list) = play else {
            return Got::default();
        };
        let both = self.calls < BOTH_SIDES;
        let got = self.list(list, both || self.calls % 2 == 0);
        if !both || got.fault.is_some() {
            return got;
        }
        let again = self.list(list, false);
        match again.fault {
            Some(_) => again,
            None => got,
        }
    }

    fn runs(&self) -> u64 {
        self.calls
    }

    fn runs_twice(&self) -> bool {
        false
    }

    fn fresh(&mut self) {
        if let Some(mut running) = self.child.take() {
            end(&mut running.child);
        }
    }
}

/// What `uf2_take` is.
type Take = unsafe extern "C" fn(
    *const u8,
    u64,
    *mut u8,
    u64,
    *const u8,
    u64,
    *mut u8,
    u64,
    *mut u8,
    u64,
    *mut u8,
    u64,
    *mut u8,
    u64,
    *mut u8,
    u64,
) -> u32;

/// For the handler of a fault: where the parts of the shared memory begin, and what is answered to.
static AT: [AtomicUsize; 9] = [const { AtomicUsize::new(0) }; 9];
static ANSWER: AtomicUsize = AtomicUsize::new(0);

/// A word of the part by which the two processes speak.
fn word(at: usize) -> *mut u64 {
    (AT[TALK].load(Ordering::Relaxed) + 8 * at) as *mut u64
}

/// Says where a fault was, and ends the process.
extern "C" fn faulted(signal: i32, info: *const u8, _: *const c_void) {
    // SAFETY: the system handed over the information; the part by which the processes speak is mapped, and only this thread writes it now.
    unsafe {
        let address = sys::fault_address(info);
        *word(SIGNAL) = signal as u64;
        *word(PART) = NO_PART;
        for (k, (_, pages)) in BUFFERS.iter().enumerate() {
            let start = AT[k].load(Ordering::Relaxed);
            let len = pages * PAGE;
            if signal != 6 && (start - PAGE..start + len + PAGE).contains(&address) {
                let side = if *word(SIDE) == 1 {
                    len as u64 - *word(k)
                } else {
                    0
                };
                *word(PART) = k as u64;
                *word(OFFSET) = (address as u64).wrapping_sub(start as u64 + side);
            }
        }
    }
    sys::say(ANSWER.load(Ordering::Relaxed) as i32, b'f');
    sys::leave(1);
}

/// The process that opens a library: its path, and the number of the shared file.
pub fn serve(words: &[String]) -> ! {
    let answer = sys::keep_output();
    let mut words = words.iter();
    let (Some(path), Some(fd)) = (words.next(), words.next().and_then(|fd| fd.parse().ok())) else {
        sys::leave(2);
    };
    sys::end_with_parent();
    let shared = match Shared::map(fd, &pages()) {
        Ok(shared) => shared,
        Err(_) => sys::leave(2),
    };
    for (k, at) in AT.iter().enumerate() {
        at.store(shared.address(k).0 as usize, Ordering::Relaxed);
    }
    ANSWER.store(answer as usize, Ordering::Relaxed);
    let take = match sys::function(path, "uf2_take") {
        Ok(found) => found,
        Err(why) => {
            sys::say(answer, b'n');
            sys::say_all(answer, why.as_bytes());
            sys::leave(3);
        }
    };
    // SAFETY: the library says that its function has this form; whether it keeps to it is what is marked.
    let take: Take = unsafe { std::mem::transmute(take) };
    shared.read_only(0);
    shared.read_only(2);
    sys::on_fault(faulted);
    sys::say(answer, b'r');
    while sys::heard() {
        // SAFETY: each pointer is into a part of the shared memory that has so many bytes after it.
        unsafe {
            let len = |k: usize| *word(k);
            let at = |k: usize| {
                let (start, whole) = shared.address(k);
                let from = if *word(SIDE) == 1 {
                    whole - len(k) as usize
                } else {
                    0
                };
                start.add(from)
            };
            let result = take(
                at(0),
                len(0),
                at(1),
                len(1),
                at(2),
                len(2),
                at(3),
                len(3),
                at(4),
                len(4),
                at(5),
                len(5),
                at(6),
                len(6),
                at(7),
                len(7),
            );
            *word(RESULT) = result.into();
        }
        sys::say(answer, b'a');
    }
    sys::leave(0)
}
