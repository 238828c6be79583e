//! A word on standard error for work that takes over a second, where somebody is looking.

use std::io::{self, IsTerminal, Write};
use std::sync::atomic::{AtomicU64, Ordering};
use std::sync::mpsc::{self, RecvTimeoutError, Sender};
use std::sync::Arc;
use std::thread::JoinHandle;
use std::time::{Duration, Instant};

/// Tells how far a job is, once a second, until it is dropped.
pub struct Progress {
    done: Arc<AtomicU64>,
    thread: Option<(Sender<()>, JoinHandle<()>)>,
}

impl Progress {
    /// A job of so many things; 0 where it can only be said how long it takes.
    pub fn start(what: &str, all: u64) -> Progress {
        let done = Arc::new(AtomicU64::new(0));
        let thread = io::stderr().is_terminal().then(|| {
            let (sender, receiver) = mpsc::channel::<()>();
            let (what, done) = (what.to_string(), done.clone());
            let began = Instant::now();
            let job = std::thread::spawn(move || {
                let mut shown = false;
                let second = Duration::from_secs(1);
                while receiver.recv_timeout(second) == Err(RecvTimeoutError::Timeout) {
                    let line = line(&what, done.load(Ordering::Relaxed), all, began.elapsed());
                    let _ = write!(io::stderr(), "\r{line}");
                    shown = true;
                }
                if shown {
                    let _ = writeln!(io::stderr());
                }
            });
            (sender, job)
        });
        Progress { done, thread }
    }

    /// So many are done.
    pub fn done(&self, count: u64) {
        self.done.store(count, Ordering::Relaxed);
    }
}

impl Drop for Progress {
    fn drop(&mut self) {
        if let Some((sender, job)) = self.thread.take() {
            drop(sender);
            let _ = job.join();
        }
    }
}

fn line(what: &str, done: u64, all: u64, time: Duration) -> String {
    let seconds = time.as_secs();
    if all == 0 {
        format!("{what}: {seconds} s")
    } else {
        format!("{what}: {done} of {all}, {seconds} s")
    }
}

#[cfg(test)]
mod tests {
    use super::*;

    #[test]
    fn lines() {
        let time = Duration::from_millis(2500);
        assert_eq!(line("load", 5, 9, time), "load: 5 of 9, 2 s");
        assert_eq!(line("replay", 0, 0, time), "replay: 2 s");
    }
}
