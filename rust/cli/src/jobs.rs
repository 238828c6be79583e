//! Work on many things at once, with the results in their order.

use crate::args::{Args, Opt};
use crate::progress::Progress;
use crate::Trouble;
use std::num::NonZero;
use std::sync::atomic::{AtomicUsize, Ordering};
use std::sync::Mutex;

/// The option that says how many threads work.
pub const OPTION: Opt = Opt::Value("--jobs");

/// The most threads.
const MOST: u64 = 1024;

/// How many threads work: as many as there are processors, where it is not said.
pub fn said(args: &Args) -> Result<usize, Trouble> {
    match args.number("--jobs")? {
        None => Ok(std::thread::available_parallelism().map_or(1, NonZero::get)),
        Some(n) if (1..=MOST).contains(&n) => Ok(n as usize),
        Some(n) => args.wrong(format!("--jobs is from 1 to {MOST}, and not {n}")),
    }
}

/// What `work` makes of each thing, in the order of the things, whatever thread did it. At most `jobs` things are worked on at once. Of several
/// failures the one of the first thing is told, so that it is the same for every number of threads.
pub fn in_order<T: Sync, R: Send>(
    jobs: usize,
    what: &str,
    things: &[T],
    work: impl Fn(&T) -> Result<R, Trouble> + Sync,
) -> Result<Vec<R>, Trouble> {
    let progress = Progress::start(what, things.len() as u64);
    let next = AtomicUsize::new(0);
    let failed = AtomicUsize::new(usize::MAX);
    let results = Mutex::new(Vec::with_capacity(things.len()));
    let one = || loop {
        let k = next.fetch_add(1, Ordering::Relaxed);
        // what comes after a failure is not needed; what comes before it is, for it may fail too
        if k >= things.len() || k > failed.load(Ordering::Relaxed) {
            break;
        }
        let result = work(&things[k]);
        if result.is_err() {
            failed.fetch_min(k, Ordering::Relaxed);
        }
        let mut results = results.lock().expect("no thread panics while it holds it");
        results.push((k, result));
        progress.done(results.len() as u64);
    };
    std::thread::scope(|scope| {
        for _ in 1..jobs.min(things.len()) {
            scope.spawn(one);
        }
        one();
    });
    drop(progress);
    let mut results = results.into_inner().expect("no thread panicked");
    results.sort_by_key(|(k, _)| *k);
    results.into_iter().map(|(_, result)| result).collect()
}

#[cfg(test)]
mod tests {
    use super::*;

    #[test]
    fn the_same_for_every_number_of_threads() {
        let things: Vec<u64> = (0..1000).collect();
        let squares: Vec<u64> = things.iter().map(|x| x * x).collect();
        for jobs in [1, 2, 7, 1024] {
            let made = in_order(jobs, "test", &things, |x| Ok(x * x));
            assert_eq!(made.ok(), Some(squares.clone()));
            let none = in_order(jobs, "test", &[], |x: &u64| Ok(*x));
            assert_eq!(none.ok(), Some(Vec::new()));
        }
    }

    #[test]
    fn never_more_at_once() {
        for jobs in [1, 3] {
            let (now, most) = (AtomicUsize::new(0), AtomicUsize::new(0));
            let work = |_: &u32| {
                most.fetch_max(now.fetch_add(1, Ordering::SeqCst) + 1, Ordering::SeqCst);
                std::thread::sleep(std::time::Duration::from_millis(1));
                now.fetch_sub(1, Ordering::SeqCst);
                Ok(())
            };
            assert!(in_order(jobs, "test", &[0; 50], work).is_ok());
            assert!(most.load(Ordering::SeqCst) <= jobs);
        }
    }

    #[test]
    fn the_first_failure() {
        let things: Vec<u64> = (0..1000).collect();
        for jobs in [1, 2, 7] {
            let made = in_order(jobs, "test", &things, |&x| match x {
                300 | 301 | 700 => Err(Trouble(x.to_string())),
                _ => Ok(x),
            });
            assert_eq!(made.err().map(|Trouble(why)| why).as_deref(), Some("300"));
        }
    }
}
