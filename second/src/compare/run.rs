//! A comparison over many generated jobs, by several threads.

use super::{Comparer, Tally};
use crate::generator::{numbered, KINDS};
use crate::office::Office;
use crate::random::Random;
use std::any::Any;
use std::hint::black_box;
use std::panic::{catch_unwind, resume_unwind, AssertUnwindSafe};
use std::sync::atomic::{AtomicUsize, Ordering};
use std::sync::{Mutex, PoisonError};
use std::thread;
use std::time::{Duration, Instant};

/// When a comparison is at its end.
#[derive(Clone, Copy, Debug, PartialEq, Eq)]
pub enum Until {
    Jobs(usize),
    Passed(Duration),
}

#[derive(Clone, Debug)]
pub struct Wish {
    pub seed: u64,
    pub until: Until,
    pub threads: usize,
}

/// The first job that differs.
#[derive(Clone, Debug, PartialEq, Eq)]
pub struct Found {
    /// Counted from 0, in the order of the generator.
    pub number: usize,
    /// The generator's name for it.
    pub name: String,
    pub what: String,
    pub job: Vec<u8>,
}

pub struct Ended {
    pub tally: Tally,
    pub took: Duration,
    pub found: Option<Found>,
}

/// What the threads share.
struct Shared<'a, O> {
    office: &'a O,
    wish: &'a Wish,
    began: Instant,
    next: AtomicUsize,
    found: Mutex<Option<Found>>,
}

/// Takes the seed's jobs in order, each by the next free thread, until the end
/// wished for or the first difference. Every job before the last one taken is
/// held, so a run by time is a run of so many jobs.
pub fn run<O: Office + Sync>(office: &O, wish: &Wish) -> Ended {
    let shared = Shared {
        office,
        wish,
        began: Instant::now(),
        next: AtomicUsize::new(0),
        found: Mutex::new(None),
    };
    let mut tally = Tally::default();
    thread::scope(|scope| {
        let threads: Vec<_> = (0..wish.threads.max(1))
            .map(|_| scope.spawn(|| shared.work()))
            .collect();
        for thread in threads {
            match thread.join() {
                Ok(counted) => tally.add(&counted),
                Err(panic) => resume_unwind(panic),
            }
        }
    });
    let found = shared.found.into_inner();
    Ended {
        tally,
        took: shared.began.elapsed(),
        found: found.unwrap_or_else(PoisonError::into_inner),
    }
}

impl<O: Office> Shared<'_, O> {
    fn work(&self) -> Tally {
        let mut comparer = Comparer::new(self.office);
        while let Some(number) = self.take() {
            self.hold(&mut comparer, number);
        }
        comparer.tally().clone()
    }

    /// The next job's number, if there is to be one.
    fn take(&self) -> Option<usize> {
        let found = self.found.lock().unwrap_or_else(PoisonError::into_inner);
        if found.is_some() {
            return None;
        }
        drop(found);
        match self.wish.until {
            Until::Jobs(count) => {
                let number = self.next.fetch_add(1, Ordering::Relaxed);
                (number < count).then_some(number)
            }
            Until::Passed(time) => {
                let on = self.began.elapsed() < time;
                on.then(|| self.next.fetch_add(1, Ordering::Relaxed))
            }
        }
    }

    fn hold(&self, comparer: &mut Comparer<O>, number: usize) {
        let seed = self.wish.seed;
        let (name, sample) = numbered(seed, number);
        // A stream beside those of the kinds.
        let mut random = Random::for_sample(seed, KINDS.len() as u64, number as u64);
        let lent = sample.bytes.clone();
        // After a panic the run is at its end, so nothing half done is used.
        let held = catch_unwind(AssertUnwindSafe(|| comparer.hold(&lent, &mut random)));
        let held = held.unwrap_or_else(|panic| Err(panic_in_words(&*panic)));
        // Behind a shared reference the compiler may take the bytes for unchanged.
        let held = held.and_then(|()| hold_job(&sample.bytes, &black_box(lent)));
        let Err(what) = held else { return };
        let mut found = self.found.lock().unwrap_or_else(PoisonError::into_inner);
        // Another thread may have found a later one first.
        if found.as_ref().is_none_or(|found| number < found.number) {
            *found = Some(Found {
                number,
                name,
                what,
                job: sample.bytes,
            });
        }
    }
}

fn panic_in_words(panic: &(dyn Any + Send)) -> String {
    let literal = panic.downcast_ref::<&str>().copied();
    let words = literal.or_else(|| panic.downcast_ref::<String>().map(String::as_str));
    format!("a panic: {}", words.unwrap_or("without words"))
}

/// The job's own bytes, which no call may change.
fn hold_job(job: &[u8], after: &[u8]) -> Result<(), String> {
    let pairs = job.iter().zip(after);
    match pairs.enumerate().find(|(_, (before, after))| before != after) {
        None => Ok(()),
        Some((place, (before, after))) => Err(format!(
            "byte {place} of the job, from 0, holds {after:#04x} after the calls and not {before:#04x}"
        )),
    }
}

#[cfg(test)]
mod tests {
    use super::*;

    #[test]
    fn a_changed_job_is_found() {
        assert_eq!(hold_job(&[1, 2, 3], &[1, 2, 3]), Ok(()));
        let said = hold_job(&[1, 2, 3], &[1, 0, 0]);
        let words = "byte 1 of the job, from 0, holds 0x00 after the calls and not 0x02";
        assert_eq!(said, Err(words.to_string()));
    }
}
