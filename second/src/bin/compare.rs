//! Holds the office library to this program on the generator's jobs:
//! `compare --seed S (--jobs N | --seconds T) [--threads K] [--save FILE]`.

use second::compare::{run, Ended, Found, Until, Wish};
use second::library::Library;
use std::io::{self, Write};
use std::num::NonZeroUsize;
use std::path::{Path, PathBuf};
use std::process::ExitCode;
use std::thread::available_parallelism;
use std::time::Duration;

const USAGE: &str = "usage: compare --seed S (--jobs N | --seconds T) [--threads K] [--save FILE]";

const NOTHING_HELD: &str = "NOTHING COMPARED: the run ended before its first job\n";

/// The wish, and where a job that differs is saved.
fn read_words(words: &[String]) -> Option<(Wish, PathBuf)> {
    let (mut seed, mut until) = (None, None);
    let mut threads = available_parallelism().map_or(1, NonZeroUsize::get);
    let mut save = PathBuf::from("difference.job");
    for pair in words.chunks(2) {
        let [name, value] = pair else { return None };
        match name.as_str() {
            "--seed" => seed = Some(value.parse().ok()?),
            "--jobs" if until.is_none() => until = Some(Until::Jobs(value.parse().ok()?)),
            "--seconds" if until.is_none() => {
                until = Some(Until::Passed(Duration::from_secs(value.parse().ok()?)));
            }
            "--threads" => threads = value.parse::<NonZeroUsize>().ok()?.get(),
            "--save" => save = PathBuf::from(value),
            _ => return None,
        }
    }
    let wish = Wish {
        seed: seed?,
        until: until?,
        threads,
    };
    Some((wish, save))
}

/// What was held, to paste into a document.
fn no_difference(wish: &Wish, ended: &Ended) -> String {
    let (jobs, seconds) = (ended.tally.jobs(), ended.took.as_secs_f64());
    format!(
        "seed {}: {jobs} jobs, {} threads, {seconds:.1} s, {:.0} jobs a second: no difference\n\n{}",
        wish.seed,
        wish.threads,
        jobs as f64 / seconds,
        ended.tally
    )
}

fn difference(wish: &Wish, found: &Found, save: &Path) -> String {
    let saved = match std::fs::write(save, &found.job) {
        Ok(()) => format!("the job is saved as {}", save.display()),
        Err(error) => format!("the job is not saved as {}: {error}", save.display()),
    };
    format!(
        "DIFFERENCE at job {} ({}) of seed {}: {}\n{saved}\n",
        found.number, found.name, wish.seed, found.what
    )
}

fn main() -> ExitCode {
    let words: Vec<String> = std::env::args().skip(1).collect();
    let Some((wish, save)) = read_words(&words) else {
        eprintln!("{USAGE}");
        return ExitCode::from(2);
    };
    // Said before any call, as a call that kills the process leaves no other trace.
    eprintln!("compare: seed {}, {} threads", wish.seed, wish.threads);
    let ended = run(&Library, &wish);
    let (text, status) = match &ended.found {
        Some(found) => (difference(&wish, found, &save), ExitCode::FAILURE),
        None if ended.tally.jobs() == 0 => (NOTHING_HELD.into(), ExitCode::FAILURE),
        None => (no_difference(&wish, &ended), ExitCode::SUCCESS),
    };
    if let Err(error) = io::stdout().write_all(text.as_bytes()) {
        eprintln!("compare: {error}");
        return ExitCode::FAILURE;
    }
    status
}
