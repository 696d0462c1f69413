//! Times the office library's calculate, beside this program's own on the same
//! jobs, in one process.
//!
//! `speed words`: the numbers that a page about it needs: jobs of one wall, full
//! jobs, runs, and seconds a side has in a run.
//! `speed ratios one|full CHECKS`: a row of a table; CHECKS say whether this
//! program was built with overflow checks.
//! `speed growth`: the library over jobs of 1, 8 and 64 walls.
//! `speed once library|second one|full ROUNDS`: so many rounds of one of the
//! two over one set of jobs and nothing else, for counting instructions.
//!
//! With the variable SPEED_TRY set the runs are few and short, which only shows
//! that all of it works.

use second::library::Library;
use second::measure::{full_jobs, one_wall_jobs, walls_in, Spread, Stock};
use second::office::{Office, Packed, Second};
use second::sheet_line::LINE_NUMBERS;
use second::Whole;
use std::hint::black_box;
use std::io::{self, Write};
use std::process::ExitCode;
use std::time::{Duration, Instant};

const USAGE: &str = "usage: speed words | speed ratios one|full CHECKS | speed growth \
                     | speed once library|second one|full ROUNDS";

const SEED: u64 = 2026;
const ONE_WALL_JOBS: usize = 400;
const FULL_JOBS: usize = 8;
const SIZES: [usize; 3] = [1, 8, 64];
const LOADS_EACH: [usize; 2] = [0, 8];

/// How often and how long is timed.
#[derive(Clone, Copy)]
struct Timing {
    runs: usize,
    /// The least time that a side is given in a run.
    time: Duration,
}

impl Timing {
    const MEASURED: Timing = Timing {
        runs: 10,
        time: Duration::from_millis(300),
    };

    const TRIED: Timing = Timing {
        runs: 2,
        time: Duration::from_millis(5),
    };

    fn wished() -> Timing {
        match std::env::var_os("SPEED_TRY") {
            Some(page) if !page.is_empty() => Timing::TRIED,
            _ => Timing::MEASURED,
        }
    }

    fn words(self) -> String {
        let (runs, seconds) = (self.runs, self.time.as_secs_f64());
        format!("{ONE_WALL_JOBS} {FULL_JOBS} {runs} {seconds}\n")
    }
}

/// Jobs to time, with how many walls they have in all.
struct Work {
    name: &'static str,
    jobs: Vec<Vec<u8>>,
    walls: usize,
}

impl Work {
    fn new(name: &'static str, jobs: Vec<Vec<u8>>) -> Work {
        let walls = walls_in(&jobs);
        Work { name, jobs, walls }
    }

    fn named(jobs: &str) -> Option<Work> {
        match jobs {
            "one" => Some(Work::one()),
            "full" => Some(Work::full()),
            _ => None,
        }
    }

    fn one() -> Work {
        Work::new("one wall", one_wall_jobs(SEED, ONE_WALL_JOBS))
    }

    fn full() -> Work {
        Work::new("64 walls, 512 loads", full_jobs(SEED, FULL_JOBS))
    }

    /// Each job once. The buffer is lent as the last call left it.
    fn round(&self, office: &impl Office, out: &mut [i64]) {
        for job in &self.jobs {
            black_box(office.calculate(black_box(job), black_box(out)));
        }
    }

    /// ns for each wall, of as many rounds as the time takes.
    fn time(&self, office: &impl Office, least: Duration) -> f64 {
        let mut out = vec![0; LINE_NUMBERS * self.walls];
        let mut rounds = 0;
        let began = Instant::now();
        while began.elapsed() < least {
            self.round(office, &mut out);
            rounds += 1;
        }
        let nanoseconds = began.elapsed().as_nanos() as f64;
        nanoseconds / (rounds * self.walls) as f64
    }

    /// Whether both sides work every job, to the same numbers.
    fn is_answered_alike(&self) -> bool {
        let mut by_library = vec![0; LINE_NUMBERS * self.walls];
        let mut by_second = by_library.clone();
        self.jobs.iter().all(|job| {
            let answers = [
                Library.calculate(job, &mut by_library),
                Second.calculate(job, &mut by_second),
            ];
            answers == [Packed::WORKED; 2] && by_library == by_second
        })
    }
}

fn spread(runs: &[f64]) -> Spread {
    Spread::of(runs).expect("there are runs")
}

/// Both sides in every run, each first in every other one.
fn ratios(work: &Work, checks: &str, timing: Timing) -> String {
    let (mut library, mut second) = (Vec::new(), Vec::new());
    for run in 0..timing.runs {
        if run % 2 == 0 {
            library.push(work.time(&Library, timing.time));
            second.push(work.time(&Second, timing.time));
        } else {
            second.push(work.time(&Second, timing.time));
            library.push(work.time(&Library, timing.time));
        }
    }
    let ratios: Vec<f64> = library.iter().zip(&second).map(|(l, s)| l / s).collect();
    let of_runs = spread(&ratios);
    format!(
        "| {} | {} | {checks} | {:.0} | {:.0} | {:.3} | {:.3} | {:.3} |\n",
        work.name,
        Whole::BITS,
        spread(&library).median,
        spread(&second).median,
        of_runs.median,
        of_runs.least,
        of_runs.greatest
    )
}

/// The library over the same 64 walls with so many loads each, in jobs of each
/// size.
fn growth(loads_each: usize, timing: Timing) -> String {
    let stock = Stock::new(SEED, loads_each);
    let works = SIZES.map(|size| Work::new("", stock.jobs(size)));
    let mut runs = SIZES.map(|_| Vec::new());
    for _ in 0..timing.runs {
        for (work, runs) in works.iter().zip(&mut runs) {
            runs.push(work.time(&Library, timing.time));
        }
    }
    let a_wall = runs.map(|runs| spread(&runs).median);
    let cells: Vec<String> = SIZES
        .iter()
        .zip(a_wall)
        .map(|(size, time)| format!("{:.0} | {time:.0}", *size as f64 * time))
        .collect();
    let ratio = a_wall[2] / a_wall[0];
    format!("| {loads_each} | {} | {ratio:.2} |\n", cells.join(" | "))
}

/// So many rounds, and how many walls each has.
fn once(office: &impl Office, work: &Work, rounds: usize) -> String {
    let mut out = vec![0; LINE_NUMBERS * work.walls];
    for _ in 0..rounds {
        work.round(office, &mut out);
    }
    format!("{rounds} rounds of {} walls\n", work.walls)
}

/// What is to be printed, or what is wrong.
fn run(words: &[&str], timing: Timing) -> Result<String, String> {
    match words {
        ["words"] => Ok(timing.words()),
        ["ratios", jobs, checks] => {
            let work = Work::named(jobs).ok_or(USAGE)?;
            if work.is_answered_alike() {
                Ok(ratios(&work, checks, timing))
            } else {
                Err(format!("the two differ over {}; use compare", work.name))
            }
        }
        ["growth"] => Ok(LOADS_EACH.map(|loads| growth(loads, timing)).concat()),
        ["once", side, jobs, rounds] => {
            let rounds = rounds.parse().map_err(|_| USAGE)?;
            let work = Work::named(jobs).ok_or(USAGE)?;
            match *side {
                "library" => Ok(once(&Library, &work, rounds)),
                "second" => Ok(once(&Second, &work, rounds)),
                _ => Err(USAGE.into()),
            }
        }
        _ => Err(USAGE.into()),
    }
}

fn main() -> ExitCode {
    let words: Vec<String> = std::env::args().skip(1).collect();
    let words: Vec<&str> = words.iter().map(String::as_str).collect();
    let printed = run(&words, Timing::wished()).and_then(|text| {
        let written = io::stdout().write_all(text.as_bytes());
        written.map_err(|error| error.to_string())
    });
    match printed {
        Ok(()) => ExitCode::SUCCESS,
        Err(wrong) => {
            eprintln!("speed: {wrong}");
            ExitCode::from(2)
        }
    }
}
