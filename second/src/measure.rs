//! What the measuring program needs beside a clock: jobs to time, and the
//! spread of its runs.

use crate::answers::accept;
use crate::generator::draft::{any_load, typical_wall, Draft};
use crate::generator::numbered;
use crate::job_file::{Job, RawLoad, RawWall, MOST_LOADS, MOST_WALLS};
use crate::random::Random;

/// The greatest load on the walls of [`Stock`], N/m.
const STOCK_LOAD: u32 = 20_000;

/// The first `count` accepted jobs of a seed that are of the wished form.
fn jobs_where(seed: u64, count: usize, wished: fn(&Job) -> bool) -> Vec<Vec<u8>> {
    (0..)
        .map(|number| numbered(seed, number).1.bytes)
        .filter(|bytes| accept(bytes).is_ok_and(|job| wished(&job)))
        .take(count)
        .collect()
}

pub fn one_wall_jobs(seed: u64, count: usize) -> Vec<Vec<u8>> {
    jobs_where(seed, count, |job| job.walls.len() == 1)
}

/// Jobs of the most walls with the most loads.
pub fn full_jobs(seed: u64, count: usize) -> Vec<Vec<u8>> {
    jobs_where(seed, count, |job| {
        job.walls.len() == MOST_WALLS && job.loads.len() == MOST_LOADS
    })
}

/// How many walls some accepted jobs have in all.
pub fn walls_in(jobs: &[Vec<u8>]) -> usize {
    let each = jobs.iter().filter_map(|bytes| accept(bytes).ok());
    each.map(|job| job.walls.len()).sum()
}

/// Walls to be put into jobs of any size, each with loads of its own.
pub struct Stock(Vec<(RawWall, Vec<RawLoad>)>);

impl Stock {
    /// As many walls as the largest job has, each with so many loads.
    pub fn new(seed: u64, loads_each: usize) -> Stock {
        let mut random = Random::new(seed);
        let mut with_loads = |_| {
            let wall = typical_wall(&mut random);
            let load = |_| any_load(&mut random, 1, &wall, STOCK_LOAD);
            (wall, (0..loads_each).map(load).collect())
        };
        Stock((0..MOST_WALLS).map(&mut with_loads).collect())
    }

    /// The same walls in jobs of `size` walls each, from 1 on.
    pub fn jobs(&self, size: usize) -> Vec<Vec<u8>> {
        let jobs = self.0.chunks(size);
        jobs.map(|walls| draft(walls).bytes()).collect()
    }
}

fn draft(walls: &[(RawWall, Vec<RawLoad>)]) -> Draft {
    let mut draft = Draft::default();
    for (wall, loads) in walls {
        draft.add(*wall, loads);
    }
    draft
}

/// How far the results of several runs lie apart.
#[derive(Clone, Copy, Debug, PartialEq)]
pub struct Spread {
    pub least: f64,
    pub median: f64,
    pub greatest: f64,
}

impl Spread {
    /// `None` of no runs.
    pub fn of(runs: &[f64]) -> Option<Spread> {
        let mut runs = runs.to_vec();
        runs.sort_by(f64::total_cmp);
        let middle = runs.len() / 2;
        let median = match runs.len() % 2 {
            0 => (runs.get(middle.checked_sub(1)?)? + runs[middle]) / 2.0,
            _ => runs[middle],
        };
        Some(Spread {
            least: *runs.first()?,
            median,
            greatest: *runs.last()?,
        })
    }
}

#[cfg(test)]
mod tests {
    use super::*;

    #[test]
    fn the_spread_of_odd_even_and_no_runs() {
        let spread = |runs: &[f64]| Spread::of(runs).map(|s| (s.least, s.median, s.greatest));
        assert_eq!(spread(&[3.0, 1.0, 2.0]), Some((1.0, 2.0, 3.0)));
        assert_eq!(spread(&[4.0, 1.0, 2.0, 3.0]), Some((1.0, 2.5, 4.0)));
        assert_eq!(spread(&[5.0]), Some((5.0, 5.0, 5.0)));
        assert_eq!(spread(&[]), None);
    }

    #[test]
    fn jobs_are_of_the_form_asked_for() {
        let one = one_wall_jobs(3, 20);
        assert_eq!((one.len(), walls_in(&one)), (20, 20));
        let full = full_jobs(3, 2);
        assert_eq!((full.len(), walls_in(&full)), (2, 2 * MOST_WALLS));
    }

    #[test]
    fn a_stock_is_the_same_walls_in_jobs_of_every_size() {
        for loads in [0, 8] {
            let stock = Stock::new(3, loads);
            let lines = |size: usize| -> Vec<String> {
                let texts = stock.jobs(size).into_iter().map(|job| crate::sheet(&job));
                let texts: String = texts.collect();
                // Without the wall's number, which goes by its place in the job.
                let lines = texts.lines().filter_map(|line| line.split_once(' '));
                lines.map(|(_, rest)| rest.to_string()).collect()
            };
            let alone = lines(1);
            assert_eq!(alone.len(), MOST_WALLS);
            assert_eq!(lines(8), alone);
            assert_eq!(lines(MOST_WALLS), alone);
            assert!(alone.iter().all(|line| line.split(' ').count() == 18));
        }
    }
}
