//! Records for the writer: those of a job, and what chance makes of them, most
//! of which no job has.

use crate::generator::draft::{any_load, typical_wall};
use crate::generator::{out_of_range, spoil_load, LOAD_WAYS};
use crate::job_file::{
    read_numbers, Header, HEADER_BYTES, LOAD_BYTES, LOAD_FIELDS, MOST_BYTES, MOST_LOAD, MOST_LOADS,
    MOST_LOADS_A_WALL, MOST_WALLS, WALL_BYTES, WALL_FIELDS,
};
use crate::random::Random;
use crate::writing::Records;

/// The first ways of spoiling a load put it on no wall.
const NO_WALL_WAYS: usize = 3;

/// Bytes kept of what a refused job has behind its header: a wall and a load
/// more than any job has.
const MOST_KEPT: usize = MOST_BYTES - HEADER_BYTES + WALL_BYTES + LOAD_BYTES;

/// What a count of 16 bits doesn't show.
const BEYOND_16_BITS: usize = 65_536;

/// Records, with the names of what was done to them.
#[derive(Clone, Debug, PartialEq, Eq)]
pub struct Buffers {
    pub records: Records,
    changes: Vec<&'static str>,
}

type Change = fn(&mut Random, &mut Records);

/// Changes after which the buffers are whole records as before, so that it is
/// their numbers that may be refused.
const WITHIN: [(&str, Change); 12] = [
    ("a wall field out of range", wall_out_of_range),
    ("a wall field at random", |random, records| {
        field_at_random(random, &mut records.walls);
    }),
    ("a load out of range", load_out_of_range),
    ("a load on no wall", load_on_no_wall),
    ("a load field at random", |random, records| {
        field_at_random(random, &mut records.loads);
    }),
    ("nine loads alike", nine_loads_alike),
    ("a load to the end", load_to_the_end),
    ("no loads", |_, records| records.loads.clear()),
    ("a wall twice", |random, records| {
        repeat_one::<WALL_FIELDS>(random, &mut records.walls);
    }),
    ("a wall left out", |random, records| {
        take_out::<WALL_FIELDS>(random, &mut records.walls);
    }),
    ("a load left out", |random, records| {
        take_out::<LOAD_FIELDS>(random, &mut records.loads);
    }),
    ("all at random", all_at_random),
];

/// Changes after which there are too few records or too many, or no whole ones.
const BEYOND: [(&str, Change); 7] = [
    ("a number more", |random, records| {
        either(random, records).push(1);
    }),
    ("a number fewer", |random, records| {
        either(random, records).pop();
    }),
    ("one wall of 39 numbers", one_wall_of_39_numbers),
    ("no walls", |_, records| records.walls.clear()),
    ("65 walls", |_, records| {
        repeat_to(&mut records.walls, WALL_FIELDS * (MOST_WALLS + 1));
    }),
    ("513 loads", |_, records| {
        repeat_to(&mut records.loads, LOAD_FIELDS * (MOST_LOADS + 1));
    }),
    ("walls for loads", |_, records| {
        std::mem::swap(&mut records.walls, &mut records.loads);
    }),
];

impl Buffers {
    /// A job's own records; of one that is refused, what stands behind the header
    /// as if it were records.
    pub fn of(job: &[u8]) -> Buffers {
        let behind = job.get(HEADER_BYTES..).unwrap_or_default();
        let mut walls = read_numbers(&behind[..behind.len().min(MOST_KEPT)]);
        let said = Header::read(job).map_or(0, |header| usize::from(header.walls));
        let loads = walls.split_off((WALL_FIELDS * said).min(walls.len()));
        Buffers {
            records: Records { walls, loads },
            changes: Vec::new(),
        }
    }

    /// A wall made up by chance, with a few loads.
    pub fn made_up(random: &mut Random) -> Buffers {
        let wall = typical_wall(random);
        let loads = (0..random.below(4)).flat_map(|_| any_load(random, 1, &wall, MOST_LOAD));
        Buffers {
            records: Records {
                loads: loads.collect(),
                walls: wall.to_vec(),
            },
            changes: vec!["made up"],
        }
    }

    /// The same with one to three changes, which may hide one another; now and
    /// then the last of them goes beyond whole records or their counts.
    pub fn changed(&self, random: &mut Random) -> Buffers {
        let mut changed = self.clone();
        let beyond = random.once_in(4);
        let within = random.below(3) + usize::from(!beyond);
        for _ in 0..within {
            changed.change(random, &WITHIN);
        }
        if beyond {
            changed.change(random, &BEYOND);
        }
        changed
    }

    fn change(&mut self, random: &mut Random, changes: &[(&'static str, Change)]) {
        let (name, change) = random.pick(changes);
        change(random, &mut self.records);
        self.changes.push(name);
    }

    /// The same with so many more walls or loads that a count cut to 16 bits is
    /// what it was.
    pub fn lengthened(&self, random: &mut Random) -> Buffers {
        let mut longer = self.clone();
        let Records { walls, loads } = &mut longer.records;
        // Walls are long, so that they are the rarer case.
        if random.once_in(8) {
            walls.resize(walls.len() + WALL_FIELDS * BEYOND_16_BITS, 0);
        } else {
            loads.resize(loads.len() + LOAD_FIELDS * BEYOND_16_BITS, 0);
        }
        longer.changes.push("65536 records more");
        longer
    }

    /// Bytes of the file, or of one that has as many whole records, so far as
    /// any file may be so long.
    pub fn file_bytes(&self) -> usize {
        let walls = self.records.walls.len() / WALL_FIELDS;
        let loads = self.records.loads.len() / LOAD_FIELDS;
        MOST_BYTES.min(HEADER_BYTES + WALL_BYTES * walls + LOAD_BYTES * loads)
    }

    /// "38 and 5 numbers (a number more, no walls)".
    pub fn in_words(&self) -> String {
        let Records { walls, loads } = &self.records;
        let changes = match self.changes.as_slice() {
            [] => "the job's own".to_string(),
            changes => changes.join(", "),
        };
        format!("{} and {} numbers ({changes})", walls.len(), loads.len())
    }
}

/// One of them, if there are any.
fn any<'a, T>(random: &mut Random, from: &'a mut [T]) -> Option<&'a mut T> {
    let count = from.len().max(1);
    from.get_mut(random.below(count))
}

/// Any number of 32 bits, small ones and the greatest as often as others.
fn any_number(random: &mut Random) -> u32 {
    let number = random.next() as u32;
    random.pick(&[number % 4, number % 4096, number, u32::MAX])
}

fn field_at_random(random: &mut Random, numbers: &mut [u32]) {
    let number = any_number(random);
    if let Some(field) = any(random, numbers) {
        *field = number;
    }
}

fn wall_out_of_range(random: &mut Random, records: &mut Records) {
    let (walls, _) = records.walls.as_chunks_mut::<WALL_FIELDS>();
    if let Some(wall) = any(random, walls) {
        let place = random.below(WALL_FIELDS);
        wall[place] = out_of_range(random, wall, place);
    }
}

fn spoil_any_load(random: &mut Random, records: &mut Records, way: usize) {
    let (walls, _) = records.walls.as_chunks();
    let (loads, _) = records.loads.as_chunks_mut();
    if let Some(load) = any(random, loads) {
        spoil_load(walls, load, way);
    }
}

fn load_on_no_wall(random: &mut Random, records: &mut Records) {
    let way = random.below(NO_WALL_WAYS);
    spoil_any_load(random, records, way);
}

fn load_out_of_range(random: &mut Random, records: &mut Records) {
    let way = NO_WALL_WAYS + random.below(LOAD_WAYS - NO_WALL_WAYS);
    spoil_any_load(random, records, way);
}

/// A load, or one of nothing where there are none, nine times among the others;
/// in the place of others where no more may be.
fn nine_loads_alike(random: &mut Random, records: &mut Records) {
    let (loads, _) = records.loads.as_chunks_mut();
    let load = any(random, loads).copied().unwrap_or([1, 0, 0, 0, 0]);
    for _ in 0..=MOST_LOADS_A_WALL {
        let count = records.loads.len() / LOAD_FIELDS;
        let at = LOAD_FIELDS * random.below(count + 1);
        let replaced = if count < MOST_LOADS { 0 } else { LOAD_FIELDS };
        let end = (at + replaced).min(records.loads.len());
        records.loads.splice(at..end, load);
    }
}

/// One of the two buffers.
fn either<'a>(random: &mut Random, records: &'a mut Records) -> &'a mut Vec<u32> {
    if random.once_in(2) {
        &mut records.walls
    } else {
        &mut records.loads
    }
}

fn one_wall_of_39_numbers(_: &mut Random, records: &mut Records) {
    records.walls.resize(WALL_FIELDS, 0);
    records.walls.push(1);
}

/// The numbers over and over, up to so many; of no numbers, noughts.
fn repeat_to(numbers: &mut Vec<u32>, count: usize) {
    let round = numbers.len().max(1);
    numbers.resize(round, 0);
    for place in round..count {
        numbers.push(numbers[place - round]);
    }
    numbers.truncate(count);
}

fn repeat_one<const N: usize>(random: &mut Random, numbers: &mut Vec<u32>) {
    let (records, _) = numbers.as_chunks_mut::<N>();
    let record = any(random, records).copied();
    numbers.extend(record.into_iter().flatten());
}

/// Takes a record out, if there is any, and closes the gap.
fn take_out<const N: usize>(random: &mut Random, numbers: &mut Vec<u32>) -> Vec<u32> {
    let count = numbers.len() / N;
    if count == 0 {
        return Vec::new();
    }
    let at = N * random.below(count);
    numbers.drain(at..at + N).collect()
}

fn load_to_the_end(random: &mut Random, records: &mut Records) {
    let load = take_out::<LOAD_FIELDS>(random, &mut records.loads);
    records.loads.extend(load);
}

/// A few whole records of any numbers.
fn all_at_random(random: &mut Random, records: &mut Records) {
    let walls = WALL_FIELDS * random.below(4);
    let loads = LOAD_FIELDS * random.below(10);
    records.walls = (0..walls).map(|_| any_number(random)).collect();
    records.loads = (0..loads).map(|_| any_number(random)).collect();
}

#[cfg(test)]
mod tests {
    use super::*;
    use crate::generator::{samples, KINDS};
    use crate::writing::{records, write};
    use std::collections::BTreeSet;

    #[test]
    fn an_accepted_job_has_its_own_records() {
        for (name, sample) in samples(1, 4 * KINDS.len()) {
            let buffers = Buffers::of(&sample.bytes);
            if let Ok(records) = records(&sample.bytes) {
                assert_eq!(buffers.records, records, "{name}");
                assert_eq!(buffers.file_bytes(), sample.bytes.len(), "{name}");
            }
        }
        assert_eq!(
            Buffers::of(&[]).in_words(),
            "0 and 0 numbers (the job's own)"
        );
    }

    #[test]
    fn changes_reach_every_answer() {
        let mut random = Random::new(1);
        let (mut names, mut answers) = (BTreeSet::new(), BTreeSet::new());
        for _ in 0..2000 {
            let buffers = Buffers::made_up(&mut random).changed(&mut random);
            let Records { walls, loads } = &buffers.records;
            let room = buffers.file_bytes() - random.below(2);
            let answer = write(walls, loads, &mut vec![0; room]);
            answers.insert(answer.map_or_else(|refusal| refusal.number, |_| 0));
            names.extend(buffers.changes);
        }
        assert_eq!(names.len(), 1 + WITHIN.len() + BEYOND.len());
        assert_eq!(answers, BTreeSet::from([0, 3, 5, 6, 7, 9]));
    }

    #[test]
    fn a_count_beyond_16_bits_is_refused() {
        let mut random = Random::new(1);
        let made_up = Buffers::made_up(&mut random);
        for _ in 0..20 {
            let Records { walls, loads } = made_up.lengthened(&mut random).records;
            assert!(walls.len().max(loads.len()) > BEYOND_16_BITS);
            let answer = write(&walls, &loads, &mut vec![0; MOST_BYTES]);
            assert_eq!(answer, Err(crate::answers::COUNT_OUT_OF_RANGE));
        }
    }
}
