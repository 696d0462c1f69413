//! The writer and its counterpart held to this program: every job taken apart,
//! its records written again, and what chance makes of them.

use super::buffers::Buffers;
use super::{held, packed_difference, walls_said, Comparer, MORE};
use crate::job_file::{Header, LOAD_FIELDS, MOST_LOADS, WALL_FIELDS};
use crate::office::{Office, Packed, Second};
use crate::random::Random;
use crate::writing::Records;
use std::hint::black_box;

/// How many times a job's records are changed.
const CHANGED: usize = 8;

/// One job in so many is given more records than 16 bits count.
const SELDOM: usize = 100;

impl<O: Office> Comparer<'_, O> {
    /// Takes a job apart and writes records like its own.
    pub(super) fn hold_writing(
        &mut self,
        job: &[u8],
        accepted: bool,
        random: &mut Random,
    ) -> Result<(), String> {
        for (walls, loads) in rooms_for_records(job, random) {
            self.hold_records(job, walls, loads)?;
        }
        let own = Buffers::of(job);
        self.hold_write(&own, random)?;
        if accepted {
            held(written_again(self.office, job, &own.records), || {
                "the job taken apart and written again".into()
            })?;
            self.tally.count_written_again();
        }
        let like = if own.records.walls.len() < WALL_FIELDS {
            Buffers::made_up(random)
        } else {
            own
        };
        for _ in 0..CHANGED {
            self.hold_write(&like.changed(random), random)?;
        }
        if random.once_in(SELDOM) {
            self.hold_write(&like.lengthened(random), random)?;
        }
        Ok(())
    }

    fn hold_records(&mut self, job: &[u8], walls: usize, loads: usize) -> Result<(), String> {
        let (wall_numbers, given_walls) = self.walls.lend(walls);
        let (load_numbers, given_loads) = self.loads.lend(loads);
        let expected = Second.records(job, wall_numbers, load_numbers);
        let given = self.office.records(job, given_walls, given_loads);
        let said = |what: String, of: &str| format!("in the {of} {what}");
        let differs = packed_difference(given, expected)
            .or_else(|| Some(said(self.walls.difference()?, "walls")))
            .or_else(|| Some(said(self.loads.difference()?, "loads")));
        self.tally.count_records(expected);
        held(differs, || {
            format!("records, {walls} and {loads} numbers lent")
        })
    }

    /// One set of records with every room, and read back where it is written.
    fn hold_write(&mut self, buffers: &Buffers, random: &mut Random) -> Result<(), String> {
        let lent = buffers.records.clone();
        let exact = buffers.file_bytes();
        let answer = self.hold_written(buffers, &lent, exact)?;
        for room in [exact + 1 + random.below(MORE), exact - 1, 0] {
            self.hold_written(buffers, &lent, room)?;
        }
        if answer.number() == 0 {
            let differs = read_back(self.office, &lent, exact);
            held(differs, || {
                format!("write of {}, read back", buffers.in_words())
            })?;
            self.tally.count_read_back();
        }
        // Behind a shared reference the compiler may take them for unchanged.
        held(difference(&buffers.records, &black_box(lent)), || {
            format!("write of {}, after the calls", buffers.in_words())
        })
    }

    fn hold_written(
        &mut self,
        buffers: &Buffers,
        Records { walls, loads }: &Records,
        room: usize,
    ) -> Result<Packed, String> {
        let (out, given_out) = self.files.lend(room);
        let expected = Second.write(walls, loads, out);
        let given = self.office.write(walls, loads, given_out);
        let differs = packed_difference(given, expected).or_else(|| self.files.difference());
        self.tally.count_write(expected);
        held(differs, || {
            format!("write of {}, {room} bytes lent", buffers.in_words())
        })?;
        Ok(expected)
    }
}

/// Rooms for a job's walls and loads by its header's counts: exact, more, one
/// too few for the ones or the others, and none.
fn rooms_for_records(job: &[u8], random: &mut Random) -> [(usize, usize); 7] {
    let loads_said = Header::read(job).map_or(0, |header| usize::from(header.loads));
    let walls = WALL_FIELDS * walls_said(job);
    let loads = LOAD_FIELDS * loads_said.min(MOST_LOADS);
    let (more_walls, more_loads) = (
        walls + 1 + random.below(MORE),
        loads + 1 + random.below(MORE),
    );
    [
        (walls, loads),
        (more_walls, more_loads),
        (walls - 1, more_loads),
        (more_walls, loads.saturating_sub(1)),
        (walls, 0),
        (0, loads),
        (0, 0),
    ]
}

/// What differs where an office takes a job apart and writes it again.
fn written_again(office: &impl Office, job: &[u8], records: &Records) -> Option<String> {
    let mut apart = room_for(records);
    let mut file = vec![0; job.len()];
    office.records(job, &mut apart.walls, &mut apart.loads);
    let bytes = office.write(&apart.walls, &apart.loads, &mut file).bytes();
    if bytes != job.len() as u64 {
        return Some(format!("{bytes} bytes are written and not {}", job.len()));
    }
    let place = file.iter().zip(job).position(|(new, old)| new != old)?;
    let (new, old) = (file[place], job[place]);
    Some(format!(
        "byte {place}, from 0, is {new:#04x} and not {old:#04x}"
    ))
}

/// What differs where an office writes records, in so many bytes, and takes the
/// file apart.
fn read_back(office: &impl Office, records: &Records, bytes: usize) -> Option<String> {
    let mut file = vec![0; bytes];
    let mut apart = room_for(records);
    office.write(&records.walls, &records.loads, &mut file);
    let answer = office.records(&file, &mut apart.walls, &mut apart.loads);
    packed_difference(answer, Packed::WORKED).or_else(|| difference(records, &apart))
}

fn room_for(records: &Records) -> Records {
    Records {
        walls: vec![0; records.walls.len()],
        loads: vec![0; records.loads.len()],
    }
}

/// The first number of some records that is not what it was, in words.
fn difference(before: &Records, after: &Records) -> Option<String> {
    let buffers = [
        ("walls", &before.walls, &after.walls),
        ("loads", &before.loads, &after.loads),
    ];
    // All of it in one go, which is quick; the place is looked for after.
    let mut apart = buffers
        .into_iter()
        .filter(|(_, before, after)| before != after);
    apart.find_map(|(name, before, after)| {
        let mut pairs = before.iter().zip(after).enumerate();
        let (place, (old, new)) = pairs.find(|(_, (old, new))| old != new)?;
        Some(format!(
            "number {place} of the {name}, from 0, is {new} and not {old}"
        ))
    })
}

#[cfg(test)]
mod tests {
    use super::*;
    use crate::generator::samples;

    /// Takes apart and writes as [`Second`] does, but for one number or byte.
    struct Turned {
        number: bool,
    }

    impl Office for Turned {
        fn calculate(&self, job: &[u8], out: &mut [i64]) -> Packed {
            Second.calculate(job, out)
        }

        fn text(&self, job: &[u8], out: &mut [u8]) -> usize {
            Second.text(job, out)
        }

        fn drawing(&self, job: &[u8], wall: u32, out: &mut [f64]) -> Packed {
            Second.drawing(job, wall, out)
        }

        fn has_failed(&self, failures: u16, check: u16) -> bool {
            Second.has_failed(failures, check)
        }

        fn write(&self, walls: &[u32], loads: &[u32], out: &mut [u8]) -> Packed {
            let answer = Second.write(walls, loads, out);
            out[12] ^= u8::from(!self.number);
            answer
        }

        fn records(&self, job: &[u8], walls: &mut [u32], loads: &mut [u32]) -> Packed {
            let answer = Second.records(job, walls, loads);
            walls[0] ^= u32::from(self.number);
            answer
        }
    }

    #[test]
    fn round_trips_are_held() {
        let (_, sample) = samples(1, 1).next().unwrap();
        let (job, records) = (&sample.bytes, Buffers::of(&sample.bytes).records);
        assert_eq!(written_again(&Second, job, &records), None);
        assert_eq!(read_back(&Second, &records, job.len()), None);
        for number in [true, false] {
            let said = written_again(&Turned { number }, job, &records).unwrap();
            assert!(said.starts_with("byte 12, from 0, is 0x0"), "{said}");
            let said = read_back(&Turned { number }, &records, job.len()).unwrap();
            assert!(
                said.starts_with("number 0 of the walls, from 0, is "),
                "{said}"
            );
        }
    }

    #[test]
    fn changed_records_are_found() {
        let before = Records {
            walls: vec![1, 2],
            loads: vec![3, 4],
        };
        assert_eq!(difference(&before, &before.clone()), None);
        let mut after = before.clone();
        after.loads[1] = 5;
        let words = "number 1 of the loads, from 0, is 5 and not 4";
        assert_eq!(difference(&before, &after), Some(words.to_string()));
    }
}
