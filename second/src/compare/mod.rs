//! The office library held to this program, job by job: every answer, every
//! number of what was lent and around it, and what was given to be read, which
//! must stay.

mod buffers;
mod run;
mod tally;
mod twins;
mod writing;

pub use run::{run, Ended, Found, Until, Wish};
pub use tally::Tally;

use crate::answers::accept;
use crate::job_file::{Header, LOAD_FIELDS, MOST_BYTES, MOST_LOADS, MOST_WALLS, WALL_FIELDS};
use crate::office::{Office, Packed, Second, DRAWING_ROOM, TEXT_ROOM};
use crate::random::Random;
use crate::sheet_line::{work_job, CHECKS, LINE_NUMBERS, NO_SERVICE_BLOCK, OVER_ALLOWABLE};
use twins::Twins;

/// The most room that is lent beyond what a job needs.
const MORE: usize = 40;

/// Of a job with more walls than this only some are drawn.
const WALLS_ALL_DRAWN: usize = 6;

/// Room for one figure too few, for all, and for two more.
const DRAWING_ROOMS: [usize; 3] = [DRAWING_ROOM - 1, DRAWING_ROOM, DRAWING_ROOM + 2];

/// No wall fails both: without a service block no pressure is over the allowable.
const NEVER_BOTH: u16 = OVER_ALLOWABLE | NO_SERVICE_BLOCK;

/// Numbers that are no wall's failures; the last two have bits that no check has.
const NO_FAILURES: [u16; 5] = [
    NEVER_BOTH,
    NEVER_BOTH | 0x155,
    NEVER_BOTH | 0xaa,
    NEVER_BOTH | 0xfe00,
    u16::MAX,
];

/// Numbers that are no check's bit.
const NO_CHECKS: [u16; 6] = [0, 3, 0xff, 257, 512, u16::MAX];

pub struct Comparer<'a, O> {
    office: &'a O,
    numbers: Twins<i64>,
    letters: Twins<u8>,
    figures: Twins<f64>,
    walls: Twins<u32>,
    loads: Twins<u32>,
    files: Twins<u8>,
    tally: Tally,
}

impl<'a, O: Office> Comparer<'a, O> {
    pub fn new(office: &'a O) -> Comparer<'a, O> {
        Comparer {
            office,
            numbers: Twins::new(LINE_NUMBERS * MOST_WALLS + MORE),
            letters: Twins::new(TEXT_ROOM),
            figures: Twins::new(DRAWING_ROOM + 2),
            walls: Twins::new(WALL_FIELDS * MOST_WALLS + MORE),
            loads: Twins::new(LOAD_FIELDS * MOST_LOADS + MORE),
            files: Twins::new(MOST_BYTES + MORE),
            tally: Tally::default(),
        }
    }

    pub fn tally(&self) -> &Tally {
        &self.tally
    }

    /// Takes one job through every entry, or says what differs. Chance settles
    /// how much more room is lent, which of many walls are drawn and how records
    /// are changed that are to be written.
    pub fn hold(&mut self, job: &[u8], random: &mut Random) -> Result<(), String> {
        let accepted = accept(job);
        let exact = LINE_NUMBERS * walls_said(job);
        for room in [exact, exact + 1 + random.below(MORE), exact - 1, 0] {
            self.hold_calculate(job, room)?;
        }
        for room in [TEXT_ROOM, TEXT_ROOM - 1] {
            self.hold_text(job, room)?;
        }
        let walls = accepted.as_ref().map_or(1, |job| job.walls.len());
        for wall in walls_asked(walls, random) {
            for room in DRAWING_ROOMS {
                self.hold_drawing(job, wall, room)?;
            }
        }
        self.hold_writing(job, accepted.is_ok(), random)?;
        let worked = accepted.map(|job| {
            let worked = work_job(&job);
            self.tally.count_underfoot(&job.walls, &worked);
            worked
        });
        let walls = worked.iter().flatten().map(|wall| wall.failures);
        for failures in walls.chain(NO_FAILURES) {
            self.hold_has_failed(failures)?;
        }
        self.tally.count_job(&worked);
        Ok(())
    }

    fn hold_calculate(&mut self, job: &[u8], room: usize) -> Result<(), String> {
        let (out, given_out) = self.numbers.lend(room);
        let expected = Second.calculate(job, out);
        let given = self.office.calculate(job, given_out);
        let differs = packed_difference(given, expected).or_else(|| self.numbers.difference());
        self.tally.count_calculated(expected);
        held(differs, || format!("calculate, {room} numbers lent"))
    }

    fn hold_text(&mut self, job: &[u8], room: usize) -> Result<(), String> {
        let (out, given_out) = self.letters.lend(room);
        let expected = Second.text(job, out);
        let given = self.office.text(job, given_out);
        let differs = (given != expected)
            .then(|| format!("{given} bytes are said to be printed and not {expected}"))
            .or_else(|| self.letters.difference());
        self.tally.count_text();
        held(differs, || format!("text, {room} bytes lent"))
    }

    fn hold_drawing(&mut self, job: &[u8], wall: u32, room: usize) -> Result<(), String> {
        let (out, given_out) = self.figures.lend(room);
        let expected = Second.drawing(job, wall, out);
        let given = self.office.drawing(job, wall, given_out);
        let differs = packed_difference(given, expected).or_else(|| self.figures.difference());
        self.tally.count_drawing(expected);
        held(differs, || {
            format!("drawing of wall {wall}, {room} figures lent")
        })
    }

    fn hold_has_failed(&mut self, failures: u16) -> Result<(), String> {
        for check in CHECKS.into_iter().chain(NO_CHECKS) {
            let expected = Second.has_failed(failures, check);
            let given = self.office.has_failed(failures, check);
            let differs =
                (given != expected).then(|| format!("the answer is {given} and not {expected}"));
            self.tally.count_asked(expected);
            held(differs, || {
                format!("check {check} in failures {failures:03x}")
            })?;
        }
        Ok(())
    }
}

/// The walls that a header gives, as far as a file may have them.
fn walls_said(job: &[u8]) -> usize {
    let said = Header::read(job).map_or(1, |header| usize::from(header.walls));
    said.clamp(1, MOST_WALLS)
}

/// No wall, walls of the job, one past its last, and a number past all.
fn walls_asked(walls: usize, random: &mut Random) -> Vec<u32> {
    let last = walls as u32;
    let mut asked = vec![0, last + 1, u32::MAX];
    if walls <= WALLS_ALL_DRAWN {
        asked.extend(1..=last);
    } else {
        asked.extend([1, last]);
        asked.extend((0..3).map(|_| random.between(2, last - 1)));
    }
    asked
}

fn packed_difference(given: Packed, expected: Packed) -> Option<String> {
    (given != expected).then(|| format!("the answer is ({given}) and not ({expected})"))
}

fn held(differs: Option<String>, call: impl Fn() -> String) -> Result<(), String> {
    match differs {
        Some(what) => Err(format!("{}: {what}", call())),
        None => Ok(()),
    }
}
