//! What a comparison met, counted.

use crate::answers::Refusal;
use crate::bearing::{Bearing, Contact, Reported};
use crate::downstand::Underfoot;
use crate::forces::{pushes, Back};
use crate::heel::Reach;
use crate::job_file::Wall;
use crate::office::Packed;
use crate::section::Section;
use crate::sheet_line::Worked;
use crate::toe::Tip;
use std::fmt;

/// Numbers of answers: 0 for a success, 1 to 10 and 18 for refusals.
const ANSWERS: usize = 19;

/// The refusals that any job may get, and those that any records may.
const OF_A_JOB: &[usize] = &[1, 2, 3, 4, 5, 6, 7, 10];
const OF_RECORDS: &[usize] = &[3, 5, 6, 7, 9];

#[derive(Clone, Debug, Default, PartialEq, Eq)]
pub struct Tally {
    /// Jobs, by what is answered where there is room.
    jobs: [u64; ANSWERS],
    walls: u64,
    /// Calls of calculate, by their answer.
    calculated: [u64; ANSWERS],
    texts: u64,
    /// Drawings made, by the case of their shape.
    shapes: [u64; 4],
    /// Calls for a drawing, by their answer.
    drawings: [u64; ANSWERS],
    /// Calls for a check, by whether its bit is set.
    asked: [u64; 2],
    /// Calls of records, by their answer, and jobs written again.
    taken_apart: [u64; ANSWERS],
    written_again: u64,
    /// Calls of write, by their answer, and records read back.
    written: [u64; ANSWERS],
    read_back: u64,
    /// Walls, by their blocks and by the bits that are set.
    service: [u64; BLOCKS.len()],
    factored: [u64; BLOCKS.len()],
    bits: [u64; 9],
    /// Walls with a toe, by the tip of a factored toe triangle and of a heel triangle.
    toe_tips: [u64; TIPS.len()],
    heel_tips: [u64; TIPS.len()],
    /// Toes and walls, by steel for which a hundredth of a mm2 decides; one may be in
    /// the first two places.
    toe_steel: [u64; STEEL.len()],
    stem_steel: [u64; STEEL.len()],
    heel_steel: [u64; STEEL.len()],
    /// Heels, by a full factored block under them and by the tip of a triangle.
    under_heels: [u64; FULL.len()],
    toe_reaches: [u64; REACHES.len()],
    heel_reaches: [u64; REACHES.len()],
    /// Walls whose heel isn't checked, by the cause.
    heels_left_out: [u64; LEFT_OUT.len()],
    /// Heels, by figures that count as 0 and by failing alone; one may be in several.
    heel_facts: [u64; HEEL_FACTS.len()],
    /// Walls with a downstand, by where it stands and by what is below 0; one may be in
    /// several.
    downstands: u64,
    downstand_places: [u64; DOWNSTAND_PLACES.len()],
    downstand_facts: [u64; DOWNSTAND_FACTS.len()],
}

const SHAPES: [&str; 4] = ["nothing", "whole", "toe triangle", "heel triangle"];

const BLOCKS: [&str; 6] = [
    "full",
    "toe triangle",
    "heel triangle",
    "none for want of moment",
    "none for its peak",
    "none with R at the heel's end or past it",
];

/// In the order of [`Tip`].
const TIPS: [&str; 5] = [
    "before the face",
    "at the face",
    "before the middle",
    "at the middle",
    "past the middle",
];

/// A full block with pressure at the end of the heel, and with none just there.
const FULL: [&str; 2] = ["with pressure at the base's end", "to nothing just there"];

/// In the order of [`Reach`].
const REACHES: [&str; 5] = [
    "before the middle",
    "at the middle",
    "before the back face",
    "at the back face",
    "past the back face",
];

const LEFT_OUT: [&str; 2] = ["no heel", "no factored block"];

/// In the order of [`heel_facts`].
const HEEL_FACTS: [&str; 6] = [
    "V 0",
    "M 0",
    "steel fails",
    "steel fails alone",
    "shear fails",
    "shear fails alone",
];

fn heel_facts(wall: &Worked, heel: &Section) -> [bool; HEEL_FACTS.len()] {
    let toe = |fails: fn(&Section) -> bool| wall.toe.as_ref().is_some_and(fails);
    let other_steel = toe(|toe| toe.steel_fails) || wall.stem.steel_fails;
    let other_shear = toe(|toe| toe.shear_fails) || wall.stem.shear_fails;
    [
        heel.effects.shear == 0,
        heel.effects.moment == 0,
        heel.steel_fails,
        heel.steel_fails && !other_steel,
        heel.shear_fails,
        heel.shear_fails && !other_shear,
    ]
}

/// In the order of [`downstand_places`].
const DOWNSTAND_PLACES: [&str; 5] = [
    "under the toe",
    "under the stem",
    "under the heel",
    "across the front face",
    "across the back face",
];

fn downstand_places(wall: &Wall) -> [bool; DOWNSTAND_PLACES.len()] {
    let place = Underfoot::of(wall);
    [
        place.under_toe(),
        place.under_stem(),
        place.under_heel(),
        place.across_face(),
        place.across_back(),
    ]
}

/// In the order of [`downstand_facts`].
const DOWNSTAND_FACTS: [&str; 5] = [
    "water below the base",
    "lever of surcharge or moist fill below 0",
    "lever of saturated fill and water below 0",
    "service Mot below 0",
    "factored Mot below 0",
];

fn downstand_facts(wall: &Wall, worked: &Worked) -> [bool; DOWNSTAND_FACTS.len()] {
    let [surcharge, above, below, saturated, _] =
        pushes(wall, wall.ka, Back::of_wall(wall)).map(|push| push.moment < 0);
    [
        wall.water_height < wall.downstand.depth,
        surcharge || above || below,
        saturated,
        worked.service.mot < 0,
        worked.factored.mot < 0,
    ]
}

fn count_facts<const N: usize>(counts: &mut [u64; N], facts: [bool; N]) {
    for (count, fact) in counts.iter_mut().zip(facts) {
        *count += u64::from(fact);
    }
}

/// In the order of [`steel_facts`].
const STEEL: [&str; 3] = [
    "enough though not in whole mm2",
    "equal to the hundredth",
    "a hundredth short",
];

fn steel_facts(section: &Section) -> [bool; STEEL.len()] {
    [
        section.failed_in_mm2(),
        section.is_even(),
        section.is_hundredth_short(),
    ]
}

fn place_of(bearing: &Bearing) -> usize {
    match bearing {
        Bearing::Given(reported) => match reported.block.kind {
            Contact::Whole => 0,
            Contact::ToeTriangle => 1,
            Contact::HeelTriangle => 2,
        },
        Bearing::NoBlock => 3,
        Bearing::PeakTooGreat(_) => 4,
        Bearing::PastHeel => 5,
    }
}

/// Counts at a place; a number past the end is a fault that the comparison
/// itself has found before.
fn count<const N: usize>(counts: &mut [u64; N], place: usize) {
    if let Some(count) = counts.get_mut(place) {
        *count += 1;
    }
}

fn add<const N: usize>(sums: &mut [u64; N], counts: &[u64; N]) {
    for (sum, count) in sums.iter_mut().zip(counts) {
        *sum += count;
    }
}

impl Tally {
    pub fn count_job(&mut self, answer: &Result<Vec<Worked>, Refusal>) {
        match answer {
            Err(refusal) => count(&mut self.jobs, usize::from(refusal.number)),
            Ok(walls) => {
                count(&mut self.jobs, 0);
                walls.iter().for_each(|wall| self.count_wall(wall));
            }
        }
    }

    fn count_wall(&mut self, wall: &Worked) {
        self.walls += 1;
        count(&mut self.service, place_of(&wall.service_bearing));
        count(&mut self.factored, place_of(&wall.factored_bearing));
        for (bit, count) in self.bits.iter_mut().enumerate() {
            *count += u64::from(wall.failures >> bit & 1);
        }
        if let Some(toe) = &wall.toe {
            count_facts(&mut self.toe_steel, steel_facts(toe));
        }
        count_facts(&mut self.stem_steel, steel_facts(&wall.stem));
        if let Some(heel) = &wall.heel {
            count_facts(&mut self.heel_steel, steel_facts(heel));
            count_facts(&mut self.heel_facts, heel_facts(wall, heel));
        }
    }

    /// Of the walls of a job: what is under a toe that is checked, and under a heel; and
    /// their downstands.
    pub fn count_underfoot(&mut self, walls: &[Wall], worked: &[Worked]) {
        for (wall, worked) in walls.iter().zip(worked) {
            let bearing = worked.factored_bearing.given();
            if let Some(bearing) = bearing.filter(|_| worked.toe.is_some()) {
                self.count_under_toe(wall, bearing);
            }
            match bearing.filter(|_| worked.heel.is_some()) {
                Some(bearing) => self.count_under_heel(wall, bearing),
                None => count(&mut self.heels_left_out, usize::from(wall.heel > 0)),
            }
            if wall.downstand.depth > 0 {
                self.downstands += 1;
                count_facts(&mut self.downstand_places, downstand_places(wall));
                count_facts(&mut self.downstand_facts, downstand_facts(wall, worked));
            }
        }
    }

    fn count_under_toe(&mut self, wall: &Wall, bearing: &Reported) {
        let tips = match bearing.block.kind {
            Contact::HeelTriangle => &mut self.heel_tips,
            _ => &mut self.toe_tips,
        };
        if let Some(tip) = Tip::of(wall, bearing) {
            count(tips, tip as usize);
        }
    }

    fn count_under_heel(&mut self, wall: &Wall, bearing: &Reported) {
        match (bearing.block.kind, Reach::of(wall, bearing)) {
            (Contact::ToeTriangle, Some(reach)) => count(&mut self.toe_reaches, reach as usize),
            (Contact::HeelTriangle, Some(reach)) => count(&mut self.heel_reaches, reach as usize),
            (_, at_end) => count(&mut self.under_heels, usize::from(at_end.is_some())),
        }
    }

    pub fn count_calculated(&mut self, answer: Packed) {
        count(&mut self.calculated, answer.number() as usize);
    }

    pub fn count_text(&mut self) {
        self.texts += 1;
    }

    pub fn count_drawing(&mut self, answer: Packed) {
        count(&mut self.drawings, answer.number() as usize);
        if answer.number() == 0 {
            count(&mut self.shapes, answer.shape() as usize);
        }
    }

    pub fn count_asked(&mut self, set: bool) {
        count(&mut self.asked, usize::from(set));
    }

    pub fn count_records(&mut self, answer: Packed) {
        count(&mut self.taken_apart, answer.number() as usize);
    }

    pub fn count_written_again(&mut self) {
        self.written_again += 1;
    }

    pub fn count_write(&mut self, answer: Packed) {
        count(&mut self.written, answer.number() as usize);
    }

    pub fn count_read_back(&mut self) {
        self.read_back += 1;
    }

    pub fn jobs(&self) -> u64 {
        self.jobs.iter().sum()
    }

    pub fn add(&mut self, other: &Tally) {
        add(&mut self.jobs, &other.jobs);
        self.walls += other.walls;
        add(&mut self.calculated, &other.calculated);
        self.texts += other.texts;
        add(&mut self.shapes, &other.shapes);
        add(&mut self.drawings, &other.drawings);
        add(&mut self.asked, &other.asked);
        add(&mut self.taken_apart, &other.taken_apart);
        self.written_again += other.written_again;
        add(&mut self.written, &other.written);
        self.read_back += other.read_back;
        add(&mut self.service, &other.service);
        add(&mut self.factored, &other.factored);
        add(&mut self.bits, &other.bits);
        add(&mut self.toe_tips, &other.toe_tips);
        add(&mut self.heel_tips, &other.heel_tips);
        add(&mut self.toe_steel, &other.toe_steel);
        add(&mut self.stem_steel, &other.stem_steel);
        add(&mut self.heel_steel, &other.heel_steel);
        add(&mut self.under_heels, &other.under_heels);
        add(&mut self.toe_reaches, &other.toe_reaches);
        add(&mut self.heel_reaches, &other.heel_reaches);
        add(&mut self.heels_left_out, &other.heels_left_out);
        add(&mut self.heel_facts, &other.heel_facts);
        self.downstands += other.downstands;
        add(&mut self.downstand_places, &other.downstand_places);
        add(&mut self.downstand_facts, &other.downstand_facts);
    }
}

/// "worked 20; refused with 1: 19, 2: 18", with the refusals that are always
/// named and any other that was met.
fn answers(success: &str, counts: &[u64; ANSWERS], always: &[usize]) -> String {
    let met = |number: &usize| counts[*number] > 0 || always.contains(number);
    let each = (1..ANSWERS).filter(met);
    let words: Vec<String> = each.map(|n| format!("{n}: {}", counts[n])).collect();
    format!("{success}; refused with {}", words.join(", "))
}

/// "full 20, toe triangle 19".
fn named(names: &[&str], counts: &[u64]) -> String {
    let pairs = names.iter().zip(counts);
    let words: Vec<String> = pairs.map(|(name, n)| format!("{name} {n}")).collect();
    words.join(", ")
}

fn bits(counts: &[u64; 9]) -> String {
    let pairs = counts.iter().enumerate();
    let words: Vec<String> = pairs.map(|(bit, n)| format!("{}: {n}", 1 << bit)).collect();
    words.join(", ")
}

/// A row's name, and what stands in it.
type Row = (&'static str, String);

impl Tally {
    fn rows_of_calls(&self) -> [Row; 7] {
        let jobs = format!("worked {}, with {} walls", self.jobs[0], self.walls);
        let calculated = format!("worked {}", self.calculated[0]);
        let shapes = named(&SHAPES, &self.shapes);
        let apart = format!(
            "taken apart {}, written again {}",
            self.taken_apart[0], self.written_again
        );
        let written = format!("written {}, read back {}", self.written[0], self.read_back);
        [
            ("jobs", answers(&jobs, &self.jobs, OF_A_JOB)),
            (
                "calls of calculate",
                answers(&calculated, &self.calculated, OF_A_JOB),
            ),
            ("calls of text", self.texts.to_string()),
            (
                "calls of drawing",
                answers(&shapes, &self.drawings, OF_A_JOB),
            ),
            (
                "calls of has_failed",
                named(&["false", "true"], &self.asked),
            ),
            (
                "calls of records",
                answers(&apart, &self.taken_apart, OF_A_JOB),
            ),
            (
                "calls of write",
                answers(&written, &self.written, OF_RECORDS),
            ),
        ]
    }

    fn rows_of_walls(&self) -> [Row; 15] {
        let places = named(&DOWNSTAND_PLACES, &self.downstand_places);
        [
            ("service block, in walls", named(&BLOCKS, &self.service)),
            ("factored block, in walls", named(&BLOCKS, &self.factored)),
            ("toe block's end, in toes", named(&TIPS, &self.toe_tips)),
            ("heel block's start, in toes", named(&TIPS, &self.heel_tips)),
            ("toe steel, in toes", named(&STEEL, &self.toe_steel)),
            ("stem steel, in walls", named(&STEEL, &self.stem_steel)),
            ("heel steel, in heels", named(&STEEL, &self.heel_steel)),
            ("full block, in heels", named(&FULL, &self.under_heels)),
            (
                "toe block's end, in heels",
                named(&REACHES, &self.toe_reaches),
            ),
            (
                "heel block's start, in heels",
                named(&REACHES, &self.heel_reaches),
            ),
            (
                "heel not checked, in walls",
                named(&LEFT_OUT, &self.heels_left_out),
            ),
            ("heel, in heels", named(&HEEL_FACTS, &self.heel_facts)),
            (
                "downstand, in walls",
                format!("{}; {places}", self.downstands),
            ),
            (
                "beside a downstand, in walls with one",
                named(&DOWNSTAND_FACTS, &self.downstand_facts),
            ),
            ("bits set, in walls", bits(&self.bits)),
        ]
    }
}

/// The rows of a table to paste into a document.
impl fmt::Display for Tally {
    fn fmt(&self, out: &mut fmt::Formatter<'_>) -> fmt::Result {
        writeln!(out, "| | |\n|---|---|")?;
        let calls = self.rows_of_calls();
        let walls = self.rows_of_walls();
        calls
            .iter()
            .chain(&walls)
            .try_for_each(|(name, words)| writeln!(out, "| {name} | {words} |"))
    }
}
