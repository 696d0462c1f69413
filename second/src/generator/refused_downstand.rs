//! Jobs that are refused for a downstand, for water beside it, for a load that stands as
//! high as with it, or for the edition before; and their accepted neighbours.

use super::draft::{
    crest, height, length, put_any_downstand, typical_wall, without_downstand, Draft, ACROSS,
    EDITION_AT, FIRST_LOAD_AT, LENGTH_AT,
};
use super::{Due, Sample};
use crate::job_file::{field, RawWall, HEADER_BYTES, LOAD_BYTES};
use crate::random::Random;

/// What is done to a job of two walls with downstands.
enum Turn {
    /// To the fields of one of them; says which is named for it, counted from 1, if any.
    Wall(fn(&mut Random, &mut RawWall) -> Option<usize>),
    /// A horizontal load so far above the crest of one of them.
    Load(fn(&RawWall) -> u32),
    /// To the header, or to the length of the records.
    Edition(fn(&Draft) -> Sample),
}

use Turn::{Edition, Load, Wall};

/// The fields as they are named.
const WATER: usize = field::WATER_HEIGHT + 1;
const DEPTH: usize = field::DOWNSTAND_DEPTH + 1;
const POSITION: usize = field::DOWNSTAND_POSITION + 1;
const THICKNESS: usize = field::DOWNSTAND_THICKNESS + 1;

const TURNS: [Turn; 24] = [
    Wall(|_, wall| with_depth(wall, 2000, 0, DEPTH)),
    Wall(|_, wall| with_depth(wall, 2000, 1, WATER)),
    // As far as 32 bits go, and so far that with the other heights they come to 0.
    Wall(|_, wall| with_depth_and_water(wall, u32::MAX, u32::MAX)),
    Wall(|_, wall| with_depth_and_water(wall, crest(wall).wrapping_neg(), 1)),
    Wall(|_, wall| with_water(wall, 1, Some(WATER))),
    Wall(|_, wall| without_depth(wall, 1, 0, POSITION)),
    Wall(|_, wall| without_depth(wall, 0, 100, THICKNESS)),
    Wall(|_, wall| placed(wall, length(wall) + 1, 100, Some(POSITION))),
    Wall(|_, wall| placed(wall, length(wall), 100, Some(THICKNESS))),
    Wall(|random, wall| up_to_end(random, wall, 1, Some(THICKNESS))),
    Load(|_| 0),
    Load(|_| 1),
    Load(|wall| wall[field::DOWNSTAND_DEPTH]),
    Edition(|draft| without_fields(draft, 1, 2)),
    Wall(|_, wall| with_water(wall, 0, None)),
    Wall(|random, wall| up_to_end(random, wall, 0, None)),
    Wall(|_, wall| placed(wall, 0, 99, Some(THICKNESS))),
    Wall(|_, wall| placed(wall, 0, 1501, Some(THICKNESS))),
    Wall(|_, wall| without_depth(wall, 300, 300, POSITION)),
    // A position that 32 bits make 0 with the thickness.
    Wall(|_, wall| placed(wall, 100_u32.wrapping_neg(), 100, Some(POSITION))),
    Wall(|_, wall| with_depth(wall, 1001, 0, DEPTH)),
    Wall(|_, wall| placed_and_deep(wall)),
    Edition(edition_before),
    Edition(|draft| without_fields(draft, 2, 4)),
];

/// The turns one after another, in one wall and in the other.
pub fn refused_downstand(random: &mut Random, index: usize) -> Sample {
    let mut draft = Draft::default();
    for _ in 0..2 {
        let mut wall = typical_wall(random);
        // Long enough for the thickest downstand and more.
        wall[field::HEEL] = random.between(1600, 3000);
        put_any_downstand(random, &mut wall);
        draft.walls.push(wall);
    }
    let bad = index / 2 % 2;
    let due = match &TURNS[index % TURNS.len()] {
        Wall(turn) => {
            let named = turn(random, &mut draft.walls[bad]);
            named.map_or(Due::Accepted, |field| {
                Due::Refused(5, (100 * (bad + 1) + field) as u64)
            })
        }
        Load(over) => {
            let over = over(&draft.walls[bad]);
            put_load(&mut draft, bad, over)
        }
        Edition(turn) => return turn(&draft),
    };
    Sample {
        bytes: draft.bytes(),
        due,
    }
}

/// A depth, and water as high as with it the wall is, or so much higher.
fn with_depth(wall: &mut RawWall, depth: u32, over: u32, named: usize) -> Option<usize> {
    wall[field::DOWNSTAND_DEPTH] = depth;
    wall[field::WATER_HEIGHT] = height(wall) + over;
    Some(named)
}

/// A depth past its range beside water that is within its own.
fn with_depth_and_water(wall: &mut RawWall, depth: u32, water: u32) -> Option<usize> {
    wall[field::DOWNSTAND_DEPTH] = depth;
    wall[field::WATER_HEIGHT] = water;
    Some(DEPTH)
}

/// Water at the crest, or so much higher.
fn with_water(wall: &mut RawWall, over: u32, named: Option<usize>) -> Option<usize> {
    wall[field::WATER_HEIGHT] = height(wall) + over;
    named
}

/// A position and a thickness of what has no depth.
fn without_depth(wall: &mut RawWall, position: u32, thickness: u32, named: usize) -> Option<usize> {
    without_downstand(wall);
    wall[field::DOWNSTAND_POSITION] = position;
    wall[field::DOWNSTAND_THICKNESS] = thickness;
    Some(named)
}

fn placed(
    wall: &mut RawWall,
    position: u32,
    thickness: u32,
    named: Option<usize>,
) -> Option<usize> {
    wall[field::DOWNSTAND_POSITION] = position;
    wall[field::DOWNSTAND_THICKNESS] = thickness;
    named
}

/// A downstand whose back face is at the end of the base, or so much past it.
fn up_to_end(
    random: &mut Random,
    wall: &mut RawWall,
    over: u32,
    named: Option<usize>,
) -> Option<usize> {
    let thickness = random.between(100, 1500);
    let position = length(wall) + over - thickness;
    placed(wall, position, thickness, named)
}

/// All three bad: the depth is the first.
fn placed_and_deep(wall: &mut RawWall) -> Option<usize> {
    placed(wall, u32::MAX, 0, None);
    wall[field::DOWNSTAND_DEPTH] = 1001;
    Some(DEPTH)
}

/// Only at the crest, whatever the depth, may a load stand.
fn put_load(draft: &mut Draft, on: usize, over: u32) -> Due {
    let position = crest(&draft.walls[on]) + over;
    draft
        .loads
        .push([on as u32 + 1, ACROSS, position, 1000, 500]);
    match over {
        0 => Due::Accepted,
        _ => Due::Refused(6, 1),
    }
}

/// The edition before with this one's records.
fn edition_before(draft: &Draft) -> Sample {
    let mut header = draft.header();
    header[EDITION_AT] = 1;
    Sample {
        bytes: draft.bytes_with(header),
        due: Due::Refused(2, 0),
    }
}

/// The records without the fields of the downstand, behind a header for them.
fn without_fields(draft: &Draft, edition: u16, number: u8) -> Sample {
    let kept = field::DOWNSTAND_DEPTH;
    let first_load = HEADER_BYTES + 4 * kept * draft.walls.len();
    let length = first_load + LOAD_BYTES * draft.loads.len();
    let mut header = draft.header();
    header[EDITION_AT] = edition;
    header[FIRST_LOAD_AT] = first_load as u16;
    header[LENGTH_AT] = length as u16;
    let walls = draft.walls.iter().flat_map(|wall| &wall[..kept]);
    let records = walls.chain(draft.loads.iter().flatten());
    let bytes = header
        .iter()
        .flat_map(|number| number.to_le_bytes())
        .chain(records.flat_map(|number| number.to_le_bytes()));
    Sample {
        bytes: bytes.collect(),
        due: Due::Refused(number, 0),
    }
}
