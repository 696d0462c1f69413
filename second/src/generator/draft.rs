//! A job file while it is being made up, right or wrong.

use crate::job_file::{
    field, Job, Load, Range, RawLoad, RawWall, Wall, BARS, DOWNSTAND_THICKNESSES, EDITION,
    HEADER_BYTES, LOAD_BYTES, MOST_LOAD, RANGES, WALL_BYTES, WALL_FIELDS,
};
use crate::random::Random;

pub const DOWN: u32 = 0;
pub const ACROSS: u32 = 1;

/// Places of the header's numbers.
pub const EDITION_AT: usize = 0;
pub const WALLS_AT: usize = 1;
pub const FIRST_WALL_AT: usize = 2;
pub const LOADS_AT: usize = 3;
pub const FIRST_LOAD_AT: usize = 4;
pub const LENGTH_AT: usize = 5;

#[derive(Clone, Debug, Default, PartialEq, Eq)]
pub struct Draft {
    pub walls: Vec<RawWall>,
    pub loads: Vec<RawLoad>,
}

impl Draft {
    pub fn of(wall: RawWall) -> Draft {
        Draft {
            walls: vec![wall],
            loads: Vec::new(),
        }
    }

    /// Adds a wall with its loads, which get its number.
    pub fn add(&mut self, wall: RawWall, loads: &[RawLoad]) {
        self.walls.push(wall);
        let number = self.walls.len() as u32;
        self.loads.extend(loads.iter().map(|load| {
            let mut load = *load;
            load[0] = number;
            load
        }));
    }

    /// The six numbers that fit the records, cut to 16 bits.
    pub fn header(&self) -> [u16; 6] {
        let first_load = HEADER_BYTES + WALL_BYTES * self.walls.len();
        let length = first_load + LOAD_BYTES * self.loads.len();
        [
            EDITION,
            self.walls.len() as u16,
            HEADER_BYTES as u16,
            self.loads.len() as u16,
            first_load as u16,
            length as u16,
        ]
    }

    pub fn bytes(&self) -> Vec<u8> {
        self.bytes_with(self.header())
    }

    /// The records after a header that may not fit them.
    pub fn bytes_with(&self, header: [u16; 6]) -> Vec<u8> {
        let records = self
            .walls
            .iter()
            .flatten()
            .chain(self.loads.iter().flatten());
        header
            .iter()
            .flat_map(|number| number.to_le_bytes())
            .chain(records.flat_map(|number| number.to_le_bytes()))
            .collect()
    }

    /// The job, of a draft whose fields are all in range.
    pub fn job(&self) -> Job {
        let walls: Vec<Wall> = self.walls.iter().map(Wall::from_raw).collect();
        let loads = self
            .loads
            .iter()
            .filter_map(|raw| Load::from_raw(raw, &walls))
            .collect();
        Job { walls, loads }
    }
}

/// Lowest and highest value of a wall field counted from 0, by the other fields as they
/// stand. A downstand has a position up to l, but with one past l - 100 no thickness.
pub fn ends(wall: &RawWall, index: usize) -> (u32, u32) {
    let no_downstand = wall[field::DOWNSTAND_DEPTH] == 0;
    match RANGES[index] {
        Range::Between(low, high) => (low, high),
        Range::Bar => (BARS[0], BARS[7]),
        Range::Water => (0, height(wall)),
        Range::DownstandPosition | Range::DownstandThickness if no_downstand => (0, 0),
        Range::DownstandPosition => (0, length(wall)),
        Range::DownstandThickness => {
            let (thinnest, thickest) = DOWNSTAND_THICKNESSES;
            let left = length(wall).saturating_sub(wall[field::DOWNSTAND_POSITION]);
            (thinnest, thickest.min(left))
        }
    }
}

/// hs + tb, mm, as far as a horizontal load may stand above the underside of the base; of
/// fields far past their ranges, no more than a u32 holds.
pub fn crest(wall: &RawWall) -> u32 {
    wall[field::STEM_HEIGHT].saturating_add(wall[field::BASE_THICKNESS])
}

/// h, mm, with the downstand; of fields far past their ranges, no more than a u32 holds.
pub fn height(wall: &RawWall) -> u32 {
    crest(wall).saturating_add(wall[field::DOWNSTAND_DEPTH])
}

/// l, mm; of fields far past their ranges, no more than a u32 holds.
pub fn length(wall: &RawWall) -> u32 {
    wall[field::TOE]
        .saturating_add(wall[field::STEM_THICKNESS])
        .saturating_add(wall[field::HEEL])
}

/// Brings water and downstand within a wall whose lengths were changed.
pub fn fit(wall: &mut RawWall) {
    wall[field::WATER_HEIGHT] = wall[field::WATER_HEIGHT].min(height(wall));
    if wall[field::DOWNSTAND_DEPTH] == 0 {
        wall[field::DOWNSTAND_POSITION] = 0;
        wall[field::DOWNSTAND_THICKNESS] = 0;
        return;
    }
    let (thinnest, thickest) = DOWNSTAND_THICKNESSES;
    let thickness = wall[field::DOWNSTAND_THICKNESS].clamp(thinnest, thickest);
    let thickness = thickness.min(length(wall));
    let furthest = length(wall) - thickness;
    wall[field::DOWNSTAND_THICKNESS] = thickness;
    wall[field::DOWNSTAND_POSITION] = wall[field::DOWNSTAND_POSITION].min(furthest);
}

/// Takes the downstand away, and as much water as its depth had at most.
pub fn without_downstand(wall: &mut RawWall) {
    wall[field::DOWNSTAND_DEPTH] = 0;
    fit(wall);
}

/// Ranges of a wall an engineer might send, in the order of the fields; water and
/// downstand come later.
const TYPICAL: [(u32, u32); WALL_FIELDS] = [
    (0, 1),
    (1500, 5000),
    (200, 500),
    (300, 1500),
    (800, 3000),
    (250, 600),
    (0, 500),
    (0, 300),
    (0, 0),
    (2300, 2500),
    (2300, 2500),
    (1600, 2000),
    (1900, 2200),
    (1600, 2000),
    (250, 400),
    (400, 600),
    (2000, 5000),
    (300, 600),
    (75, 300),
    (0, 2000),
    (25, 50),
    (250, 500),
    (10, 25),
    (30, 75),
    (0, 0),
    (100, 300),
    (30, 75),
    (0, 0),
    (100, 300),
    (350, 900),
    (350, 900),
    (30, 75),
    (0, 0),
    (100, 300),
    (350, 900),
    (0, 0),
    (0, 0),
    (0, 0),
];

/// Likely depths of a downstand, and thicknesses.
const TYPICAL_DOWNSTAND: [(u32, u32); 2] = [(150, 600), (200, 500)];

/// One wall in three has a downstand.
pub fn typical_wall(random: &mut Random) -> RawWall {
    let mut wall: RawWall = std::array::from_fn(|i| random.between(TYPICAL[i].0, TYPICAL[i].1));
    if random.once_in(3) {
        let [depths, thicknesses] = TYPICAL_DOWNSTAND;
        put_downstand(random, &mut wall, depths, thicknesses);
    }
    wall[field::TOE_BAR] = random.pick(&BARS[2..7]);
    wall[field::STEM_BAR] = random.pick(&BARS[2..7]);
    wall[field::HEEL_BAR] = random.pick(&BARS[2..7]);
    wall[field::WATER_HEIGHT] = match random.below(3) {
        0 => 0,
        1 => random.between(1, wall[field::BASE_THICKNESS]),
        _ => random.between(0, height(&wall) / 2),
    };
    wall
}

/// A downstand of some depth and thickness anywhere under a base.
fn put_downstand(random: &mut Random, wall: &mut RawWall, depths: Span, thicknesses: Span) {
    wall[field::DOWNSTAND_DEPTH] = random.between(depths.0, depths.1);
    let thickness = random.between(thicknesses.0, thicknesses.1.min(length(wall)));
    wall[field::DOWNSTAND_THICKNESS] = thickness;
    wall[field::DOWNSTAND_POSITION] = random.between(0, length(wall) - thickness);
    // It may be less deep than the one before.
    fit(wall);
}

/// Lowest and highest.
type Span = (u32, u32);

/// A downstand of any depth and thickness anywhere under a base.
pub fn put_any_downstand(random: &mut Random, wall: &mut RawWall) {
    let (_, deepest) = ends(wall, field::DOWNSTAND_DEPTH);
    put_downstand(random, wall, (1, deepest), DOWNSTAND_THICKNESSES);
}

/// Every field anywhere in its range; one wall in two has a downstand, and one in ten is
/// low besides.
pub fn wide_wall(random: &mut Random) -> RawWall {
    if random.once_in(10) {
        low_wall(random)
    } else {
        any_wall(random)
    }
}

/// A low wall with a short base and a deep downstand, so that much of what pushes stands
/// below the underside of the base.
pub fn low_wall(random: &mut Random) -> RawWall {
    let mut wall = any_wall(random);
    wall[field::STEM_HEIGHT] = random.between(500, 1000);
    wall[field::STEM_THICKNESS] = random.between(200, 400);
    wall[field::TOE] = random.between(0, 300);
    wall[field::HEEL] = random.between(0, 800);
    wall[field::BASE_THICKNESS] = random.between(200, 400);
    put_any_downstand(random, &mut wall);
    wall[field::DOWNSTAND_DEPTH] = random.between(600, 1000);
    wall[field::WATER_HEIGHT] = match random.below(3) {
        0 => 0,
        1 => random.between(1, wall[field::DOWNSTAND_DEPTH]),
        _ => random.between(0, height(&wall)),
    };
    fit(&mut wall);
    wall
}

fn any_wall(random: &mut Random) -> RawWall {
    let mut wall: RawWall = [0; WALL_FIELDS];
    for index in 0..field::DOWNSTAND_DEPTH {
        wall[index] = match RANGES[index] {
            Range::Between(low, high) => random.between(low, high),
            Range::Bar => random.pick(&BARS),
            _ => 0,
        };
    }
    if random.once_in(2) {
        put_any_downstand(random, &mut wall);
    }
    wall[field::WATER_HEIGHT] = random.between(0, height(&wall));
    wall
}

/// Where a load may stand.
#[derive(Clone, Copy, Debug, PartialEq, Eq)]
pub enum Place {
    Toe,
    Between,
    Heel,
    Underside,
    BelowBaseTop,
    BaseTop,
    AboveBaseTop,
    Crest,
}

pub const PLACES: [Place; 8] = [
    Place::Toe,
    Place::Between,
    Place::Heel,
    Place::Underside,
    Place::BelowBaseTop,
    Place::BaseTop,
    Place::AboveBaseTop,
    Place::Crest,
];

/// Direction and position of a place on a wall.
fn stand(random: &mut Random, wall: &RawWall, place: Place) -> (u32, u32) {
    let top = wall[field::BASE_THICKNESS];
    match place {
        Place::Toe => (DOWN, 0),
        Place::Between => (DOWN, random.between(1, length(wall) - 1)),
        Place::Heel => (DOWN, length(wall)),
        Place::Underside => (ACROSS, 0),
        Place::BelowBaseTop => (ACROSS, random.between(1, top - 1)),
        Place::BaseTop => (ACROSS, top),
        Place::AboveBaseTop => (ACROSS, random.between(top + 1, crest(wall) - 1)),
        Place::Crest => (ACROSS, crest(wall)),
    }
}

/// A load at a place on wall `number`, dead and live up to `most`.
pub fn load_at(
    random: &mut Random,
    number: usize,
    wall: &RawWall,
    place: Place,
    most: u32,
) -> RawLoad {
    let (direction, position) = stand(random, wall, place);
    let most = most.min(MOST_LOAD);
    let (dead, live) = match random.below(7) {
        0 | 1 => (random.between(1, most), 0),
        2 | 3 => (0, random.between(1, most)),
        4 | 5 => (random.between(1, most), random.between(1, most)),
        _ => (0, 0),
    };
    [number as u32, direction, position, dead, live]
}

/// A load anywhere.
pub fn any_load(random: &mut Random, number: usize, wall: &RawWall, most: u32) -> RawLoad {
    let place = random.pick(&PLACES);
    load_at(random, number, wall, place, most)
}
