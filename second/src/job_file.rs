//! Document 01, "The job file": the layout, the fields and their ranges; with the four
//! fields of the heel that document 02 adds, "#103 Heel steel", and the three of the
//! downstand and the edition, "#107 Downstands".

use crate::Whole;

pub const EDITION: u16 = 2;
pub const HEADER_BYTES: usize = 12;
pub const WALL_FIELDS: usize = 38;
pub const LOAD_FIELDS: usize = 5;
pub const WALL_BYTES: usize = 4 * WALL_FIELDS;
pub const LOAD_BYTES: usize = 4 * LOAD_FIELDS;
pub const MOST_WALLS: usize = 64;
pub const MOST_LOADS: usize = 512;
pub const MOST_LOADS_A_WALL: usize = 8;
/// Bytes of the longest file.
pub const MOST_BYTES: usize = HEADER_BYTES + WALL_BYTES * MOST_WALLS + LOAD_BYTES * MOST_LOADS;
pub const MOST_LOAD: u32 = 200_000;
pub const BARS: [u32; 8] = [8, 10, 12, 16, 20, 25, 32, 40];

/// Places of the wall fields in their record, counted from 0 (document 01
/// counts from 1).
pub mod field {
    pub const KIND: usize = 0;
    pub const STEM_HEIGHT: usize = 1;
    pub const STEM_THICKNESS: usize = 2;
    pub const TOE: usize = 3;
    pub const HEEL: usize = 4;
    pub const BASE_THICKNESS: usize = 5;
    pub const COVER_IN_FRONT: usize = 6;
    pub const EXCAVATION: usize = 7;
    pub const WATER_HEIGHT: usize = 8;
    pub const STEM_DENSITY: usize = 9;
    pub const BASE_DENSITY: usize = 10;
    pub const MOIST_DENSITY: usize = 11;
    pub const SATURATED_DENSITY: usize = 12;
    pub const BASE_SOIL_DENSITY: usize = 13;
    pub const KA: usize = 14;
    pub const K0: usize = 15;
    pub const KP_COS: usize = 16;
    pub const TANGENT: usize = 17;
    pub const ALLOWABLE: usize = 18;
    pub const SURCHARGE: usize = 19;
    pub const FCU: usize = 20;
    pub const FY: usize = 21;
    pub const LEAST_STEEL: usize = 22;
    pub const TOE_COVER: usize = 23;
    pub const TOE_BAR: usize = 24;
    pub const TOE_SPACING: usize = 25;
    pub const STEM_COVER: usize = 26;
    pub const STEM_BAR: usize = 27;
    pub const STEM_SPACING: usize = 28;
    pub const TOE_SHEAR_STRESS: usize = 29;
    pub const STEM_SHEAR_STRESS: usize = 30;
    pub const HEEL_COVER: usize = 31;
    pub const HEEL_BAR: usize = 32;
    pub const HEEL_SPACING: usize = 33;
    pub const HEEL_SHEAR_STRESS: usize = 34;
    pub const DOWNSTAND_DEPTH: usize = 35;
    pub const DOWNSTAND_POSITION: usize = 36;
    pub const DOWNSTAND_THICKNESS: usize = 37;
}

pub type RawWall = [u32; WALL_FIELDS];
pub type RawLoad = [u32; LOAD_FIELDS];

/// What a wall field may hold.
#[derive(Clone, Copy, Debug, PartialEq, Eq)]
pub enum Range {
    Between(u32, u32),
    Bar,
    /// 0 up to stem height + base thickness + depth of downstand of the same wall.
    Water,
    /// 0 up to the length of the same wall's base; 0 alone without a downstand.
    DownstandPosition,
    /// The range of [`DOWNSTAND_THICKNESSES`], and with the position no more than the
    /// length of the same wall's base; 0 alone without a downstand.
    DownstandThickness,
}

use Range::{Bar, Between, DownstandPosition, DownstandThickness, Water};

/// The least and the greatest thickness of a downstand, mm.
pub const DOWNSTAND_THICKNESSES: (u32, u32) = (100, 1500);

pub const RANGES: [Range; WALL_FIELDS] = [
    Between(0, 1),
    Between(500, 8000),
    Between(200, 1500),
    Between(0, 5000),
    Between(0, 5000),
    Between(200, 1500),
    Between(0, 1000),
    Between(0, 1000),
    Water,
    Between(1500, 3000),
    Between(1500, 3000),
    Between(1000, 3000),
    Between(1000, 3000),
    Between(1000, 3000),
    Between(1, 1000),
    Between(1, 1000),
    Between(0, 15_000),
    Between(0, 1000),
    Between(1, 1000),
    Between(0, 10_000),
    Between(20, 60),
    Between(250, 500),
    Between(0, 100),
    Between(20, 75),
    Bar,
    Between(50, 500),
    Between(20, 75),
    Bar,
    Between(50, 500),
    Between(1, 5000),
    Between(1, 5000),
    Between(20, 75),
    Bar,
    Between(50, 500),
    Between(1, 5000),
    Between(0, 1000),
    DownstandPosition,
    DownstandThickness,
];

/// Whether a wall field, counted from 0, is within its range. Water and downstand are
/// judged by the lengths of their own record as they stand, in range or not. Their sums
/// are taken in 64 bits, where none is cut.
pub fn field_in_range(raw: &RawWall, index: usize) -> bool {
    let value = raw[index];
    let sum = |fields: &[usize]| -> u64 { fields.iter().map(|at| u64::from(raw[*at])).sum() };
    let base_length = || sum(&[field::TOE, field::STEM_THICKNESS, field::HEEL]);
    let no_downstand = raw[field::DOWNSTAND_DEPTH] == 0;
    match RANGES[index] {
        Between(low, high) => (low..=high).contains(&value),
        Bar => BARS.contains(&value),
        Water => {
            let heights = [
                field::STEM_HEIGHT,
                field::BASE_THICKNESS,
                field::DOWNSTAND_DEPTH,
            ];
            u64::from(value) <= sum(&heights)
        }
        DownstandPosition | DownstandThickness if no_downstand => value == 0,
        DownstandPosition => u64::from(value) <= base_length(),
        DownstandThickness => {
            let (low, high) = DOWNSTAND_THICKNESSES;
            let end = sum(&[field::DOWNSTAND_POSITION, field::DOWNSTAND_THICKNESS]);
            (low..=high).contains(&value) && end <= base_length()
        }
    }
}

/// The six numbers a file starts with.
#[derive(Clone, Copy, Debug, PartialEq, Eq)]
pub struct Header {
    pub edition: u16,
    pub walls: u16,
    pub first_wall: u16,
    pub loads: u16,
    pub first_load: u16,
    pub length: u16,
}

impl Header {
    /// `None` when the input is shorter than a header.
    pub fn read(input: &[u8]) -> Option<Header> {
        let bytes = input.get(..HEADER_BYTES)?;
        let at = |i: usize| u16::from_le_bytes([bytes[2 * i], bytes[2 * i + 1]]);
        Some(Header {
            edition: at(0),
            walls: at(1),
            first_wall: at(2),
            loads: at(3),
            first_load: at(4),
            length: at(5),
        })
    }

    /// The header of a file with so many walls and loads, both in range.
    pub fn due(walls: usize, loads: usize) -> Header {
        let first_load = HEADER_BYTES + WALL_BYTES * walls;
        Header {
            edition: EDITION,
            walls: walls as u16,
            first_wall: HEADER_BYTES as u16,
            loads: loads as u16,
            first_load: first_load as u16,
            length: (first_load + LOAD_BYTES * loads) as u16,
        }
    }

    /// The six numbers in file order.
    pub fn numbers(&self) -> [u16; 6] {
        [
            self.edition,
            self.walls,
            self.first_wall,
            self.loads,
            self.first_load,
            self.length,
        ]
    }
}

/// The u32 numbers that some bytes hold, four bytes each.
pub fn read_numbers(bytes: &[u8]) -> Vec<u32> {
    let (numbers, _) = bytes.as_chunks();
    numbers.iter().copied().map(u32::from_le_bytes).collect()
}

/// The u32 numbers of one record. The caller has checked the input's length.
pub fn read_record<const N: usize>(input: &[u8], offset: usize) -> [u32; N] {
    std::array::from_fn(|i| {
        let at = offset + 4 * i;
        u32::from_le_bytes([input[at], input[at + 1], input[at + 2], input[at + 3]])
    })
}

/// Bars and their place in a section: mm, mm, mm and 1/1000 N/mm2.
#[derive(Clone, Copy, Debug, PartialEq, Eq)]
pub struct Reinforcement {
    pub cover: Whole,
    pub bar: Whole,
    pub spacing: Whole,
    pub concrete_shear_stress: Whole,
}

/// What stands down from the base into the ground, mm; all 0 where nothing does.
#[derive(Clone, Copy, Debug, PartialEq, Eq)]
pub struct Downstand {
    /// Below the underside of the base.
    pub depth: Whole,
    /// From the front edge of the toe to its front face.
    pub position: Whole,
    pub thickness: Whole,
}

/// One wall. Where nothing else is said, a length counts mm, a density tens of
/// N/m3 and a coefficient thousandths.
#[derive(Clone, Debug, PartialEq, Eq)]
pub struct Wall {
    pub propped: bool,
    pub stem_height: Whole,
    pub stem_thickness: Whole,
    pub toe: Whole,
    pub heel: Whole,
    pub base_thickness: Whole,
    pub cover_in_front: Whole,
    pub excavation: Whole,
    pub water_height: Whole,
    pub stem_density: Whole,
    pub base_density: Whole,
    pub moist_density: Whole,
    pub saturated_density: Whole,
    pub base_soil_density: Whole,
    pub ka: Whole,
    pub k0: Whole,
    pub kp_cos: Whole,
    pub tangent: Whole,
    /// kN/m2
    pub allowable: Whole,
    /// 10 N/m2
    pub surcharge: Whole,
    /// N/mm2
    pub fcu: Whole,
    /// N/mm2
    pub fy: Whole,
    /// hundredths of a percent
    pub least_steel: Whole,
    pub toe_bars: Reinforcement,
    pub stem_bars: Reinforcement,
    pub heel_bars: Reinforcement,
    pub downstand: Downstand,
}

impl Wall {
    pub fn from_raw(raw: &RawWall) -> Wall {
        let of = |index: usize| Whole::from(raw[index]);
        Wall {
            propped: raw[field::KIND] == 1,
            stem_height: of(field::STEM_HEIGHT),
            stem_thickness: of(field::STEM_THICKNESS),
            toe: of(field::TOE),
            heel: of(field::HEEL),
            base_thickness: of(field::BASE_THICKNESS),
            cover_in_front: of(field::COVER_IN_FRONT),
            excavation: of(field::EXCAVATION),
            water_height: of(field::WATER_HEIGHT),
            stem_density: of(field::STEM_DENSITY),
            base_density: of(field::BASE_DENSITY),
            moist_density: of(field::MOIST_DENSITY),
            saturated_density: of(field::SATURATED_DENSITY),
            base_soil_density: of(field::BASE_SOIL_DENSITY),
            ka: of(field::KA),
            k0: of(field::K0),
            kp_cos: of(field::KP_COS),
            tangent: of(field::TANGENT),
            allowable: of(field::ALLOWABLE),
            surcharge: of(field::SURCHARGE),
            fcu: of(field::FCU),
            fy: of(field::FY),
            least_steel: of(field::LEAST_STEEL),
            toe_bars: reinforcement(raw, field::TOE_COVER, field::TOE_SHEAR_STRESS),
            stem_bars: reinforcement(raw, field::STEM_COVER, field::STEM_SHEAR_STRESS),
            heel_bars: reinforcement(raw, field::HEEL_COVER, field::HEEL_SHEAR_STRESS),
            downstand: Downstand {
                depth: of(field::DOWNSTAND_DEPTH),
                position: of(field::DOWNSTAND_POSITION),
                thickness: of(field::DOWNSTAND_THICKNESS),
            },
        }
    }

    /// l: the base from toe to heel, mm.
    pub fn base_length(&self) -> Whole {
        self.toe + self.stem_thickness + self.heel
    }

    /// The crest above the underside of the base, mm.
    pub fn crest(&self) -> Whole {
        self.stem_height + self.base_thickness
    }

    /// h: the fill from the underside of the downstand, or of a base without one, to the
    /// top, mm. The water's height counts from there too.
    pub fn height(&self) -> Whole {
        self.crest() + self.downstand.depth
    }

    /// hsat: the water's height above the top of the base, mm.
    pub fn water_on_base(&self) -> Whole {
        (self.water_height - self.base_thickness - self.downstand.depth).max(0)
    }
}

fn reinforcement(raw: &RawWall, cover: usize, shear: usize) -> Reinforcement {
    Reinforcement {
        cover: Whole::from(raw[cover]),
        bar: Whole::from(raw[cover + 1]),
        spacing: Whole::from(raw[cover + 2]),
        concrete_shear_stress: Whole::from(raw[shear]),
    }
}

#[derive(Clone, Copy, Debug, PartialEq, Eq)]
pub enum Direction {
    Down,
    /// Horizontal, towards the toe.
    Across,
}

/// One load, in N per metre run. The position is mm from the toe for a load
/// down, mm above the underside of the base for a horizontal one, downstand or not.
#[derive(Clone, Copy, Debug, PartialEq, Eq)]
pub struct Load {
    /// Counted from 1.
    pub wall: usize,
    pub direction: Direction,
    pub position: Whole,
    pub dead: Whole,
    pub live: Whole,
}

impl Load {
    /// `None` when a field is out of range or the wall isn't in the file.
    pub fn from_raw(raw: &RawLoad, walls: &[Wall]) -> Option<Load> {
        let [number, direction, position, dead, live] = *raw;
        let wall = usize::try_from(number).ok()?;
        let carrier = walls.get(wall.checked_sub(1)?)?;
        let (direction, furthest) = match direction {
            0 => (Direction::Down, carrier.base_length()),
            1 => (Direction::Across, carrier.crest()),
            _ => return None,
        };
        let position = Whole::from(position);
        if position > furthest || dead > MOST_LOAD || live > MOST_LOAD {
            return None;
        }
        Some(Load {
            wall,
            direction,
            position,
            dead: Whole::from(dead),
            live: Whole::from(live),
        })
    }
}

/// An accepted file.
#[derive(Clone, Debug, PartialEq, Eq)]
pub struct Job {
    pub walls: Vec<Wall>,
    pub loads: Vec<Load>,
}

impl Job {
    /// The loads of each wall, in file order, from one pass over all of them.
    pub fn loads_by_wall(&self) -> Vec<Vec<Load>> {
        let mut each = vec![Vec::new(); self.walls.len()];
        for load in &self.loads {
            each[load.wall - 1].push(*load);
        }
        each
    }

    /// The loads of a wall, numbered from 1, in file order.
    pub fn loads_of(&self, wall: usize) -> Vec<Load> {
        self.loads
            .iter()
            .copied()
            .filter(|load| load.wall == wall)
            .collect()
    }
}
