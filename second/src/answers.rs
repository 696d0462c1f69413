//! Document 01, "What is answered": the refusals and the order of the tests; with
//! document 02, "#102 Say which field", for refusals 4, 5 and 10.

use crate::job_file::{
    field_in_range, read_record, Header, Job, Load, RawLoad, RawWall, Wall, EDITION, HEADER_BYTES,
    LOAD_BYTES, MOST_LOADS, MOST_LOADS_A_WALL, MOST_WALLS, WALL_BYTES, WALL_FIELDS,
};
use std::fmt;

/// A refusal's number and place.
#[derive(Clone, Copy, Debug, PartialEq, Eq)]
pub struct Refusal {
    pub number: u8,
    pub place: u64,
}

/// The refusal of a count out of range; a buffer that isn't whole records is
/// met with it too.
pub const COUNT_OUT_OF_RANGE: Refusal = Refusal::at_nought(3);

/// The refusal of an offset that isn't the one the counts give.
pub const WRONG_OFFSET: Refusal = Refusal::at_nought(4);

/// The refusal of a length that isn't the one the counts give, or isn't the
/// input's.
pub const WRONG_LENGTH: Refusal = Refusal::at_nought(10);

/// The refusal of a lent buffer that is too short, after all others.
pub const BUFFER_TOO_SHORT: Refusal = Refusal::at_nought(8);

/// The same where a job file was to be written.
pub const OUTPUT_TOO_SHORT: Refusal = Refusal::at_nought(9);

impl Refusal {
    /// A refusal that names no place.
    const fn at_nought(number: u8) -> Refusal {
        Refusal { number, place: 0 }
    }

    /// The refusal of a wall's field out of range, both counted from 1. There are
    /// fewer than a hundred fields, so that its place says which of them.
    pub fn of_field(wall: usize, field: usize) -> Refusal {
        Refusal {
            number: 5,
            place: (100 * wall + field) as u64,
        }
    }
}

impl fmt::Display for Refusal {
    fn fmt(&self, out: &mut fmt::Formatter<'_>) -> fmt::Result {
        write!(out, "refused {} {}", self.number, self.place)
    }
}

fn refuse<T>(number: u8, place: usize) -> Result<T, Refusal> {
    Err(Refusal {
        number,
        place: place as u64,
    })
}

/// Takes a file in, or gives the first refusal found: the header (both counts
/// before any offset, both offsets before the length), then all walls in file
/// order, then all loads.
pub fn accept(input: &[u8]) -> Result<Job, Refusal> {
    let header = accept_header(input)?;
    let (walls, loads) = (usize::from(header.walls), usize::from(header.loads));
    let first_load = usize::from(header.first_load);
    accept_records(
        (0..walls).map(|index| read_record(input, HEADER_BYTES + WALL_BYTES * index)),
        (0..loads).map(|index| read_record(input, first_load + LOAD_BYTES * index)),
    )
}

fn accept_header(input: &[u8]) -> Result<Header, Refusal> {
    let Some(header) = Header::read(input) else {
        return refuse(1, 0);
    };
    if header.edition != EDITION {
        return refuse(2, 0);
    }
    let (walls, loads) = (usize::from(header.walls), usize::from(header.loads));
    accept_counts(walls, loads)?;
    let due = Header::due(walls, loads);
    if header.first_wall != due.first_wall || header.first_load != due.first_load {
        return Err(WRONG_OFFSET);
    }
    if header.length != due.length || usize::from(header.length) != input.len() {
        return Err(WRONG_LENGTH);
    }
    Ok(header)
}

/// Whether a job may have so many walls and loads.
pub fn accept_counts(walls: usize, loads: usize) -> Result<(), Refusal> {
    if (1..=MOST_WALLS).contains(&walls) && loads <= MOST_LOADS {
        Ok(())
    } else {
        Err(COUNT_OUT_OF_RANGE)
    }
}

/// Takes in the records of a job whose counts are in range: all walls in order,
/// then all loads.
pub fn accept_records(
    walls: impl Iterator<Item = RawWall>,
    loads: impl Iterator<Item = RawLoad>,
) -> Result<Job, Refusal> {
    let walls = accept_walls(walls)?;
    let loads = accept_loads(loads, &walls)?;
    Ok(Job { walls, loads })
}

fn accept_walls(records: impl Iterator<Item = RawWall>) -> Result<Vec<Wall>, Refusal> {
    let mut walls = Vec::new();
    for (index, raw) in records.enumerate() {
        walls.push(accept_wall(index + 1, &raw)?);
    }
    Ok(walls)
}

/// Takes in the wall of a number, or names the first of its fields, in their
/// order, that is out of range.
pub fn accept_wall(number: usize, raw: &RawWall) -> Result<Wall, Refusal> {
    match (0..WALL_FIELDS).find(|index| !field_in_range(raw, *index)) {
        Some(index) => Err(Refusal::of_field(number, index + 1)),
        None => Ok(Wall::from_raw(raw)),
    }
}

/// Reading taken: load by load, each one for 6 and then for 7, so that a ninth
/// load stands before a bad field in a later load.
fn accept_loads(
    records: impl Iterator<Item = RawLoad>,
    walls: &[Wall],
) -> Result<Vec<Load>, Refusal> {
    let mut loads = Vec::new();
    let mut carried = vec![0; walls.len()];
    for (index, raw) in records.enumerate() {
        let Some(load) = Load::from_raw(&raw, walls) else {
            return refuse(6, index + 1);
        };
        carried[load.wall - 1] += 1;
        if carried[load.wall - 1] > MOST_LOADS_A_WALL {
            return refuse(7, index + 1);
        }
        loads.push(load);
    }
    Ok(loads)
}
