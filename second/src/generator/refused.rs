//! Jobs that deserve a refusal, often two, each with the answer due by the way
//! it was made; and their accepted neighbours.

use super::draft::{
    any_load, crest, ends, height, length, put_any_downstand, typical_wall, without_downstand,
    Draft, ACROSS, DOWN, EDITION_AT, FIRST_LOAD_AT, FIRST_WALL_AT, LENGTH_AT, LOADS_AT, WALLS_AT,
};
use super::{Due, Sample};
use crate::job_file::{
    field, Range, RawLoad, RawWall, HEADER_BYTES, LOAD_BYTES, MOST_LOADS, MOST_LOADS_A_WALL,
    MOST_WALLS, RANGES, WALL_BYTES, WALL_FIELDS,
};
use crate::random::Random;

fn refused(bytes: Vec<u8>, number: u8, place: usize) -> Sample {
    Sample {
        bytes,
        due: Due::Refused(number, place as u64),
    }
}

/// Refused for a field of a wall, both counted from 0 here.
fn refused_field(draft: &Draft, wall: usize, place: usize) -> Sample {
    refused(draft.bytes(), 5, 100 * (wall + 1) + (place + 1))
}

fn accepted(draft: &Draft) -> Sample {
    Sample {
        bytes: draft.bytes(),
        due: Due::Accepted,
    }
}

/// A valid job of so many walls with so many loads each, wall by wall.
fn valid(random: &mut Random, walls: usize, loads_each: usize) -> Draft {
    let mut draft = Draft::default();
    for number in 1..=walls {
        let wall = typical_wall(random);
        draft.walls.push(wall);
        for _ in 0..loads_each {
            draft.loads.push(any_load(random, number, &wall, 20_000));
        }
    }
    draft
}

/// A wall's field that [`spoil_wall`] puts out of range.
const SPOILT: usize = field::FCU;

fn spoil_wall(draft: &mut Draft, wall: usize) {
    draft.walls[wall][SPOILT] = 61;
}

/// Fewer bytes than a header: the start of a valid file, or noise.
pub fn short(random: &mut Random, index: usize) -> Sample {
    let count = index % 12;
    let bytes = if (index / 12).is_multiple_of(2) {
        valid(random, 1, 1).bytes()[..count].to_vec()
    } else {
        random.bytes(count)
    };
    refused(bytes, 1, 0)
}

/// The edition before, the one to come, and numbers with one byte or the other alike.
const OTHER_EDITIONS: [u16; 7] = [1, 3, 0, 258, 512, 514, 65_535];

/// Another edition, alone and with later faults beside it.
pub fn edition(random: &mut Random, index: usize) -> Sample {
    let mut draft = valid(random, 2, 1);
    let mut header = draft.header();
    header[EDITION_AT] = OTHER_EDITIONS[index % OTHER_EDITIONS.len()];
    match index / OTHER_EDITIONS.len() % 6 {
        0 => {}
        1 => header[WALLS_AT] = [0, 65][index % 2],
        2 => header[FIRST_WALL_AT] = 13,
        3 => spoil_wall(&mut draft, 1),
        4 => draft.loads[0][0] = 3,
        _ => header[LENGTH_AT] -= 1,
    }
    refused(draft.bytes_with(header), 2, 0)
}

/// Counts out of range, with all the rest right for them or left as it was;
/// and the greatest counts that are in range.
pub fn count(random: &mut Random, index: usize) -> Sample {
    match index % 12 {
        0 => refused(Draft::default().bytes(), 3, 0),
        1 => refused(valid(random, MOST_WALLS + 1, 0).bytes(), 3, 0),
        2 => {
            let mut draft = valid(random, MOST_WALLS, MOST_LOADS_A_WALL);
            draft.loads.push(draft.loads[0]);
            refused(draft.bytes(), 3, 0)
        }
        3 => {
            let mut draft = valid(random, 65, 1);
            spoil_wall(&mut draft, 0);
            refused(draft.bytes(), 3, 0)
        }
        4 => accepted(&valid(random, MOST_WALLS, 0)),
        5 => accepted(&valid(random, MOST_WALLS, MOST_LOADS_A_WALL)),
        turn => {
            let draft = valid(random, 1, 1);
            let mut header = draft.header();
            let (place, value) = [
                (WALLS_AT, 0),
                (WALLS_AT, 65),
                (WALLS_AT, 65_535),
                (LOADS_AT, 513),
                (LOADS_AT, 65_535),
                (WALLS_AT, 256),
            ][turn - 6];
            header[place] = value;
            // A header alone is long enough to be read.
            let bytes = draft.bytes_with(header);
            let kept = if random.once_in(2) { bytes.len() } else { 12 };
            refused(bytes[..kept].to_vec(), 3, 0)
        }
    }
}

/// An offset wrong, or the length, or both, when it is the offset that is
/// refused; every other one of the first two beside a bad wall. The ways of either
/// go round by themselves, so that in time each stands beside each.
pub fn offset(random: &mut Random, index: usize) -> Sample {
    let mut draft = valid(random, 2, 2);
    let mut header = draft.header();
    let (offset_way, length_way) = (index / 2 % OFFSET_WAYS, index / 2 % LENGTH_WAYS);
    if matches!(index % 8, 3 | 4 | 7) {
        spoil_wall(&mut draft, index / 8 % 2);
    }
    match index % 4 {
        0 => {
            spoil_offset(&mut header, offset_way);
            refused(draft.bytes_with(header), 4, 0)
        }
        2 => {
            spoil_offset(&mut header, offset_way);
            refused(with_wrong_length(&draft, header, length_way), 4, 0)
        }
        _ => refused(with_wrong_length(&draft, header, length_way), 10, 0),
    }
}

/// How many ways there are of spoiling an offset. It has no factor in common with
/// the turns of [`offset`] or with [`LENGTH_WAYS`].
const OFFSET_WAYS: usize = 9;

/// Spoils one of the two in one of them; in the last by a wall more than the
/// loads' is for.
fn spoil_offset(header: &mut [u16; 6], way: usize) {
    let place = [FIRST_WALL_AT, FIRST_LOAD_AT][way % 2];
    match way {
        0 | 1 => header[place] += 1,
        2 | 3 => header[place] -= 1,
        4 | 5 => header[place] = 0,
        6 | 7 => header[place] = u16::MAX,
        _ => header[WALLS_AT] += 1,
    }
}

/// How many ways there are of a wrong length.
const LENGTH_WAYS: usize = 17;

/// The stated length and the input's, of which one at least is not the due one.
fn wrong_lengths(due: usize) -> [(usize, usize); LENGTH_WAYS - 1] {
    [
        // Right by the counts, wrong for the input.
        (due, due - 1),
        // The input's own, wrong by the counts.
        (due + WALL_BYTES, due + WALL_BYTES),
        // Wrong by both, with an input as long as the counts give.
        (due + 1, due),
        (due, due + 1),
        (due - LOAD_BYTES, due - LOAD_BYTES),
        (due - 1, due),
        (due, HEADER_BYTES),
        (due + 1, due + 1),
        (0, due),
        // Right for the input only when that is cut to 16 bits.
        (due, due + 65_536),
        (due - 1, due - 1),
        (65_535, due),
        (due, due - LOAD_BYTES),
        (HEADER_BYTES, HEADER_BYTES),
        (due, due + LOAD_BYTES),
        // Three lengths.
        (due + 1, due - 1),
    ]
}

/// A job with a wrong length behind a header that may be wrong besides; in the
/// last way there is a load more than the length is for.
fn with_wrong_length(draft: &Draft, mut header: [u16; 6], way: usize) -> Vec<u8> {
    let due = usize::from(header[LENGTH_AT]);
    let Some((stated, input)) = wrong_lengths(due).get(way).copied() else {
        header[LOADS_AT] += 1;
        return draft.bytes_with(header);
    };
    header[LENGTH_AT] = stated as u16;
    let mut bytes = draft.bytes_with(header);
    bytes.resize(input, 0);
    bytes
}

/// The value next to a field's range: below it, or above it. Nothing is below a
/// range that begins at 0; there it is what -1 becomes in 32 bits, 4294967295.
fn next_to_range(wall: &RawWall, place: usize, below: bool) -> u32 {
    let (low, high) = ends(wall, place);
    if below {
        low.wrapping_sub(1)
    } else {
        high.saturating_add(1)
    }
}

/// Diameters between the least and the greatest bar that no bar has.
const NO_BARS: [u32; 8] = [9, 11, 14, 18, 22, 24, 33, 39];

/// A value out of a field's range: next to it, or of a bar also between two.
pub fn out_of_range(random: &mut Random, wall: &RawWall, place: usize) -> u32 {
    if RANGES[place] == Range::Bar && random.once_in(2) {
        random.pick(&NO_BARS)
    } else {
        next_to_range(wall, place, random.once_in(2))
    }
}

/// Each wall field in turn just below its range and then just above it, in each
/// of three walls in turn, and no other fault. Without a downstand its position alone can
/// be bad; with one its depth, or its thickness.
pub fn one_field(random: &mut Random, index: usize) -> Sample {
    let mut draft = valid(random, 3, 0);
    let (bad, place) = (index % 3, index / 2 % WALL_FIELDS);
    let wall = &mut draft.walls[bad];
    match place {
        field::DOWNSTAND_DEPTH | field::DOWNSTAND_THICKNESS => put_any_downstand(random, wall),
        _ => without_downstand(wall),
    }
    // A bad height leaves the water in range.
    wall[field::WATER_HEIGHT] = 0;
    wall[place] = next_to_range(wall, place, index.is_multiple_of(2));
    refused_field(&draft, bad, place)
}

/// One of three walls with a field out of its range: alone, with another bad field
/// before it or behind it, with later bad walls, or with bad loads. The first
/// bad field of the first bad wall is the one to be named.
pub fn wall(random: &mut Random, index: usize) -> Sample {
    let mut draft = valid(random, 3, 1);
    let bad = random.below(3);
    let wall = &mut draft.walls[bad];
    let first = match index % 8 {
        1 | 5 => spoil_two_fields(random, wall),
        2 | 6 => spoil_height_and_water(random, wall, index / 8),
        3 => {
            *wall = [u32::MAX; WALL_FIELDS];
            0
        }
        _ => {
            let place = random.below(WALL_FIELDS);
            spoil_field(random, wall, place)
        }
    };
    match index % 8 {
        4 => draft.loads[0][0] = 0,
        5 => draft.loads = vec![draft.loads[0]; MOST_LOADS_A_WALL + 1],
        6 | 7 => draft.walls[bad + 1..].fill([0; WALL_FIELDS]),
        _ => {}
    }
    refused_field(&draft, bad, first)
}

/// Spoils a field of a wall, and says which.
fn spoil_field(random: &mut Random, wall: &mut RawWall, place: usize) -> usize {
    wall[place] = out_of_range(random, wall, place);
    place
}

/// Spoils two fields of a wall and says which comes first. It is spoilt last, as what it
/// may be can hang on the other. Water is never past its range with the greatest depth
/// of downstand there is, so that it is the least bad one beside it.
fn spoil_two_fields(random: &mut Random, wall: &mut RawWall) -> usize {
    let one = random.below(WALL_FIELDS);
    let other = (one + 1 + random.below(WALL_FIELDS - 1)) % WALL_FIELDS;
    let (first, later) = (one.min(other), one.max(other));
    spoil_field(random, wall, later);
    if (first, later) == (field::WATER_HEIGHT, field::DOWNSTAND_DEPTH) {
        wall[later] = next_to_range(wall, later, false);
    }
    spoil_field(random, wall, first)
}

/// Spoils a height of a wall, says which, and puts water to the crest that it
/// makes or above it. It is the height that is bad first, whatever the water.
fn spoil_height_and_water(random: &mut Random, wall: &mut RawWall, way: usize) -> usize {
    let spoilt = [field::STEM_HEIGHT, field::BASE_THICKNESS][way % 2];
    spoil_field(random, wall, spoilt);
    wall[field::WATER_HEIGHT] = match random.below(3) {
        0 => height(wall),
        1 => height(wall).saturating_add(1),
        _ => u32::MAX,
    };
    spoilt
}

/// How many ways there are of spoiling a load.
pub const LOAD_WAYS: usize = 12;

/// Spoils a load in one of them. Of one that stands on no wall already, the
/// position is spoilt as on the last one.
pub fn spoil_load(walls: &[RawWall], load: &mut RawLoad, way: usize) {
    let on = walls.get((load[0] as usize).wrapping_sub(1));
    let on = on.or(walls.last()).unwrap_or(&[0; WALL_FIELDS]);
    match way {
        0 => load[0] = 0,
        1 => load[0] = walls.len() as u32 + 1,
        2 => load[0] = u32::MAX,
        3 => load[1] = 2,
        4 => load[1] = u32::MAX,
        5 => (load[1], load[2]) = (DOWN, length(on).saturating_add(1)),
        6 => (load[1], load[2]) = (ACROSS, crest(on).saturating_add(1)),
        7 => load[2] = u32::MAX,
        8 => load[3] = 200_001,
        9 => load[4] = 200_001,
        10 => load[3] = u32::MAX,
        _ => load[4] = u32::MAX,
    }
}

/// A bad load in each way, among good ones; with a later bad load, or a ninth
/// load after it.
pub fn load(random: &mut Random, index: usize) -> Sample {
    let mut draft = valid(random, 2, 3);
    let bad = random.below(draft.loads.len());
    match index / LOAD_WAYS % 3 {
        1 if bad + 1 < draft.loads.len() => draft.loads[bad + 1][0] = 0,
        2 => draft.loads.extend([draft.loads[0]; MOST_LOADS_A_WALL + 1]),
        _ => {}
    }
    let mut spoilt = draft.loads[bad];
    spoil_load(&draft.walls, &mut spoilt, index % LOAD_WAYS);
    draft.loads[bad] = spoilt;
    refused(draft.bytes(), 6, bad + 1)
}

/// Nine loads on the first of two walls.
fn nine_loads(random: &mut Random) -> Draft {
    let mut draft = valid(random, 2, 0);
    let wall = draft.walls[0];
    for _ in 0..=MOST_LOADS_A_WALL {
        draft.loads.push(any_load(random, 1, &wall, 20_000));
    }
    draft
}

/// A ninth load on a wall, alone and beside other faults.
pub fn ninth(random: &mut Random, index: usize) -> Sample {
    let mut draft = nine_loads(random);
    let mut spoilt = draft.loads[8];
    spoil_load(&draft.walls, &mut spoilt, index / 9 % LOAD_WAYS);
    match index % 9 {
        0 => refused(draft.bytes(), 7, 9),
        // 6 and 7 on the same load.
        1 => {
            draft.loads[8] = spoilt;
            refused(draft.bytes(), 6, 9)
        }
        // 7, and 6 on a later load.
        2 => {
            draft.loads.push(spoilt);
            refused(draft.bytes(), 7, 9)
        }
        // 6, and 7 on a later load.
        3 => {
            let bad = random.below(8);
            draft.loads.insert(bad, spoilt);
            refused(draft.bytes(), 6, bad + 1)
        }
        4 => ninth_among_others(random, draft),
        5 => accepted(&valid(random, 2, MOST_LOADS_A_WALL)),
        6 => {
            let mut full = valid(random, MOST_WALLS, MOST_LOADS_A_WALL);
            full.loads[MOST_LOADS - 1] = full.loads[0];
            refused(full.bytes(), 7, MOST_LOADS)
        }
        7 => {
            spoil_wall(&mut draft, 1);
            refused_field(&draft, 1, SPOILT)
        }
        _ => {
            draft.loads.pop();
            accepted(&draft)
        }
    }
}

/// The ninth load of wall 1 with loads of wall 2 strewn between.
fn ninth_among_others(random: &mut Random, mut draft: Draft) -> Sample {
    let other = draft.walls[1];
    let strewn = 1 + random.below(MOST_LOADS_A_WALL);
    for _ in 0..strewn {
        let load = any_load(random, 2, &other, 20_000);
        draft.loads.insert(random.below(8), load);
    }
    refused(draft.bytes(), 7, 9 + strewn)
}
