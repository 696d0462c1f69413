//! Kinds of job that are accepted.

use super::draft::{
    any_load, ends, fit, height, load_at, put_any_downstand, typical_wall, wide_wall, Draft, PLACES,
};
use super::{Due, Sample};
use crate::job_file::{field, RawWall, MOST_LOADS_A_WALL, MOST_WALLS, WALL_FIELDS};
use crate::random::Random;

fn accepted(draft: &Draft) -> Sample {
    Sample {
        bytes: draft.bytes(),
        due: Due::Accepted,
    }
}

/// Up to `most` loads on the last wall of a draft, none above `force` N/m.
fn load_last_wall(random: &mut Random, draft: &mut Draft, most: usize, force: u32) {
    let number = draft.walls.len();
    let wall = draft.walls[number - 1];
    for _ in 0..random.below(most + 1) {
        draft.loads.push(any_load(random, number, &wall, force));
    }
}

/// One to three walls of a recipe, each with up to three loads.
fn few_walls(random: &mut Random, recipe: fn(&mut Random) -> RawWall, force: u32) -> Draft {
    let mut draft = Draft::default();
    for _ in 0..1 + random.below(3) {
        let wall = recipe(random);
        draft.walls.push(wall);
        load_last_wall(random, &mut draft, 3, force);
    }
    draft
}

pub fn typical(random: &mut Random, _: usize) -> Sample {
    accepted(&few_walls(random, typical_wall, 20_000))
}

pub fn wide(random: &mut Random, _: usize) -> Sample {
    accepted(&few_walls(random, wide_wall, 200_000))
}

/// Each field in turn at its low and then at its high end. A downstand's position is at
/// its high end where the downstand reaches the end of the base.
pub fn field_ends(random: &mut Random, index: usize) -> Sample {
    let mut wall = typical_wall(random);
    let place = index / 2 % WALL_FIELDS;
    if place >= field::DOWNSTAND_DEPTH {
        put_any_downstand(random, &mut wall);
    }
    let (low, high) = ends(&wall, place);
    wall[place] = if index.is_multiple_of(2) { low } else { high };
    fit(&mut wall);
    accepted(&Draft::of(wall))
}

/// Fields whose ends go by others that stand behind them.
const SET_LAST: [usize; 2] = [field::DOWNSTAND_POSITION, field::WATER_HEIGHT];

/// Every field at one of its ends; the first two samples all low, all high.
pub fn all_ends(random: &mut Random, index: usize) -> Sample {
    let mut wall = wide_wall(random);
    wall[field::DOWNSTAND_POSITION] = 0;
    let first = (0..WALL_FIELDS).filter(|place| !SET_LAST.contains(place));
    for place in first.chain(SET_LAST) {
        let high = match index {
            0 => false,
            1 => true,
            _ => random.once_in(2),
        };
        let (least, most) = ends(&wall, place);
        wall[place] = if high { most } else { least };
    }
    fit(&mut wall);
    let mut draft = Draft::of(wall);
    let places = random.below(MOST_LOADS_A_WALL + 1);
    for place in PLACES.iter().take(places) {
        let mut load = load_at(random, 1, &wall, *place, 1);
        load[3] *= 200_000;
        load[4] *= 200_000;
        draft.loads.push(load);
    }
    accepted(&draft)
}

/// Water at nought, below, just below, at, just above and above the top of
/// the base, and up to the crest.
pub fn water(random: &mut Random, index: usize) -> Sample {
    let mut draft = few_walls(random, typical_wall, 20_000);
    for (offset, wall) in draft.walls.iter_mut().enumerate() {
        let top = wall[field::DOWNSTAND_DEPTH] + wall[field::BASE_THICKNESS];
        wall[field::WATER_HEIGHT] = match (index + offset) % 8 {
            0 => 0,
            1 => random.between(1, top - 1),
            2 => top - 1,
            3 => top,
            4 => top + 1,
            5 => random.between(top + 1, height(wall) - 1),
            6 => height(wall) - 1,
            _ => height(wall),
        };
    }
    accepted(&draft)
}

/// 0 to 8 loads on one wall, starting at each place in turn.
pub fn loads(random: &mut Random, index: usize) -> Sample {
    let wall = if random.once_in(3) {
        wide_wall(random)
    } else {
        typical_wall(random)
    };
    let most = random.pick(&[1000, 20_000, 200_000]);
    let mut draft = Draft::of(wall);
    for step in 0..index % (MOST_LOADS_A_WALL + 1) {
        let place = PLACES[(index + step) % PLACES.len()];
        draft.loads.push(load_at(random, 1, &wall, place, most));
    }
    accepted(&draft)
}

/// Loads of two to four walls, mixed in file order.
pub fn interleaved(random: &mut Random, _: usize) -> Sample {
    let mut draft = Draft::default();
    for _ in 0..2 + random.below(3) {
        draft.walls.push(typical_wall(random));
    }
    let rounds = 1 + random.below(MOST_LOADS_A_WALL);
    for round in 0..rounds {
        for number in (1..=draft.walls.len()).rev() {
            // Every wall is loaded in the first two rounds, then by chance.
            if round < 2 || random.once_in(2) {
                let wall = draft.walls[number - 1];
                draft.loads.push(any_load(random, number, &wall, 50_000));
            }
        }
    }
    accepted(&draft)
}

/// The same wall unpropped and propped in one job, with friction high or low.
pub fn propped_or_not(random: &mut Random, index: usize) -> Sample {
    let mut wall = typical_wall(random);
    if index.is_multiple_of(2) {
        wall[field::TANGENT] = random.between(0, 200);
        wall[field::KP_COS] = random.between(0, 1000);
    } else {
        wall[field::TANGENT] = random.between(700, 1000);
        wall[field::KP_COS] = random.between(5000, 15_000);
    }
    if index % 3 == 2 {
        wall[field::COVER_IN_FRONT] = 0;
        wall[field::EXCAVATION] = wall[field::BASE_THICKNESS] + random.between(0, 400);
    }
    let mut walls = vec![wall, wall];
    walls[index % 2][field::KIND] = 0;
    walls[1 - index % 2][field::KIND] = 1;
    accepted(&Draft {
        walls,
        loads: Vec::new(),
    })
}

/// Half millimetres at the middle of the stem.
pub fn odd_stem(random: &mut Random, _: usize) -> Sample {
    let mut draft = few_walls(random, typical_wall, 50_000);
    for wall in &mut draft.walls {
        wall[field::STEM_THICKNESS] |= 1;
    }
    accepted(&draft)
}

pub fn no_toe(random: &mut Random, _: usize) -> Sample {
    let mut wall = typical_wall(random);
    wall[field::TOE] = 0;
    fit(&mut wall);
    let mut draft = Draft::of(wall);
    load_last_wall(random, &mut draft, 2, 50_000);
    accepted(&draft)
}

/// No heel, and now and then no toe either.
pub fn no_heel(random: &mut Random, index: usize) -> Sample {
    let mut wall = typical_wall(random);
    wall[field::HEEL] = 0;
    if index % 4 == 3 {
        wall[field::TOE] = 0;
    }
    fit(&mut wall);
    let mut draft = Draft::of(wall);
    load_last_wall(random, &mut draft, 2, 50_000);
    accepted(&draft)
}

/// Many walls and loads: full files, full of walls only, one wall full of
/// loads, and something between.
pub fn large(random: &mut Random, index: usize) -> Sample {
    let (count, rounds) = match index % 4 {
        0 => (MOST_WALLS, MOST_LOADS_A_WALL),
        1 => (MOST_WALLS, 0),
        2 => (1, MOST_LOADS_A_WALL),
        _ => (4 + random.below(10), 1 + random.below(4)),
    };
    let mut draft = Draft::default();
    for _ in 0..count {
        draft.walls.push(typical_wall(random));
    }
    for _ in 0..rounds {
        for number in 1..=count {
            let wall = draft.walls[number - 1];
            draft.loads.push(any_load(random, number, &wall, 20_000));
        }
    }
    accepted(&draft)
}
