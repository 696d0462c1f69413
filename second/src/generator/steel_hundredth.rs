//! Jobs in which a hundredth of a mm2 of steel decides: a cage of the toe or of the stem
//! is just what is required, a hundredth short of it, or enough though not in whole mm2.

use super::draft::{ends, fit, typical_wall, wide_wall, Draft};
use super::edges::{tune_cage, worked, Part, MOST_TRIES};
use super::lever_arm::{little_least_steel, push_stem};
use super::{Due, Sample};
use crate::job_file::{field, RawWall, BARS};
use crate::random::Random;
use crate::rounding::down;
use crate::section::{greatest_moment, needed_at_depth, needed_is_exact, provided_steel, Section};
use crate::Whole;

type Turn = fn(&mut Random) -> Option<Draft>;

const TURNS: [Turn; 13] = [
    |r| stem(r, Cage::Even),
    |r| stem(r, Cage::Short),
    |r| stem(r, Cage::FailedInMm2),
    |r| by_least(r, Part::Stem, Cage::Even),
    |r| by_least(r, Part::Stem, Cage::Short),
    |r| by_least(r, Part::Stem, Cage::FailedInMm2),
    |r| by_load(r, Part::Toe, Cage::Even),
    |r| by_load(r, Part::Toe, Cage::Short),
    |r| by_load(r, Part::Toe, Cage::FailedInMm2),
    |r| by_least(r, Part::Toe, Cage::Even),
    |r| by_least(r, Part::Toe, Cage::Short),
    |r| by_least(r, Part::Toe, Cage::FailedInMm2),
    exact_stem,
];

/// The turns one after another.
pub fn steel_hundredth(random: &mut Random, index: usize) -> Sample {
    let turn = TURNS[index % TURNS.len()];
    let found = (0..MOST_TRIES).find_map(|_| turn(random));
    let draft = found.unwrap_or_else(|| Draft::of(typical_wall(random)));
    Sample {
        bytes: draft.bytes(),
        due: Due::Accepted,
    }
}

/// What a cage is to be.
#[derive(Clone, Copy, PartialEq, Eq)]
pub enum Cage {
    /// Just what is required.
    Even,
    /// A hundredth of a mm2 less.
    Short,
    /// Enough, though not in whole mm2.
    FailedInMm2,
}

impl Cage {
    fn is(self, section: &Section) -> bool {
        match self {
            Cage::Even => section.is_even(),
            Cage::Short => section.is_hundredth_short(),
            Cage::FailedInMm2 => section.failed_in_mm2(),
        }
    }
}

fn any_wall(random: &mut Random) -> RawWall {
    if random.once_in(2) {
        wide_wall(random)
    } else {
        typical_wall(random)
    }
}

/// Any bar at any spacing.
fn set_cage(random: &mut Random, wall: &mut RawWall, part: Part) {
    let (least, most) = ends(wall, part.spacing());
    wall[part.bar()] = random.pick(&BARS);
    wall[part.spacing()] = random.between(least, most);
}

fn provided(wall: &RawWall, part: Part) -> Whole {
    let (bar, spacing) = (wall[part.bar()], wall[part.spacing()]);
    provided_steel(Whole::from(bar), Whole::from(spacing))
}

/// A stem with any cage, for which the least steel is little.
fn wall_with_cage(random: &mut Random) -> RawWall {
    let mut wall = any_wall(random);
    set_cage(random, &mut wall, Part::Stem);
    wall[field::LEAST_STEEL] = little_least_steel(random);
    wall
}

/// Loads across that bring the stem's moment to the last one that its steel bears, or
/// to a N mm more; or to one that it bears by less than a mm2 of steel.
fn stem_by_moment(random: &mut Random, wall: RawWall, cage: Cage) -> Option<Draft> {
    let most = provided(&wall, Part::Stem);
    let borne = match cage {
        Cage::FailedInMm2 => Whole::from(random.between(whole_mm2(most) as u32, most as u32)),
        _ => most,
    };
    let mut draft = Draft::of(wall);
    let bare = worked(&draft).stem;
    let last = last_moment(&wall, bare.twice_depth, borne)?;
    let goal = last + Whole::from(cage == Cage::Short);
    push_stem(random, &mut draft, goal - bare.effects.moment)?;
    let stem = worked(&draft).stem;
    let fits = stem.effects.moment == goal && stem.needed > stem.least && cage.is(&stem);
    fits.then_some(draft)
}

fn stem(random: &mut Random, cage: Cage) -> Option<Draft> {
    let wall = wall_with_cage(random);
    stem_by_moment(random, wall, cage)
}

/// A stem whose needed steel is just what is provided without any rounding. With the
/// greatest fy there are many of these.
fn exact_stem(random: &mut Random) -> Option<Draft> {
    let mut wall = wall_with_cage(random);
    (_, wall[field::FY]) = ends(&wall, field::FY);
    let draft = stem_by_moment(random, wall, Cage::Even)?;
    let stem = worked(&draft).stem;
    let (moment, fy) = (stem.effects.moment, Whole::from(wall[field::FY]));
    needed_is_exact(moment, fy, stem.lever_arm?).then_some(draft)
}

/// Hundredths of mm2 without what is beyond whole mm2.
fn whole_mm2(steel: Whole) -> Whole {
    100 * down(steel, 100)
}

/// The greatest moment at a depth for which so much steel is enough; `None` where the
/// concrete gives out before the steel.
fn last_moment(wall: &RawWall, d: Whole, steel: Whole) -> Option<Whole> {
    let (fcu, fy) = (Whole::from(wall[field::FCU]), Whole::from(wall[field::FY]));
    let enough_for = |moment| needed_at_depth(moment, d, fcu, fy).is_some_and(|n| n <= steel);
    // The last for which it is known to be enough, and the first for which it isn't.
    let (mut last, mut past) = (0, greatest_moment(d, fcu));
    if enough_for(past) {
        return None;
    }
    while past - last > 1 {
        let middle = last + (past - last) / 2;
        if enough_for(middle) {
            last = middle;
        } else {
            past = middle;
        }
    }
    Some(last)
}

/// A load and a spacing for which the needed steel of a toe or of a heel governs.
pub fn by_load(random: &mut Random, part: Part, cage: Cage) -> Option<Draft> {
    let mut wall = typical_wall(random);
    set_cage(random, &mut wall, part);
    wall[field::LEAST_STEEL] = little_least_steel(random);
    let wished = |section: &Section| section.needed > section.least && cage.is(section);
    tune_cage(&wall, part, wished)
}

/// A percentage and a thickness for which the least steel governs and is what it is to
/// be beside the cage.
pub fn by_least(random: &mut Random, part: Part, cage: Cage) -> Option<Draft> {
    let mut wall = any_wall(random);
    set_cage(random, &mut wall, part);
    let least = wished_least(provided(&wall, part), cage)?;
    let (percentage, thickness) = factors(random, &wall, part, least)?;
    wall[field::LEAST_STEEL] = percentage;
    wall[part.thickness()] = thickness;
    fit(&mut wall);
    let draft = Draft::of(wall);
    let section = part.section(&draft)?;
    (section.needed <= section.least && cage.is(&section)).then_some(draft)
}

/// It is always in tens of hundredths, so that not every cage has one.
fn wished_least(provided: Whole, cage: Cage) -> Option<Whole> {
    let least = match cage {
        Cage::Even => provided,
        Cage::Short => provided + 1,
        Cage::FailedInMm2 => 10 * down(provided, 10),
    };
    (least % 10 == 0).then_some(least)
}

/// A percentage, in hundredths, and a thickness that come to so much steel.
fn factors(random: &mut Random, wall: &RawWall, part: Part, least: Whole) -> Option<(u32, u32)> {
    let product = (least / 10) as u32;
    let (thinnest, thickest) = ends(wall, part.thickness());
    let (_, most) = ends(wall, field::LEAST_STEEL);
    let fitting: Vec<(u32, u32)> = (1..=most)
        .filter(|percentage| product.is_multiple_of(*percentage))
        .map(|percentage| (percentage, product / percentage))
        .filter(|(_, thickness)| (thinnest..=thickest).contains(thickness))
        .collect();
    (!fitting.is_empty()).then(|| random.pick(&fitting))
}
