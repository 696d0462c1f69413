//! Jobs tuned to stand on, just above or just below the edge of a rule.

use super::draft::{crest, load_at, typical_wall, Draft, Place, ACROSS, DOWN};
use super::{Due, Sample};
use crate::forces::{factored_totals, service_totals};
use crate::job_file::{field, RawLoad, RawWall, BARS, MOST_LOAD, MOST_LOADS_A_WALL};
use crate::random::Random;
use crate::section::{provided_steel, Section};
use crate::sheet_line::{work_wall, Worked};
use crate::Whole;

/// Walls tried before one is taken as it is.
pub const MOST_TRIES: usize = 500;

type Edge = fn(&mut Random) -> Option<Draft>;

const EDGES: [Edge; 34] = [
    |r| service_moment(r, Target::Nought, Landing::On),
    |r| service_moment(r, Target::Nought, Landing::Above),
    |r| service_moment(r, Target::Nought, Landing::Below),
    |r| service_moment(r, Target::TwoRl, Landing::On),
    |r| service_moment(r, Target::TwoRl, Landing::Above),
    |r| service_moment(r, Target::TwoRl, Landing::Below),
    |r| service_moment(r, Target::FourRl, Landing::On),
    |r| service_moment(r, Target::FourRl, Landing::Above),
    |r| service_moment(r, Target::FourRl, Landing::Below),
    |r| service_moment(r, Target::ToePeak, Landing::Above),
    |r| service_moment(r, Target::ToePeak, Landing::Below),
    |r| service_moment(r, Target::HeelPeak, Landing::Above),
    |r| service_moment(r, Target::HeelPeak, Landing::Below),
    |r| service_moment(r, Target::Overturning, Landing::On),
    |r| service_moment(r, Target::Overturning, Landing::Below),
    |r| factored_moment(r, Target::Nought, Landing::On),
    |r| factored_moment(r, Target::Nought, Landing::Above),
    |r| factored_moment(r, Target::TwoRl, Landing::On),
    |r| factored_moment(r, Target::TwoRl, Landing::Below),
    |r| factored_moment(r, Target::FourRl, Landing::On),
    |r| factored_moment(r, Target::FourRl, Landing::Above),
    |r| factored_moment(r, Target::ToePeak, Landing::Above),
    |r| factored_moment(r, Target::ToePeak, Landing::Below),
    |r| sliding(r, 0),
    |r| sliding(r, 1),
    allowable,
    |r| steel(r, Part::Toe, 0),
    |r| steel(r, Part::Toe, 1),
    |r| steel(r, Part::Stem, 0),
    |r| steel(r, Part::Stem, 1),
    |r| shear(r, Part::Toe),
    |r| shear(r, Part::Stem),
    |r| stem_shear_of_concrete(r, 0),
    |r| stem_shear_of_concrete(r, 1),
];

/// Each edge in turn.
pub fn edges(random: &mut Random, index: usize) -> Sample {
    let edge = EDGES[index % EDGES.len()];
    let found = (0..MOST_TRIES).find_map(|_| edge(random));
    let draft = found.unwrap_or_else(|| Draft::of(typical_wall(random)));
    Sample {
        bytes: draft.bytes(),
        due: Due::Accepted,
    }
}

pub fn worked(draft: &Draft) -> Worked {
    let job = draft.job();
    work_wall(1, &job.walls[0], &job.loads)
}

/// What M6 is brought to.
#[derive(Clone, Copy, PartialEq, Eq)]
enum Target {
    Nought,
    TwoRl,
    FourRl,
    /// The least M6 of a toe triangle whose peak is within the limit.
    ToePeak,
    /// The greatest M6 of a heel triangle whose peak is within the limit.
    HeelPeak,
    /// Where Mot equals Mrest.
    Overturning,
}

#[derive(Clone, Copy, PartialEq, Eq)]
pub enum Landing {
    On,
    Above,
    Below,
}

impl Landing {
    /// How many steps down bring a gap to 0, or to the last step above it or
    /// the first below it.
    pub fn steps(self, gap: Whole, step: Whole) -> Option<Whole> {
        let steps = match self {
            Landing::On if gap % step != 0 => return None,
            Landing::On => gap / step,
            Landing::Above => (gap - 1).div_euclid(step),
            Landing::Below => gap.div_euclid(step) + 1,
        };
        (steps >= 0).then_some(steps)
    }
}

/// A typical wall with a few loads down, heavy at the heel for the edges of a
/// heel triangle.
fn weighed_down(random: &mut Random, target: Target) -> Draft {
    let wall = typical_wall(random);
    let mut draft = Draft::of(wall);
    let place = match target {
        Target::FourRl | Target::HeelPeak => Place::Heel,
        _ => Place::Between,
    };
    for _ in 0..random.below(5) {
        draft
            .loads
            .push(load_at(random, 1, &wall, place, MOST_LOAD));
    }
    draft
}

/// A height for the load that does the coarse part of the landing.
fn coarse_height(random: &mut Random, draft: &Draft) -> u32 {
    let top = crest(&draft.walls[0]);
    random.between(top / 2, top)
}

pub fn force(newtons: Whole) -> Option<u32> {
    u32::try_from(newtons).ok().filter(|n| *n <= MOST_LOAD)
}

/// Adds loads across that come to so many steps, where a N of dead load is 7 steps
/// for each mm above `foot`, and of live load 8. All but the last stand at `height`
/// above it.
pub fn push_across(draft: &mut Draft, foot: u32, height: u32, steps: Whole) -> Option<()> {
    let mut left = steps;
    // Dead and live alike; 56 steps or more are left for the last load.
    let a_newton = 15 * Whole::from(height);
    while left >= a_newton + 56 && draft.loads.len() + 1 < MOST_LOADS_A_WALL {
        let most = (left - 56) / a_newton;
        let each = force(most.min(Whole::from(MOST_LOAD)))?;
        draft.loads.push([1, ACROSS, foot + height, each, each]);
        left -= Whole::from(each) * a_newton;
    }
    let live = left % 7;
    let dead = (left - 8 * live) / 7;
    let last = [1, ACROSS, foot + 1, force(dead)?, force(live)?];
    draft.loads.push(last);
    Some(())
}

/// Brings the service M6 down with horizontal loads: 6 sixths a N mm.
fn service_moment(random: &mut Random, target: Target, landing: Landing) -> Option<Draft> {
    let draft = weighed_down(random, target);
    let job = draft.job();
    let total = service_totals(&job.walls[0], &job.loads);
    let (r, l) = (total.r, job.walls[0].base_length());
    let goal = match target {
        Target::Nought => 0,
        Target::TwoRl => 2 * r * l,
        Target::FourRl => 4 * r * l,
        // 1000 x 4R^2 / M6 = 2000000
        Target::ToePeak => r * r / 500,
        Target::HeelPeak => 6 * r * l - r * r / 500,
        Target::Overturning => total.m6 - (total.mrest - total.mot),
    };
    let height = coarse_height(random, &draft);
    bring_service(&draft, |_, _| goal, height, landing)
}

/// Brings the service M6 to a goal, which goes by R and l, or a step short of it or past
/// it; by loads across, most of them at a height.
pub fn bring_service(
    draft: &Draft,
    goal: impl Fn(Whole, Whole) -> Whole,
    height: u32,
    landing: Landing,
) -> Option<Draft> {
    let mut draft = draft.clone();
    let job = draft.job();
    let total = service_totals(&job.walls[0], &job.loads);
    let goal = goal(total.r, job.walls[0].base_length());
    let moment = landing.steps(total.m6 - goal, 6)?;
    let coarse = moment / Whole::from(height);
    let dead = coarse.min(Whole::from(MOST_LOAD));
    let fine = moment % Whole::from(height);
    draft
        .loads
        .push([1, ACROSS, height, force(dead)?, force(coarse - dead)?]);
    draft.loads.push([1, ACROSS, 1, force(fine)?, 0]);
    Some(draft)
}

/// The same for the factored M6. A N mm of dead load takes 84 tenths of
/// sixths, of live load 96: 7 and 8 steps of 12.
fn factored_moment(random: &mut Random, target: Target, landing: Landing) -> Option<Draft> {
    let mut draft = weighed_down(random, target);
    let job = draft.job();
    let total = factored_totals(&job.walls[0], &job.loads);
    let (r, l) = (total.r, job.walls[0].base_length());
    let goal = match target {
        Target::TwoRl => 2 * r * l,
        Target::FourRl => 4 * r * l,
        // 100 x 4R^2 / M6 = 2000000
        Target::ToePeak => r * r / 5000,
        _ => 0,
    };
    let steps = landing.steps(total.m6 - goal, 12)?;
    let height = coarse_height(random, &draft);
    // 56 steps or more are left for the fine load.
    let coarse = ((steps - 56) / (7 * Whole::from(height))).max(0);
    let left = steps - 7 * coarse * Whole::from(height);
    let live = left % 7;
    let dead = (left - 8 * live) / 7;
    draft.loads.push([1, ACROSS, height, force(coarse)?, 0]);
    draft.loads.push([1, ACROSS, 1, force(dead)?, force(live)?]);
    Some(draft)
}

/// Resistance equal to H, or `short` N less.
fn sliding(random: &mut Random, short: Whole) -> Option<Draft> {
    let mut draft = weighed_down(random, Target::Nought);
    draft.walls[0][field::KIND] = 0;
    let worked = worked(&draft);
    let spare = worked.passive + worked.friction - worked.service.h + short;
    let height = random.between(0, crest(&draft.walls[0]));
    draft.loads.push([1, ACROSS, height, 0, force(spare)?]);
    Some(draft)
}

/// A service peak of a whole number of kN/m2 that is just the allowable.
fn allowable(random: &mut Random) -> Option<Draft> {
    let mut draft = Draft::of(typical_wall(random));
    let place = draft.walls[0][field::TOE];
    draft.loads.push([1, DOWN, place, 0, 0]);
    (0..3000).find_map(|live| {
        draft.loads[0][4] = live;
        let (toe, heel) = worked(&draft).service_bearing.pressures();
        let peak = toe.max(heel);
        let whole = peak % 1000 == 0 && (1..=1000).contains(&(peak / 1000));
        whole.then(|| {
            let mut tuned = draft.clone();
            tuned.walls[0][field::ALLOWABLE] = (peak / 1000) as u32;
            tuned
        })
    })
}

/// A part of a wall that has a cage.
#[derive(Clone, Copy, Debug, PartialEq, Eq)]
pub enum Part {
    Toe,
    Stem,
    Heel,
}

impl Part {
    /// The part of a draft's only wall; `None` where it isn't checked.
    pub fn section(self, draft: &Draft) -> Option<Section> {
        let worked = worked(draft);
        match self {
            Part::Toe => worked.toe,
            Part::Stem => Some(worked.stem),
            Part::Heel => worked.heel,
        }
    }

    /// The fields of its thickness, bar, spacing and shear stress.
    pub fn thickness(self) -> usize {
        match self {
            Part::Stem => field::STEM_THICKNESS,
            Part::Toe | Part::Heel => field::BASE_THICKNESS,
        }
    }

    pub fn bar(self) -> usize {
        match self {
            Part::Toe => field::TOE_BAR,
            Part::Stem => field::STEM_BAR,
            Part::Heel => field::HEEL_BAR,
        }
    }

    pub fn spacing(self) -> usize {
        match self {
            Part::Toe => field::TOE_SPACING,
            Part::Stem => field::STEM_SPACING,
            Part::Heel => field::HEEL_SPACING,
        }
    }

    fn stress(self) -> usize {
        match self {
            Part::Toe => field::TOE_SHEAR_STRESS,
            Part::Stem => field::STEM_SHEAR_STRESS,
            Part::Heel => field::HEEL_SHEAR_STRESS,
        }
    }

    /// A load of nothing yet that moves its moment: on the end of the toe, or across at
    /// the crest, which takes the bearing away from a heel.
    fn bending(self, wall: &RawWall) -> RawLoad {
        match self {
            Part::Toe => [1, DOWN, 0, 0, 0],
            Part::Stem | Part::Heel => [1, ACROSS, crest(wall), 0, 0],
        }
    }

    /// One that moves its shear.
    fn shearing(self, wall: &RawWall) -> RawLoad {
        match self {
            Part::Toe => [1, DOWN, 0, 0, 0],
            Part::Stem => [1, ACROSS, wall[field::BASE_THICKNESS], 0, 0],
            Part::Heel => [1, ACROSS, crest(wall), 0, 0],
        }
    }
}

/// Provided steel equal to the required, or `short` hundredths of mm2 less.
fn steel(random: &mut Random, part: Part, short: Whole) -> Option<Draft> {
    let mut wall = typical_wall(random);
    wall[part.bar()] = random.pick(&BARS);
    tune_cage(&wall, part, |section| {
        section.provided == section.required - short
    })
}

/// Loads tried until a cage fits, N/m live.
const CAGE_LOADS: u32 = 2000;

/// The wall with a load and a spacing for which the cage of a part is as wished. It is
/// the load that moves the required steel, by some hundredths of mm2 at a time, so the
/// needed steel must govern.
pub fn tune_cage(wall: &RawWall, part: Part, wished: impl Fn(&Section) -> bool) -> Option<Draft> {
    let mut draft = Draft::of(*wall);
    let bare = part.section(&draft);
    bare.filter(|bare| bare.needed > bare.least)?;
    draft.loads.push(part.bending(wall));
    (0..CAGE_LOADS).find_map(|live| {
        draft.loads[0][4] = live;
        let required = part.section(&draft)?.required;
        let mut fitting = spacings_for(wall[part.bar()], required);
        fitting.find_map(|distance| {
            draft.walls[0][part.spacing()] = distance;
            wished(&part.section(&draft)?).then(|| draft.clone())
        })
    })
}

/// The greatest spacing at which a bar gives so much steel, in hundredths of mm2, and
/// the next; such as a cage may have.
fn spacings_for(bar: u32, steel: Whole) -> impl Iterator<Item = u32> {
    // With a bar at every mm there is so many times as much.
    let greatest = provided_steel(Whole::from(bar), 1) / steel.max(1);
    [greatest, greatest + 1]
        .into_iter()
        .filter(|spacing| (50..=500).contains(spacing))
        .map(|spacing| spacing as u32)
}

/// A stress of concrete that 2V / D equals: it fails, as that limit is strict.
pub fn shear(random: &mut Random, part: Part) -> Option<Draft> {
    let wall = typical_wall(random);
    let mut draft = Draft::of(wall);
    draft.loads.push(part.shearing(&wall));
    (0..2000).find_map(|live| {
        draft.loads[0][4] = live;
        let stress = whole_stress(&part.section(&draft)?)?;
        let mut tuned = draft.clone();
        tuned.walls[0][part.stress()] = stress;
        Some(tuned)
    })
}

/// 2V / D where it is a whole number a job may hold.
fn whole_stress(section: &Section) -> Option<u32> {
    let (twice, d) = (2 * section.effects.shear, section.twice_depth);
    let stress = twice / d;
    let fits = twice % d == 0 && (1..=5000).contains(&stress);
    fits.then_some(stress as u32)
}

/// A stem stress of 4 N/mm2 with fcu 25, the limit 0.8 root fcu, or `over` N
/// more than that stress gives.
fn stem_shear_of_concrete(random: &mut Random, over: Whole) -> Option<Draft> {
    let mut draft = Draft::of(typical_wall(random));
    let wall = &mut draft.walls[0];
    wall[field::FCU] = 25;
    wall[field::STEM_SHEAR_STRESS] = 5000;
    let height = wall[field::BASE_THICKNESS];
    let bare = worked(&draft).stem;
    // V = 2000 D + over; a live load counts 16 tenths.
    let mut left = 10 * (2000 * bare.twice_depth + over - bare.effects.shear);
    while left > 0 {
        let live = (left / 16).min(Whole::from(MOST_LOAD));
        draft.loads.push([1, ACROSS, height, 0, force(live)?]);
        left -= 16 * live;
        if left < 16 {
            break;
        }
    }
    let stem = worked(&draft).stem;
    let hit = stem.effects.shear == 2000 * stem.twice_depth + over;
    (hit && draft.loads.len() <= MOST_LOADS_A_WALL).then_some(draft)
}
