//! Jobs whose lever arm turns: the moment of the stem or of the toe stands on an
//! edge of the rule for Z, or a N mm past it.

use super::draft::{ends, typical_wall, wide_wall, Draft, DOWN};
use super::edges::{push_across, worked, MOST_TRIES};
use super::{Due, Sample};
use crate::bearing::{Bearing, Case};
use crate::forces::factored_totals;
use crate::job_file::{field, RawWall, Reinforcement, Wall, BARS};
use crate::random::Random;
use crate::rounding::{down, up};
use crate::section::{
    greatest_arm, greatest_moment, moment_borne, toe_effects, twice_depth, twice_lever_arm, Section,
};
use crate::Whole;

/// A turn of the arm with a given bar, which alone settles whether D is odd.
type Turn = fn(&mut Random, u32) -> Option<Draft>;

const TURNS: [Turn; 12] = [
    |r, bar| stem(r, bar, Edge::Arm, 0),
    |r, bar| stem(r, bar, Edge::Arm, 0),
    |r, bar| stem(r, bar, Edge::Arm, 1),
    |r, bar| stem(r, bar, Edge::Arm, 1),
    |r, bar| stem(r, bar, Edge::Limit, 0),
    |r, bar| stem(r, bar, Edge::Limit, 1),
    |r, bar| stem(r, bar, Edge::Compression, 0),
    |r, bar| stem(r, bar, Edge::Compression, 1),
    |r, bar| stem(r, bar, Edge::Root, 0),
    |r, bar| stem(r, bar, Edge::Root, 1),
    |r, bar| toe(r, bar, 0),
    |r, bar| toe(r, bar, 1),
];

/// The turns one after another, with D even and odd by turns; in the next round
/// it is the other way about.
pub fn lever_arm(random: &mut Random, index: usize) -> Sample {
    let turn = TURNS[index % TURNS.len()];
    let odd = (index + index / TURNS.len()) % 2 == 1;
    let found = (0..MOST_TRIES).find_map(|_| {
        let bar = any_bar(random, odd);
        turn(random, bar)
    });
    let draft = found.unwrap_or_else(|| Draft::of(typical_wall(random)));
    Sample {
        bytes: draft.bytes(),
        due: Due::Accepted,
    }
}

fn any_bar(random: &mut Random, odd: bool) -> u32 {
    let fitting: Vec<u32> = BARS.into_iter().filter(|b| (b % 2 == 1) == odd).collect();
    random.pick(&fitting)
}

/// Little enough that the steel needed for a worked arm is more.
pub fn little_least_steel(random: &mut Random) -> u32 {
    random.between(0, 13)
}

/// Whether the arm, or the want of one, shows in the printed area.
fn shows(section: &Section) -> bool {
    section.lever_arm.is_none() || section.needed > section.least
}

/// What the stem's moment is brought to.
#[derive(Clone, Copy, PartialEq, Eq)]
enum Edge {
    /// What an arm below its limit bears.
    Arm,
    /// What the arm at its limit bears.
    Limit,
    /// The last for which D and the root of D^2 - 4M / (225 fcu), rounded down,
    /// make an odd number.
    Root,
    /// The most without compression steel.
    Compression,
}

impl Edge {
    fn moment(self, random: &mut Random, d: Whole, fcu: Whole) -> Whole {
        match self {
            Edge::Arm => moment_borne(arm_below_limit(random, d), d, fcu),
            Edge::Limit => moment_borne(greatest_arm(d), d, fcu),
            Edge::Root => {
                let root = 2 * arm_below_limit(random, d) - d - 1;
                225 * fcu * down(d * d - root * root, 4)
            }
            Edge::Compression => greatest_moment(d, fcu),
        }
    }
}

/// A Z below its limit and above 0.777 D, where compression steel begins.
fn arm_below_limit(random: &mut Random, d: Whole) -> Whole {
    let (low, high) = (up(78 * d, 100), greatest_arm(d) - 1);
    Whole::from(random.between(low as u32, high as u32))
}

/// The stem's moment on an edge, or `over` N mm more.
fn stem(random: &mut Random, bar: u32, edge: Edge, over: Whole) -> Option<Draft> {
    let mut wall = if random.once_in(2) {
        wide_wall(random)
    } else {
        typical_wall(random)
    };
    wall[field::STEM_BAR] = bar;
    wall[field::LEAST_STEEL] = little_least_steel(random);
    let mut draft = Draft::of(wall);
    let bare = worked(&draft).stem;
    let fcu = Whole::from(wall[field::FCU]);
    let goal = edge.moment(random, bare.twice_depth, fcu) + over;
    push_stem(random, &mut draft, goal - bare.effects.moment)?;
    let stem = worked(&draft).stem;
    (stem.effects.moment == goal && shows(&stem)).then_some(draft)
}

/// Adds loads across that make the stem's moment so many N mm greater. A N of
/// dead load a mm above the base adds 7 fifths of a N mm, of live load 8.
pub fn push_stem(random: &mut Random, draft: &mut Draft, more: Whole) -> Option<()> {
    let wall = draft.walls[0];
    let (base, stem) = (wall[field::BASE_THICKNESS], wall[field::STEM_HEIGHT]);
    let height = random.between(stem / 2, stem);
    push_across(draft, base, height, 5 * more)
}

/// Loads tried at the end of a toe, N/m live.
const TOE_LOADS: u32 = 2000;

/// A load on the end of the toe, a strength and a cover for which the toe's
/// moment is what an arm bears, or `over` N mm more.
fn toe(random: &mut Random, bar: u32, over: Whole) -> Option<Draft> {
    let mut wall = typical_wall(random);
    // In a thin base the arm is more often below its limit.
    wall[field::BASE_THICKNESS] = random.between(200, 300);
    wall[field::TOE_BAR] = bar;
    wall[field::LEAST_STEEL] = little_least_steel(random);
    let mut draft = Draft::of(wall);
    // An arm at its limit, or none, is far from any turn.
    let bare = worked(&draft).toe?;
    bare.lever_arm
        .filter(|z| *z < greatest_arm(bare.twice_depth))?;
    draft.loads.push([1, DOWN, 0, 0, 0]);
    (0..TOE_LOADS).find_map(|live| {
        draft.loads[0][4] = live;
        let moment = toe_moment(&draft)?;
        let (fcu, cover) = strength_and_cover(&wall, moment - over)?;
        let mut tuned = draft.clone();
        tuned.walls[0][field::FCU] = fcu;
        tuned.walls[0][field::TOE_COVER] = cover;
        shows(&worked(&tuned).toe?).then_some(tuned)
    })
}

/// The moment alone, as there are many loads to try; `None` where the toe has no
/// bearing.
fn toe_moment(draft: &Draft) -> Option<Whole> {
    let job = draft.job();
    let wall = &job.walls[0];
    let total = factored_totals(wall, &job.loads);
    let bearing = Bearing::of(total.r, total.m6, wall.base_length(), Case::Factored);
    Some(toe_effects(wall, bearing.given()?).moment)
}

/// A strength and a cover of the toe for which some arm bears just the moment.
fn strength_and_cover(wall: &RawWall, moment: Whole) -> Option<(u32, u32)> {
    if moment <= 0 || moment % 225 != 0 {
        return None;
    }
    let (weakest, strongest) = ends(wall, field::FCU);
    let mut strengths = (weakest..=strongest).filter(|fcu| moment / 225 % Whole::from(*fcu) == 0);
    strengths.find_map(|fcu| Some((fcu, fitting_cover(wall, fcu, moment)?)))
}

fn fitting_cover(wall: &RawWall, fcu: u32, moment: Whole) -> Option<u32> {
    let (least, most) = ends(wall, field::TOE_COVER);
    let (wall, fcu) = (Wall::from_raw(wall), Whole::from(fcu));
    (least..=most).find(|cover| {
        let bars = Reinforcement {
            cover: Whole::from(*cover),
            ..wall.toe_bars
        };
        let d = twice_depth(wall.base_thickness, &bars);
        let arm = twice_lever_arm(moment, d, fcu);
        arm.is_some_and(|z| moment_borne(z, d, fcu) == moment)
    })
}
