//! Jobs for the heel: every kind of factored block under every part of it, what is left
//! out, what counts as 0, cages and stresses at their edges, everything that weighs on it,
//! and roundings where they show.

use super::contact_end::bring_tip;
use super::draft::{
    crest, fit, height, length, load_at, typical_wall, wide_wall, Draft, Place, DOWN,
};
use super::edges::{shear, worked, Landing, Part};
use super::seek::sought;
use super::steel_hundredth::{by_least, by_load, Cage};
use super::{Due, Sample};
use crate::bearing::Contact::{self, HeelTriangle, ToeTriangle};
use crate::heel::Reach;
use crate::job_file::{field, RawWall, MOST_LOAD};
use crate::random::Random;
use crate::section::Effects;

/// Walls tried before one is taken as it is.
const MOST_TRIES: usize = 3000;

type Turn = fn(&mut Random) -> Option<Draft>;

/// The first thirteen have every block under every part of the heel, and no heel.
const TURNS: [Turn; 33] = [
    |r| sought(r, any, &[ABOVE_0, &["under-heel-whole"]].concat()),
    |r| tip(r, ToeTriangle, Reach::BeforeMiddle),
    |r| tip(r, ToeTriangle, Reach::AtMiddle),
    |r| tip(r, ToeTriangle, Reach::BeforeBack),
    |r| tip(r, ToeTriangle, Reach::AtBack),
    |r| tip(r, ToeTriangle, Reach::PastBack),
    |r| tip(r, ToeTriangle, Reach::AtEnd),
    |r| tip(r, HeelTriangle, Reach::BeforeMiddle),
    |r| tip(r, HeelTriangle, Reach::AtMiddle),
    |r| tip(r, HeelTriangle, Reach::BeforeBack),
    |r| tip(r, HeelTriangle, Reach::AtBack),
    |r| tip(r, HeelTriangle, Reach::PastBack),
    |r| sought(r, no_heel, &["heel-unchecked-no-heel", "factored-whole"]),
    |r| sought(r, weak, &["heel-unchecked-no-block"]),
    |r| sought(r, any, &["heel-shear-below-0", "not heel-moment-below-0"]),
    |r| sought(r, any, &["heel-moment-below-0"]),
    |r| sought(r, any, &["heel-steel-fails-alone", "not heel-shear-fails"]),
    |r| sought(r, any, &["heel-shear-fails-alone", "not heel-steel-fails"]),
    |r| by_load(r, Part::Heel, Cage::Even),
    |r| by_load(r, Part::Heel, Cage::Short),
    |r| by_load(r, Part::Heel, Cage::FailedInMm2),
    |r| by_least(r, Part::Heel, Cage::Even),
    |r| by_least(r, Part::Heel, Cage::Short),
    |r| shear(r, Part::Heel),
    |r| sought(r, thin_base, &["heel-shear-fcu-fails"]),
    |r| sought(r, thin_base, &["heel-compression-steel"]),
    |r| sought(r, odd_stem, &["heel-fill-both", "heel-surcharge"]),
    |r| sought(r, drowned, &["heel-fill-saturated", "heel-surcharge-0"]),
    |r| sought(r, dry, &["heel-fill-moist", "heel-surcharge-0"]),
    |r| sought(r, any, &[ABOVE_0, &["heel-loaded"]].concat()),
    |r| sought(r, any, &["heel-sum-by-parts", "heel-surcharge"]),
    |r| sought(r, any, &["heel-bearing-not-whole", "under-heel-whole"]),
    |r| sought(r, any, &["heel-peak-shows", "factored-toe"]),
];

/// The turns one after another.
pub fn heel(random: &mut Random, index: usize) -> Sample {
    let turn = TURNS[index % TURNS.len()];
    let found = (0..MOST_TRIES).find_map(|_| turn(random));
    let draft = found.unwrap_or_else(|| Draft::of(typical_wall(random)));
    Sample {
        bytes: draft.bytes(),
        due: Due::Accepted,
    }
}

/// Neither figure of a heel counts as 0.
const ABOVE_0: &[&str] = &["not heel-shear-below-0", "not heel-moment-below-0"];

fn any(_: &mut Random, _: &mut RawWall) {}

/// A cage that fails whatever is asked of it.
fn weak(_: &mut Random, wall: &mut RawWall) {
    wall[field::HEEL_BAR] = 8;
    wall[field::HEEL_SPACING] = 500;
    wall[field::HEEL_SHEAR_STRESS] = 1;
    wall[field::LEAST_STEEL] = wall[field::LEAST_STEEL].max(13);
}

fn no_heel(random: &mut Random, wall: &mut RawWall) {
    wall[field::HEEL] = 0;
    fit(wall);
    weak(random, wall);
}

/// A long heel and a thin base of weak concrete, the stress no limit.
fn thin_base(random: &mut Random, wall: &mut RawWall) {
    wall[field::BASE_THICKNESS] = random.between(200, 300);
    wall[field::HEEL] = random.between(2000, 5000);
    wall[field::FCU] = random.between(20, 30);
    wall[field::HEEL_SHEAR_STRESS] = 5000;
    fit(wall);
}

fn odd_stem(_: &mut Random, wall: &mut RawWall) {
    wall[field::STEM_THICKNESS] |= 1;
}

/// Water up to the crest, and nothing on the fill.
fn drowned(_: &mut Random, wall: &mut RawWall) {
    wall[field::WATER_HEIGHT] = height(wall);
    wall[field::SURCHARGE] = 0;
    wall[field::STEM_THICKNESS] &= !1;
    fit(wall);
}

fn dry(_: &mut Random, wall: &mut RawWall) {
    let base_top = wall[field::DOWNSTAND_DEPTH] + wall[field::BASE_THICKNESS];
    wall[field::WATER_HEIGHT] = wall[field::WATER_HEIGHT].min(base_top);
    wall[field::SURCHARGE] = 0;
    wall[field::STEM_THICKNESS] |= 1;
}

/// The block of a wall whose tip is at a place, or three walls alike but for a step in
/// the loads: the tip is just before a point, at it and just past it. Just before the end
/// of the base it is a triangle still, at it and past it a whole block.
fn tip(random: &mut Random, kind: Contact, reach: Reach) -> Option<Draft> {
    let tried = Tried::new(random, kind, reach)?;
    let one = |reach| (kind, Some(reach));
    match reach {
        Reach::AtMiddle => {
            tried.around([one(Reach::BeforeMiddle), one(reach), one(Reach::BeforeBack)])
        }
        Reach::AtBack => tried.around([one(Reach::BeforeBack), one(reach), one(Reach::PastBack)]),
        Reach::AtEnd => tried.around([
            one(Reach::PastBack),
            (Contact::Whole, Some(reach)),
            (Contact::Whole, None),
        ]),
        _ => tried.once(),
    }
}

/// A wall with loads down, and where its triangle is to come to nothing.
struct Tried {
    draft: Draft,
    kind: Contact,
    reach: Reach,
    /// Twice the tip's distance from the toe, mm.
    twice_tip: u32,
    /// Of the loads that bring it there.
    height: u32,
}

impl Tried {
    /// `None` where there is no heel.
    fn new(random: &mut Random, kind: Contact, reach: Reach) -> Option<Tried> {
        let draft = weighed_down(random, kind, reach);
        let wall = draft.walls[0];
        (wall[field::HEEL] > 1).then(|| Tried {
            draft,
            kind,
            reach,
            twice_tip: twice_distance(random, &wall, kind, reach),
            height: random.between(crest(&wall) / 2, crest(&wall)),
        })
    }

    fn brought(&self, landing: Landing) -> Option<Draft> {
        bring_tip(&self.draft, self.kind, self.twice_tip, self.height, landing)
    }

    fn once(&self) -> Option<Draft> {
        let tuned = self.brought(Landing::Above)?;
        self.is(&tuned, (self.kind, Some(self.reach)))
            .then_some(tuned)
    }

    fn around(&self, wished: [(Contact, Option<Reach>); 3]) -> Option<Draft> {
        let mut joined = Draft::default();
        let landings = [Landing::Below, Landing::On, Landing::Above];
        for (landing, wished) in landings.into_iter().zip(wished) {
            let tuned = self.brought(landing)?;
            if !self.is(&tuned, wished) {
                return None;
            }
            joined.add(tuned.walls[0], &tuned.loads);
        }
        Some(joined)
    }

    /// Whether the block and its tip are as wished, and the heel's figures above 0 where
    /// they can be.
    fn is(&self, tuned: &Draft, wished: (Contact, Option<Reach>)) -> bool {
        let worked = worked(tuned);
        let (Some(heel), Some(bearing)) = (worked.heel, worked.factored_bearing.given()) else {
            return false;
        };
        let reach = Reach::of(&tuned.job().walls[0], bearing);
        (bearing.block.kind, reach) == wished && self.shows(heel.effects)
    }

    /// All that bears stands behind the stem where a heel triangle starts at its back
    /// face or past it: then the ground bears more than weighs on the heel, and farther
    /// back. Where it starts within the stem's back half, only a shear is looked for.
    fn shows(&self, Effects { shear, moment }: Effects) -> bool {
        match (self.kind, self.reach) {
            (HeelTriangle, Reach::AtBack | Reach::PastBack) => true,
            (HeelTriangle, Reach::AtMiddle | Reach::BeforeBack) => shear > 0,
            _ => shear > 0 && moment > 0,
        }
    }
}

/// A wall with the loads down that its triangle needs.
fn weighed_down(random: &mut Random, kind: Contact, reach: Reach) -> Draft {
    let mut wall = if random.once_in(2) {
        wide_wall(random)
    } else {
        typical_wall(random)
    };
    let mut loads = Vec::new();
    match (kind, reach) {
        (HeelTriangle, Reach::BeforeMiddle) => long_toe(random, &mut wall),
        (HeelTriangle, Reach::AtMiddle | Reach::BeforeBack) => {
            thick_and_low(random, &mut wall);
            loads.push([1, DOWN, length(&wall), random.between(3000, 20_000), 0]);
        }
        (HeelTriangle, _) => {
            for _ in 0..1 + random.below(4) {
                loads.push(load_at(random, 1, &wall, Place::Heel, MOST_LOAD));
            }
        }
        _ => {
            for _ in 0..random.below(5) {
                loads.push(load_at(random, 1, &wall, Place::Between, MOST_LOAD));
            }
        }
    }
    Draft {
        walls: vec![wall],
        loads,
    }
}

/// Much fill behind a light stem, and so long a toe that nothing bears at its end.
fn long_toe(random: &mut Random, wall: &mut RawWall) {
    wall[field::TOE] = random.between(1000, 5000);
    wall[field::STEM_THICKNESS] = random.between(200, 300);
    wall[field::BASE_THICKNESS] = random.between(200, 300);
    wall[field::STEM_HEIGHT] = random.between(3000, 8000);
    wall[field::K0] = random.between(1, 300);
    wall[field::WATER_HEIGHT] = 0;
    fit(wall);
}

/// A low and thick stem with a short heel, on which most of the load is the surcharge.
fn thick_and_low(random: &mut Random, wall: &mut RawWall) {
    wall[field::TOE] = random.between(0, 100);
    wall[field::STEM_THICKNESS] = random.between(800, 1500);
    wall[field::HEEL] = wall[field::STEM_THICKNESS] * random.between(30, 50) / 100;
    wall[field::STEM_HEIGHT] = random.between(500, 600);
    wall[field::BASE_THICKNESS] = random.between(200, 250);
    wall[field::STEM_DENSITY] = random.between(1500, 1700);
    wall[field::BASE_DENSITY] = random.between(1500, 1700);
    wall[field::SURCHARGE] = random.between(8000, 10_000);
    wall[field::K0] = random.between(1, 20);
    wall[field::WATER_HEIGHT] = 0;
    fit(wall);
}

fn twice_distance(random: &mut Random, wall: &RawWall, kind: Contact, reach: Reach) -> u32 {
    let stem = wall[field::STEM_THICKNESS];
    let middle = 2 * wall[field::TOE] + stem;
    let back = middle + stem;
    let end = back + 2 * wall[field::HEEL];
    match reach {
        Reach::BeforeMiddle => random.between(1, middle - 1),
        Reach::AtMiddle => middle,
        // The less of a heel triangle is under the stem, the more often V is 0.
        Reach::BeforeBack if kind == HeelTriangle => random.between(middle + 1, middle + stem / 8),
        Reach::BeforeBack => random.between(middle + 1, back - 1),
        Reach::AtBack => back,
        Reach::PastBack => random.between(back + 1, end - 1),
        Reach::AtEnd => end,
    }
}
