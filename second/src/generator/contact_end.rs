//! Jobs whose factored triangle comes to nothing before the face of the stem, at
//! it, before the middle of the stem, at it or past it.

use super::draft::{crest, fit, load_at, typical_wall, wide_wall, Draft, Place};
use super::edges::{push_across, worked, Landing, MOST_TRIES};
use super::{Due, Sample};
use crate::bearing::Contact::{self, HeelTriangle, ToeTriangle};
use crate::forces::factored_totals;
use crate::job_file::{field, RawWall, MOST_LOAD};
use crate::random::Random;
use crate::toe::{rounding_at_face_shows, Tip};
use crate::Whole;

/// Each triangle with each place of its tip; two of them come once more.
const TURNS: [(Contact, Tip); 12] = [
    (ToeTriangle, Tip::BeforeFace),
    (ToeTriangle, Tip::AtFace),
    (ToeTriangle, Tip::BeforeMiddle),
    (ToeTriangle, Tip::AtMiddle),
    (ToeTriangle, Tip::PastMiddle),
    (HeelTriangle, Tip::BeforeFace),
    (HeelTriangle, Tip::AtFace),
    (HeelTriangle, Tip::BeforeMiddle),
    (HeelTriangle, Tip::AtMiddle),
    (HeelTriangle, Tip::PastMiddle),
    (ToeTriangle, Tip::BeforeMiddle),
    (HeelTriangle, Tip::BeforeFace),
];

/// The turns one after another.
pub fn contact_end(random: &mut Random, index: usize) -> Sample {
    let (kind, tip) = TURNS[index % TURNS.len()];
    let found = (0..MOST_TRIES).find_map(|_| {
        let tried = Tried::new(random, kind, tip)?;
        match tip {
            Tip::AtFace => tried.around(Tip::BeforeFace, Tip::BeforeMiddle),
            Tip::AtMiddle => tried.around(Tip::BeforeMiddle, Tip::PastMiddle),
            _ => tried.once(),
        }
    });
    let draft = found.unwrap_or_else(|| Draft::of(typical_wall(random)));
    Sample {
        bytes: draft.bytes(),
        due: Due::Accepted,
    }
}

/// A wall with loads down, and where its triangle is to come to nothing.
struct Tried {
    draft: Draft,
    kind: Contact,
    tip: Tip,
    /// Twice the tip's distance from the toe, mm.
    twice_tip: u32,
    /// Of the loads that bring it there.
    height: u32,
}

impl Tried {
    fn new(random: &mut Random, kind: Contact, tip: Tip) -> Option<Tried> {
        let draft = weighed_down(random, kind);
        let wall = draft.walls[0];
        Some(Tried {
            draft,
            kind,
            tip,
            twice_tip: twice_distance(random, &wall, tip)?,
            height: random.between(crest(&wall) / 2, crest(&wall)),
        })
    }

    /// The wall with its tip somewhere in a stretch.
    fn once(&self) -> Option<Draft> {
        let tuned = self.brought(Landing::Above)?;
        (self.has_tip(&tuned, self.tip) && self.shows(&tuned)).then_some(tuned)
    }

    /// Three walls alike but for a step in the loads: the tip is just before a
    /// point, at it and just past it.
    fn around(&self, before: Tip, past: Tip) -> Option<Draft> {
        let below = self.brought(Landing::Below)?;
        let on = self.brought(Landing::On)?;
        let above = self.brought(Landing::Above)?;
        let wished = self.has_tip(&below, before)
            && self.has_tip(&on, self.tip)
            && self.has_tip(&above, past)
            && self.shows(&on);
        let mut joined = Draft::default();
        for draft in [below, on, above] {
            joined.add(draft.walls[0], &draft.loads);
        }
        wished.then_some(joined)
    }

    fn brought(&self, landing: Landing) -> Option<Draft> {
        bring_tip(&self.draft, self.kind, self.twice_tip, self.height, landing)
    }

    fn has_tip(&self, tuned: &Draft, tip: Tip) -> bool {
        let worked = worked(tuned);
        let given = worked.factored_bearing.given();
        given.is_some_and(|bearing| {
            bearing.block.kind == self.kind && Tip::of(&tuned.job().walls[0], bearing) == Some(tip)
        })
    }

    /// Whether what the ground bears is more than the toe weighs, where it bears
    /// anything; and at the middle of the stem document 01's rounding must show.
    fn shows(&self, tuned: &Draft) -> bool {
        let worked = worked(tuned);
        let (Some(toe), Some(bearing)) = (worked.toe, worked.factored_bearing.given()) else {
            return false;
        };
        let (sheared, bent) = (toe.effects.shear > 0, toe.effects.moment > 0);
        match (self.kind, self.tip) {
            (HeelTriangle, Tip::AtMiddle | Tip::PastMiddle) => true,
            (HeelTriangle, Tip::AtFace | Tip::BeforeMiddle) => bent,
            (_, Tip::AtMiddle) => rounding_at_face_shows(&tuned.job().walls[0], bearing),
            _ => sheared && bent,
        }
    }
}

/// Brings the factored M6 down, by loads at a height, until the tip of a triangle is at
/// its place, or a step short of it or past it. From the toe it is M6 / 2R, of a heel
/// triangle (M6 - 4Rl) / 2R.
pub fn bring_tip(
    draft: &Draft,
    kind: Contact,
    twice_tip: u32,
    height: u32,
    landing: Landing,
) -> Option<Draft> {
    let job = draft.job();
    let total = factored_totals(&job.walls[0], &job.loads);
    let four_l = match kind {
        HeelTriangle => 4 * job.walls[0].base_length(),
        _ => 0,
    };
    let goal = total.r * (four_l + Whole::from(twice_tip));
    // A N mm of dead load takes 84 tenths of sixths, of live load 96.
    let steps = landing.steps(total.m6 - goal, 12)?;
    let mut tuned = draft.clone();
    push_across(&mut tuned, 0, height, steps)?;
    Some(tuned)
}

/// A wall with the loads down that its triangle needs. For one at the heel the stem
/// may be thick, and toe and base are small, so that the toe weighs little.
fn weighed_down(random: &mut Random, kind: Contact) -> Draft {
    let mut wall = if random.once_in(2) {
        wide_wall(random)
    } else {
        typical_wall(random)
    };
    let (place, loads) = match kind {
        HeelTriangle => {
            wall[field::TOE] = random.between(1, 1500);
            wall[field::STEM_THICKNESS] = random.between(200, 1500);
            wall[field::BASE_THICKNESS] = random.between(200, 300);
            fit(&mut wall);
            (Place::Heel, 1 + random.below(4))
        }
        _ => (Place::Between, random.below(5)),
    };
    let mut draft = Draft::of(wall);
    for _ in 0..loads {
        let load = load_at(random, 1, &wall, place, MOST_LOAD);
        draft.loads.push(load);
    }
    draft
}

/// `None` where there is no toe.
fn twice_distance(random: &mut Random, wall: &RawWall, tip: Tip) -> Option<u32> {
    let stem = wall[field::STEM_THICKNESS];
    let face = 2 * wall[field::TOE];
    let middle = face + stem;
    let end = middle + stem + 2 * wall[field::HEEL];
    (face > 0).then(|| match tip {
        Tip::BeforeFace => random.between(1, face - 1),
        Tip::AtFace => face,
        Tip::BeforeMiddle => random.between(face + 1, middle - 1),
        Tip::AtMiddle => middle,
        Tip::PastMiddle => random.between(middle + 1, end - 1),
    })
}
