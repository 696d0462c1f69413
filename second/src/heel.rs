//! Document 02, "#103 Heel steel": what weighs on a heel, and what the ground bears under
//! it.
//!
//! The ground is integrated. Whatever the block, its pressure is one straight line over
//! the contact, from the toe's figure to the heel's; it is added up from the back face of
//! the stem on for the shear, and from the middle of the stem on for the moment.

use crate::bearing::{Contact, Fraction, Reported};
use crate::forces::{weights, Action};
use crate::job_file::Wall;
use crate::rounding::up;
use crate::section::Effects;
use crate::toe::twice_middle;
use crate::wide::Wide;
use crate::Whole;
use std::cmp::Ordering;

/// Shear and moment of the heel: down less up, and 0 where that is negative.
pub fn heel_effects(wall: &Wall, bearing: &Reported) -> Effects {
    less(pressed_down(wall), borne(wall, bearing))
}

/// What is left of one after another.
pub fn less(down: Effects, up: Effects) -> Effects {
    Effects {
        shear: (down.shear - up.shear).max(0),
        moment: (down.moment - up.moment).max(0),
    }
}

/// In a N there are so many parts in which every weight's shear is whole.
pub const SHEAR_PARTS: Whole = 1_000_000;
/// In a N mm there are so many parts in which its moment is.
pub const MOMENT_PARTS: Whole = 8_000_000;

/// What weighs on a heel, factored, in these parts: the base's own, both fills and the
/// surcharge. Loads down are no part of it, wherever they stand.
pub fn weighed(wall: &Wall) -> [Effects; 3] {
    let fill = over_heel(wall, Action::Fill);
    let surcharge = over_heel(wall, Action::SurchargeDown);
    [slab(wall), fill, surcharge]
}

/// Worked from the slab itself, not from the rounded weight of the base. A downstand is
/// no part of it.
fn slab(wall: &Wall) -> Effects {
    // 14 tenths x (10 N/m3) x mm = 14/1000 N/m2, and (N/m2) x mm = N/1000.
    let a_mm = 14 * wall.base_density * wall.base_thickness;
    // b reaches from the middle of the stem to the heel's end; b^2/2 is (2b)^2/8.
    let twice_b = 2 * wall.base_length() - twice_middle(wall);
    Effects {
        shear: a_mm * wall.heel,
        moment: a_mm * twice_b * twice_b,
    }
}

/// Document 01's whole newtons times their factor, at (lh + tw)/2 from the middle of
/// the stem.
fn over_heel(wall: &Wall, action: Action) -> Effects {
    let newtons: Whole = weights(wall)
        .iter()
        .filter(|component| component.action == action)
        .map(|component| component.vertical)
        .sum();
    let tenths = action.factor() * newtons;
    Effects {
        shear: SHEAR_PARTS / 10 * tenths,
        moment: MOMENT_PARTS / 20 * tenths * (wall.heel + wall.stem_thickness),
    }
}

/// All that weighs on the heel, rounded up once.
pub fn pressed_down(wall: &Wall) -> Effects {
    let all = weighed(wall);
    let sum = |of: fn(&Effects) -> Whole| -> Whole { all.iter().map(of).sum() };
    Effects {
        shear: up(sum(|weight| weight.shear), SHEAR_PARTS),
        moment: up(sum(|weight| weight.moment), MOMENT_PARTS),
    }
}

/// What the ground bears under lh, and its moment about the middle of the stem under
/// lh + tw/2; each rounded down once.
pub fn borne(wall: &Wall, bearing: &Reported) -> Effects {
    let ground = Ground::of(wall, bearing);
    Effects {
        shear: ground
            .force_between(ground.back, ground.end)
            .over_rounded_down(&ground.newton()),
        moment: ground
            .moment_between(ground.middle, ground.middle, ground.end)
            .over_rounded_down(&ground.newton_mm()),
    }
}

/// The pressure under a base: a straight line over the contact and nothing beside it.
/// Its lengths count from the toe, in parts of a mm that are small enough for each to be
/// a whole number of them.
///
/// No number here is past 256 bits. Of an accepted wall the factored R is below 2^27
/// tenths of a N, l below 2^14 mm and M6 below 2^43. A pressure is a product below 2^55
/// over one below 2^43 of a triangle, and below 2^70 over 2^54 of a whole block; a length
/// is below 2^42 parts of the one and 2^15 of the other. So a moment, four products of a
/// pressure, three lengths, 100 and at most 3, is below 2^194; what it stands over is
/// below 2^156, and their quotient below 2^37.
pub struct Ground {
    /// The pressures at both ends of the contact.
    toe: Fraction,
    heel: Fraction,
    pub start: Whole,
    pub stop: Whole,
    /// The middle of the stem, its back face, and the end of the heel.
    pub middle: Whole,
    pub back: Whole,
    pub end: Whole,
    /// How many parts make a mm.
    pub parts: Whole,
    /// N/m2 in the unit of the two pressures.
    pascals: Whole,
}

impl Ground {
    pub fn of(wall: &Wall, bearing: &Reported) -> Ground {
        let block = &bearing.block;
        // The contact is in such parts of a mm as its fraction says, the middle in halves.
        let parts = 2 * block.contact.under;
        let contact = 2 * block.contact.over;
        let end = parts * wall.base_length();
        let start = match block.kind {
            Contact::HeelTriangle => end - contact,
            _ => 0,
        };
        Ground {
            toe: block.toe,
            heel: block.heel,
            start,
            stop: start + contact,
            middle: block.contact.under * twice_middle(wall),
            back: parts * (wall.toe + wall.stem_thickness),
            end,
            parts,
            pascals: bearing.case.pascals(),
        }
    }

    /// The pressure at a point of the contact times some factors, in parts of which
    /// [`Ground::unit`] has one.
    fn pressure_times(&self, at: Whole, factors: &[Whole]) -> Wide {
        let from_toe = [self.toe.over, self.heel.under, self.stop - at];
        let from_heel = [self.heel.over, self.toe.under, at - self.start];
        let product = |of: [Whole; 3]| Wide::product(of.iter().chain(factors));
        product(from_toe).plus(product(from_heel))
    }

    /// One of its parts times some factors.
    fn unit(&self, factors: &[Whole]) -> Wide {
        let contact = self.stop - self.start;
        let under = [self.toe.under, self.heel.under, contact, 1000];
        Wide::product(under.iter().chain(factors))
    }

    /// As much of a stretch as bears, if any of it does.
    fn loaded(&self, from: Whole, to: Whole) -> Option<(Whole, Whole)> {
        let (from, to) = (from.max(self.start), to.min(self.stop));
        (from < to).then_some((from, to))
    }

    /// What a stretch bears, in parts of which [`Ground::newton`] are a N: half its
    /// length times the pressures at both its ends.
    pub fn force_between(&self, from: Whole, to: Whole) -> Wide {
        let Some((from, to)) = self.loaded(from, to) else {
            return Wide::NOUGHT;
        };
        let factors = [self.pascals, to - from];
        let near = self.pressure_times(from, &factors);
        near.plus(self.pressure_times(to, &factors))
    }

    /// Its moment about a point that isn't past its start, in parts of which
    /// [`Ground::newton_mm`] are a N mm. The pressure times its arm is added up by
    /// Simpson's rule, which is exact for it: a sixth of the length times what is found at
    /// both ends and four times what is found half way. Half way both the pressure and
    /// the arm are the mean of what they are at the ends.
    pub fn moment_between(&self, about: Whole, from: Whole, to: Whole) -> Wide {
        let Some((from, to)) = self.loaded(from, to) else {
            return Wide::NOUGHT;
        };
        let (near, far) = (from - about, to - about);
        let factors = |arms| [self.pascals, to - from, arms];
        let by_near = self.pressure_times(from, &factors(near + (near + far)));
        by_near.plus(self.pressure_times(to, &factors(far + (near + far))))
    }

    /// The parts of a N: (N/m2) x mm is N/1000.
    pub fn newton(&self) -> Wide {
        self.unit(&[2, self.parts])
    }

    /// The parts of a N mm.
    pub fn newton_mm(&self) -> Wide {
        self.unit(&[6, self.parts, self.parts])
    }
}

/// Where the pressure of a triangle comes to nothing, seen from the heel: the end of one
/// at the toe, the start of one at the heel.
#[derive(Clone, Copy, Debug, PartialEq, Eq)]
pub enum Reach {
    BeforeMiddle,
    AtMiddle,
    BeforeBack,
    AtBack,
    PastBack,
    /// Of a whole block alone: at the end of the heel there is just nothing left.
    AtEnd,
}

impl Reach {
    /// `None` of a whole block with pressure at the end of the heel.
    pub fn of(wall: &Wall, bearing: &Reported) -> Option<Reach> {
        let ground = Ground::of(wall, bearing);
        let tip = match bearing.block.kind {
            Contact::Whole if bearing.block.heel.over == 0 => return Some(Reach::AtEnd),
            Contact::Whole => return None,
            Contact::ToeTriangle => ground.stop,
            Contact::HeelTriangle => ground.start,
        };
        Some(match (tip.cmp(&ground.middle), tip.cmp(&ground.back)) {
            (Ordering::Less, _) => Reach::BeforeMiddle,
            (Ordering::Equal, _) => Reach::AtMiddle,
            (_, Ordering::Less) => Reach::BeforeBack,
            (_, Ordering::Equal) => Reach::AtBack,
            (_, Ordering::Greater) => Reach::PastBack,
        })
    }
}
