//! What the ground bears under a toe, whose own weight isn't taken off yet: document
//! 01, "Toe and stem", and for a triangle that ends before the middle of the stem, or
//! stands at the heel, document 02, "#105 Toe pressure past the end of contact".

use crate::bearing::{Contact, Reported};
use crate::job_file::Wall;
use crate::rounding::up;
use crate::section::Effects;
use crate::wide::quotient_up;
use crate::Whole;
use std::cmp::Ordering;

/// 2a, a being the distance from the toe to the middle of the stem, which may be
/// half a mm.
pub fn twice_middle(wall: &Wall) -> Whole {
    2 * wall.toe + wall.stem_thickness
}

/// Shear under lt and moment about a, each rounded up. Reading taken: where a toe
/// triangle ends just at the middle of the stem, document 01's formula still
/// stands, with its rounding; a heel triangle never takes it.
pub fn borne(wall: &Wall, bearing: &Reported) -> Effects {
    match bearing.block.kind {
        Contact::Whole => by_exact_line(wall, bearing),
        Contact::ToeTriangle => {
            let triangle = Triangle::of(wall, bearing);
            if triangle.tip < triangle.middle {
                triangle.at_toe()
            } else {
                by_scaled_peak(wall, bearing)
            }
        }
        Contact::HeelTriangle => Triangle::of(wall, bearing).at_heel(),
    }
}

/// Where the pressure of a triangle comes to nothing, seen from the toe: the end
/// of one at the toe, the start of one at the heel.
#[derive(Clone, Copy, Debug, PartialEq, Eq)]
pub enum Tip {
    BeforeFace,
    AtFace,
    BeforeMiddle,
    AtMiddle,
    PastMiddle,
}

impl Tip {
    /// `None` of a whole block.
    pub fn of(wall: &Wall, bearing: &Reported) -> Option<Tip> {
        if bearing.block.kind == Contact::Whole {
            return None;
        }
        let Triangle {
            tip, face, middle, ..
        } = Triangle::of(wall, bearing);
        Some(match (tip.cmp(&face), tip.cmp(&middle)) {
            (Ordering::Less, _) => Tip::BeforeFace,
            (Ordering::Equal, _) => Tip::AtFace,
            (_, Ordering::Less) => Tip::BeforeMiddle,
            (_, Ordering::Equal) => Tip::AtMiddle,
            (_, Ordering::Greater) => Tip::PastMiddle,
        })
    }
}

/// Whether document 01's rounding of the pressure under the face of the stem
/// shows in the shear of a toe triangle.
pub fn rounding_at_face_shows(wall: &Wall, bearing: &Reported) -> bool {
    by_scaled_peak(wall, bearing).shear != Triangle::of(wall, bearing).at_toe().shear
}

/// A triangle under a base. Its lengths are in parts of a mm that are small enough
/// for each to be a whole number of them.
struct Triangle {
    /// N/m2, as reported.
    peak: Whole,
    contact: Whole,
    /// Distances from the toe.
    tip: Whole,
    face: Whole,
    middle: Whole,
    /// How many parts make a mm.
    parts: Whole,
}

impl Triangle {
    fn of(wall: &Wall, bearing: &Reported) -> Triangle {
        let block = &bearing.block;
        // The contact is in such parts of a mm as its fraction says, a in halves.
        let parts = 2 * block.contact.under;
        let contact = 2 * block.contact.over;
        Triangle {
            peak: bearing.peak(),
            contact,
            tip: match block.kind {
                Contact::HeelTriangle => parts * wall.base_length() - contact,
                _ => contact,
            },
            face: parts * wall.toe,
            middle: block.contact.under * twice_middle(wall),
            parts,
        }
    }

    /// Falling from the toe to a tip that isn't past the middle of the stem.
    fn at_toe(&self) -> Effects {
        // All of the contact, or as much as lies under lt, where the pressure is
        // still P (c - loaded) / c.
        let loaded = self.contact.min(self.face);
        let twice_mean = 2 * self.contact - loaded;
        Effects {
            shear: self.newtons(&[loaded, twice_mean], &[2, self.contact]),
            // P c / 2, a third of c from the toe.
            moment: self.newton_mm(&[self.contact, 3 * self.middle - self.contact], &[6]),
        }
    }

    /// Rising from the tip to the heel. At a distance s past the tip the pressure is
    /// P s / c, and the ground up to there bears half of that times s, at a third of s
    /// from where it ends.
    fn at_heel(&self) -> Effects {
        let to_face = (self.face - self.tip).max(0);
        let to_middle = (self.middle - self.tip).max(0);
        Effects {
            shear: self.newtons(&[to_face, to_face], &[2, self.contact]),
            moment: self.newton_mm(&[to_middle, to_middle, to_middle], &[6, self.contact]),
        }
    }

    /// The peak times some lengths over others, which leave one length: (N/m2) x mm
    /// is N/1000.
    fn newtons(&self, over: &[Whole], under: &[Whole]) -> Whole {
        self.times_peak(over, under, &[1000, self.parts])
    }

    /// The same where they leave two lengths.
    fn newton_mm(&self, over: &[Whole], under: &[Whole]) -> Whole {
        self.times_peak(over, under, &[1000, self.parts, self.parts])
    }

    fn times_peak(&self, over: &[Whole], under: &[Whole], scale: &[Whole]) -> Whole {
        quotient_up(&[&[self.peak], over].concat(), &[under, scale].concat())
    }
}

/// Document 01's formula for the exact line of a whole block, both of whose ends
/// stand over l^2.
fn by_exact_line(wall: &Wall, bearing: &Reported) -> Effects {
    let Reported { block, case, .. } = bearing;
    let twice_l = 2 * wall.base_length();
    by_pressures(wall, |twice_s| {
        let line = block.toe.over * (twice_l - twice_s) + block.heel.over * twice_s;
        up(case.pascals() * line, twice_l * block.toe.under)
    })
}

/// The same for a toe triangle as far as the middle of the stem or farther.
/// Reading taken: it is the reported peak, already rounded, that is scaled by the
/// exact contact.
fn by_scaled_peak(wall: &Wall, bearing: &Reported) -> Effects {
    let contact = bearing.block.contact;
    let twice_contact = 2 * contact.over;
    by_pressures(wall, |twice_s| {
        let into = twice_contact - contact.under * twice_s;
        up(bearing.toe * into, twice_contact)
    })
}

/// Pressures, N/m2 rounded up before any use, are given for twice the distance
/// from the toe.
fn by_pressures(wall: &Wall, pressure_at: impl Fn(Whole) -> Whole) -> Effects {
    let twice_a = twice_middle(wall);
    let at_end = pressure_at(0);
    let at_face = pressure_at(2 * wall.toe);
    let at_middle = pressure_at(twice_a);
    Effects {
        // (N/m2) x mm = N/1000, halved.
        shear: up((at_end + at_face) * wall.toe, 2000),
        // (N/m2) x mm2 = N mm/1000; a sixth of a^2 is (2a)^2/24.
        moment: up((2 * at_end + at_middle) * twice_a * twice_a, 24_000),
    }
}
