//! Document 02, "#107 Downstands": where a downstand stands under its base. The rules
//! themselves are in [`job_file`](crate::job_file), [`forces`](crate::forces) and
//! [`bearing`](crate::bearing); this serves the traits and what is counted.

use crate::job_file::Wall;
use crate::Whole;

/// A downstand beside the faces of the stem; all distances from the toe, mm.
#[derive(Clone, Copy, Debug, PartialEq, Eq)]
pub struct Underfoot {
    start: Whole,
    stop: Whole,
    /// The front face of the stem, its back face, and the end of the heel.
    face: Whole,
    back: Whole,
    end: Whole,
}

impl Underfoot {
    pub fn of(wall: &Wall) -> Underfoot {
        let start = wall.downstand.position;
        Underfoot {
            start,
            stop: start + wall.downstand.thickness,
            face: wall.toe,
            back: wall.toe + wall.stem_thickness,
            end: wall.base_length(),
        }
    }

    pub fn under_toe(&self) -> bool {
        self.stop <= self.face
    }

    pub fn under_stem(&self) -> bool {
        self.face <= self.start && self.stop <= self.back
    }

    pub fn under_heel(&self) -> bool {
        self.back <= self.start
    }

    pub fn across_face(&self) -> bool {
        self.start < self.face && self.face < self.stop
    }

    pub fn across_back(&self) -> bool {
        self.start < self.back && self.back < self.stop
    }

    pub fn at_front_edge(&self) -> bool {
        self.start == 0
    }

    pub fn at_back_edge(&self) -> bool {
        self.stop == self.end
    }
}
