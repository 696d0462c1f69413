//! Document 01, "The bearing block": the straight-line pressure under a base; with
//! document 02, "#107 Downstands", where M6 may be 6Rl or more.

use crate::rounding::up;
use crate::Whole;

/// A fraction held as it was made, not reduced; the lower number is above 0.
#[derive(Clone, Copy, Debug)]
pub struct Fraction {
    pub over: Whole,
    pub under: Whole,
}

/// Of 128 bits in every build: two fractions multiplied out may not fit in 64.
fn product(a: impl Into<i128>, b: impl Into<i128>) -> i128 {
    a.into() * b.into()
}

impl PartialEq for Fraction {
    fn eq(&self, other: &Fraction) -> bool {
        product(self.over, other.under) == product(other.over, self.under)
    }
}

#[derive(Clone, Copy, Debug, PartialEq, Eq)]
pub enum Contact {
    Whole,
    ToeTriangle,
    HeelTriangle,
}

/// A block before it is looked at for its peak: pressures in kN/m2 (factored:
/// tenths of that), contact in mm.
#[derive(Clone, Copy, Debug, PartialEq)]
pub struct Block {
    pub kind: Contact,
    pub toe: Fraction,
    pub heel: Fraction,
    pub contact: Fraction,
}

const NOUGHT: Fraction = Fraction { over: 0, under: 1 };

/// N over mm of a metre run is kN/m2, so R over l needs no scale. `None` for M6 at or
/// below 0, and for M6 at or past 6Rl. R and l are above 0 for every accepted wall; other
/// figures get no block either.
pub fn block(r: Whole, m6: Whole, l: Whole) -> Option<Block> {
    let left = 6 * r * l - m6;
    if r <= 0 || l <= 0 || m6 <= 0 || left <= 0 {
        return None;
    }
    let fraction = |over: Whole, under: Whole| Fraction { over, under };
    Some(if m6 < 2 * r * l {
        Block {
            kind: Contact::ToeTriangle,
            toe: fraction(4 * r * r, m6),
            heel: NOUGHT,
            contact: fraction(m6, 2 * r),
        }
    } else if m6 <= 4 * r * l {
        Block {
            kind: Contact::Whole,
            toe: fraction(4 * r * l - m6, l * l),
            heel: fraction(m6 - 2 * r * l, l * l),
            contact: fraction(l, 1),
        }
    } else {
        Block {
            kind: Contact::HeelTriangle,
            toe: NOUGHT,
            heel: fraction(4 * r * r, left),
            contact: fraction(left, 2 * r),
        }
    })
}

/// The greatest reported pressure a given block may have, N/m2.
pub const GREATEST_PEAK: Whole = 2_000_000;

/// N/m2 in the unit of a block's pressures.
#[derive(Clone, Copy, Debug, PartialEq, Eq)]
pub enum Case {
    /// kN/m2
    Service,
    /// tenths of a kN/m2
    Factored,
}

impl Case {
    pub fn pascals(self) -> Whole {
        match self {
            Case::Service => 1000,
            Case::Factored => 100,
        }
    }
}

/// A block with its reported pressures, N/m2 rounded up.
#[derive(Clone, Copy, Debug, PartialEq)]
pub struct Reported {
    pub block: Block,
    pub case: Case,
    pub toe: Whole,
    pub heel: Whole,
}

impl Reported {
    pub fn of(block: Block, case: Case) -> Reported {
        let pressure = |f: Fraction| up(case.pascals() * f.over, f.under);
        Reported {
            block,
            case,
            toe: pressure(block.toe),
            heel: pressure(block.heel),
        }
    }

    pub fn peak(&self) -> Whole {
        self.toe.max(self.heel)
    }
}

/// What the bearing of a wall comes to.
#[derive(Clone, Copy, Debug, PartialEq)]
pub enum Bearing {
    Given(Reported),
    /// M6 is not above 0: R would stand at the toe's end or before it.
    NoBlock,
    /// M6 is not below 6Rl: R would stand at the heel's end or past it.
    PastHeel,
    /// The reported peak is over [`GREATEST_PEAK`], in service or factored
    /// N/m2 alike.
    PeakTooGreat(Reported),
}

impl Bearing {
    pub fn of(r: Whole, m6: Whole, l: Whole, case: Case) -> Bearing {
        match block(r, m6, l).map(|block| Reported::of(block, case)) {
            None if m6 > 0 => Bearing::PastHeel,
            None => Bearing::NoBlock,
            Some(reported) if reported.peak() > GREATEST_PEAK => Bearing::PeakTooGreat(reported),
            Some(reported) => Bearing::Given(reported),
        }
    }

    pub fn given(&self) -> Option<&Reported> {
        match self {
            Bearing::Given(reported) => Some(reported),
            _ => None,
        }
    }

    /// Toe and heel for the sheet, N/m2: 0 and 0 for a block not given.
    pub fn pressures(&self) -> (Whole, Whole) {
        self.given().map_or((0, 0), |b| (b.toe, b.heel))
    }
}
