//! Document 01, "The bearing block", its last paragraph: the service block as
//! doubles. The only floating point of this program stands here.

use crate::answers::{accept, Refusal};
use crate::bearing::{Bearing, Contact, Reported};
use crate::sheet_line::{work_wall, Worked};
use crate::Whole;
use std::fmt;

/// Two whole numbers and the one division a figure is.
#[derive(Clone, Copy, Debug, PartialEq, Eq)]
pub struct Quotient {
    pub over: Whole,
    pub under: Whole,
}

impl Quotient {
    /// Both numbers are below 2^53 in size for every accepted wall, so the
    /// casts lose nothing and the division is the one rounding.
    pub fn value(self) -> f64 {
        self.over as f64 / self.under as f64
    }
}

#[derive(Clone, Copy, Debug, PartialEq, Eq)]
pub enum Shape {
    /// Toe and heel, kN/m2.
    Whole(Quotient, Quotient),
    /// Peak in kN/m2, contact in mm.
    Toe(Quotient, Quotient),
    /// Peak in kN/m2, contact in mm.
    Heel(Quotient, Quotient),
    Nothing,
}

/// R and H in kN, R's distance from the toe in mm, and the shape.
#[derive(Clone, Copy, Debug, PartialEq, Eq)]
pub struct Drawing {
    pub r: Quotient,
    pub h: Quotient,
    pub distance: Quotient,
    pub shape: Shape,
}

fn by_thousand(over: Whole) -> Quotient {
    Quotient { over, under: 1000 }
}

/// The drawing of a wall numbered from 1. The whole file is judged first, and
/// only then whether it has that wall.
pub fn draw(input: &[u8], wall_number: u64) -> Result<Drawing, Refusal> {
    let job = accept(input)?;
    let found = usize::try_from(wall_number)
        .ok()
        .and_then(|number| Some((number, job.walls.get(number.checked_sub(1)?)?)));
    match found {
        Some((number, wall)) => Ok(Drawing::of(&work_wall(number, wall, &job.loads_of(number)))),
        None => Err(Refusal {
            number: 18,
            place: wall_number,
        }),
    }
}

impl Drawing {
    pub fn of(worked: &Worked) -> Drawing {
        let total = &worked.service;
        Drawing {
            r: by_thousand(total.r),
            h: by_thousand(total.h),
            distance: Quotient {
                over: total.m6,
                under: 6 * total.r,
            },
            shape: shape(&worked.service_bearing),
        }
    }

    /// The record's three, then the shape's own two if it has any.
    pub fn quotients(&self) -> Vec<Quotient> {
        let mut all = vec![self.r, self.h, self.distance];
        match self.shape {
            Shape::Whole(a, b) | Shape::Toe(a, b) | Shape::Heel(a, b) => all.extend([a, b]),
            Shape::Nothing => {}
        }
        all
    }

    pub fn shape_name(&self) -> &'static str {
        match self.shape {
            Shape::Whole(..) => "whole",
            Shape::Toe(..) => "toe",
            Shape::Heel(..) => "heel",
            Shape::Nothing => "nothing",
        }
    }
}

fn shape(bearing: &Bearing) -> Shape {
    let Some(Reported {
        block, toe, heel, ..
    }) = bearing.given()
    else {
        return Shape::Nothing;
    };
    // The contact's fraction is held as M6 or N over 2R, unreduced.
    let contact = Quotient {
        over: block.contact.over,
        under: block.contact.under,
    };
    match block.kind {
        Contact::Whole => Shape::Whole(by_thousand(*toe), by_thousand(*heel)),
        Contact::ToeTriangle => Shape::Toe(by_thousand(*toe), contact),
        Contact::HeelTriangle => Shape::Heel(by_thousand(*heel), contact),
    }
}

impl fmt::Display for Drawing {
    fn fmt(&self, out: &mut fmt::Formatter<'_>) -> fmt::Result {
        write!(out, "{}", self.shape_name())?;
        self.quotients()
            .iter()
            .try_for_each(|q| write!(out, " {:016x}", q.value().to_bits()))
    }
}
