//! The entries of the office library, and this program's answers in their place.
//!
//! How much must be lent, how an answer is packed, the numbers of the shapes and
//! how a check is asked for are those of `c/office.h`, as the documents have none of
//! them; the rest is theirs.

use crate::answers::{Refusal, BUFFER_TOO_SHORT};
use crate::drawing::{draw, Shape};
use crate::job_file::MOST_WALLS;
use crate::sheet_line::{CHECKS, LINE_NUMBERS};
use crate::writing;
use std::fmt;

/// Letters of the longest number of 64 bits, its sign and what ends it.
const NUMBER_ROOM: usize = 21;

/// Bytes that must be lent for a text, whatever the job.
pub const TEXT_ROOM: usize = NUMBER_ROOM * LINE_NUMBERS * MOST_WALLS;

/// Figures that must be lent for a drawing, whatever its shape.
pub const DRAWING_ROOM: usize = 5;

/// An answer in one number: the refusal's place in the low 32 bits, its number
/// in the 16 bits above, and in the highest 16 the case of a drawing's shape, or
/// how many bytes a job file has that was written. A sheet that is worked is 0,
/// and so is a job that is taken apart.
#[derive(Clone, Copy, Debug, PartialEq, Eq)]
pub struct Packed(pub u64);

impl Packed {
    pub const WORKED: Packed = Packed(0);

    pub fn place(self) -> u64 {
        self.0 & 0xffff_ffff
    }

    pub fn number(self) -> u64 {
        self.0 >> 32 & 0xffff
    }

    /// Of a drawing: 0 nothing, 1 whole, 2 toe triangle, 3 heel triangle.
    pub fn shape(self) -> u64 {
        self.highest()
    }

    /// Of a job file: the bytes written, 0 where it was refused.
    pub fn bytes(self) -> u64 {
        self.highest()
    }

    /// The answer to a job file of so many bytes, which is below 65536.
    fn written(bytes: usize) -> Packed {
        Packed((bytes as u64) << 48)
    }

    fn highest(self) -> u64 {
        self.0 >> 48
    }
}

impl From<Refusal> for Packed {
    fn from(refusal: Refusal) -> Packed {
        Packed(u64::from(refusal.number) << 32 | refusal.place)
    }
}

impl From<&Shape> for Packed {
    fn from(shape: &Shape) -> Packed {
        let case = match shape {
            Shape::Nothing => 0,
            Shape::Whole(..) => 1,
            Shape::Toe(..) => 2,
            Shape::Heel(..) => 3,
        };
        Packed(case << 48)
    }
}

impl fmt::Display for Packed {
    fn fmt(&self, out: &mut fmt::Formatter<'_>) -> fmt::Result {
        let (number, place, highest) = (self.number(), self.place(), self.highest());
        write!(
            out,
            "number {number}, place {place}, highest bits {highest}"
        )
    }
}

/// What the library offers, by whoever gives it.
pub trait Office {
    /// The numbers of the sheet, at the start of `out`.
    fn calculate(&self, job: &[u8], out: &mut [i64]) -> Packed;

    /// The printed sheet or refusal at the start of `out`, and how many bytes it
    /// has; 0 without [`TEXT_ROOM`].
    fn text(&self, job: &[u8], out: &mut [u8]) -> usize;

    /// A wall's drawing at the start of `out`: R, H, the distance, and the two
    /// figures of a shape that has any.
    fn drawing(&self, job: &[u8], wall: u32, out: &mut [f64]) -> Packed;

    /// Whether the bit of a check, by which it is asked for, is set in the
    /// failures of a line; false of a number that is no check's bit.
    fn has_failed(&self, failures: u16, check: u16) -> bool;

    /// The job file of some records, at the start of `out`.
    fn write(&self, walls: &[u32], loads: &[u32], out: &mut [u8]) -> Packed;

    /// The records of a job, at the start of `walls` and of `loads`.
    fn records(&self, job: &[u8], walls: &mut [u32], loads: &mut [u32]) -> Packed;
}

/// This program's own answers.
pub struct Second;

impl Office for Second {
    fn calculate(&self, job: &[u8], out: &mut [i64]) -> Packed {
        match crate::calculate(job, out) {
            Ok(()) => Packed::WORKED,
            Err(refusal) => refusal.into(),
        }
    }

    fn text(&self, job: &[u8], out: &mut [u8]) -> usize {
        if out.len() < TEXT_ROOM {
            return 0;
        }
        let text = crate::sheet(job);
        out[..text.len()].copy_from_slice(text.as_bytes());
        text.len()
    }

    fn drawing(&self, job: &[u8], wall: u32, out: &mut [f64]) -> Packed {
        let drawing = match draw(job, u64::from(wall)) {
            Ok(drawing) => drawing,
            Err(refusal) => return refusal.into(),
        };
        if out.len() < DRAWING_ROOM {
            return BUFFER_TOO_SHORT.into();
        }
        for (place, quotient) in out.iter_mut().zip(drawing.quotients()) {
            *place = quotient.value();
        }
        Packed::from(&drawing.shape)
    }

    fn has_failed(&self, failures: u16, check: u16) -> bool {
        CHECKS.contains(&check) && failures & check != 0
    }

    fn write(&self, walls: &[u32], loads: &[u32], out: &mut [u8]) -> Packed {
        match writing::write(walls, loads, out) {
            Ok(bytes) => Packed::written(bytes),
            Err(refusal) => refusal.into(),
        }
    }

    fn records(&self, job: &[u8], walls: &mut [u32], loads: &mut [u32]) -> Packed {
        match writing::take_apart(job, walls, loads) {
            Ok(()) => Packed::WORKED,
            Err(refusal) => refusal.into(),
        }
    }
}

#[cfg(test)]
mod tests {
    use super::*;
    use crate::job_file::MOST_BYTES;

    #[test]
    fn a_packed_answer_is_taken_apart() {
        let refusal = Refusal {
            number: 18,
            place: u64::from(u32::MAX),
        };
        let packed = Packed::from(refusal);
        assert_eq!(packed, Packed(18 << 32 | 0xffff_ffff));
        assert_eq!((packed.number(), packed.place()), (18, 0xffff_ffff));
        assert_eq!(packed.shape(), 0);
        assert_eq!(Packed(3 << 48).shape(), 3);
        assert_eq!(Packed(3 << 48).number(), 0);
        assert_eq!(
            Packed(2 << 48 | 7 << 32 | 9).to_string(),
            "number 7, place 9, highest bits 2"
        );
    }

    #[test]
    fn the_longest_file_has_its_bytes_in_the_highest_bits() {
        let packed = Packed::written(MOST_BYTES);
        assert_eq!((packed.bytes(), MOST_BYTES), (19_980, 19_980));
        assert_eq!((packed.number(), packed.place()), (0, 0));
    }
}
