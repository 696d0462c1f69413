//! A second, separate working of the retaining wall sheet of document 01, and of
//! the requests of document 02 that are met.
//!
//! Each module answers to one heading of them. All figures are [`Whole`]; the only
//! floating point is in [`drawing`].

pub mod answers;
pub mod bearing;
pub mod compare;
pub mod downstand;
pub mod drawing;
pub mod forces;
pub mod generator;
pub mod heel;
pub mod job_file;
#[cfg(feature = "library")]
pub mod library;
pub mod measure;
pub mod office;
pub mod random;
pub mod rounding;
pub mod section;
pub mod sheet_line;
pub mod toe;
pub mod traits;
pub mod wide;
pub mod writing;

use answers::{Refusal, BUFFER_TOO_SHORT};
use sheet_line::LINE_NUMBERS;

/// The whole numbers of every rule. Only [`wide`] has longer ones, in products of its
/// own.
#[cfg(not(feature = "narrow"))]
pub type Whole = i128;

/// Half as wide, to see what that saves. In an accepted sheet every product fits
/// that isn't worked in [`wide`]: the greatest, 800 R^2 where a factored triangle is
/// scaled, is below 2^63.
#[cfg(feature = "narrow")]
pub type Whole = i64;

/// Bytes worth keeping of an input. The length field is a u16, so an input of
/// this many bytes or more can never be the length its header gives.
pub const MOST_BYTES_KEPT: u64 = 65_536;

/// All that `wallsheet` prints for an input: a line a wall, or the refusal.
pub fn sheet(input: &[u8]) -> String {
    match answers::accept(input) {
        Err(refusal) => format!("{refusal}\n"),
        Ok(job) => sheet_line::work_job(&job)
            .iter()
            .map(|wall| format!("{}\n", wall.line()))
            .collect(),
    }
}

/// The sheet in numbers, at the start of a lent buffer: those of each wall's
/// line, wall by wall. What stands behind them stays, and all of it where the
/// job is refused.
#[cfg_attr(feature = "narrow", allow(clippy::useless_conversion))]
pub fn calculate(input: &[u8], out: &mut [i64]) -> Result<(), Refusal> {
    let job = answers::accept(input)?;
    if out.len() < LINE_NUMBERS * job.walls.len() {
        return Err(BUFFER_TOO_SHORT);
    }
    let lines = out.chunks_exact_mut(LINE_NUMBERS);
    for (line, wall) in lines.zip(sheet_line::work_job(&job)) {
        for (place, number) in line.iter_mut().zip(wall.numbers()) {
            *place = i64::try_from(number).expect("a line's numbers are far below 2^63");
        }
    }
    Ok(())
}

/// A job file taken apart and written again, or the refusal's line.
pub fn rewritten(input: &[u8]) -> Vec<u8> {
    match writing::rewrite(input) {
        Err(refusal) => format!("{refusal}\n").into_bytes(),
        Ok(file) => file,
    }
}

/// One line for the drawing of a wall: the shape's name, then the bits of the
/// record's three doubles and of the shape's own; or the refusal.
pub fn drawing_line(input: &[u8], wall_number: u64) -> String {
    match drawing::draw(input, wall_number) {
        Err(refusal) => format!("{refusal}\n"),
        Ok(drawing) => format!("{drawing}\n"),
    }
}
