//! Bytes that need not be a job at all.

use super::{valid, Due, Sample};
use crate::job_file::{Header, HEADER_BYTES, WALL_BYTES};
use crate::random::Random;

/// A valid file with a few bits or bytes changed. Two times in three the
/// header is left alone, so that walls and loads are reached.
pub fn mangled(random: &mut Random, index: usize) -> Sample {
    let mut bytes = match index % 3 {
        0 => valid::typical(random, index),
        1 => valid::loads(random, index),
        _ => valid::interleaved(random, index),
    }
    .bytes;
    let start = if random.once_in(3) { 0 } else { HEADER_BYTES };
    for _ in 0..1 + random.below(4) {
        let at = start + random.below(bytes.len() - start);
        bytes[at] = match random.below(3) {
            0 => bytes[at] ^ (1 << random.below(8)),
            1 => random.next() as u8,
            _ => random.pick(&[0, 1, 0x7f, 0x80, 0xff]),
        };
    }
    Sample {
        bytes,
        due: Due::Unknown,
    }
}

/// Empty, very short, a bare header's length, random and over-long inputs.
pub fn raw(random: &mut Random, index: usize) -> Sample {
    let bytes = match index % 10 {
        0 => Vec::new(),
        1 => random.bytes(1),
        2 => random.bytes(11),
        3 => random.bytes(12),
        4 => right_header(),
        5 => {
            let count = 13 + random.below(400);
            random.bytes(count)
        }
        6 => random.bytes(65_536 + HEADER_BYTES + WALL_BYTES),
        7 => longer(random, 65_536),
        8 => {
            // A right header, then noise.
            let mut bytes = right_header();
            bytes.extend(random.bytes(WALL_BYTES));
            bytes
        }
        _ => longer(random, 200_000),
    };
    Sample {
        bytes,
        due: Due::Unknown,
    }
}

/// The header of a file with one wall.
fn right_header() -> Vec<u8> {
    let numbers = Header::due(1, 0).numbers();
    numbers.iter().flat_map(|n| n.to_le_bytes()).collect()
}

/// A valid file with bytes after it.
fn longer(random: &mut Random, extra: usize) -> Vec<u8> {
    let mut bytes = valid::typical(random, 0).bytes;
    bytes.resize(bytes.len() + extra, 0);
    bytes
}
