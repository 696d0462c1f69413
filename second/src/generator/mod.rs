//! Seeded job files: the same seed gives the same files everywhere.

mod contact_end;
mod downstand;
pub mod draft;
mod edges;
mod heel;
mod lever_arm;
mod raw;
mod refused;
mod refused_downstand;
mod seek;
mod steel_hundredth;
mod valid;

pub use refused::{out_of_range, spoil_load, LOAD_WAYS};

use crate::random::Random;

/// What is known of a sample by the way it was made.
#[derive(Clone, Copy, Debug, PartialEq, Eq)]
pub enum Due {
    Accepted,
    /// Number and place of the refusal.
    Refused(u8, u64),
    Unknown,
}

/// One job file.
#[derive(Clone, Debug, PartialEq, Eq)]
pub struct Sample {
    pub bytes: Vec<u8>,
    pub due: Due,
}

/// Makes the sample of an index; kinds with variants take them in turn.
pub type Maker = fn(&mut Random, usize) -> Sample;

/// A kind's place is part of its seed, so that a new one comes last and leaves the
/// jobs of the others as they were.
pub const KINDS: [(&str, Maker); 34] = [
    ("typical", valid::typical),
    ("wide", valid::wide),
    ("field-ends", valid::field_ends),
    ("all-ends", valid::all_ends),
    ("water", valid::water),
    ("loads", valid::loads),
    ("interleaved", valid::interleaved),
    ("propped-or-not", valid::propped_or_not),
    ("odd-stem", valid::odd_stem),
    ("no-toe", valid::no_toe),
    ("no-heel", valid::no_heel),
    ("large", valid::large),
    ("service-block", seek::service_block),
    ("factored-block", seek::factored_block),
    ("block-pairs", seek::block_pairs),
    ("failure-bits", seek::failure_bits),
    ("toe-and-stem", seek::toe_and_stem),
    ("edges", edges::edges),
    ("refused-short", refused::short),
    ("refused-edition", refused::edition),
    ("refused-count", refused::count),
    ("refused-offset", refused::offset),
    ("refused-wall", refused::wall),
    ("refused-load", refused::load),
    ("refused-ninth", refused::ninth),
    ("mangled", raw::mangled),
    ("raw", raw::raw),
    ("refused-field", refused::one_field),
    ("lever-arm", lever_arm::lever_arm),
    ("contact-end", contact_end::contact_end),
    ("steel-hundredth", steel_hundredth::steel_hundredth),
    ("heel", heel::heel),
    ("downstand", downstand::downstand),
    ("refused-downstand", refused_downstand::refused_downstand),
];

/// The sample of a seed, a place in [`KINDS`] and an index from 0.
pub fn sample(seed: u64, kind: usize, index: usize) -> Sample {
    let mut random = Random::for_sample(seed, kind as u64, index as u64);
    KINDS[kind].1(&mut random, index)
}

/// The sample with a number from 0, going round the kinds, and the stem of its
/// file name.
pub fn numbered(seed: u64, number: usize) -> (String, Sample) {
    let (kind, index) = (number % KINDS.len(), number / KINDS.len());
    let name = format!("{}-{:04}", KINDS[kind].0, index + 1);
    (name, sample(seed, kind, index))
}

/// The first `count` samples of a seed. A longer run starts with the files of a
/// shorter one.
pub fn samples(seed: u64, count: usize) -> impl Iterator<Item = (String, Sample)> {
    (0..count).map(move |number| numbered(seed, number))
}
