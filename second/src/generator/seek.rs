//! Jobs looked for until they touch what is wanted: each kind of block, each
//! failure set and clear, and the turns of the toe and stem rules.

use super::draft::{any_load, crest, fit, typical_wall, wide_wall, Draft, DOWN};
use super::{Due, Sample};
use crate::job_file::{field, RawWall};
use crate::random::Random;
use crate::traits::of_job;

/// Candidates looked at before the last one is taken as it is.
const MOST_TRIES: usize = 3000;

fn candidate(random: &mut Random) -> Draft {
    let wall = if random.once_in(2) {
        wide_wall(random)
    } else {
        typical_wall(random)
    };
    let mut draft = Draft::of(wall);
    let most = random.pick(&[2000, 30_000, 200_000]);
    for _ in 0..random.below(6) {
        draft.loads.push(any_load(random, 1, &wall, most));
    }
    draft
}

/// Whether a job has the words wished, and none that stands behind `not`.
pub fn fits(draft: &Draft, words: &[&str]) -> bool {
    let met = of_job(&draft.job());
    words.iter().all(|word| match word.strip_prefix("not ") {
        Some(unwanted) => !met.contains(&unwanted),
        None => met.contains(word),
    })
}

/// A wall made up by chance and prepared, if it has the words wished.
pub fn sought(
    random: &mut Random,
    prepare: fn(&mut Random, &mut RawWall),
    words: &[&str],
) -> Option<Draft> {
    let mut draft = candidate(random);
    prepare(random, &mut draft.walls[0]);
    // A load may have come to stand past the end of a heel that is taken away.
    let kept = draft.job().loads.len();
    (kept == draft.loads.len() && fits(&draft, words)).then_some(draft)
}

/// A job that touches all the words wanted, if one turns up.
fn seek(random: &mut Random, wanted: &[&str]) -> Sample {
    seek_among(random, candidate, wanted)
}

/// The same among candidates of another kind.
fn seek_among(random: &mut Random, candidate: fn(&mut Random) -> Draft, wanted: &[&str]) -> Sample {
    let mut draft = candidate(random);
    for _ in 0..MOST_TRIES {
        let words = of_job(&draft.job());
        if wanted.iter().all(|word| words.contains(word)) {
            break;
        }
        draft = candidate(random);
    }
    Sample {
        bytes: draft.bytes(),
        due: Due::Accepted,
    }
}

const SERVICE: [&str; 5] = [
    "service-whole",
    "service-toe",
    "service-heel",
    "service-none-moment",
    "service-none-peak",
];

const FACTORED: [&str; 5] = [
    "factored-whole",
    "factored-toe",
    "factored-heel",
    "factored-none-moment",
    "factored-none-peak",
];

pub fn service_block(random: &mut Random, index: usize) -> Sample {
    seek(random, &[SERVICE[index % 5]])
}

pub fn factored_block(random: &mut Random, index: usize) -> Sample {
    seek(random, &[FACTORED[index % 5]])
}

/// Each service block beside each factored one, so far as they go together.
pub fn block_pairs(random: &mut Random, index: usize) -> Sample {
    seek(random, &[SERVICE[index % 5], FACTORED[index / 5 % 5]])
}

const BITS: [&str; 18] = [
    "bit-1-set",
    "bit-1-clear",
    "bit-2-set",
    "bit-2-clear",
    "bit-4-set",
    "bit-4-clear",
    "bit-8-set",
    "bit-8-clear",
    "bit-16-set",
    "bit-16-clear",
    "bit-32-set",
    "bit-32-clear",
    "bit-64-set",
    "bit-64-clear",
    "bit-128-set",
    "bit-128-clear",
    "bit-256-set",
    "bit-256-clear",
];

/// Each bit in turn, set and clear; the later rounds ask for two at once.
pub fn failure_bits(random: &mut Random, index: usize) -> Sample {
    let first = BITS[index % BITS.len()];
    if index < BITS.len() {
        seek(random, &[first])
    } else {
        let second = random.pick(&BITS);
        seek(random, &[first, second])
    }
}

const TURNS: [&str; 16] = [
    "toe-shear-0",
    "toe-moment-0",
    "toe-block-ends-before-face",
    "toe-compression-steel",
    "stem-compression-steel",
    "toe-steel-needed",
    "stem-steel-needed",
    "toe-steel-least",
    "stem-steel-least",
    "toe-arm-worked",
    "stem-arm-worked",
    "toe-shear-fails",
    "stem-shear-fails",
    "toe-shear-fcu-fails",
    "stem-shear-fcu-fails",
    "toe-unchecked-no-block",
];

pub fn toe_and_stem(random: &mut Random, index: usize) -> Sample {
    match TURNS[index % TURNS.len()] {
        rare @ "toe-shear-fcu-fails" => seek_among(random, with_thin_base, &[rare]),
        word => seek(random, &[word]),
    }
}

/// A thin base of weak concrete, the toe's stress no limit.
fn with_thin_base(random: &mut Random) -> Draft {
    let mut draft = candidate(random);
    let wall = &mut draft.walls[0];
    wall[field::FCU] = random.between(20, 30);
    wall[field::TOE_SHEAR_STRESS] = 5000;
    wall[field::BASE_THICKNESS] = random.between(200, 300);
    fit(wall);
    let top = crest(wall);
    draft.loads.retain(|load| load[1] == DOWN || load[2] <= top);
    draft
}
