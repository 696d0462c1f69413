//! What a job touches, in stable words, for counting coverage.

use crate::answers::accept;
use crate::bearing::{Bearing, Block, Contact, Fraction, Reported, GREATEST_PEAK};
use crate::downstand::Underfoot;
use crate::forces::{passive_depth, pushes, Back, Totals, WEIGHT_SCALE};
use crate::heel::{borne, less, pressed_down, weighed, Ground, Reach, MOMENT_PARTS, SHEAR_PARTS};
use crate::job_file::{Direction, Downstand, Job, Load, Wall};
use crate::rounding::{down, up};
use crate::section::{
    greatest_arm, greatest_moment, moment_borne, needed_at_depth, needed_is_exact, shear_passes,
    Effects, Section,
};
use crate::sheet_line::{work_wall, Worked};
use crate::toe::{rounding_at_face_shows, Tip};
use crate::Whole;
use std::collections::BTreeSet;

/// Words in the order in which they were met, some perhaps more than once.
pub type Words = Vec<&'static str>;

/// Every word there is. The generator is held to reach each of them.
pub const VOCABULARY: &[&str] = &[
    // The answer.
    "accepted",
    "refused-1",
    "refused-2",
    "refused-3",
    "refused-4",
    "refused-5",
    "refused-6",
    "refused-7",
    "refused-10",
    // The job.
    "one-wall",
    "few-walls",
    "64-walls",
    "no-loads",
    "512-loads",
    "loads-in-turn",
    "loads-interleaved",
    // The wall.
    "unpropped",
    "propped",
    "odd-stem",
    "even-stem",
    "no-toe",
    "toe",
    "no-heel",
    "heel",
    "water-at-0",
    "water-below-base-top",
    "water-at-base-top",
    "water-above-base-top",
    "water-at-crest",
    "passive-depth-0",
    "passive-depth",
    "surcharge-0",
    "surcharge",
    // The loads.
    "loads-0",
    "loads-1",
    "loads-2",
    "loads-3",
    "loads-4",
    "loads-5",
    "loads-6",
    "loads-7",
    "loads-8",
    "down-at-toe",
    "down-between",
    "down-at-heel",
    "across-at-0",
    "across-below-base-top",
    "across-at-base-top",
    "across-above-base-top",
    "across-at-crest",
    "load-dead",
    "load-live",
    "load-dead-and-live",
    "load-of-nothing",
    // The blocks.
    "service-whole",
    "service-toe",
    "service-heel",
    "service-none-moment",
    "service-none-peak",
    "service-none-past-heel",
    "factored-whole",
    "factored-toe",
    "factored-heel",
    "factored-none-moment",
    "factored-none-peak",
    "factored-none-past-heel",
    "service-m6-negative",
    "factored-m6-negative",
    "service-m6-is-0",
    "factored-m6-is-0",
    "service-m6-is-2rl",
    "factored-m6-is-2rl",
    "service-m6-is-4rl",
    "factored-m6-is-4rl",
    "service-m6-just-below-6rl",
    "factored-m6-just-below-6rl",
    "service-m6-is-6rl",
    "factored-m6-is-6rl",
    "service-m6-just-past-6rl",
    "factored-m6-just-past-6rl",
    "service-peak-at-limit",
    "factored-peak-at-limit",
    // The failures.
    "bit-1-set",
    "bit-2-set",
    "bit-4-set",
    "bit-8-set",
    "bit-16-set",
    "bit-32-set",
    "bit-64-set",
    "bit-128-set",
    "bit-256-set",
    "bit-1-clear",
    "bit-2-clear",
    "bit-4-clear",
    "bit-8-clear",
    "bit-16-clear",
    "bit-32-clear",
    "bit-64-clear",
    "bit-128-clear",
    "bit-256-clear",
    // Sliding, overturning and bearing at equality; the prop.
    "sliding-even",
    "overturning-even",
    "allowable-even",
    "prop-idle",
    "prop-pushes",
    // The toe and the stem.
    "toe-unchecked-no-toe",
    "toe-unchecked-no-block",
    "toe-shear-0",
    "toe-moment-0",
    "toe-compression-steel",
    "stem-compression-steel",
    "toe-steel-least",
    "stem-steel-least",
    "toe-steel-needed",
    "stem-steel-needed",
    "toe-steel-fails",
    "stem-steel-fails",
    "toe-steel-even",
    "stem-steel-even",
    "toe-arm-capped",
    "stem-arm-capped",
    "toe-arm-worked",
    "stem-arm-worked",
    "toe-shear-fails",
    "stem-shear-fails",
    "toe-shear-even",
    "stem-shear-even",
    "toe-shear-fcu-fails",
    "stem-shear-fcu-fails",
    "stem-shear-fcu-even",
    // The lever arm where it turns, and the step that it hangs on.
    "toe-arm-even",
    "stem-arm-even",
    "toe-arm-past-even",
    "stem-arm-past-even",
    "stem-arm-next-to-limit",
    "stem-arm-by-quotient",
    "stem-arm-by-root",
    "stem-arm-by-half",
    "stem-compression-even",
    // Where the factored triangle over a toe comes to nothing.
    "toe-block-ends-before-face",
    "toe-block-ends-at-face",
    "toe-block-ends-before-middle",
    "toe-block-ends-at-middle",
    "toe-block-ends-past-middle",
    "toe-rounding-at-middle",
    "heel-block-starts-before-face",
    "heel-block-starts-at-face",
    "heel-block-starts-before-middle",
    "heel-block-starts-at-middle",
    "heel-block-starts-past-middle",
    // Steel where a hundredth of a mm2 decides.
    "toe-steel-failed-in-mm2",
    "stem-steel-failed-in-mm2",
    "toe-steel-hundredth-short",
    "stem-steel-hundredth-short",
    "toe-needed-not-whole",
    "stem-needed-not-whole",
    "toe-least-not-whole",
    "stem-least-not-whole",
    "toe-least-even",
    "stem-least-even",
    "stem-steel-last-moment",
    "stem-steel-past-last-moment",
    "stem-needed-exact",
    // The heel.
    "heel-checked",
    "heel-unchecked-no-heel",
    "heel-unchecked-no-block",
    "heel-shear-below-0",
    "heel-moment-below-0",
    "heel-compression-steel",
    "heel-steel-least",
    "heel-steel-needed",
    "heel-steel-fails",
    "heel-steel-fails-alone",
    "heel-steel-even",
    "heel-arm-capped",
    "heel-arm-worked",
    "heel-shear-fails",
    "heel-shear-fails-alone",
    "heel-shear-even",
    "heel-shear-fcu-fails",
    "heel-steel-fails-in-mm2",
    "heel-steel-hundredth-short",
    "heel-needed-not-whole",
    "heel-least-not-whole",
    "heel-least-even",
    // What weighs on it.
    "heel-fill-moist",
    "heel-fill-saturated",
    "heel-fill-both",
    "heel-surcharge-0",
    "heel-surcharge",
    "heel-loaded",
    // The factored block under it, and where a triangle comes to nothing.
    "under-heel-whole",
    "under-heel-whole-to-its-end",
    "under-heel-toe-block-ends-before-middle",
    "under-heel-toe-block-ends-at-middle",
    "under-heel-toe-block-ends-before-back",
    "under-heel-toe-block-ends-at-back",
    "under-heel-toe-block-ends-past-back",
    "under-heel-heel-block-starts-before-middle",
    "under-heel-heel-block-starts-at-middle",
    "under-heel-heel-block-starts-before-back",
    "under-heel-heel-block-starts-at-back",
    "under-heel-heel-block-starts-past-back",
    // Its roundings where they show.
    "heel-sum-by-parts",
    "heel-sum-not-whole",
    "heel-bearing-not-whole",
    "heel-peak-shows",
    // The downstand, where it stands and what it weighs.
    "no-downstand",
    "downstand",
    "downstand-under-toe",
    "downstand-under-stem",
    "downstand-under-heel",
    "downstand-across-face",
    "downstand-across-back",
    "downstand-at-front-edge",
    "downstand-at-back-edge",
    "downstand-weight-half",
    "downstand-weight-not-whole",
    // Water, ground and loads beside it.
    "water-in-downstand",
    "water-at-base-underside",
    "water-in-base",
    "water-wets-base-but-for-downstand",
    "passive-depth-by-downstand",
    "downstand-across-at-crest",
    "downstand-across-low-on-stem",
    // Pushes that stand below the underside of the base.
    "lever-surcharge-negative",
    "lever-moist-above-negative",
    "lever-moist-below-negative",
    "lever-wet-negative",
    "service-mot-negative",
    "factored-mot-negative",
];

/// One line: the answer's word first, then the rest in order of the alphabet.
pub fn line(input: &[u8]) -> String {
    let (answer, words) = of(input);
    let mut all = vec![answer];
    all.extend(words);
    format!("{}\n", all.join(" "))
}

/// The answer's word, and the words of an accepted job, each once.
pub fn of(input: &[u8]) -> (&'static str, BTreeSet<&'static str>) {
    match accept(input) {
        Ok(job) => ("accepted", of_job(&job).into_iter().collect()),
        Err(refusal) => (refusal_word(refusal.number), BTreeSet::new()),
    }
}

fn refusal_word(number: u8) -> &'static str {
    match number {
        1 => "refused-1",
        2 => "refused-2",
        3 => "refused-3",
        4 => "refused-4",
        5 => "refused-5",
        6 => "refused-6",
        7 => "refused-7",
        10 => "refused-10",
        _ => unreachable!("no job file is refused with {number}"),
    }
}

pub fn of_job(job: &Job) -> Words {
    let mut words = Words::with_capacity(64);
    words.push(match job.walls.len() {
        1 => "one-wall",
        64 => "64-walls",
        _ => "few-walls",
    });
    note(&mut words, job.loads.is_empty(), "no-loads");
    note(&mut words, job.loads.len() == 512, "512-loads");
    if !job.loads.is_empty() {
        let in_turn = job
            .loads
            .windows(2)
            .all(|pair| pair[0].wall <= pair[1].wall);
        words.push(if in_turn {
            "loads-in-turn"
        } else {
            "loads-interleaved"
        });
    }
    for (wall, loads) in job.walls.iter().zip(job.loads_by_wall()) {
        wall_words(&mut words, wall, &loads);
    }
    words
}

fn wall_words(words: &mut Words, wall: &Wall, loads: &[Load]) {
    let worked = work_wall(1, wall, loads);
    shape_words(words, wall);
    load_words(words, wall, loads);
    service_words(words, wall, &worked);
    factored_words(words, wall, &worked);
    failure_words(words, worked.failures);
    stability_words(words, wall, &worked);
    toe_words(words, wall, &worked);
    stem_words(words, wall, &worked.stem);
    heel_words(words, wall, loads, &worked);
    either(words, wall.downstand.depth > 0, "downstand", "no-downstand");
    if wall.downstand.depth > 0 {
        downstand_words(words, wall);
        beside_downstand_words(words, wall, loads);
        lever_words(words, wall, &worked);
    }
}

fn either(words: &mut Words, fact: bool, yes: &'static str, no: &'static str) {
    words.push(if fact { yes } else { no });
}

fn note(words: &mut Words, fact: bool, word: &'static str) {
    if fact {
        words.push(word);
    }
}

fn shape_words(words: &mut Words, wall: &Wall) {
    either(words, wall.propped, "propped", "unpropped");
    either(words, wall.stem_thickness % 2 == 1, "odd-stem", "even-stem");
    either(words, wall.toe == 0, "no-toe", "toe");
    either(words, wall.heel == 0, "no-heel", "heel");
    either(words, wall.surcharge == 0, "surcharge-0", "surcharge");
    either(
        words,
        passive_depth(wall) == 0,
        "passive-depth-0",
        "passive-depth",
    );
    let water = wall.water_height;
    let base_top = wall.downstand.depth + wall.base_thickness;
    words.push(if water == 0 {
        "water-at-0"
    } else if water < base_top {
        "water-below-base-top"
    } else if water == base_top {
        "water-at-base-top"
    } else if water < wall.height() {
        "water-above-base-top"
    } else {
        "water-at-crest"
    });
}

const LOAD_COUNTS: [&str; 9] = [
    "loads-0", "loads-1", "loads-2", "loads-3", "loads-4", "loads-5", "loads-6", "loads-7",
    "loads-8",
];

fn load_words(words: &mut Words, wall: &Wall, loads: &[Load]) {
    words.extend(LOAD_COUNTS.get(loads.len()));
    for load in loads {
        words.push(match load.direction {
            Direction::Down => place_down(load.position, wall.base_length()),
            Direction::Across => place_across(load.position, wall),
        });
        words.push(match (load.dead > 0, load.live > 0) {
            (true, true) => "load-dead-and-live",
            (true, false) => "load-dead",
            (false, true) => "load-live",
            (false, false) => "load-of-nothing",
        });
    }
}

fn place_down(position: Whole, length: Whole) -> &'static str {
    if position == 0 {
        "down-at-toe"
    } else if position < length {
        "down-between"
    } else {
        "down-at-heel"
    }
}

fn place_across(position: Whole, wall: &Wall) -> &'static str {
    if position == 0 {
        "across-at-0"
    } else if position < wall.base_thickness {
        "across-below-base-top"
    } else if position == wall.base_thickness {
        "across-at-base-top"
    } else if position < wall.crest() {
        "across-above-base-top"
    } else {
        "across-at-crest"
    }
}

/// The words of one case's block: whole, toe, heel, no moment, too great, past the heel.
fn bearing_word(bearing: &Bearing, names: [&'static str; 6]) -> &'static str {
    match bearing {
        Bearing::Given(reported) => match reported.block.kind {
            Contact::Whole => names[0],
            Contact::ToeTriangle => names[1],
            Contact::HeelTriangle => names[2],
        },
        Bearing::NoBlock => names[3],
        Bearing::PeakTooGreat(_) => names[4],
        Bearing::PastHeel => names[5],
    }
}

/// The words of one case's edges: M6 negative, 0, 2Rl, 4Rl, just below 6Rl, 6Rl, just
/// past it, peak at limit. What is nearer than a step of the loads is just below or past.
fn edge_words(
    words: &mut Words,
    total: &Totals,
    l: Whole,
    bearing: &Bearing,
    names: [&'static str; 8],
    step: Whole,
) {
    let [negative, nought, two, four, below_six, six, past_six, limit] = names;
    let left = 6 * total.r * l - total.m6;
    note(words, (1..=step).contains(&left), below_six);
    note(words, left == 0, six);
    note(words, (1..=step).contains(&-left), past_six);
    note(words, total.m6 < 0, negative);
    note(words, total.m6 == 0, nought);
    note(words, total.m6 == 2 * total.r * l, two);
    note(words, total.m6 == 4 * total.r * l, four);
    let at_limit = bearing.given().is_some_and(|b| b.peak() == GREATEST_PEAK);
    note(words, at_limit, limit);
}

fn service_words(words: &mut Words, wall: &Wall, worked: &Worked) {
    let kinds = [
        "service-whole",
        "service-toe",
        "service-heel",
        "service-none-moment",
        "service-none-peak",
        "service-none-past-heel",
    ];
    let edges = [
        "service-m6-negative",
        "service-m6-is-0",
        "service-m6-is-2rl",
        "service-m6-is-4rl",
        "service-m6-just-below-6rl",
        "service-m6-is-6rl",
        "service-m6-just-past-6rl",
        "service-peak-at-limit",
    ];
    words.push(bearing_word(&worked.service_bearing, kinds));
    let l = wall.base_length();
    let (total, bearing) = (&worked.service, &worked.service_bearing);
    // A N mm in sixths.
    edge_words(words, total, l, bearing, edges, 6);
}

fn factored_words(words: &mut Words, wall: &Wall, worked: &Worked) {
    let kinds = [
        "factored-whole",
        "factored-toe",
        "factored-heel",
        "factored-none-moment",
        "factored-none-peak",
        "factored-none-past-heel",
    ];
    let edges = [
        "factored-m6-negative",
        "factored-m6-is-0",
        "factored-m6-is-2rl",
        "factored-m6-is-4rl",
        "factored-m6-just-below-6rl",
        "factored-m6-is-6rl",
        "factored-m6-just-past-6rl",
        "factored-peak-at-limit",
    ];
    words.push(bearing_word(&worked.factored_bearing, kinds));
    let l = wall.base_length();
    let (total, bearing) = (&worked.factored, &worked.factored_bearing);
    // A fifth of a N mm in tenths of sixths.
    edge_words(words, total, l, bearing, edges, 12);
}

const BITS_SET: [&str; 9] = [
    "bit-1-set",
    "bit-2-set",
    "bit-4-set",
    "bit-8-set",
    "bit-16-set",
    "bit-32-set",
    "bit-64-set",
    "bit-128-set",
    "bit-256-set",
];
const BITS_CLEAR: [&str; 9] = [
    "bit-1-clear",
    "bit-2-clear",
    "bit-4-clear",
    "bit-8-clear",
    "bit-16-clear",
    "bit-32-clear",
    "bit-64-clear",
    "bit-128-clear",
    "bit-256-clear",
];

fn failure_words(words: &mut Words, failures: u16) {
    for bit in 0..BITS_SET.len() {
        let set = failures >> bit & 1 == 1;
        either(words, set, BITS_SET[bit], BITS_CLEAR[bit]);
    }
}

fn stability_words(words: &mut Words, wall: &Wall, worked: &Worked) {
    let total = &worked.service;
    let even = !wall.propped && worked.passive + worked.friction == total.h;
    note(words, even, "sliding-even");
    note(words, total.mrest == total.mot, "overturning-even");
    let (toe, heel) = worked.service_bearing.pressures();
    let at_allowable = toe.max(heel) == 1000 * wall.allowable;
    note(words, at_allowable, "allowable-even");
    if wall.propped {
        either(words, worked.prop > 0, "prop-pushes", "prop-idle");
    }
}

fn toe_words(words: &mut Words, wall: &Wall, worked: &Worked) {
    let (Some(toe), Some(bearing)) = (&worked.toe, worked.factored_bearing.given()) else {
        either(
            words,
            wall.toe == 0,
            "toe-unchecked-no-toe",
            "toe-unchecked-no-block",
        );
        return;
    };
    note(words, toe.effects.shear == 0, "toe-shear-0");
    note(words, toe.effects.moment == 0, "toe-moment-0");
    tip_words(words, wall, bearing);
    let names = [
        "toe-compression-steel",
        "toe-steel-least",
        "toe-steel-needed",
        "toe-steel-fails",
        "toe-steel-even",
        "toe-arm-capped",
        "toe-arm-worked",
    ];
    steel_words(words, toe, names);
    hundredth_words(words, toe, TOE_HUNDREDTHS);
    if let Some(arm) = Arm::shown(toe, wall.fcu) {
        note(words, arm.is_even(), "toe-arm-even");
        note(words, arm.is_past_even(), "toe-arm-past-even");
    }
    let stress = wall.toe_bars.concrete_shear_stress;
    let (d, twice) = (toe.twice_depth, 2 * toe.effects.shear);
    note(words, toe.shear_fails, "toe-shear-fails");
    note(words, twice == stress * d, "toe-shear-even");
    let by_fcu = twice < stress * d && !shear_passes(toe.effects.shear, d, stress, wall.fcu);
    note(words, by_fcu, "toe-shear-fcu-fails");
}

const TOE_BLOCK_ENDS: [&str; 5] = [
    "toe-block-ends-before-face",
    "toe-block-ends-at-face",
    "toe-block-ends-before-middle",
    "toe-block-ends-at-middle",
    "toe-block-ends-past-middle",
];
const HEEL_BLOCK_STARTS: [&str; 5] = [
    "heel-block-starts-before-face",
    "heel-block-starts-at-face",
    "heel-block-starts-before-middle",
    "heel-block-starts-at-middle",
    "heel-block-starts-past-middle",
];

/// The words of the block under a toe, in the order of [`Tip`].
fn tip_words(words: &mut Words, wall: &Wall, bearing: &Reported) {
    let Some(tip) = Tip::of(wall, bearing) else {
        return;
    };
    words.push(match bearing.block.kind {
        Contact::HeelTriangle => HEEL_BLOCK_STARTS[tip as usize],
        _ => TOE_BLOCK_ENDS[tip as usize],
    });
    let at_middle = bearing.block.kind == Contact::ToeTriangle && tip == Tip::AtMiddle;
    let rounded = at_middle && rounding_at_face_shows(wall, bearing);
    note(words, rounded, "toe-rounding-at-middle");
}

fn stem_words(words: &mut Words, wall: &Wall, stem: &Section) {
    let names = [
        "stem-compression-steel",
        "stem-steel-least",
        "stem-steel-needed",
        "stem-steel-fails",
        "stem-steel-even",
        "stem-arm-capped",
        "stem-arm-worked",
    ];
    steel_words(words, stem, names);
    hundredth_words(words, stem, STEM_HUNDREDTHS);
    last_moment_words(words, wall, stem);
    if let Some(arm) = Arm::shown(stem, wall.fcu) {
        stem_arm_words(words, &arm);
    }
    let stress = wall.stem_bars.concrete_shear_stress;
    let (d, twice) = (stem.twice_depth, 2 * stem.effects.shear);
    note(words, stem.shear_fails, "stem-shear-fails");
    note(words, twice == stress * d, "stem-shear-even");
    let by_fcu = twice < stress * d && !shear_passes(stem.effects.shear, d, stress, wall.fcu);
    note(words, by_fcu, "stem-shear-fcu-fails");
    let fcu_even = 100 * twice * twice == 64 * wall.fcu * 1_000_000 * d * d;
    note(words, fcu_even && !stem.shear_fails, "stem-shear-fcu-even");
}

fn heel_words(words: &mut Words, wall: &Wall, loads: &[Load], worked: &Worked) {
    let (Some(heel), Some(bearing)) = (&worked.heel, worked.factored_bearing.given()) else {
        either(
            words,
            wall.heel == 0,
            "heel-unchecked-no-heel",
            "heel-unchecked-no-block",
        );
        return;
    };
    words.push("heel-checked");
    let names = [
        "heel-compression-steel",
        "heel-steel-least",
        "heel-steel-needed",
        "heel-steel-fails",
        "heel-steel-even",
        "heel-arm-capped",
        "heel-arm-worked",
    ];
    steel_words(words, heel, names);
    hundredth_words(words, heel, HEEL_HUNDREDTHS);
    let stress = wall.heel_bars.concrete_shear_stress;
    let (d, twice) = (heel.twice_depth, 2 * heel.effects.shear);
    note(words, heel.shear_fails, "heel-shear-fails");
    note(words, twice == stress * d, "heel-shear-even");
    let by_fcu = twice < stress * d && !shear_passes(heel.effects.shear, d, stress, wall.fcu);
    note(words, by_fcu, "heel-shear-fcu-fails");
    alone_words(words, worked, heel);
    weight_words(words, wall, loads);
    words.push(under_heel_word(wall, bearing));
    rounding_words(words, wall, bearing);
}

/// Whether it is the heel alone that fails.
fn alone_words(words: &mut Words, worked: &Worked, heel: &Section) {
    let toe = |fails: fn(&Section) -> bool| worked.toe.as_ref().is_some_and(fails);
    let other_steel = toe(|toe| toe.steel_fails) || worked.stem.steel_fails;
    let other_shear = toe(|toe| toe.shear_fails) || worked.stem.shear_fails;
    let steel_alone = heel.steel_fails && !other_steel;
    note(words, steel_alone, "heel-steel-fails-alone");
    let shear_alone = heel.shear_fails && !other_shear;
    note(words, shear_alone, "heel-shear-fails-alone");
}

/// What stands over a heel; a load at its back face doesn't.
fn weight_words(words: &mut Words, wall: &Wall, loads: &[Load]) {
    let wet = wall.water_on_base();
    words.push(if wet == 0 {
        "heel-fill-moist"
    } else if wet < wall.stem_height {
        "heel-fill-both"
    } else {
        "heel-fill-saturated"
    });
    either(
        words,
        wall.surcharge == 0,
        "heel-surcharge-0",
        "heel-surcharge",
    );
    let back = wall.toe + wall.stem_thickness;
    let over_heel = |load: &Load| load.direction == Direction::Down && load.position > back;
    let weighs = |load: &Load| load.dead + load.live > 0;
    let loaded = loads.iter().any(|load| over_heel(load) && weighs(load));
    note(words, loaded, "heel-loaded");
}

const UNDER_HEEL_ENDS: [&str; 5] = [
    "under-heel-toe-block-ends-before-middle",
    "under-heel-toe-block-ends-at-middle",
    "under-heel-toe-block-ends-before-back",
    "under-heel-toe-block-ends-at-back",
    "under-heel-toe-block-ends-past-back",
];
const UNDER_HEEL_STARTS: [&str; 5] = [
    "under-heel-heel-block-starts-before-middle",
    "under-heel-heel-block-starts-at-middle",
    "under-heel-heel-block-starts-before-back",
    "under-heel-heel-block-starts-at-back",
    "under-heel-heel-block-starts-past-back",
];

/// The word of the block under a heel, in the order of [`Reach`].
fn under_heel_word(wall: &Wall, bearing: &Reported) -> &'static str {
    match (bearing.block.kind, Reach::of(wall, bearing)) {
        (_, None) => "under-heel-whole",
        (Contact::Whole, Some(_)) => "under-heel-whole-to-its-end",
        (Contact::ToeTriangle, Some(reach)) => UNDER_HEEL_ENDS[reach as usize],
        (Contact::HeelTriangle, Some(reach)) => UNDER_HEEL_STARTS[reach as usize],
    }
}

/// What is below 0 before it counts as 0, and what another rounding would make of V or
/// of M.
fn rounding_words(words: &mut Words, wall: &Wall, bearing: &Reported) {
    let (down, up) = (pressed_down(wall), borne(wall, bearing));
    note(words, down.shear < up.shear, "heel-shear-below-0");
    note(words, down.moment < up.moment, "heel-moment-below-0");
    let due = less(down, up);
    let by_parts = less(rounded_by_parts(wall), up) != due;
    note(words, by_parts, "heel-sum-by-parts");
    let not_whole = less(sum_rounded_down(wall), up) != due;
    note(words, not_whole, "heel-sum-not-whole");
    let up_rounded_up = borne_rounded_up(wall, bearing);
    let bearing_shows = less(down, up_rounded_up) != due;
    note(words, bearing_shows, "heel-bearing-not-whole");
    let by_reported = borne(wall, &with_reported_pressures(bearing));
    note(words, less(down, by_reported) != due, "heel-peak-shows");
}

/// Each of the weights rounded up by itself.
fn rounded_by_parts(wall: &Wall) -> Effects {
    let all = weighed(wall);
    Effects {
        shear: all.iter().map(|weight| up(weight.shear, SHEAR_PARTS)).sum(),
        moment: all
            .iter()
            .map(|weight| up(weight.moment, MOMENT_PARTS))
            .sum(),
    }
}

fn sum_rounded_down(wall: &Wall) -> Effects {
    let all = weighed(wall);
    let sum = |of: fn(&Effects) -> Whole| -> Whole { all.iter().map(of).sum() };
    Effects {
        shear: down(sum(|weight| weight.shear), SHEAR_PARTS),
        moment: down(sum(|weight| weight.moment), MOMENT_PARTS),
    }
}

fn borne_rounded_up(wall: &Wall, bearing: &Reported) -> Effects {
    let ground = Ground::of(wall, bearing);
    let force = ground.force_between(ground.back, ground.end);
    let moment = ground.moment_between(ground.middle, ground.middle, ground.end);
    Effects {
        shear: force.over_rounded_up(&ground.newton()),
        moment: moment.over_rounded_up(&ground.newton_mm()),
    }
}

/// The same block with pressures that are rounded up to N/m2.
fn with_reported_pressures(bearing: &Reported) -> Reported {
    let reported = |newtons: Whole| Fraction {
        over: newtons,
        under: bearing.case.pascals(),
    };
    Reported {
        block: Block {
            toe: reported(bearing.toe),
            heel: reported(bearing.heel),
            ..bearing.block
        },
        ..*bearing
    }
}

/// Where a downstand stands, and how its weight comes to whole newtons.
fn downstand_words(words: &mut Words, wall: &Wall) {
    let place = Underfoot::of(wall);
    note(words, place.under_toe(), "downstand-under-toe");
    note(words, place.under_stem(), "downstand-under-stem");
    note(words, place.under_heel(), "downstand-under-heel");
    note(words, place.across_face(), "downstand-across-face");
    note(words, place.across_back(), "downstand-across-back");
    note(words, place.at_front_edge(), "downstand-at-front-edge");
    note(words, place.at_back_edge(), "downstand-at-back-edge");
    let Downstand {
        depth, thickness, ..
    } = wall.downstand;
    let beyond_newtons = depth * thickness * wall.base_density % WEIGHT_SCALE;
    let half = 2 * beyond_newtons == WEIGHT_SCALE;
    note(words, half, "downstand-weight-half");
    note(words, beyond_newtons > 0, "downstand-weight-not-whole");
}

/// Water that ends within the downstand's depth or the base's, ground in front that
/// resists beside the downstand alone, and horizontal loads where its depth might be
/// counted and isn't.
fn beside_downstand_words(words: &mut Words, wall: &Wall, loads: &[Load]) {
    let (depth, base, water) = (wall.downstand.depth, wall.base_thickness, wall.water_height);
    let in_depth = 0 < water && water < depth;
    note(words, in_depth, "water-in-downstand");
    note(words, water == depth, "water-at-base-underside");
    let in_base = depth < water && water < depth + base;
    note(words, in_base, "water-in-base");
    let wets_base = base < water && water <= base + depth;
    note(words, wets_base, "water-wets-base-but-for-downstand");
    let beside_downstand = passive_depth(wall);
    let alone = (1..=depth).contains(&beside_downstand);
    note(words, alone, "passive-depth-by-downstand");
    let pushes = |load: &&Load| load.direction == Direction::Across && load.dead + load.live > 0;
    for load in loads.iter().filter(pushes) {
        let at_crest = load.position == wall.crest();
        note(words, at_crest, "downstand-across-at-crest");
        let low = (base..base + depth).contains(&load.position);
        note(words, low, "downstand-across-low-on-stem");
    }
}

/// Pushes that turn the wall back, and whether all of them together do. Saturated fill
/// and water have one lever.
fn lever_words(words: &mut Words, wall: &Wall, worked: &Worked) {
    let moments = pushes(wall, wall.ka, Back::of_wall(wall)).map(|push| push.moment);
    let names = [
        "lever-surcharge-negative",
        "lever-moist-above-negative",
        "lever-moist-below-negative",
        "lever-wet-negative",
    ];
    for (moment, name) in moments.into_iter().zip(names) {
        note(words, moment < 0, name);
    }
    note(words, worked.service.mot < 0, "service-mot-negative");
    note(words, worked.factored.mot < 0, "factored-mot-negative");
}

/// The words of a section's steel: compression, least, needed, fails, even,
/// arm capped, arm worked.
fn steel_words(words: &mut Words, section: &Section, names: [&'static str; 7]) {
    let [compression, least, needed, fails, even, capped, worked] = names;
    note(words, section.steel_fails, fails);
    let Some(arm) = section.lever_arm else {
        words.push(compression);
        return;
    };
    either(words, section.needed > section.least, needed, least);
    note(words, section.is_even(), even);
    either(
        words,
        arm == greatest_arm(section.twice_depth),
        capped,
        worked,
    );
}

const TOE_HUNDREDTHS: [&str; 5] = [
    "toe-steel-failed-in-mm2",
    "toe-steel-hundredth-short",
    "toe-needed-not-whole",
    "toe-least-not-whole",
    "toe-least-even",
];
const STEM_HUNDREDTHS: [&str; 5] = [
    "stem-steel-failed-in-mm2",
    "stem-steel-hundredth-short",
    "stem-needed-not-whole",
    "stem-least-not-whole",
    "stem-least-even",
];

const HEEL_HUNDREDTHS: [&str; 5] = [
    "heel-steel-fails-in-mm2",
    "heel-steel-hundredth-short",
    "heel-needed-not-whole",
    "heel-least-not-whole",
    "heel-least-even",
];

/// The words of a section's hundredths: enough though not in whole mm2, a hundredth
/// short; what is required not whole mm2, and it is the needed or the least steel; the
/// least steel just provided.
fn hundredth_words(words: &mut Words, section: &Section, names: [&'static str; 5]) {
    let [failed, short, needed_in_parts, least_in_parts, least_even] = names;
    note(words, section.failed_in_mm2(), failed);
    note(words, section.is_hundredth_short(), short);
    let by_needed = section.needed > section.least;
    let in_parts = section.required % 100 != 0;
    note(words, in_parts && by_needed, needed_in_parts);
    note(words, in_parts && !by_needed, least_in_parts);
    note(words, section.is_even() && !by_needed, least_even);
}

/// Where the needed steel governs: a N mm more would fail, a N mm less would pass, and
/// nothing is rounded.
fn last_moment_words(words: &mut Words, wall: &Wall, stem: &Section) {
    let (d, provided) = (stem.twice_depth, stem.provided);
    let enough_for = |moment: Whole| {
        let needed = needed_at_depth(moment, d, wall.fcu, wall.fy);
        needed.is_some_and(|needed| needed <= provided)
    };
    let (by_needed, moment) = (stem.needed > stem.least, stem.effects.moment);
    let last = by_needed && stem.is_even() && !enough_for(moment + 1);
    note(words, last, "stem-steel-last-moment");
    let past = by_needed && stem.is_hundredth_short() && enough_for(moment - 1);
    note(words, past, "stem-steel-past-last-moment");
    let exact = |z: Whole| by_needed && needed_is_exact(moment, wall.fy, z);
    note(
        words,
        stem.lever_arm.is_some_and(exact),
        "stem-needed-exact",
    );
}

fn stem_arm_words(words: &mut Words, arm: &Arm) {
    note(words, arm.is_even(), "stem-arm-even");
    note(words, arm.is_past_even(), "stem-arm-past-even");
    note(words, arm.is_next_to_limit(), "stem-arm-next-to-limit");
    note(words, arm.hangs_on_quotient(), "stem-arm-by-quotient");
    note(words, arm.hangs_on_root(), "stem-arm-by-root");
    note(words, arm.hangs_on_half(), "stem-arm-by-half");
    let most = greatest_moment(arm.d, arm.fcu);
    note(words, arm.moment == most, "stem-compression-even");
}

/// A lever arm that shows in the printed area. By a whole-number root it is
/// (D + root of D^2 - 4q) / 2 rounded down, q being M / (225 fcu) rounded up.
struct Arm {
    moment: Whole,
    d: Whole,
    fcu: Whole,
    z: Whole,
}

impl Arm {
    /// `None` where there is no arm, or the least steel governs.
    fn shown(section: &Section, fcu: Whole) -> Option<Arm> {
        let z = section
            .lever_arm
            .filter(|_| section.needed > section.least)?;
        Some(Arm {
            moment: section.effects.moment,
            d: section.twice_depth,
            fcu,
            z,
        })
    }

    /// Not a N mm more can be had at this arm.
    fn is_even(&self) -> bool {
        self.moment == moment_borne(self.z, self.d, self.fcu)
    }

    /// A N mm less would give an arm half a mm longer.
    fn is_past_even(&self) -> bool {
        self.is_below_limit() && self.moment - 1 == moment_borne(self.z + 1, self.d, self.fcu)
    }

    fn is_below_limit(&self) -> bool {
        self.z < greatest_arm(self.d)
    }

    fn is_next_to_limit(&self) -> bool {
        self.z + 1 == greatest_arm(self.d)
    }

    /// q rounded down would give a longer arm.
    fn hangs_on_quotient(&self) -> bool {
        let longer = self.z + 1;
        self.is_below_limit() && down(self.moment, 225 * self.fcu) == longer * (self.d - longer)
    }

    /// A root one less would give a shorter arm: D and the root are both odd or
    /// both even, and the root is 2Z - D.
    fn hangs_on_root(&self) -> bool {
        let square = self.d * self.d - 4 * up(self.moment, 225 * self.fcu);
        let greater = 2 * self.z - self.d + 1;
        square < greater * greater
    }

    /// D and the root, halved and rounded up, would give a longer arm.
    fn hangs_on_half(&self) -> bool {
        self.is_below_limit() && !self.hangs_on_root()
    }
}
