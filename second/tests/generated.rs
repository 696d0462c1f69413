//! The generator: same seed, same bytes; and it reaches every trait.

mod common;

use common::{samples_of_each_kind, steel_before, SEED};
use second::answers::accept;
use second::bearing::Contact::{self, HeelTriangle, ToeTriangle};
use second::generator::draft::ends;
use second::generator::{sample, samples, Due, KINDS};
use second::heel::Reach;
use second::job_file::{
    field, field_in_range, read_record, Header, RawWall, HEADER_BYTES, WALL_BYTES, WALL_FIELDS,
};
use second::section::{greatest_moment, Effects};
use second::sheet_line::{work_job, work_wall};
use second::toe::Tip::{self, AtFace, AtMiddle, BeforeFace, BeforeMiddle, PastMiddle};
use second::traits::{line, of, VOCABULARY};
use std::collections::{BTreeMap, BTreeSet};

#[test]
fn same_seed_same_bytes_and_another_seed_others() {
    let made = |seed, count| samples(seed, count).collect::<Vec<_>>();
    let first = made(7, 150);
    assert_eq!(first, made(7, 150));
    assert_eq!(first[..60], made(7, 60));
    let other = made(8, 150);
    let changed = first.iter().zip(&other).filter(|(a, b)| a.1 != b.1);
    assert!(changed.count() > 120);
}

/// A sum over all bytes, held so that a change of the generator is seen.
#[test]
fn the_bytes_of_a_seed_stay_what_they_were() {
    let mut sum: u64 = 0xcbf2_9ce4_8422_2325;
    for (name, sample) in samples(1, 20 * KINDS.len()) {
        for byte in name.bytes().chain(sample.bytes) {
            sum = (sum ^ u64::from(byte)).wrapping_mul(0x0100_0000_01b3);
        }
    }
    assert_eq!(sum, 0x5899_0eae_4899_aac5);
}

#[test]
fn names_are_the_kind_and_a_number() {
    let names: Vec<String> = samples(1, KINDS.len() + 1).map(|(name, _)| name).collect();
    assert_eq!(names[0], "typical-0001");
    assert_eq!(names[KINDS.len()], "typical-0002");
    assert_eq!(names.iter().collect::<BTreeSet<_>>().len(), names.len());
}

#[test]
fn every_trait_is_reached_and_every_word_is_known() {
    let mut counts: BTreeMap<&str, usize> = VOCABULARY.iter().map(|word| (*word, 0)).collect();
    assert_eq!(counts.len(), VOCABULARY.len(), "a word stands twice");
    for (name, sample) in samples_of_each_kind(70) {
        let (answer, words) = of(&sample.bytes);
        for word in words.into_iter().chain([answer]) {
            match counts.get_mut(word) {
                Some(count) => *count += 1,
                None => panic!("{name}: {word} is not in the vocabulary"),
            }
        }
    }
    let missed: Vec<_> = counts.iter().filter(|(_, count)| **count == 0).collect();
    assert!(missed.is_empty(), "missed: {missed:?}");
}

fn kind(wanted: &str) -> usize {
    KINDS.iter().position(|(name, _)| *name == wanted).unwrap()
}

#[test]
fn every_field_is_met_at_both_its_ends() {
    let mut met = [(false, false); WALL_FIELDS];
    for index in 0..2 * WALL_FIELDS {
        let bytes = sample(SEED, kind("field-ends"), index).bytes;
        let wall: RawWall = read_record(&bytes, HEADER_BYTES);
        for (place, met) in met.iter_mut().enumerate() {
            let (low, high) = ends(&wall, place);
            met.0 |= wall[place] == low;
            met.1 |= wall[place] == high;
        }
    }
    assert_eq!(met, [(true, true); WALL_FIELDS]);
}

/// A downstand at its least depth and its greatest, at the front edge of the base and at
/// the end of it, and with its least thickness and its greatest.
#[test]
fn a_downstand_is_met_at_both_ends_of_each_field() {
    let mut met = [(false, false); 3];
    for index in 2 * field::DOWNSTAND_DEPTH..2 * WALL_FIELDS {
        let bytes = sample(SEED, kind("field-ends"), index).bytes;
        let wall: RawWall = read_record(&bytes, HEADER_BYTES);
        let [depth, position, thickness] = [
            wall[field::DOWNSTAND_DEPTH],
            wall[field::DOWNSTAND_POSITION],
            wall[field::DOWNSTAND_THICKNESS],
        ];
        let length = wall[field::TOE] + wall[field::STEM_THICKNESS] + wall[field::HEEL];
        met[0].0 |= depth == 0;
        met[0].1 |= depth == 1000;
        met[1].0 |= depth > 0 && position == 0;
        met[1].1 |= depth > 0 && position + thickness == length;
        met[2].0 |= thickness == 100;
        met[2].1 |= thickness == (length - position).min(1500) && depth > 0;
    }
    assert_eq!(met, [(true, true); 3]);
}

/// Of every field a value below and one above, in each of three walls, and no
/// other fault.
#[test]
fn every_field_is_met_out_of_range_in_three_walls() {
    let mut met = BTreeSet::new();
    for index in 0..6 * WALL_FIELDS {
        let sample = sample(SEED, kind("refused-field"), index);
        let bad = bad_fields(&sample.bytes);
        assert_eq!(bad.len(), 1, "refused-field of index {index}");
        let (number, place, below) = bad[0];
        let answer = Due::Refused(5, 100 * number as u64 + place as u64 + 1);
        assert_eq!(sample.due, answer);
        met.insert((number, place, below));
    }
    assert_eq!(met.len(), 6 * WALL_FIELDS);
}

/// The bad fields of three walls: the wall's number, the field counted from 0, and
/// whether its value is below the range or is what -1 becomes.
fn bad_fields(bytes: &[u8]) -> Vec<(usize, usize, bool)> {
    let mut bad = Vec::new();
    for number in 1..=3 {
        let wall: RawWall = read_record(bytes, HEADER_BYTES + WALL_BYTES * (number - 1));
        for place in (0..WALL_FIELDS).filter(|place| !field_in_range(&wall, *place)) {
            let (low, _) = ends(&wall, place);
            bad.push((number, place, wall[place] == low.wrapping_sub(1)));
        }
    }
    bad
}

#[test]
fn bad_walls_have_one_bad_field_or_more() {
    let (mut alone, mut heights, mut walls) = (0, 0, 0);
    let mut pairs = BTreeSet::new();
    for index in 0..240 {
        let bad = bad_fields(&sample(SEED, kind("refused-wall"), index).bytes);
        match bad[..] {
            [_] => alone += 1,
            [(wall, 1 | 5, _), (other, 8, _)] if wall == other => heights += 1,
            [(wall, first, _), (other, second, _)] if wall == other => {
                pairs.insert((first, second));
            }
            _ => walls += usize::from(bad[0].0 != bad[bad.len() - 1].0),
        }
    }
    let pairs = pairs.len();
    let counts = [alone, heights, walls, pairs];
    assert!(counts.iter().all(|count| *count > 15), "{counts:?}");
}

/// Offsets right or wrong, beside a stated length that is or isn't the one that
/// the counts give, and is or isn't the input's: all but all three right.
#[test]
fn offsets_and_lengths_are_wrong_in_every_way() {
    let mut met = BTreeSet::new();
    for index in 0..34 {
        let sample = sample(SEED, kind("refused-offset"), index);
        let header = Header::read(&sample.bytes).unwrap();
        let due = Header::due(header.walls.into(), header.loads.into());
        let offsets = (header.first_wall, header.first_load) == (due.first_wall, due.first_load);
        let by_counts = header.length == due.length;
        let by_input = usize::from(header.length) == sample.bytes.len();
        let number = if offsets { 10 } else { 4 };
        assert_eq!(sample.due, Due::Refused(number, 0));
        met.insert((offsets, by_counts, by_input));
    }
    assert_eq!(met.len(), 7);
    assert!(!met.contains(&(true, true, true)));
}

/// The words of each turn of `lever-arm`.
const ARM_TURNS: [&[&str]; 12] = [
    &["stem-arm-even", "stem-arm-worked", "stem-arm-by-root"],
    &["stem-arm-even", "stem-arm-worked", "stem-arm-by-root"],
    &["stem-arm-past-even", "stem-arm-by-quotient"],
    &["stem-arm-past-even", "stem-arm-by-quotient"],
    &["stem-arm-even", "stem-arm-capped", "stem-arm-by-root"],
    &["stem-arm-past-even", "stem-arm-next-to-limit"],
    &["stem-compression-even", "stem-arm-worked"],
    &["stem-compression-steel"],
    &["stem-arm-by-half"],
    &["stem-arm-by-root"],
    &["toe-arm-even"],
    &["toe-arm-past-even"],
];

#[test]
fn a_lever_arm_turns_in_every_way_at_odd_and_even_depths() {
    for index in 0..4 * ARM_TURNS.len() {
        let (round, turn) = (index / ARM_TURNS.len(), index % ARM_TURNS.len());
        let bytes = sample(SEED, kind("lever-arm"), index).bytes;
        let words = of(&bytes).1;
        let met = ARM_TURNS[turn].iter().all(|word| words.contains(word));
        assert!(met, "lever-arm of index {index}");
        let job = accept(&bytes).unwrap();
        let worked = work_wall(1, &job.walls[0], &job.loads);
        let section = if turn < 10 {
            worked.stem
        } else {
            worked.toe.unwrap()
        };
        let d = section.twice_depth;
        assert_eq!(d % 2 == 1, (index + round) % 2 == 1);
        if turn == 7 {
            let most = greatest_moment(d, job.walls[0].fcu);
            assert_eq!(section.effects.moment, most + 1);
        }
    }
}

/// The triangle of each turn of `contact-end`, and its tip in each wall.
const CONTACT_TURNS: [(Contact, &[Tip]); 12] = [
    (ToeTriangle, &[BeforeFace]),
    (ToeTriangle, &[BeforeFace, AtFace, BeforeMiddle]),
    (ToeTriangle, &[BeforeMiddle]),
    (ToeTriangle, &[BeforeMiddle, AtMiddle, PastMiddle]),
    (ToeTriangle, &[PastMiddle]),
    (HeelTriangle, &[BeforeFace]),
    (HeelTriangle, &[BeforeFace, AtFace, BeforeMiddle]),
    (HeelTriangle, &[BeforeMiddle]),
    (HeelTriangle, &[BeforeMiddle, AtMiddle, PastMiddle]),
    (HeelTriangle, &[PastMiddle]),
    (ToeTriangle, &[BeforeMiddle]),
    (HeelTriangle, &[BeforeFace]),
];

#[test]
fn a_triangle_comes_to_nothing_at_every_place() {
    for index in 0..4 * CONTACT_TURNS.len() {
        let (triangle, tips) = CONTACT_TURNS[index % CONTACT_TURNS.len()];
        let bytes = sample(SEED, kind("contact-end"), index).bytes;
        let job = accept(&bytes).unwrap();
        let worked = work_job(&job);
        assert_eq!(worked.len(), tips.len(), "contact-end of index {index}");
        for ((wall, worked), tip) in job.walls.iter().zip(&worked).zip(tips) {
            let bearing = worked.factored_bearing.given().unwrap();
            assert_eq!(bearing.block.kind, triangle);
            assert_eq!(Tip::of(wall, bearing), Some(*tip));
        }
        // Walls alike, a step of M6 apart.
        for (walls, worked) in job.walls.windows(2).zip(worked.windows(2)) {
            assert_eq!(walls[0], walls[1]);
            let (before, past) = (worked[0].factored, worked[1].factored);
            assert_eq!((past.r, past.m6), (before.r, before.m6 + 12));
        }
        let rounded = triangle == ToeTriangle && tips.contains(&AtMiddle);
        let word = of(&bytes).1.contains("toe-rounding-at-middle");
        assert_eq!(word, rounded);
    }
}

/// The words of each turn of `steel-hundredth`.
const STEEL_TURNS: [&[&str]; 13] = [
    &["stem-steel-needed", "stem-steel-last-moment"],
    &["stem-steel-needed", "stem-steel-past-last-moment"],
    &["stem-needed-not-whole", "stem-steel-failed-in-mm2"],
    &["stem-steel-least", "stem-least-even"],
    &["stem-steel-least", "stem-steel-hundredth-short"],
    &["stem-least-not-whole", "stem-steel-failed-in-mm2"],
    &["toe-steel-needed", "toe-steel-even"],
    &["toe-steel-needed", "toe-steel-hundredth-short"],
    &["toe-needed-not-whole", "toe-steel-failed-in-mm2"],
    &["toe-steel-least", "toe-least-even"],
    &["toe-steel-least", "toe-steel-hundredth-short"],
    &["toe-least-not-whole", "toe-steel-failed-in-mm2"],
    &["stem-needed-exact", "stem-steel-last-moment"],
];

/// And the cage does what it would not have done in whole mm2, or for a hundredth more.
#[test]
fn a_hundredth_of_steel_decides_in_every_way() {
    for index in 0..4 * STEEL_TURNS.len() {
        let turn = index % STEEL_TURNS.len();
        let bytes = sample(SEED, kind("steel-hundredth"), index).bytes;
        let words = of(&bytes).1;
        let met = STEEL_TURNS[turn].iter().all(|word| words.contains(word));
        assert!(met, "steel-hundredth of index {index}: {words:?}");
        let job = accept(&bytes).unwrap();
        let (wall, worked) = (&job.walls[0], work_job(&job).remove(0));
        let (section, thickness, bars) = match turn {
            0..6 | 12 => (worked.stem, wall.stem_thickness, &wall.stem_bars),
            _ => (worked.toe.unwrap(), wall.base_thickness, &wall.toe_bars),
        };
        let before = steel_before(wall, thickness, bars, section.effects.moment);
        let spare = section.provided - section.required;
        match turn % 3 {
            0 => assert_eq!((spare, section.steel_fails), (0, false)),
            1 => assert_eq!((spare, section.steel_fails), (-1, true)),
            _ => assert_eq!((before.fails, section.steel_fails), (true, false)),
        }
    }
}

/// The words of each turn of `heel`, and those that it must not have.
const HEEL_TURNS: [(&[&str], &[&str]); 33] = [
    (&["under-heel-whole"], BELOW_0),
    (&["under-heel-toe-block-ends-before-middle"], BELOW_0),
    (&TOE_AROUND_MIDDLE, BELOW_0),
    (&["under-heel-toe-block-ends-before-back"], BELOW_0),
    (&TOE_AROUND_BACK, BELOW_0),
    (&["under-heel-toe-block-ends-past-back"], BELOW_0),
    (&AROUND_END, BELOW_0),
    (&["under-heel-heel-block-starts-before-middle"], BELOW_0),
    (&HEEL_AROUND_MIDDLE, &["heel-shear-below-0"]),
    (
        &["under-heel-heel-block-starts-before-back"],
        &["heel-shear-below-0"],
    ),
    (&HEEL_AROUND_BACK, &[]),
    (&["under-heel-heel-block-starts-past-back"], &[]),
    (&["heel-unchecked-no-heel", "factored-whole"], &[]),
    (&["heel-unchecked-no-block"], &[]),
    (&["heel-shear-below-0"], &["heel-moment-below-0"]),
    (&["heel-moment-below-0"], &[]),
    (
        &[
            "heel-steel-fails-alone",
            "bit-256-set",
            "bit-32-clear",
            "bit-64-clear",
        ],
        &["heel-shear-fails"],
    ),
    (
        &["heel-shear-fails-alone", "bit-128-set", "bit-256-clear"],
        &["toe-shear-fails", "stem-shear-fails"],
    ),
    (&["heel-steel-needed", "heel-steel-even"], &[]),
    (&["heel-steel-needed", "heel-steel-hundredth-short"], &[]),
    (&["heel-steel-needed", "heel-steel-fails-in-mm2"], &[]),
    (&["heel-steel-least", "heel-least-even"], &[]),
    (&["heel-steel-least", "heel-steel-hundredth-short"], &[]),
    (&["heel-shear-even", "heel-shear-fails"], &[]),
    (&["heel-shear-fcu-fails"], &[]),
    (&["heel-compression-steel"], &[]),
    (&["heel-fill-both", "heel-surcharge", "odd-stem"], &[]),
    (
        &["heel-fill-saturated", "heel-surcharge-0", "even-stem"],
        &[],
    ),
    (&["heel-fill-moist", "heel-surcharge-0", "odd-stem"], &[]),
    (&["heel-loaded"], BELOW_0),
    (&["heel-sum-by-parts", "heel-surcharge"], &[]),
    (&["heel-bearing-not-whole", "under-heel-whole"], &[]),
    (&["heel-peak-shows", "factored-toe"], &[]),
];

const BELOW_0: &[&str] = &["heel-shear-below-0", "heel-moment-below-0"];
const TOE_AROUND_MIDDLE: [&str; 3] = [
    "under-heel-toe-block-ends-before-middle",
    "under-heel-toe-block-ends-at-middle",
    "under-heel-toe-block-ends-before-back",
];
const TOE_AROUND_BACK: [&str; 3] = [
    "under-heel-toe-block-ends-before-back",
    "under-heel-toe-block-ends-at-back",
    "under-heel-toe-block-ends-past-back",
];
const AROUND_END: [&str; 3] = [
    "under-heel-toe-block-ends-past-back",
    "under-heel-whole-to-its-end",
    "under-heel-whole",
];
const HEEL_AROUND_MIDDLE: [&str; 3] = [
    "under-heel-heel-block-starts-before-middle",
    "under-heel-heel-block-starts-at-middle",
    "under-heel-heel-block-starts-before-back",
];
const HEEL_AROUND_BACK: [&str; 3] = [
    "under-heel-heel-block-starts-before-back",
    "under-heel-heel-block-starts-at-back",
    "under-heel-heel-block-starts-past-back",
];

/// Where the tip is at a point, three walls are alike and a step of M6 apart.
#[test]
fn every_block_is_under_every_part_of_the_heel() {
    for index in 0..3 * HEEL_TURNS.len() {
        let (wanted, unwanted) = HEEL_TURNS[index % HEEL_TURNS.len()];
        let bytes = sample(SEED, kind("heel"), index).bytes;
        let words = of(&bytes).1;
        let met = wanted.iter().all(|word| words.contains(word));
        let clear = unwanted.iter().all(|word| !words.contains(word));
        assert!(met && clear, "heel of index {index}: {words:?}");
        let job = accept(&bytes).unwrap();
        let at_point = matches!(index % HEEL_TURNS.len(), 2 | 4 | 6 | 8 | 10);
        assert_eq!(job.walls.len(), if at_point { 3 } else { 1 });
        let worked = work_job(&job);
        for (walls, worked) in job.walls.windows(2).zip(worked.windows(2)) {
            assert_eq!(walls[0], walls[1]);
            let (before, past) = (worked[0].factored, worked[1].factored);
            assert_eq!((past.r, past.m6), (before.r, before.m6 + 12));
        }
    }
}

/// The words of each turn of `downstand`, and those that it must not have.
const DOWNSTAND_TURNS: [(&[&str], &[&str]); 25] = [
    (
        &["downstand-under-toe", "factored-whole"],
        &["toe-shear-0", "toe-moment-0"],
    ),
    (&["downstand-under-stem", "factored-whole"], &[]),
    (&["downstand-under-heel", "factored-whole"], BELOW_0),
    (&["downstand-across-face", "toe-steel-needed"], &[]),
    (&["downstand-across-back", "heel-checked"], &[]),
    (&["downstand-at-front-edge"], &[]),
    (&["downstand-at-back-edge"], &[]),
    (&["downstand-at-front-edge", "downstand-at-back-edge"], &[]),
    (&["downstand-weight-half"], &[]),
    (&WATERS, &[]),
    (
        &["lever-surcharge-negative"],
        &["lever-moist-above-negative"],
    ),
    (
        &["lever-moist-above-negative"],
        &["lever-surcharge-negative"],
    ),
    (
        &["lever-moist-below-negative"],
        &["lever-surcharge-negative"],
    ),
    (&["lever-wet-negative"], &["lever-moist-below-negative"]),
    (&["service-mot-negative", "service-whole"], &[]),
    (&["factored-mot-negative"], &["service-mot-negative"]),
    (&["service-mot-negative", "service-heel"], &[]),
    (
        &["service-none-past-heel", "bit-8-set", "bit-16-clear"],
        &[],
    ),
    (
        &["factored-none-past-heel", "bit-8-clear", "bit-16-set"],
        &[],
    ),
    (&["service-none-past-heel", "factored-none-past-heel"], &[]),
    (&SERVICE_AROUND_SIX_RL, &["bit-8-clear"]),
    (&FACTORED_AROUND_SIX_RL, &["bit-16-clear"]),
    (&["passive-depth-by-downstand", "prop-pushes"], &[]),
    (&["downstand-across-at-crest"], &[]),
    (&["downstand-across-low-on-stem"], &[]),
];

const WATERS: [&str; 8] = [
    "water-at-0",
    "water-in-downstand",
    "water-at-base-underside",
    "water-in-base",
    "water-wets-base-but-for-downstand",
    "water-at-base-top",
    "water-above-base-top",
    "water-at-crest",
];
const SERVICE_AROUND_SIX_RL: [&str; 3] = [
    "service-m6-just-below-6rl",
    "service-m6-is-6rl",
    "service-m6-just-past-6rl",
];
const FACTORED_AROUND_SIX_RL: [&str; 3] = [
    "factored-m6-just-below-6rl",
    "factored-m6-is-6rl",
    "factored-m6-just-past-6rl",
];

/// Where M6 is about 6Rl, three walls are alike and a step of M6 apart; with water at
/// every height, all are alike but for that.
#[test]
fn a_downstand_is_met_in_every_way() {
    for index in 0..3 * DOWNSTAND_TURNS.len() {
        let turn = index % DOWNSTAND_TURNS.len();
        let (wanted, unwanted) = DOWNSTAND_TURNS[turn];
        let bytes = sample(SEED, kind("downstand"), index).bytes;
        let words = of(&bytes).1;
        let met = wanted.iter().all(|word| words.contains(word));
        let clear = unwanted.iter().all(|word| !words.contains(word));
        assert!(met && clear, "downstand of index {index}: {words:?}");
        let job = accept(&bytes).unwrap();
        assert!(job.walls.iter().all(|wall| wall.downstand.depth > 0));
        let worked = work_job(&job);
        let m6: Vec<_> = worked
            .iter()
            .map(|w| (w.service.m6, w.factored.m6))
            .collect();
        match turn {
            9 => assert_eq!(job.walls.len(), 12),
            20 => assert_eq!((m6[1].0 - m6[0].0, m6[2].0 - m6[1].0), (6, 6)),
            21 => assert_eq!((m6[1].1 - m6[0].1, m6[2].1 - m6[1].1), (12, 12)),
            _ => assert_eq!(job.walls.len(), 1),
        }
    }
}

/// What is answered to each turn of `refused-downstand`: nothing, a field that is named, or
/// a refusal of another number.
const REFUSED_TURNS: [(u8, u64); 24] = [
    (5, 36),
    (5, 9),
    (5, 36),
    (5, 36),
    (5, 9),
    (5, 37),
    (5, 38),
    (5, 37),
    (5, 38),
    (5, 38),
    (0, 0),
    (6, 1),
    (6, 1),
    (2, 0),
    (0, 0),
    (0, 0),
    (5, 38),
    (5, 38),
    (5, 37),
    (5, 37),
    (5, 36),
    (5, 36),
    (2, 0),
    (4, 0),
];

#[test]
fn a_downstand_is_refused_in_every_way() {
    let mut walls = BTreeSet::new();
    for index in 0..4 * REFUSED_TURNS.len() {
        let sample = sample(SEED, kind("refused-downstand"), index);
        let (number, place) = REFUSED_TURNS[index % REFUSED_TURNS.len()];
        let answer = accept(&sample.bytes).map_or_else(|r| (r.number, r.place), |_| (0, 0));
        let due = match answer.0 {
            0 => Due::Accepted,
            _ => Due::Refused(answer.0, answer.1),
        };
        assert_eq!(sample.due, due, "refused-downstand of index {index}");
        let named = if number == 5 {
            answer.1 % 100
        } else {
            answer.1
        };
        assert_eq!((answer.0, named), (number, place), "index {index}");
        if number == 5 {
            walls.insert(answer.1 / 100);
        }
    }
    assert_eq!(walls, BTreeSet::from([1, 2]));
}

/// One wall in three or so has a downstand, and many have none, in the kinds that aren't
/// made for it.
#[test]
fn many_walls_of_the_other_kinds_have_a_downstand() {
    let (mut with, mut without) = (0, 0);
    for (name, job) in common::accepted_jobs(30) {
        if name.starts_with("downstand") || name.starts_with("refused-downstand") {
            continue;
        }
        for wall in job.walls {
            match wall.downstand.depth {
                0 => without += 1,
                _ => with += 1,
            }
        }
    }
    assert!(4 * with > without && without > with, "{with} and {without}");
}

/// Where a heel triangle starts at the back face or past it, all of it stands under the
/// heel, and bears more than weighs there and farther back: V and M count as 0.
#[test]
fn a_heel_triangle_behind_the_stem_leaves_nothing() {
    let mut seen = 0;
    for (name, job) in common::accepted_jobs(70) {
        for (wall, worked) in job.walls.iter().zip(work_job(&job)) {
            let (Some(heel), Some(bearing)) = (worked.heel, worked.factored_bearing.given()) else {
                continue;
            };
            let reach = Reach::of(wall, bearing);
            let behind = matches!(reach, Some(Reach::AtBack | Reach::PastBack));
            if bearing.block.kind == HeelTriangle && behind {
                let Effects { shear, moment } = heel.effects;
                assert_eq!((shear, moment), (0, 0), "{name}");
                seen += 1;
            }
        }
    }
    assert!(seen > 10, "{seen}");
}

#[test]
fn the_line_starts_with_the_answer() {
    assert_eq!(line(&[]), "refused-1\n");
    assert!(line(&common::case_a_bytes()).starts_with("accepted bit-1-clear "));
}

/// Whatever the bytes, there is an answer in the form of the sheet.
#[test]
fn mangled_and_raw_bytes_are_answered() {
    let mut accepted = 0;
    for index in 0..1500 {
        for kind in [kind("mangled"), kind("raw")] {
            let bytes = sample(SEED + 1, kind, index).bytes;
            let printed = second::sheet(&bytes);
            assert!(printed.ends_with('\n'));
            for line in printed.lines() {
                let words = line.split(' ').count();
                let refused = line.starts_with("refused ");
                assert_eq!(words, if refused { 3 } else { 19 });
                accepted += usize::from(!refused);
            }
        }
    }
    assert!(accepted > 100, "{accepted}");
}
