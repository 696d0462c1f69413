//! Jobs for the downstand: under every part of a base, water at every height beside it,
//! pushes that turn the wall back, R past the end of the heel, ground in front and loads
//! where its depth counts and where it doesn't.

use super::contact_end::bring_tip;
use super::draft::{
    crest, fit, height, length, low_wall, put_any_downstand, typical_wall, wide_wall, Draft,
};
use super::edges::{bring_service, Landing};
use super::seek::{fits, sought};
use super::{Due, Sample};
use crate::bearing::Contact::HeelTriangle;
use crate::job_file::{field, RawWall};
use crate::random::Random;

/// Walls tried before one is taken as it is.
const MOST_TRIES: usize = 3000;

type Turn = fn(&mut Random) -> Option<Draft>;

const TURNS: [Turn; 25] = [
    |r| sought(r, keyed, &[TOE_ABOVE_0, &["downstand-under-toe"]].concat()),
    |r| sought(r, keyed, &["downstand-under-stem", "factored-whole"]),
    |r| {
        sought(
            r,
            keyed,
            &[HEEL_ABOVE_0, &["downstand-under-heel"]].concat(),
        )
    },
    |r| sought(r, keyed, &["downstand-across-face", "toe-steel-needed"]),
    |r| sought(r, keyed, &["downstand-across-back", "heel-checked"]),
    |r| sought(r, at_front_edge, &["downstand-at-front-edge"]),
    |r| sought(r, at_back_edge, &["downstand-at-back-edge"]),
    under_all_of_the_base,
    |r| sought(r, of_half_newtons, &["downstand-weight-half"]),
    water_at_every_height,
    |r| lever(r, "lever-surcharge-negative", "lever-moist-above-negative"),
    |r| lever(r, "lever-moist-above-negative", "lever-surcharge-negative"),
    |r| lever(r, "lever-moist-below-negative", "lever-surcharge-negative"),
    |r| lever(r, "lever-wet-negative", "lever-moist-below-negative"),
    |r| low(r, &["service-mot-negative", "service-whole"]),
    |r| {
        sought(
            r,
            deep,
            &["factored-mot-negative", "not service-mot-negative"],
        )
    },
    |r| low(r, &["service-mot-negative", "service-heel"]),
    |r| low(r, &["service-none-past-heel", "bit-16-clear"]),
    |r| low(r, &["factored-none-past-heel", "bit-8-clear"]),
    |r| low(r, &["service-none-past-heel", "factored-none-past-heel"]),
    |r| around_six_rl(r, Landed::Service),
    |r| around_six_rl(r, Landed::Factored),
    |r| sought(r, dug_away, &["passive-depth-by-downstand", "prop-pushes"]),
    |r| sought(r, keyed, &["downstand-across-at-crest"]),
    |r| sought(r, keyed, &["downstand-across-low-on-stem"]),
];

/// The turns one after another.
pub fn downstand(random: &mut Random, index: usize) -> Sample {
    let turn = TURNS[index % TURNS.len()];
    let found = (0..MOST_TRIES).find_map(|_| turn(random));
    let draft = found.unwrap_or_else(|| Draft::of(typical_wall(random)));
    Sample {
        bytes: draft.bytes(),
        due: Due::Accepted,
    }
}

/// Neither figure of a toe, or of a heel, is 0, under a whole factored block.
const TOE_ABOVE_0: &[&str] = &["factored-whole", "not toe-shear-0", "not toe-moment-0"];
const HEEL_ABOVE_0: &[&str] = &[
    "factored-whole",
    "not heel-shear-below-0",
    "not heel-moment-below-0",
];

/// With a downstand anywhere.
fn keyed(random: &mut Random, wall: &mut RawWall) {
    put_any_downstand(random, wall);
}

fn at_front_edge(random: &mut Random, wall: &mut RawWall) {
    put_any_downstand(random, wall);
    wall[field::DOWNSTAND_POSITION] = 0;
}

fn at_back_edge(random: &mut Random, wall: &mut RawWall) {
    put_any_downstand(random, wall);
    wall[field::DOWNSTAND_POSITION] = length(wall) - wall[field::DOWNSTAND_THICKNESS];
}

/// As thick as a short base is long.
fn under_all_of_the_base(random: &mut Random) -> Option<Draft> {
    let mut wall = wide_wall(random);
    wall[field::TOE] = random.between(0, 300);
    wall[field::STEM_THICKNESS] = random.between(200, 500);
    wall[field::HEEL] = random.between(0, 700);
    put_any_downstand(random, &mut wall);
    wall[field::DOWNSTAND_POSITION] = 0;
    wall[field::DOWNSTAND_THICKNESS] = length(&wall);
    fit(&mut wall);
    Some(Draft::of(wall))
}

/// 5 x 100 x 100 x an odd number is half a newton and whole ones.
fn of_half_newtons(random: &mut Random, wall: &mut RawWall) {
    put_any_downstand(random, wall);
    wall[field::DOWNSTAND_DEPTH] = 10 * random.between(1, 99) + 5;
    wall[field::DOWNSTAND_THICKNESS] = 100;
    wall[field::BASE_DENSITY] = 200 * random.between(7, 14) + 100;
    fit(wall);
}

/// A deep downstand, with any water in its depth or the base's.
fn deep(random: &mut Random, wall: &mut RawWall) {
    put_any_downstand(random, wall);
    wall[field::DOWNSTAND_DEPTH] = random.between(500, 1000);
    wall[field::STEM_HEIGHT] = wall[field::STEM_HEIGHT].max(500);
    let base_top = wall[field::DOWNSTAND_DEPTH] + wall[field::BASE_THICKNESS];
    wall[field::WATER_HEIGHT] = random.between(0, base_top);
}

/// Ground in front that is dug away as far as the underside of the base, or a little
/// farther.
fn dug_away(random: &mut Random, wall: &mut RawWall) {
    put_any_downstand(random, wall);
    wall[field::KIND] = 1;
    wall[field::BASE_THICKNESS] = random.between(200, 700);
    wall[field::COVER_IN_FRONT] = 0;
    wall[field::EXCAVATION] = wall[field::BASE_THICKNESS] + random.between(0, 300);
    wall[field::TANGENT] = random.between(0, 300);
    fit(wall);
}

/// One wall again and again, with water at nought, about the underside of the base, about
/// its top, about the height at which it would wet the fill without the downstand, and at
/// the crest.
fn water_at_every_height(random: &mut Random) -> Option<Draft> {
    let mut wall = typical_wall(random);
    put_any_downstand(random, &mut wall);
    let (depth, base) = (wall[field::DOWNSTAND_DEPTH], wall[field::BASE_THICKNESS]);
    let (top, crest) = (depth + base, height(&wall));
    let in_fill = random.between(top + 2, crest - 2);
    let mut draft = Draft::default();
    for water in [
        0,
        depth - 1,
        depth,
        depth + 1,
        base,
        base + 1,
        top - 1,
        top,
        top + 1,
        in_fill,
        crest - 1,
        crest,
    ] {
        wall[field::WATER_HEIGHT] = water;
        draft.add(wall, &[]);
    }
    Some(draft)
}

/// A low wall that has the words wished.
fn low(random: &mut Random, words: &[&str]) -> Option<Draft> {
    let draft = Draft::of(low_wall(random));
    fits(&draft, words).then_some(draft)
}

/// A low wall on which one push turns the other way and another doesn't.
fn lever(random: &mut Random, negative: &str, other: &str) -> Option<Draft> {
    low(random, &[negative, &format!("not {other}")])
}

/// Which M6 is brought to 6Rl.
#[derive(Clone, Copy, PartialEq, Eq)]
enum Landed {
    Service,
    Factored,
}

/// Three low walls alike but for a step in the loads across: R stands just before the end
/// of the heel, at it and just past it.
fn around_six_rl(random: &mut Random, landed: Landed) -> Option<Draft> {
    let draft = Draft::of(low_wall(random));
    let wall = draft.walls[0];
    let top = crest(&wall);
    let load_height = random.between(top / 2, top);
    let mut joined = Draft::default();
    for landing in [Landing::Below, Landing::On, Landing::Above] {
        let tuned = match landed {
            Landed::Service => {
                let six_rl = |r, l| 6 * r * l;
                bring_service(&draft, six_rl, load_height, landing)?
            }
            Landed::Factored => bring_tip(
                &draft,
                HeelTriangle,
                2 * length(&wall),
                load_height,
                landing,
            )?,
        };
        joined.add(wall, &tuned.loads);
    }
    Some(joined)
}
