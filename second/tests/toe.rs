//! Document 02, "#105 Toe pressure past the end of contact". Figures that can't be
//! seen at once were worked apart from this program, by adding up the pressure over
//! the toe with exact fractions.

mod common;

use common::{accepted_jobs, borne_by_line, case_a};
use second::bearing::{Block, Case, Contact, Fraction, Reported};
use second::job_file::Wall;
use second::rounding::down;
use second::section::{toe_effects, Effects};
use second::sheet_line::work_job;
use second::toe::{borne, rounding_at_face_shows, Tip};
use second::Whole;

/// A wall with these lengths, mm, and case A's other fields.
fn wall(toe: Whole, stem: Whole, heel: Whole) -> Wall {
    Wall {
        toe,
        stem_thickness: stem,
        heel,
        ..case_a()
    }
}

/// lt 1000, a 1200, l 3000.
fn even_wall() -> Wall {
    wall(1000, 400, 1600)
}

/// a 1200.5, l 3000.
fn odd_wall() -> Wall {
    wall(1000, 401, 1599)
}

fn mm(over: Whole, under: Whole) -> Fraction {
    Fraction { over, under }
}

/// A factored triangle with this reported peak. Its exact peak has no part in what
/// is asked here, and is left at nought.
fn triangle(kind: Contact, peak: Whole, contact: Fraction) -> Reported {
    let (toe, heel) = match kind {
        Contact::HeelTriangle => (0, peak),
        _ => (peak, 0),
    };
    Reported {
        block: Block {
            kind,
            toe: mm(0, 1),
            heel: mm(0, 1),
            contact,
        },
        case: Case::Factored,
        toe,
        heel,
    }
}

fn pair(effects: Effects) -> (Whole, Whole) {
    (effects.shear, effects.moment)
}

/// Shear and moment of a toe triangle.
fn at_toe(wall: &Wall, peak: Whole, contact: Fraction) -> (Whole, Whole) {
    pair(borne(wall, &triangle(Contact::ToeTriangle, peak, contact)))
}

fn at_heel(wall: &Wall, peak: Whole, contact: Fraction) -> (Whole, Whole) {
    pair(borne(wall, &triangle(Contact::HeelTriangle, peak, contact)))
}

#[test]
fn a_toe_triangle_that_ends_before_the_face_bears_all_it_has() {
    let wall = even_wall();
    // 300000 N/m2 x 0.6 m / 2, a fifth of a metre from the toe.
    assert_eq!(at_toe(&wall, 300_000, mm(600, 1)), (90_000, 90_000_000));
    assert_eq!(at_toe(&wall, 300_000, mm(999, 1)), (149_850, 129_919_950));
    assert_eq!(at_toe(&wall, 300_000, mm(1000, 1)), (150_000, 130_000_000));
}

#[test]
fn past_the_face_only_the_part_under_the_toe_counts_for_shear() {
    let wall = even_wall();
    assert_eq!(at_toe(&wall, 300_000, mm(1001, 1)), (150_150, 130_079_950));
    // 300000 N/m2 falls to 27272.7 under the face, a metre away.
    assert_eq!(at_toe(&wall, 300_000, mm(1100, 1)), (163_637, 137_500_000));
}

#[test]
fn from_the_middle_on_document_01_stands() {
    let wall = even_wall();
    assert_eq!(at_toe(&wall, 300_000, mm(1200, 1)), (175_000, 144_000_000));
    assert_eq!(at_toe(&wall, 300_000, mm(1201, 1)), (175_105, 144_060_000));
    // By 50209 under the face and 250 under the middle, each rounded up before use.
    let bearing = triangle(Contact::ToeTriangle, 300_000, mm(1201, 1));
    assert_eq!(borne(&wall, &bearing), borne_by_line(&wall, &bearing));
}

/// Half a mm before the middle of an odd stem, and at it.
#[test]
fn the_middle_of_an_odd_stem_is_exact() {
    let wall = odd_wall();
    assert_eq!(at_toe(&wall, 300_000, mm(1200, 1)), (175_000, 144_090_000));
    assert_eq!(at_toe(&wall, 300_000, mm(2401, 2)), (175_053, 144_120_025));
    let tip = |over| Tip::of(&wall, &triangle(Contact::ToeTriangle, 1, mm(over, 2)));
    assert_eq!(tip(2400), Some(Tip::BeforeMiddle));
    assert_eq!(tip(2401), Some(Tip::AtMiddle));
    assert_eq!(tip(2402), Some(Tip::PastMiddle));
}

/// The triangle's own shear is 478126.59, so that it would be 478127.
#[test]
fn at_the_middle_the_pressure_under_the_face_is_rounded_first() {
    let wall = wall(3000, 400, 1600);
    let at_middle = |peak| triangle(Contact::ToeTriangle, peak, mm(3200, 1));
    let rounded = at_middle(300_001);
    assert_eq!(pair(borne(&wall, &rounded)), (478_128, 1_024_003_414));
    assert!(rounding_at_face_shows(&wall, &rounded));
    // A sixteenth of 300000 is whole.
    assert!(!rounding_at_face_shows(&wall, &at_middle(300_000)));
}

#[test]
fn each_of_both_is_rounded_once() {
    let wall = even_wall();
    // 50000.17 and 54444625.93; from the rounded shear it would be 54445534.
    assert_eq!(at_toe(&wall, 300_001, mm(1000, 3)), (50_001, 54_444_626));
    // 163678.22 and 137523786.19; with the contact rounded up the shear were 163762.
    assert_eq!(at_toe(&wall, 300_001, mm(3301, 3)), (163_679, 137_523_787));
    // 7156.15 and 3256438.35.
    assert_eq!(at_heel(&wall, 300_001, mm(7001, 3)), (7157, 3_256_439));
}

#[test]
fn a_heel_triangle_bears_from_its_start_on() {
    let wall = even_wall();
    // It starts 500 mm from the toe: 60000 N/m2 under the face, 84000 under the middle.
    assert_eq!(at_heel(&wall, 300_000, mm(2500, 1)), (15_000, 6_860_000));
    assert_eq!(at_heel(&wall, 300_000, mm(2900, 1)), (41_897, 22_948_276));
}

#[test]
fn a_heel_triangle_that_starts_late_bears_less_or_nothing() {
    let wall = even_wall();
    let starts_at = |from_toe: Whole| at_heel(&wall, 300_000, mm(3000 - from_toe, 1));
    assert_eq!(starts_at(999), (1, 202_914));
    assert_eq!(starts_at(1000), (0, 200_000));
    assert_eq!(starts_at(1001), (0, 197_114));
    assert_eq!(starts_at(1100), (0, 26_316));
    assert_eq!(starts_at(1199), (0, 1));
    assert_eq!(starts_at(1200), (0, 0));
    assert_eq!(starts_at(1201), (0, 0));
    assert_eq!(starts_at(2999), (0, 0));
}

#[test]
fn each_place_of_a_tip_is_told() {
    let wall = even_wall();
    let of = |kind, contact| Tip::of(&wall, &triangle(kind, 1, mm(contact, 2)));
    let places = [
        (1999, Tip::BeforeFace),
        (2000, Tip::AtFace),
        (2001, Tip::BeforeMiddle),
        (2399, Tip::BeforeMiddle),
        (2400, Tip::AtMiddle),
        (2401, Tip::PastMiddle),
    ];
    for (twice_tip, tip) in places {
        assert_eq!(of(Contact::ToeTriangle, twice_tip), Some(tip));
        assert_eq!(of(Contact::HeelTriangle, 6000 - twice_tip), Some(tip));
    }
    assert_eq!(of(Contact::Whole, 6000), None);
}

/// As many parts of a mm as the heaviest wall's contact has, and a whole number of
/// mm; then a part more and a part less. The heel's product has 144 bits.
#[test]
fn the_longest_products_are_exact() {
    let parts = 170_169_986;
    let toe = |more: Whole| at_toe(&even_wall(), 300_000, mm(600 * parts + more, parts));
    assert_eq!(toe(-1), (90_000, 90_000_000));
    assert_eq!(toe(0), (90_000, 90_000_000));
    assert_eq!(toe(1), (90_001, 90_000_001));
    let longest = wall(5000, 1500, 5000);
    let heel = |more: Whole| at_heel(&longest, 1_980_000, mm(11_000 * parts + more, parts));
    assert_eq!(heel(-1), (1_822_500, 4_341_093_750));
    assert_eq!(heel(0), (1_822_500, 4_341_093_750));
    assert_eq!(heel(1), (1_822_501, 4_341_093_751));
}

/// 1.4 x 24000 N/m3 x 0.3 m: over a metre 10080 N, over a 7257600 N mm.
#[test]
fn the_toe_weighs_all_along_however_little_bears() {
    let wall = even_wall();
    let effects = |kind, contact| {
        let bearing = triangle(kind, 300_000, mm(contact, 1));
        pair(toe_effects(&wall, &bearing))
    };
    let (shear, moment) = (90_000 - 10_080, 90_000_000 - 7_257_600);
    assert_eq!(effects(Contact::ToeTriangle, 600), (shear, moment));
    let (shear, moment) = (41_897 - 10_080, 22_948_276 - 7_257_600);
    assert_eq!(effects(Contact::HeelTriangle, 2900), (shear, moment));
    // 15000 N are more than the weight, 6860000 N mm less.
    assert_eq!(effects(Contact::HeelTriangle, 2500), (4920, 0));
    assert_eq!(effects(Contact::HeelTriangle, 1900), (0, 0));
}

/// The walls of generated jobs that have a toe with a factored block under it.
fn toes() -> impl Iterator<Item = (String, Wall, Reported, Whole)> {
    accepted_jobs(40).into_iter().flat_map(|(name, job)| {
        let worked = work_job(&job);
        let pairs = job.walls.into_iter().zip(worked);
        let with_toe = pairs.filter(|(wall, _)| wall.toe > 0);
        let given = with_toe.filter_map(|(wall, worked)| {
            let bearing = *worked.factored_bearing.given()?;
            Some((wall, bearing, worked.factored.r))
        });
        given
            .map(|(wall, bearing, r)| (name.clone(), wall, bearing, r))
            .collect::<Vec<_>>()
    })
}

/// A triangle that ends under the toe bears R there, and so does the toe; but for
/// its peak, which is less than 1 N/m2 too great, and the rounding to a whole N.
#[test]
fn a_toe_over_all_of_the_contact_bears_r() {
    let mut seen = 0;
    for (name, wall, bearing, r) in toes() {
        let tip = Tip::of(&wall, &bearing);
        let all = matches!(tip, Some(Tip::BeforeFace | Tip::AtFace));
        if bearing.block.kind == Contact::ToeTriangle && all {
            let shear = borne(&wall, &bearing).shear;
            let contact = bearing.block.contact;
            assert!(10 * shear >= r, "{name}");
            let most = down(r, 10) + 1 + down(contact.over, 2000 * contact.under) + 1;
            assert!(shear <= most, "{name}: {shear} and not {most}");
            seen += 1;
        }
    }
    assert!(seen > 30, "{seen}");
}

/// The request takes steel away and never adds any. Of a whole block, and of a toe
/// triangle as far as the middle of the stem, nothing changes.
#[test]
fn no_toe_bears_more_than_by_document_01_alone() {
    let (mut kept, mut less) = (0, [0; 3]);
    for (name, wall, bearing, _) in toes() {
        let (now, before) = (borne(&wall, &bearing), borne_by_line(&wall, &bearing));
        let kind = bearing.block.kind;
        let tip = Tip::of(&wall, &bearing);
        let stands = match kind {
            Contact::Whole => true,
            Contact::ToeTriangle => matches!(tip, Some(Tip::AtMiddle | Tip::PastMiddle)),
            Contact::HeelTriangle => false,
        };
        if stands {
            assert_eq!(now, before, "{name}");
            kept += 1;
        } else {
            assert!(now.shear <= before.shear, "{name}");
            assert!(now.moment <= before.moment, "{name}");
            less[kind as usize] += usize::from(now.moment < before.moment);
        }
    }
    assert!(kept > 500, "{kept}");
    let [_, toe, heel] = less;
    assert!(toe > 50 && heel > 50, "{less:?}");
}
