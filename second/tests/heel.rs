//! Document 02, "#103 Heel steel". Figures that can't be seen at once were worked apart
//! from this program, by adding up the pressure's powers with exact fractions.

mod common;

use common::{accepted_jobs, case_a, case_a_draft, CASE_A, CASE_A_LINE};
use second::bearing::{block, Bearing, Block, Case, Contact, Fraction, Reported};
use second::generator::draft::{Draft, ACROSS, DOWN};
use second::heel::{borne, heel_effects, pressed_down, weighed, Ground, Reach};
use second::job_file::{field, RawLoad, RawWall, Wall};
use second::section::Effects;
use second::sheet;
use second::sheet_line::{work_job, Worked, HEEL_STEEL, SHEAR};
use second::Whole;

/// A wall with these lengths, mm, and case A's other fields.
fn wall(toe: Whole, stem: Whole, heel: Whole) -> Wall {
    Wall {
        toe,
        stem_thickness: stem,
        heel,
        ..case_a()
    }
}

/// The middle of the stem at 1200, its back face at 1400, l 3000.
fn even_wall() -> Wall {
    wall(1000, 400, 1600)
}

/// 1200.5, 1401 and 3000.
fn odd_wall() -> Wall {
    wall(1000, 401, 1599)
}

fn mm(over: Whole, under: Whole) -> Fraction {
    Fraction { over, under }
}

/// A factored block with these exact pressures, N/m2. What it reports has no part in
/// what is asked here, and is left at nought.
fn pressing(kind: Contact, toe: Whole, heel: Whole, contact: Fraction) -> Reported {
    // Tenths of a kN/m2.
    let pressure = |newtons| mm(newtons, 100);
    Reported {
        block: Block {
            kind,
            toe: pressure(toe),
            heel: pressure(heel),
            contact,
        },
        case: Case::Factored,
        toe: 0,
        heel: 0,
    }
}

fn pair(effects: Effects) -> (Whole, Whole) {
    (effects.shear, effects.moment)
}

/// What is borne of a toe triangle of 300 kN/m2.
fn of_toe_triangle(wall: &Wall, contact: Fraction) -> (Whole, Whole) {
    let bearing = pressing(Contact::ToeTriangle, 300_000, 0, contact);
    pair(borne(wall, &bearing))
}

/// And of a heel triangle, by twice the distance of its start from the toe.
fn of_heel_triangle(wall: &Wall, twice_start: Whole) -> (Whole, Whole) {
    let contact = mm(2 * wall.base_length() - twice_start, 2);
    let bearing = pressing(Contact::HeelTriangle, 0, 300_000, contact);
    pair(borne(wall, &bearing))
}

fn of_whole(wall: &Wall, toe: Whole, heel: Whole) -> (Whole, Whole) {
    let l = mm(wall.base_length(), 1);
    pair(borne(wall, &pressing(Contact::Whole, toe, heel, l)))
}

#[test]
fn a_toe_triangle_bears_what_reaches_past_the_back_face_and_past_the_middle() {
    let of = |contact| of_toe_triangle(&even_wall(), mm(contact, 1));
    assert_eq!(of(600), (0, 0));
    assert_eq!(of(1190), (0, 0));
    assert_eq!(of(1200), (0, 0));
    // 0.04 N mm.
    assert_eq!(of(1201), (0, 0));
    assert_eq!(of(1210), (0, 41));
    assert_eq!(of(1390), (0, 246_726));
    assert_eq!(of(1400), (0, 285_714));
    // 0.1 N.
    assert_eq!(of(1401), (0, 289_814));
    assert_eq!(of(1410), (10, 328_404));
    // 20 kN/m2 at the back face, 60 at the middle.
    assert_eq!(of(1500), (1000, 900_000));
    // 90 and 120.
    assert_eq!(of(2000), (27_000, 12_800_000));
    assert_eq!(of(2999), (127_882, 97_070_446));
}

#[test]
fn a_whole_block_bears_a_trapezium() {
    let wall = even_wall();
    // 72 kN/m2 at the back face, 76 at the middle: (72 + 40) x 1.6 / 2 kN and
    // (76 + 2 x 40) x 1.8^2 / 6 kNm.
    assert_eq!(of_whole(&wall, 100_000, 40_000), (89_600, 84_240_000));
    // 42666.7 N.
    assert_eq!(of_whole(&wall, 100_000, 0), (42_666, 32_400_000));
    assert_eq!(of_whole(&wall, 0, 100_000), (117_333, 129_600_000));
}

#[test]
fn a_heel_triangle_bears_all_that_it_is_or_what_is_left_of_it() {
    let of = |start: Whole| of_heel_triangle(&even_wall(), 2 * start);
    // 108 kN/m2 at the back face, 84 at the middle.
    assert_eq!(of(500), (326_400, 369_360_000));
    assert_eq!(of(1199), (266_785, 324_089_950));
    assert_eq!(of(1200), (266_666, 324_000_000));
    assert_eq!(of(1201), (266_548, 323_909_950));
    assert_eq!(of(1399), (240_149, 304_109_950));
    // From here on the force is half the peak times the contact, a third of it from the
    // heel's end.
    assert_eq!(of(1400), (240_000, 304_000_000));
    assert_eq!(of(1401), (239_850, 303_889_950));
    assert_eq!(of(2400), (90_000, 144_000_000));
    assert_eq!(of(2999), (150, 269_950));
}

/// Half millimetres at the middle of the stem.
#[test]
fn the_middle_of_an_odd_stem_is_exact() {
    let wall = odd_wall();
    let toe = |twice_contact| of_toe_triangle(&wall, mm(twice_contact, 2));
    assert_eq!(toe(2400), (0, 0));
    assert_eq!(toe(2401), (0, 0));
    assert_eq!(toe(2402), (0, 0));
    assert_eq!(toe(2421), (0, 41));
    assert_eq!(toe(2802), (0, 287_657));
    assert_eq!(toe(2900), (248, 535_566));
    let heel = |twice_start| of_heel_triangle(&wall, twice_start);
    assert_eq!(heel(2400), (266_633, 323_865_000));
    assert_eq!(heel(2401), (266_574, 323_820_025));
    assert_eq!(heel(2402), (266_514, 323_775_025));
}

#[test]
fn each_place_of_a_tip_is_told() {
    for (wall, middle, back) in [(even_wall(), 2400, 2800), (odd_wall(), 2401, 2802)] {
        let end = 2 * wall.base_length();
        let toe = |twice_tip| pressing(Contact::ToeTriangle, 1, 0, mm(twice_tip, 2));
        let heel = |twice_tip| pressing(Contact::HeelTriangle, 0, 1, mm(end - twice_tip, 2));
        let places = [
            (1, Reach::BeforeMiddle),
            (middle - 1, Reach::BeforeMiddle),
            (middle, Reach::AtMiddle),
            (middle + 1, Reach::BeforeBack),
            (back - 1, Reach::BeforeBack),
            (back, Reach::AtBack),
            (back + 1, Reach::PastBack),
            (end - 1, Reach::PastBack),
        ];
        for (twice_tip, reach) in places {
            assert_eq!(Reach::of(&wall, &toe(twice_tip)), Some(reach));
            assert_eq!(Reach::of(&wall, &heel(twice_tip)), Some(reach));
        }
        let whole = |heel| pressing(Contact::Whole, 7, heel, mm(end / 2, 1));
        assert_eq!(Reach::of(&wall, &whole(0)), Some(Reach::AtEnd));
        assert_eq!(Reach::of(&wall, &whole(1)), None);
    }
}

/// 1.4 x 24000 N/m3 x 0.3 m of base: 16128 N over lh, and over 1.8 m 16329.6 Nm. 1.4 x
/// 86400 N of fill and 1.6 x 16000 N of surcharge stand a metre from the middle.
#[test]
fn base_fill_and_surcharge_weigh_on_a_heel() {
    let wall = even_wall();
    let (n, n_mm) = (1_000_000, 8_000_000);
    let parts = weighed(&wall).map(pair);
    let due = [
        (16_128 * n, 16_329_600 * n_mm),
        (120_960 * n, 120_960_000 * n_mm),
        (25_600 * n, 25_600_000 * n_mm),
    ];
    assert_eq!(parts, due);
    assert_eq!(pair(pressed_down(&wall)), (162_688, 162_889_600));
}

/// 162586.32 N and 162788929.26 N mm.
#[test]
fn the_sum_is_rounded_up_once() {
    assert_eq!(pair(pressed_down(&odd_wall())), (162_587, 162_788_930));
    // 13487.046 + 100774.8 + 21328 N: each part rounded up would make 135591, and in N mm
    // 117759767.
    let heavy = Wall {
        base_density: 2401,
        base_thickness: 301,
        ..wall(1000, 401, 1333)
    };
    assert_eq!(pair(pressed_down(&heavy)), (135_590, 117_759_766));
    // Fill of 25037 N saturated and 47726 moist, surcharge of 4439; by parts it would be
    // 122409 and 106329688.
    let wet = Wall {
        water_height: 1234,
        moist_density: 1733,
        saturated_density: 2011,
        surcharge: 333,
        ..wall(1000, 401, 1333)
    };
    assert_eq!(pair(pressed_down(&wet)), (122_408, 106_329_687));
}

/// Fill and surcharge are whole newtons before their factors: 5.5 N are 6, and 1.5 are 2.
#[test]
fn fill_and_surcharge_are_rounded_before_they_are_factored() {
    let halves = Wall {
        stem_height: 550,
        moist_density: 1000,
        surcharge: 150,
        ..wall(1000, 400, 1)
    };
    // Of base it is 1.4 x 7.2 N, exact. Unrounded all three would be 20.18 N.
    let [slab, fill, surcharge] = weighed(&halves).map(|part| part.shear);
    assert_eq!((slab, fill, surcharge), (10_080_000, 8_400_000, 3_200_000));
    assert_eq!(pressed_down(&halves).shear, 22);
}

/// 6400.02 N and 3048899.05 N mm; 315453.13 and 361047625.43.
#[test]
fn bearing_is_rounded_down_once() {
    let wall = even_wall();
    let toe = pressing(Contact::ToeTriangle, 300_001, 0, mm(5000, 3));
    assert_eq!(pair(borne(&wall, &toe)), (6400, 3_048_899));
    let heel = pressing(Contact::HeelTriangle, 0, 300_001, mm(7001, 3));
    assert_eq!(pair(borne(&wall, &heel)), (315_453, 361_047_625));
}

/// 162688 N and 162889600 N mm weigh on the heel.
#[test]
fn what_is_left_is_down_less_up_and_not_below_0() {
    let wall = even_wall();
    let toe = pressing(Contact::ToeTriangle, 300_000, 0, mm(2000, 1));
    let left = (162_688 - 27_000, 162_889_600 - 12_800_000);
    assert_eq!(pair(heel_effects(&wall, &toe)), left);
    let heel = |contact| pressing(Contact::HeelTriangle, 0, 300_000, mm(contact, 1));
    assert_eq!(pair(heel_effects(&wall, &heel(2500))), (0, 0));
    // 90000 N at 1600 mm from the middle.
    let left = (162_688 - 90_000, 162_889_600 - 144_000_000);
    assert_eq!(pair(heel_effects(&wall, &heel(600))), left);
    // 105000 N at 1567 mm are more in moment and less in shear.
    assert_eq!(pair(heel_effects(&wall, &heel(700))), (57_688, 0));
}

/// The factored R of the heaviest wall there is, in tenths of a N, with M6 at each end of
/// every kind of block and a step to either side. Products have up to 186 bits.
#[test]
fn the_widest_walls_are_exact() {
    const R: Whole = 85_085_000;
    let even = wall(5000, 1500, 5000);
    let odd = wall(5000, 1499, 5000);
    let of = |wall: &Wall, m6| {
        let block = block(R, m6, wall.base_length()).unwrap();
        let bearing = Reported::of(block, Case::Factored);
        (block.kind, pair(borne(wall, &bearing)))
    };
    let held = |wall: &Wall, m6, due: [(Contact, (Whole, Whole)); 3]| {
        assert_eq!([of(wall, m6 - 1), of(wall, m6), of(wall, m6 + 1)], due);
    };
    use Contact::{HeelTriangle as Heel, ToeTriangle as Toe, Whole as All};
    let (rl, rl_odd) = (R * 11_500, R * 11_499);
    held(&even, R * 11_500, [(Toe, (0, 0)); 3]);
    held(&even, R * 13_000, [(Toe, (0, 28_319_711)); 3]);
    let end = (1_608_412, 4_076_989_583);
    held(&even, 2 * rl, [(Toe, end), (All, end), (All, end)]);
    let level = |moment| (All, (3_699_347, moment));
    let even_pressure = [12_230_968_749, 12_230_968_750, 12_230_968_750];
    held(&even, 3 * rl, even_pressure.map(level));
    let start = (5_790_283, 20_384_947_916);
    held(&even, 4 * rl, [(All, start), (All, start), (Heel, start)]);
    let middle = (8_363_742, 32_615_916_666);
    held(&even, 4 * rl + R * 11_500, [(Heel, middle); 3]);
    // At the back face all of R: 8508500 N.
    let back = [8_508_499, 8_508_500, 8_508_500];
    let at_back = |force| (Heel, (force, 34_743_041_666));
    held(&even, 4 * rl + R * 13_000, back.map(at_back));
    held(&odd, R * 11_499, [(Toe, (0, 0)); 3]);
    held(&odd, R * 12_998, [(Toe, (0, 28_271_808)); 3]);
    let end = (1_608_691, 4_076_635_062);
    held(&odd, 2 * rl_odd, [(Toe, end), (All, end), (All, end)]);
    let odd_middle = [32_613_080_499, 32_613_080_500, 32_613_080_500];
    let at_middle = |moment| (Heel, (8_363_910, moment));
    held(&odd, 4 * rl_odd + R * 11_499, odd_middle.map(at_middle));
}

/// Every field that weighs at its most, and eight loads of the most in one place; the
/// lines were worked apart.
#[test]
fn the_heaviest_walls_have_their_lines() {
    let with = |k: u32, position: u32| {
        let wall: RawWall = [
            0, 8000, 1500, 5000, 5000, 1500, 0, 0, 0, 3000, 3000, 3000, 3000, 3000, k, k, 15_000,
            1000, 1000, 10_000, 60, 500, 100, 20, 40, 50, 20, 40, 50, 5000, 5000, 20, 40, 50, 5000,
            0, 0, 0,
        ];
        let mut draft = Draft::of(wall);
        draft.loads = vec![[1, DOWN, position, 200_000, 200_000]; 8];
        let worked = work_job(&draft.job()).remove(0);
        assert_eq!(worked.factored.r, 85_085_000);
        worked
    };
    let figures = |worked: &Worked| worked.heel.map(|heel| pair(heel.effects));
    // On the end of the toe: a toe triangle reaches past the back face.
    assert_eq!(figures(&with(1, 0)), Some((1_615_472, 6_517_596_305)));
    // In the middle of the stem more is borne than weighs, and on the heel's end the
    // peak is too great.
    assert_eq!(figures(&with(1, 5750)), Some((0, 0)));
    assert_eq!(figures(&with(1, 11_500)), None);
}

/// The walls of generated jobs whose heel is checked.
fn heels() -> impl Iterator<Item = (String, Wall, Worked, Reported)> {
    accepted_jobs(40).into_iter().flat_map(|(name, job)| {
        let worked = work_job(&job);
        let pairs = job.walls.into_iter().zip(worked);
        let checked = pairs.filter(|(_, worked)| worked.heel.is_some());
        let given = checked.filter_map(|(wall, worked)| {
            let bearing = *worked.factored_bearing.given()?;
            Some((wall, worked, bearing))
        });
        given
            .map(|(wall, worked, bearing)| (name.clone(), wall, worked, bearing))
            .collect::<Vec<_>>()
    })
}

/// Before any rounding: what is borne under lh and under the rest of the base is R, and
/// the moment about the middle of what is behind it, with that of the rest, is M6.
#[test]
fn the_parts_of_a_base_make_r_and_m6() {
    let mut seen = 0;
    for (name, wall, worked, bearing) in heels() {
        let ground = Ground::of(&wall, &bearing);
        let Ground {
            middle, back, end, ..
        } = ground;
        let under_heel = ground.force_between(back, end);
        let force = ground.force_between(0, back).plus(under_heel);
        // Tenths of a N.
        let r = ground.newton().times(worked.factored.r as u64);
        assert_eq!(force.times(10), r, "{name}");
        let in_two = ground.force_between(0, middle);
        assert_eq!(in_two.plus(ground.force_between(middle, end)), force);
        // About the toe: a N mm has three parts for each part of a N and of a mm.
        let behind = ground.moment_between(middle, middle, end);
        let carried = ground.force_between(middle, end).times(3 * middle as u64);
        let before = ground.moment_between(0, 0, middle);
        let moment = before.plus(behind).plus(carried);
        assert_eq!(moment, ground.moment_between(0, 0, end), "{name}");
        // Tenths of sixths of a N mm.
        let m6 = ground.newton_mm().times(worked.factored.m6 as u64);
        assert_eq!(moment.times(60), m6, "{name}");
        seen += 1;
    }
    assert!(seen > 1000, "{seen}");
}

/// However the heel is cut in two, both parts make the whole.
#[test]
fn a_heel_in_two_parts_bears_as_much() {
    for (name, wall, _, bearing) in heels().step_by(7) {
        let ground = Ground::of(&wall, &bearing);
        let Ground {
            middle, back, end, ..
        } = ground;
        for cut in [back + 1, (back + end) / 2, end - 1] {
            let force = ground.force_between(back, cut);
            let force = force.plus(ground.force_between(cut, end));
            assert_eq!(force, ground.force_between(back, end), "{name}");
            let moment = ground.moment_between(middle, middle, cut);
            let moment = moment.plus(ground.moment_between(middle, cut, end));
            let whole = ground.moment_between(middle, middle, end);
            assert_eq!(moment, whole, "{name}");
        }
    }
}

/// With no heel, or no factored block given, the three figures are 0 and nothing fails
/// for the heel. Else V and M are 0 just where as much is borne as weighs or more, and
/// the area is what is required for them all the same.
#[test]
fn a_heel_is_0_just_where_it_is_said() {
    let (mut left_out, mut nought) = ([0; 2], [0; 2]);
    for (name, job) in accepted_jobs(40) {
        for (wall, worked) in job.walls.iter().zip(work_job(&job)) {
            let bearing = worked.factored_bearing.given();
            let Some(bearing) = bearing.filter(|_| wall.heel > 0) else {
                left_out[usize::from(wall.heel > 0)] += 1;
                assert!(worked.heel.is_none(), "{name}");
                assert_eq!(worked.numbers()[16..], [0; 3], "{name}");
                assert_eq!(worked.failures & HEEL_STEEL, 0, "{name}");
                let toe = worked.toe.is_some_and(|toe| toe.shear_fails);
                let shear = toe || worked.stem.shear_fails;
                assert_eq!(worked.failures & SHEAR != 0, shear, "{name}");
                continue;
            };
            let heel = worked.heel.unwrap();
            let (down, up) = (pressed_down(wall), borne(wall, bearing));
            let Effects { shear, moment } = heel.effects;
            assert_eq!(shear == 0, down.shear <= up.shear, "{name}");
            assert_eq!(moment == 0, down.moment <= up.moment, "{name}");
            nought[0] += usize::from(shear == 0);
            nought[1] += usize::from(moment == 0);
            let numbers = worked.numbers();
            assert_eq!(numbers[16..], [shear, moment, heel.required], "{name}");
            if moment == 0 {
                assert_eq!(heel.required, 10 * wall.least_steel * wall.base_thickness);
            }
        }
    }
    let all = [left_out, nought].concat();
    assert!(all.iter().all(|count| *count > 50), "{all:?}");
}

/// Case A with some fields of the wall changed, and loads.
fn line_with(changes: &[(usize, u32)], loads: &[RawLoad]) -> String {
    let mut draft = case_a_draft();
    for (place, value) in changes {
        draft.walls[0][*place] = *value;
    }
    draft.loads = loads.to_vec();
    sheet(&draft.bytes())
}

/// The failures' three digits, and the heel's figures.
fn heel_of(line: &str) -> (&str, Vec<&str>) {
    let words: Vec<&str> = line.trim_end().split(' ').collect();
    (words[1], words[16..].to_vec())
}

#[test]
fn a_heel_fails_alone() {
    let figures = vec!["75042", "88187024", "84824"];
    assert_eq!(heel_of(CASE_A_LINE), ("000", figures.clone()));
    // 201.06 mm2 at every 237 mm are 848.35, and at every 238 844.78.
    let spacing = |mm| line_with(&[(field::HEEL_SPACING, mm)], &[]);
    assert_eq!(heel_of(&spacing(237)), ("000", figures.clone()));
    assert_eq!(heel_of(&spacing(238)), ("100", figures.clone()));
    // D is 504: 2V is 297.8 x D.
    let stress = |stress| line_with(&[(field::HEEL_SHEAR_STRESS, stress)], &[]);
    assert_eq!(heel_of(&stress(298)), ("000", figures.clone()));
    assert_eq!(heel_of(&stress(297)), ("080", figures.clone()));
    let both = [(field::HEEL_SPACING, 238), (field::HEEL_SHEAR_STRESS, 297)];
    assert_eq!(heel_of(&line_with(&both, &[])), ("180", figures));
}

#[test]
fn a_heel_of_no_length_or_with_no_block_isnt_checked() {
    let weak = [
        (field::HEEL_BAR, 8),
        (field::HEEL_SPACING, 500),
        (field::HEEL_SHEAR_STRESS, 1),
    ];
    let nothing = vec!["0", "0", "0"];
    // Loads that hold the wall where it has no heel, and that throw it where it has one.
    let no_heel = [&weak[..], &[(field::HEEL, 0)]].concat();
    let line = line_with(&no_heel, &[[1, DOWN, 500, 200_000, 200_000]]);
    let (failures, figures) = heel_of(&line);
    assert_eq!(figures, nothing);
    assert_eq!(u16::from_str_radix(failures, 16).unwrap() & 0x110, 0);
    let line = line_with(&weak, &[[1, ACROSS, 3300, 200_000, 0]]);
    let (failures, figures) = heel_of(&line);
    assert_eq!(figures, nothing);
    assert_eq!(u16::from_str_radix(failures, 16).unwrap() & 0x110, 0x10);
}

/// The heel has its own cage and stress, and toe and stem have theirs.
#[test]
fn no_part_takes_the_cage_of_another() {
    let numbers = |raw: RawWall| work_job(&Draft::of(raw).job())[0].numbers();
    let due = numbers(CASE_A);
    for (place, value) in (23..31).zip([41, 10, 199, 41, 20, 149, 500, 500]) {
        let mut raw = CASE_A;
        raw[place] = value;
        assert_eq!(numbers(raw)[16..], due[16..], "field {}", place + 1);
    }
    for (place, value) in (31..35).zip([41, 20, 149, 500]) {
        let mut raw = CASE_A;
        raw[place] = value;
        assert_eq!(numbers(raw)[2..16], due[2..16], "field {}", place + 1);
    }
    // More cover to the heel's bars, or thicker ones, leave it less depth.
    for (place, value) in [(field::HEEL_COVER, 60), (field::HEEL_BAR, 40)] {
        let mut raw = CASE_A;
        raw[place] = value;
        assert!(numbers(raw)[18] > due[18]);
    }
}

/// A load in two halves about the back face leaves R and M6 as they were, though one
/// half stands over the heel. What weighs there is what it was.
#[test]
fn a_load_over_the_heel_counts_in_the_block_alone() {
    let together = line_with(&[], &[[1, DOWN, 800, 40_000, 20_000]]);
    let half = |position| [1, DOWN, position, 20_000, 10_000];
    assert_eq!(line_with(&[], &[half(300), half(1300)]), together);
    let (_, figures) = heel_of(&together);
    let (_, bare) = heel_of(CASE_A_LINE);
    assert_ne!(figures, bare);
}

/// Pressures in tenths of a kN/m2 and of R in tenths of a N come to whole N; the block is
/// the one that is given, and not its reported peak.
#[test]
fn case_a_by_hand() {
    let job = case_a_draft().job();
    let worked = work_job(&job).remove(0);
    let (wall, total) = (&job.walls[0], worked.factored);
    // A toe triangle: 2 x R / contact is 173.08 kN/m2.
    let bearing = Bearing::of(total.r, total.m6, 2300, Case::Factored);
    let bearing = bearing.given().unwrap();
    assert_eq!(bearing.block.kind, Contact::ToeTriangle);
    assert_eq!(Reach::of(wall, bearing), Some(Reach::PastBack));
    // 1.4 x 10800 of base, 1.4 x 81000 of fill, 1.6 x 15000 of surcharge.
    let down = pressed_down(wall);
    assert_eq!(
        pair(down),
        (15_120 + 113_400 + 24_000, 123_660_000 + 13_721_400)
    );
    let up = borne(wall, bearing);
    assert_eq!(down.shear - up.shear, 75_042);
    assert_eq!(down.moment - up.moment, 88_187_024);
}
