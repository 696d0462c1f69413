//! Document 02, "#107 Downstands": each of its rules by hand and on generated walls, and
//! that a wall without one is answered as before.

mod common;

use common::{accepted_jobs, case_a, case_a_draft, downstand_jobs, CASE_A, CASE_A_LINE};
use second::answers::accept;
use second::bearing::{block, Bearing, Case, Contact};
use second::downstand::Underfoot;
use second::drawing::{draw, Shape};
use second::forces::{
    factored_totals, friction, passive_depth, passive_force, pushes, service_totals, weights,
    Action, Back, Totals,
};
use second::generator::draft::{Draft, ACROSS, DOWN};
use second::heel::pressed_down;
use second::job_file::{field, Direction, Downstand, Load, RawLoad, RawWall, Wall, WALL_FIELDS};
use second::rounding::{down, half_up, up};
use second::section::{stem_effects, toe_effects};
use second::sheet_line::{work_job, work_wall, NO_FACTORED_BLOCK, NO_SERVICE_BLOCK};
use second::{sheet, Whole};

/// Case A with a downstand.
fn keyed(depth: u32, position: u32, thickness: u32) -> RawWall {
    let mut wall = CASE_A;
    wall[field::DOWNSTAND_DEPTH] = depth;
    wall[field::DOWNSTAND_POSITION] = position;
    wall[field::DOWNSTAND_THICKNESS] = thickness;
    wall
}

/// A stem of 500 mm on a base of 200 x 200 with a downstand of a metre below all of it:
/// h 1700, and nothing but moist fill behind it.
fn low() -> RawWall {
    let mut wall = keyed(1000, 0, 200);
    for (place, value) in [
        (field::STEM_HEIGHT, 500),
        (field::STEM_THICKNESS, 200),
        (field::TOE, 0),
        (field::HEEL, 0),
        (field::BASE_THICKNESS, 200),
        (field::KA, 500),
        (field::SURCHARGE, 0),
    ] {
        wall[place] = value;
    }
    wall
}

fn five(total: Totals) -> [Whole; 5] {
    [total.r, total.h, total.mrest, total.mot, total.m6]
}

fn with(raw: RawWall, changes: &[(usize, u32)]) -> RawWall {
    let mut raw = raw;
    for (place, value) in changes {
        raw[*place] = *value;
    }
    raw
}

fn wall_with(raw: RawWall, changes: &[(usize, u32)]) -> Wall {
    Wall::from_raw(&with(raw, changes))
}

/// Every wall of the generated jobs that has a downstand, with its loads.
fn walls_with_downstands() -> Vec<(String, Wall, Vec<Load>)> {
    let mut all = Vec::new();
    for (name, job) in accepted_jobs(25) {
        for (wall, loads) in job.walls.iter().zip(job.loads_by_wall()) {
            if wall.downstand.depth > 0 {
                all.push((name.clone(), wall.clone(), loads));
            }
        }
    }
    assert!(all.len() > 400, "{}", all.len());
    all
}

#[test]
fn the_heights_go_by_the_depth() {
    let heights = |wall: Wall| (wall.height(), wall.crest(), wall.water_on_base());
    let wet = |depth, water| {
        let raw = with(keyed(depth, 0, 300), &[(field::WATER_HEIGHT, water)]);
        heights(Wall::from_raw(&raw))
    };
    assert_eq!(heights(case_a()), (3300, 3300, 0));
    assert_eq!(wet(400, 0), (3700, 3300, 0));
    // The top of the base is 700 above the underside of the downstand.
    assert_eq!(wet(400, 399), (3700, 3300, 0));
    assert_eq!(wet(400, 700), (3700, 3300, 0));
    assert_eq!(wet(400, 701), (3700, 3300, 1));
    assert_eq!(wet(400, 3700), (3700, 3300, 3000));
    assert_eq!(wet(1000, 1000), (4300, 3300, 0));
}

/// A dry wall with a downstand of 400 x 400 under its heel: 3840 N at 2100 mm.
#[test]
fn case_a_with_a_downstand_by_hand() {
    let wall = Wall::from_raw(&keyed(400, 1900, 400));
    let service = five(service_totals(&wall, &[]));
    let mrest = 951_804_000 + 3840 * 6 * 2100;
    // 12321 N of surcharge at 1450 mm and 41029 N of fill at 833.3 mm.
    let mot = 12_321 * 6 * 1450 + 41_029 * 2 * 2500;
    let m6 = mrest - mot + 139_500_000;
    assert_eq!(service, [138_000, 53_350, mrest, mot, m6]);
    assert_eq!(m6, 827_350_300);
    let factored = factored_totals(&wall, &[]);
    assert_eq!(factored.r, 14 * (119_160 + 3840) + 16 * 15_000);
    assert_eq!(factored.h, 16 * 18_500 + 14 * 61_605);
}

/// The printed formulas of force and lever, push by push, with h and hw from the
/// downstand's underside.
#[test]
fn each_push_has_its_lever_about_the_underside_of_the_base() {
    let mut negative = [0; 5];
    for (name, wall, _) in walls_with_downstands() {
        let (h, hw, dd) = (wall.height(), wall.water_height, wall.downstand.depth);
        let buoyant = wall.saturated_density - 981;
        for k in [wall.ka, wall.k0] {
            let due = [
                (up(k * wall.surcharge * h, 100_000), 3 * (h - 2 * dd)),
                (
                    up(k * wall.moist_density * (h - hw) * (h - hw), 200_000_000),
                    2 * (h + 2 * hw - 3 * dd),
                ),
                (
                    up(k * wall.moist_density * (h - hw) * hw, 100_000_000),
                    3 * (hw - 2 * dd),
                ),
                (up(k * buoyant * hw * hw, 200_000_000), 2 * (hw - 3 * dd)),
                (up(981 * hw * hw, 200_000), 2 * (hw - 3 * dd)),
            ];
            let given = pushes(&wall, k, Back::of_wall(&wall));
            for ((push, (force, lever)), negative) in given.iter().zip(due).zip(&mut negative) {
                assert_eq!(push.horizontal, force, "{name}");
                assert_eq!(push.moment, force * lever, "{name}");
                *negative += usize::from(push.moment < 0);
            }
        }
    }
    assert!(negative.iter().all(|count| *count > 10), "{negative:?}");
}

/// Levers at 0 and to either side of it, by hand: sixths of a mm for a newton.
#[test]
fn a_lever_passes_through_nought() {
    let levers = |stem, water| {
        let raw = with(
            low(),
            &[(field::STEM_HEIGHT, stem), (field::WATER_HEIGHT, water)],
        );
        let wall = wall_with(raw, &[(field::SURCHARGE, 100)]);
        let each = pushes(&wall, wall.ka, Back::of_wall(&wall));
        each.map(|push| (push.horizontal > 0).then(|| push.moment / push.horizontal))
    };
    // h 1999, 2000 and 2001 with a depth of 1000.
    let dry = |stem| levers(stem, 0);
    assert_eq!(dry(799), [Some(-3), Some(-2002), None, None, None]);
    assert_eq!(dry(800), [Some(0), Some(-2000), None, None, None]);
    assert_eq!(dry(801), [Some(3), Some(-1998), None, None, None]);
    let wet = |water| levers(2000, water);
    // h 3200: (3200 + 2 hw - 3000) / 3, (hw - 2000) / 2 and (hw - 3000) / 3.
    let of = |levers: [Whole; 5]| levers.map(Some);
    assert_eq!(wet(1999), of([3600, 8396, -3, -2002, -2002]));
    assert_eq!(wet(2000), of([3600, 8400, 0, -2000, -2000]));
    assert_eq!(wet(2001), of([3600, 8404, 3, -1998, -1998]));
    assert_eq!(wet(2999), of([3600, 12_396, 2997, -2, -2]));
    assert_eq!(wet(3000), of([3600, 12_400, 3000, 0, 0]));
    assert_eq!(wet(3001), of([3600, 12_404, 3003, 2, 2]));
}

/// Document 01's weights stand beside it as they were, and its own is in R, in Mrest and
/// in friction, with 1.4.
#[test]
fn a_downstand_is_own_weight() {
    for (name, wall, loads) in walls_with_downstands() {
        let Downstand {
            depth,
            position,
            thickness,
        } = wall.downstand;
        let newtons = half_up(depth * thickness * wall.base_density, 100_000);
        let moment = newtons * (6 * position + 3 * thickness);
        // The same wall with as deep a downstand of no thickness.
        let mut bare = wall.clone();
        bare.downstand.thickness = 0;
        let more = |of: fn(&Wall, &[Load]) -> Totals| {
            let (a, b) = (five(of(&wall, &loads)), five(of(&bare, &loads)));
            let each: [Whole; 5] = std::array::from_fn(|i| a[i] - b[i]);
            each
        };
        let service = [newtons, 0, moment, 0, moment];
        assert_eq!(more(service_totals), service, "{name}");
        assert_eq!(more(factored_totals), service.map(|n| 14 * n), "{name}");
        let live: Whole = (loads.iter())
            .filter(|load| load.direction == Direction::Down)
            .map(|load| load.live)
            .sum();
        let surcharge = half_up(wall.surcharge * wall.heel, 100);
        let lasting = service_totals(&bare, &loads).r - surcharge - live + newtons;
        let due = down(wall.tangent * lasting, 1000);
        assert_eq!(friction(&wall, &loads), due, "{name}");
    }
}

#[test]
fn its_weight_is_rounded_to_the_nearest_newton_halves_up() {
    let newtons = |depth, thickness, density| {
        let raw = with(
            keyed(depth, 0, thickness),
            &[(field::BASE_DENSITY, density)],
        );
        let [_, _, downstand, ..] = weights(&Wall::from_raw(&raw));
        assert_eq!(downstand.action, Action::OwnWeight);
        assert_eq!(downstand.horizontal, 0);
        downstand.vertical
    };
    // 11.5, 11.4954 and 11.5046 N.
    assert_eq!(newtons(5, 100, 2300), 12);
    assert_eq!(newtons(1, 501, 2295), 11);
    assert_eq!(newtons(1, 502, 2292), 12);
    assert_eq!(newtons(400, 400, 2400), 3840);
    assert_eq!(newtons(1000, 1500, 3000), 45_000);
    assert_eq!(newtons(1, 100, 1500), 2);
}

#[test]
fn the_passive_depth_grows_by_it() {
    let depth = |downstand, cover, excavation| {
        let raw = keyed(downstand, 0, 300);
        let changes = [
            (field::COVER_IN_FRONT, cover),
            (field::EXCAVATION, excavation),
        ];
        let wall = wall_with(raw, &changes);
        (passive_depth(&wall), passive_force(&wall))
    };
    // P4 of document 01 with a downstand; 3 x 18000 N/m3 x depth^2 / 2.
    assert_eq!(depth(0, 0, 400), (0, 0));
    assert_eq!(depth(100, 0, 400), (0, 0));
    assert_eq!(depth(101, 0, 400), (1, 0));
    assert_eq!(depth(500, 0, 400), (400, 4320));
    assert_eq!(depth(500, 100, 0), (900, 21_870));
    assert_eq!(depth(1000, 1000, 1000), (1300, 45_630));
}

/// Of the stem, of what weighs on the heel and of the toe's own weight: the same as
/// without a downstand and with water that counts from the underside of the base.
#[test]
fn stem_toe_and_heel_know_it_by_the_water_alone() {
    let mut told = [0; 3];
    for (name, wall, loads) in walls_with_downstands() {
        let mut bare = wall.clone();
        bare.water_height = (wall.water_height - wall.downstand.depth).max(0);
        bare.downstand = case_a().downstand;
        assert_eq!(
            stem_effects(&wall, &loads),
            stem_effects(&bare, &loads),
            "{name}"
        );
        assert_eq!(pressed_down(&wall), pressed_down(&bare), "{name}");
        let worked = work_wall(1, &wall, &loads);
        if let Some(bearing) = worked.factored_bearing.given() {
            assert_eq!(
                toe_effects(&wall, bearing),
                toe_effects(&bare, bearing),
                "{name}"
            );
            told[0] += usize::from(worked.toe.is_some_and(|toe| toe.effects.moment > 0));
            told[1] += usize::from(worked.heel.is_some_and(|heel| heel.effects.moment > 0));
        }
        told[2] += usize::from(wall.water_on_base() > 0);
    }
    assert!(told.iter().all(|count| *count > 100), "{told:?}");
}

/// The answer to case A with a downstand, some fields changed, and loads; 0 and 0 where it
/// is accepted.
fn answer(raw: RawWall, loads: &[RawLoad]) -> (u8, u64) {
    let draft = Draft {
        walls: vec![CASE_A, raw],
        loads: loads.to_vec(),
    };
    accept(&draft.bytes()).map_or_else(|r| (r.number, r.place), |_| (0, 0))
}

const TAKEN: (u8, u64) = (0, 0);

/// A horizontal load stands up to hs + tb, whatever the depth, and turns the wall about
/// the underside of the base.
#[test]
fn horizontal_loads_are_measured_from_the_underside_of_the_base() {
    let raw = keyed(400, 1900, 400);
    for (position, due) in [(0, TAKEN), (3300, TAKEN), (3301, (6, 1)), (3700, (6, 1))] {
        assert_eq!(
            answer(raw, &[[2, ACROSS, position, 1, 1]]),
            due,
            "{position}"
        );
    }
    assert_eq!(answer(raw, &[[2, DOWN, 2300, 1, 1]]), TAKEN);
    assert_eq!(answer(raw, &[[2, DOWN, 2301, 1, 1]]), (6, 1));
    let worked = |position| {
        let mut draft = Draft::of(raw);
        draft.loads.push([1, ACROSS, position, 100, 10]);
        work_job(&draft.job()).remove(0)
    };
    let bare = work_job(&Draft::of(raw).job()).remove(0);
    for position in [0, 299, 300, 699, 700, 3300] {
        let (worked, above) = (worked(position), Whole::from(position) - 300);
        let more = worked.service.mot - bare.service.mot;
        assert_eq!(more, 110 * 6 * Whole::from(position));
        // At least the base's own thickness up it acts on the stem, 1.4 and 1.6 of it.
        let on_stem = worked.stem.effects.shear - bare.stem.effects.shear;
        let its_moment = worked.stem.effects.moment - bare.stem.effects.moment;
        let due = if above < 0 {
            (0, 0)
        } else {
            (156, 156 * above)
        };
        assert_eq!((on_stem, its_moment), due, "{position}");
    }
}

#[test]
fn field_9_goes_by_the_depth_as_it_stands() {
    let water = |depth, thickness, water| {
        let raw = keyed(depth, 0, thickness);
        answer(with(raw, &[(field::WATER_HEIGHT, water)]), &[])
    };
    assert_eq!(water(0, 0, 3300), TAKEN);
    assert_eq!(water(0, 0, 3301), (5, 209));
    assert_eq!(water(1, 100, 3301), TAKEN);
    assert_eq!(water(1, 100, 3302), (5, 209));
    assert_eq!(water(1000, 100, 4300), TAKEN);
    assert_eq!(water(1000, 100, 4301), (5, 209));
    // Before the depth itself is judged.
    assert_eq!(water(2000, 100, 5300), (5, 236));
    assert_eq!(water(2000, 100, 5301), (5, 209));
    assert_eq!(water(1001, 100, 4301), (5, 236));
    assert_eq!(water(1001, 100, 4302), (5, 209));
    // Nothing is cut to 32 bits: 4294963996 + 3300 is 2^32.
    for depth in [4_294_963_996, 4_294_963_997, u32::MAX - 1, u32::MAX] {
        for height in [0, 1, 3300, 3301, depth, u32::MAX] {
            assert_eq!(water(depth, 100, height), (5, 236), "{depth} {height}");
        }
    }
    assert_eq!(water(4_294_963_994, 100, 4_294_967_294), (5, 236));
    assert_eq!(water(4_294_963_994, 100, 4_294_967_295), (5, 209));
}

#[test]
fn without_a_depth_position_and_thickness_are_0() {
    let of = |position, thickness| answer(keyed(0, position, thickness), &[]);
    assert_eq!(of(0, 0), TAKEN);
    for position in [1, 300, 2300, u32::MAX] {
        assert_eq!(of(position, 0), (5, 237));
        assert_eq!(of(position, 100), (5, 237));
    }
    for thickness in [1, 99, 100, 1500, u32::MAX] {
        assert_eq!(of(0, thickness), (5, 238));
    }
}

/// Case A: l is 2300.
#[test]
fn a_downstand_stands_under_the_base() {
    for depth in [1, 2, 999, 1000] {
        let of = |position, thickness| answer(keyed(depth, position, thickness), &[]);
        for (position, thickness) in [(0, 100), (0, 1500), (800, 1500), (2200, 100), (1000, 700)] {
            assert_eq!(of(position, thickness), TAKEN);
        }
        for thickness in [0, 1, 99, 1501, 2300, u32::MAX] {
            assert_eq!(of(0, thickness), (5, 238), "{thickness}");
        }
        for (position, thickness) in [(801, 1500), (2201, 100), (2300, 100), (2299, 1500)] {
            assert_eq!(of(position, thickness), (5, 238), "{position} {thickness}");
        }
        for position in [2301, 5000, u32::MAX - 99, u32::MAX] {
            assert_eq!(of(position, 100), (5, 237), "{position}");
            assert_eq!(of(position, 0), (5, 237), "{position}");
        }
    }
    for depth in [1001, 2000, u32::MAX] {
        assert_eq!(answer(keyed(depth, 0, 100), &[]), (5, 236));
        assert_eq!(answer(keyed(depth, 2301, 0), &[]), (5, 236));
    }
}

/// The length goes by the wall's own toe, stem and heel, which are looked at before.
#[test]
fn the_length_is_that_of_its_own_wall() {
    let short = [(field::TOE, 0), (field::HEEL, 0)];
    let of = |position, thickness| answer(with(keyed(500, position, thickness), &short), &[]);
    assert_eq!(of(0, 300), TAKEN);
    assert_eq!(of(200, 100), TAKEN);
    assert_eq!(of(0, 301), (5, 238));
    assert_eq!(of(300, 100), (5, 238));
    assert_eq!(of(301, 100), (5, 237));
    let bad_heel = with(keyed(500, 7000, 1500), &[(field::HEEL, u32::MAX)]);
    assert_eq!(answer(bad_heel, &[]), (5, 205));
}

#[test]
fn the_edition_is_two() {
    for edition in 0..=600_u16 {
        let draft = case_a_draft();
        let mut header = draft.header();
        header[0] = edition;
        let printed = sheet(&draft.bytes_with(header));
        let due = if edition == 2 {
            CASE_A_LINE
        } else {
            "refused 2 0\n"
        };
        assert_eq!(printed, due);
    }
    // A file of the edition before, with 35 fields a wall.
    let mut before: Vec<u8> = [1_u16, 1, 12, 0, 152, 152]
        .iter()
        .flat_map(|n| n.to_le_bytes())
        .collect();
    before.extend(CASE_A[..35].iter().flat_map(|n| n.to_le_bytes()));
    assert_eq!(sheet(&before), "refused 2 0\n");
    before[0] = 2;
    assert_eq!(sheet(&before), "refused 4 0\n");
}

/// R 600 on a base of 3 m: 6Rl is 10800000.
#[test]
fn no_block_where_m6_is_6rl_or_more() {
    let of = |m6| Bearing::of(600, m6, 3000, Case::Service);
    assert_eq!(of(10_800_000), Bearing::PastHeel);
    assert_eq!(of(10_800_001), Bearing::PastHeel);
    assert_eq!(of(1_000_000_000), Bearing::PastHeel);
    assert_eq!(of(0), Bearing::NoBlock);
    assert_eq!(of(-1), Bearing::NoBlock);
    let last = block(600, 10_799_999, 3000).unwrap();
    assert_eq!(last.kind, Contact::HeelTriangle);
    assert_eq!((last.contact.over, last.contact.under), (1, 1200));
    assert!(matches!(of(10_799_999), Bearing::PeakTooGreat(_)));
    // 1000 x 4 x 600^2 / 720 is 2000000.
    assert_eq!(of(10_799_280).pressures(), (0, 2_000_000));
    assert_eq!(of(10_799_281).pressures(), (0, 0));
    let factored = |m6| Bearing::of(600, m6, 3000, Case::Factored);
    assert_eq!(factored(10_800_000), Bearing::PastHeel);
    assert_eq!(factored(10_799_928).pressures(), (0, 2_000_000));
}

/// 13005 N of fill at -433.3 mm turn the low wall back: R is 8160 N, 6Rl 9792000, and M6
/// 38709000. 6885 N at the crest bring it to 6Rl.
#[test]
fn r_at_the_end_of_the_heel_and_past_it() {
    let worked = |dead| {
        let mut draft = Draft::of(low());
        draft.loads.push([1, ACROSS, 700, dead, 0]);
        let drawing = draw(&draft.bytes(), 1).unwrap();
        (work_job(&draft.job()).remove(0), drawing)
    };
    let (bare, drawing) = worked(0);
    let due = [8160, 13_005, 4_896_000, -33_813_000, 38_709_000];
    assert_eq!(five(bare.service), due);
    assert_eq!(bare.service_bearing, Bearing::PastHeel);
    assert_eq!(drawing.shape, Shape::Nothing);
    assert_eq!((drawing.r.value(), drawing.h.value()), (8.16, 13.005));
    assert_eq!(drawing.distance.value(), 38_709_000.0 / 48_960.0);
    for (dead, m6, given) in [
        (6884, 9_796_200, false),
        (6885, 9_792_000, false),
        (6886, 9_787_800, false),
        // 1981715 N/m2 of a heel triangle.
        (6917, 9_657_600, true),
    ] {
        let (worked, drawing) = worked(dead);
        assert_eq!(worked.service.m6, m6);
        assert_eq!(worked.failures & NO_SERVICE_BLOCK == 0, given, "{dead}");
        assert_eq!(worked.service_bearing == Bearing::PastHeel, m6 >= 9_792_000);
        assert_eq!(drawing.shape == Shape::Nothing, !given);
        assert_eq!(drawing.distance.value(), m6 as f64 / 48_960.0);
    }
    let (given, _) = worked(6917);
    assert_eq!(given.service_bearing.pressures(), (0, 1_981_715));
}

/// Ka and K0 settle each bit by itself.
#[test]
fn either_block_is_left_out_by_itself() {
    let failures = |ka, k0| {
        let raw = with(low(), &[(field::KA, ka), (field::K0, k0)]);
        let worked = work_job(&Draft::of(raw).job()).remove(0);
        worked.failures & (NO_SERVICE_BLOCK | NO_FACTORED_BLOCK)
    };
    let both = NO_SERVICE_BLOCK | NO_FACTORED_BLOCK;
    assert_eq!(failures(500, 500), both);
    assert_eq!(failures(10, 10), 0);
    assert_eq!(failures(500, 10), NO_SERVICE_BLOCK);
    assert_eq!(failures(10, 500), NO_FACTORED_BLOCK);
}

/// On every generated wall the bits stand where M6 or the peak says so.
#[test]
fn the_bits_of_the_blocks_are_set_where_none_is_given() {
    let mut past = [0; 2];
    for (name, job) in accepted_jobs(25).into_iter().chain(downstand_jobs(150)) {
        for (wall, worked) in job.walls.iter().zip(work_job(&job)) {
            let l = wall.base_length();
            let cases = [
                (&worked.service, 1000, NO_SERVICE_BLOCK),
                (&worked.factored, 100, NO_FACTORED_BLOCK),
            ];
            for ((total, pascals, bit), past) in cases.into_iter().zip(&mut past) {
                let (r, left) = (total.r, 6 * total.r * l - total.m6);
                let nearest = total.m6.min(left);
                // The peak of a triangle is 4R^2 over M6 or over what is left of 6Rl.
                let none = nearest <= 0
                    || nearest < 2 * r * l && pascals * 4 * r * r > 2_000_000 * nearest
                    || nearest >= 2 * r * l && pascals * (4 * r * l - nearest) > 2_000_000 * l * l;
                assert_eq!(worked.failures & bit != 0, none, "{name}");
                *past += usize::from(left <= 0);
            }
        }
    }
    assert!(past.iter().all(|count| *count > 10), "{past:?}");
}

#[test]
fn each_place_of_a_downstand_is_told() {
    // The stem from 500 to 800, l 2300.
    let place = |position, thickness| {
        let place = Underfoot::of(&Wall::from_raw(&keyed(400, position, thickness)));
        let facts = [
            place.under_toe(),
            place.under_stem(),
            place.under_heel(),
            place.across_face(),
            place.across_back(),
            place.at_front_edge(),
            place.at_back_edge(),
        ];
        facts.map(u8::from)
    };
    assert_eq!(place(0, 300), [1, 0, 0, 0, 0, 1, 0]);
    assert_eq!(place(200, 300), [1, 0, 0, 0, 0, 0, 0]);
    assert_eq!(place(201, 300), [0, 0, 0, 1, 0, 0, 0]);
    assert_eq!(place(500, 300), [0, 1, 0, 0, 0, 0, 0]);
    assert_eq!(place(501, 300), [0, 0, 0, 0, 1, 0, 0]);
    assert_eq!(place(499, 302), [0, 0, 0, 1, 1, 0, 0]);
    assert_eq!(place(800, 300), [0, 0, 1, 0, 0, 0, 0]);
    assert_eq!(place(800, 1500), [0, 0, 1, 0, 0, 0, 1]);
}

/// Stem, base and both fills of document 01 before the request, and last the surcharge:
/// N, and six times the distance from the toe.
fn weights_before(wall: &Wall) -> [(Whole, Whole); 5] {
    let (l, hs) = (wall.base_length(), wall.stem_height);
    let wet = (wall.water_height - wall.base_thickness).max(0);
    let over_heel = 6 * l - 3 * wall.heel;
    let weight = |area: Whole, density: Whole| half_up(area * density, 100_000);
    [
        (
            weight(hs * wall.stem_thickness, wall.stem_density),
            6 * wall.toe + 3 * wall.stem_thickness,
        ),
        (weight(l * wall.base_thickness, wall.base_density), 3 * l),
        (weight(wall.heel * wet, wall.saturated_density), over_heel),
        (
            weight(wall.heel * (hs - wet), wall.moist_density),
            over_heel,
        ),
        (half_up(wall.surcharge * wall.heel, 100), over_heel),
    ]
}

/// Its pushes, the surcharge's first: N, and six times the height.
fn pushes_before(wall: &Wall, k: Whole) -> [(Whole, Whole); 5] {
    let (h, hw) = (wall.stem_height + wall.base_thickness, wall.water_height);
    let (moist, buoyant) = (k * wall.moist_density, k * (wall.saturated_density - 981));
    [
        (up(k * wall.surcharge * h, 100_000), 3 * h),
        (
            up(moist * (h - hw) * (h - hw), 200_000_000),
            2 * (h + 2 * hw),
        ),
        (up(moist * (h - hw) * hw, 100_000_000), 3 * hw),
        (up(buoyant * hw * hw, 200_000_000), 2 * hw),
        (up(981 * hw * hw, 200_000), 2 * hw),
    ]
}

/// R, H, Mrest, Mot and M6 of them, with the factors of what lasts and of what passes.
fn totals_before(wall: &Wall, loads: &[Load], k: Whole, factors: [Whole; 2]) -> [Whole; 5] {
    let [lasting, passing] = factors;
    let [weights @ .., surcharge] = weights_before(wall);
    let [surcharge_push, pushes @ ..] = pushes_before(wall, k);
    let (mut r, mut h, mut mrest, mut mot) = (0, 0, 0, 0);
    let mut passing_moment = passing * surcharge.0 * surcharge.1;
    r += passing * surcharge.0;
    for (newtons, six_distances) in weights {
        r += lasting * newtons;
        mrest += lasting * newtons * six_distances;
    }
    h += passing * surcharge_push.0;
    mot += passing * surcharge_push.0 * surcharge_push.1;
    for (newtons, six_heights) in pushes {
        h += lasting * newtons;
        mot += lasting * newtons * six_heights;
    }
    for load in loads {
        let (dead, live, six) = (lasting * load.dead, passing * load.live, 6 * load.position);
        match load.direction {
            Direction::Down => {
                r += dead + live;
                mrest += dead * six;
                passing_moment += live * six;
            }
            Direction::Across => {
                h += dead + live;
                mot += (dead + live) * six;
            }
        }
    }
    [r, h, mrest, mot, mrest - mot + passing_moment]
}

#[test]
fn a_wall_without_one_is_answered_as_before() {
    assert_eq!(sheet(&case_a_draft().bytes()), CASE_A_LINE);
    let mut walls = 0;
    for (name, job) in accepted_jobs(25) {
        for (wall, loads) in job.walls.iter().zip(job.loads_by_wall()) {
            if wall.downstand.depth > 0 {
                continue;
            }
            walls += 1;
            let service = totals_before(wall, &loads, wall.ka, [1, 1]);
            let factored = totals_before(wall, &loads, wall.k0, [14, 16]);
            assert_eq!(five(service_totals(wall, &loads)), service, "{name}");
            assert_eq!(five(factored_totals(wall, &loads)), factored, "{name}");
            let depth = wall.cover_in_front + wall.base_thickness - wall.excavation;
            assert_eq!(passive_depth(wall), depth.max(0), "{name}");
            assert_eq!(
                wall.water_on_base(),
                (wall.water_height - wall.base_thickness).max(0)
            );
            let [service, factored] = [service, factored].map(|[r, .., m6]| (r, m6));
            // So far from the end of the heel that the rule before gave a block.
            for (r, m6) in [service, factored] {
                assert!(m6 < 6 * r * wall.base_length(), "{name}");
            }
        }
    }
    assert!(walls > 500, "{walls}");
}

/// A downstand that weighs nothing to speak of and is a mm deep moves every lever by a mm.
#[test]
fn a_mm_of_depth_moves_each_figure_by_what_it_should() {
    let wall = Wall::from_raw(&keyed(1, 0, 100));
    // 2 N at 50 mm; 3301 mm of fill: 10993 N of surcharge at 1649.5 mm, 32658 N at 1099.3.
    let mrest = 951_804_000 + 2 * 300;
    let mot = 10_993 * 9897 + 32_658 * 6596;
    let due = [134_162, 43_651, mrest, mot, mrest - mot + 139_500_000];
    assert_eq!(five(service_totals(&wall, &[])), due);
    assert_eq!(WALL_FIELDS, 38);
}
