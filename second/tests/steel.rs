//! Document 02, "#106 Steel to the hundredth", beside the rule in whole mm2 before it:
//! no cage that passed fails now, and some that failed pass.

mod common;

use common::{accepted_jobs, case_a, case_a_draft, steel_before, Before};
use second::generator::draft::Draft;
use second::job_file::{field, Reinforcement, Wall, BARS};
use second::rounding::{down, up};
use second::section::{check_section, greatest_moment, twice_depth, Effects, Section};
use second::sheet_line::{work_job, Worked, STEM_STEEL, TOE_STEEL};
use second::Whole;

/// How many cages were met, by what they did before and do now.
#[derive(Debug, Default)]
struct Met {
    pass: usize,
    fail: usize,
    pass_now: usize,
}

impl Met {
    /// Holds a section to what it was before.
    fn hold(&mut self, now: &Section, before: &Before, name: &str) {
        assert!(before.fails || !now.steel_fails, "{name} fails now");
        assert_eq!(
            now.failed_in_mm2(),
            before.fails && !now.steel_fails,
            "{name}"
        );
        // Less than a mm2 more was required, and less than a mm2 fewer counted.
        let more = 100 * before.required - now.required;
        let fewer = now.provided - 100 * before.provided;
        assert!((0..100).contains(&more), "{name}: {more} more required");
        assert!((0..100).contains(&fewer), "{name}: {fewer} fewer provided");
        match (before.fails, now.steel_fails) {
            (true, true) => self.fail += 1,
            (true, false) => self.pass_now += 1,
            _ => self.pass += 1,
        }
    }
}

fn toe_before(wall: &Wall, toe: &Section) -> Before {
    let moment = toe.effects.moment;
    steel_before(wall, wall.base_thickness, &wall.toe_bars, moment)
}

fn stem_before(wall: &Wall, stem: &Section) -> Before {
    let moment = stem.effects.moment;
    steel_before(wall, wall.stem_thickness, &wall.stem_bars, moment)
}

#[test]
fn no_toe_and_no_stem_that_passed_fails_now() {
    let (mut toes, mut stems) = (Met::default(), Met::default());
    for (name, job) in accepted_jobs(60) {
        for (wall, worked) in job.walls.iter().zip(work_job(&job)) {
            if let Some(toe) = &worked.toe {
                toes.hold(toe, &toe_before(wall, toe), &name);
            }
            let stem = &worked.stem;
            stems.hold(stem, &stem_before(wall, stem), &name);
        }
    }
    for met in [toes, stems] {
        assert!(met.pass > 1000 && met.fail > 500, "{met:?}");
        assert!(met.pass_now > 10, "{met:?}");
    }
}

/// Every bar at every seventh spacing, in sections of some depths, strengths and
/// percentages.
#[test]
fn no_cage_that_passed_fails_now() {
    let mut met = Met::default();
    let sections = [
        (200, 20, 20, 250, 13),
        (251, 75, 25, 460, 0),
        (333, 40, 35, 500, 13),
        (375, 45, 35, 499, 7),
        (500, 50, 40, 500, 100),
        (1500, 33, 60, 391, 99),
    ];
    for (thickness, cover, fcu, fy, least_steel) in sections {
        let wall = Wall {
            fcu,
            fy,
            least_steel,
            ..case_a()
        };
        for bars in cages(cover) {
            let steel =
                |moment| check_section(&wall, thickness, &bars, Effects { shear: 0, moment });
            let most = greatest_moment(twice_depth(thickness, &bars), fcu);
            for moment in moments(most, |moment| !steel(moment).steel_fails) {
                let before = steel_before(&wall, thickness, &bars, moment);
                let name = format!("{thickness}, {bars:?}, M {moment}");
                met.hold(&steel(moment), &before, &name);
            }
        }
    }
    assert!(met.pass > 30_000 && met.fail > 50_000, "{met:?}");
    assert!(met.pass_now > 5000, "{met:?}");
}

fn cages(cover: Whole) -> impl Iterator<Item = Reinforcement> {
    BARS.into_iter().flat_map(move |bar| {
        (50..=500).step_by(7).map(move |spacing| Reinforcement {
            cover,
            bar: Whole::from(bar),
            spacing,
            concrete_shear_stress: 550,
        })
    })
}

/// From 0 to past the most that the concrete takes, and close about the last moment for
/// which a cage is enough.
fn moments(most: Whole, enough_for: impl Fn(Whole) -> bool) -> impl Iterator<Item = Whole> {
    let (mut last, mut past) = (0, most + 1);
    while past - last > 1 {
        let middle = down(last + past, 2);
        if enough_for(middle) {
            last = middle;
        } else {
            past = middle;
        }
    }
    // Of 50000 hundredths of mm2 a step is ten.
    let step = up(last, 5000).max(1);
    let about = (-15..=15).map(move |steps| last + steps * step);
    let over_all = (0..=9).map(move |tenths| down(tenths * most, 9));
    let moments = about.chain(over_all).chain([last + 1, most + 1]);
    moments.filter(|moment| *moment >= 0)
}

/// What a wall's steel was before, as toe and stem.
fn both_before(draft: &Draft) -> (Before, Before, Worked) {
    let job = draft.job();
    let worked = work_job(&job).remove(0);
    let toe = toe_before(&job.walls[0], &worked.toe.unwrap());
    let stem = stem_before(&job.walls[0], &worked.stem);
    (toe, stem, worked)
}

/// Case A with a base of 302 mm and a sheet of A393, 10 mm at every 200, in its toe:
/// 0.13 % of the base is 392.6 mm2, and the sheet has 392.65. In whole mm2 that was 393
/// and 392.
#[test]
fn a_sheet_of_mesh_in_the_toe_passes_now() {
    let mut draft = case_a_draft();
    draft.walls[0][field::BASE_THICKNESS] = 302;
    draft.walls[0][field::TOE_BAR] = 10;
    draft.walls[0][field::TOE_SPACING] = 200;
    let (before, _, worked) = both_before(&draft);
    assert_eq!((before.required, before.provided), (393, 392));
    assert!(before.fails);
    let toe = worked.toe.unwrap();
    assert_eq!((toe.required, toe.provided), (39_260, 39_265));
    assert!(toe.failed_in_mm2());
    assert_eq!(worked.failures & TOE_STEEL, 0);
    let line = "1 000 134270 43673 0 767337716 88459 28298 173375 0 71778 30879849 39260 80700 92700000 89165 75160 88339259 84266\n";
    assert_eq!(second::sheet(&draft.bytes()), line);
}

/// Case A with 16 mm at every 225 in its stem and 41 N at the crest: 893.31 mm2 are
/// needed and 893.6 there. In whole mm2 that was 894 and 893.
#[test]
fn bars_in_the_stem_pass_now() {
    let mut draft = case_a_draft();
    draft.walls[0][field::STEM_SPACING] = 225;
    draft.loads.push([1, 1, 3300, 41, 0]);
    let (_, before, worked) = both_before(&draft);
    assert_eq!((before.required, before.provided), (894, 893));
    assert!(before.fails);
    let stem = worked.stem;
    assert_eq!((stem.required, stem.provided), (89_331, 89_360));
    assert!(stem.failed_in_mm2());
    assert_eq!(worked.failures & STEM_STEEL, 0);
    let line = "1 000 134160 43668 0 766290300 88466 28196 173312 0 71779 30880455 39000 80758 92872200 89331 75161 88336722 84968\n";
    assert_eq!(second::sheet(&draft.bytes()), line);
}

/// Why none can fail: rounding up to hundredths and then to whole mm2 is rounding up to
/// whole mm2 at once, and likewise down.
#[test]
fn rounding_in_two_steps_is_rounding_in_one() {
    for over in 0..3000 {
        for under in 1..60 {
            assert_eq!(up(up(100 * over, under), 100), up(over, under));
            assert_eq!(down(down(100 * over, under), 100), down(over, under));
        }
    }
}
