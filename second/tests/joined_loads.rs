//! Document 01, "Forces": the totals of two joined lists of loads are those of
//! each list added, less the bare wall's.

mod common;

use common::SEED;
use second::forces::{factored_totals, service_totals, Totals};
use second::generator::draft::{any_load, fit, wide_wall, Draft};
use second::job_file::{field, Load, Wall};
use second::random::Random;
use second::Whole;

fn five(total: Totals) -> [Whole; 5] {
    [total.r, total.h, total.mrest, total.mot, total.m6]
}

fn hold(totals: fn(&Wall, &[Load]) -> Totals, wall: &Wall, first: &[Load], second: &[Load]) {
    let joined: Vec<Load> = first.iter().chain(second).copied().collect();
    let (whole, bare) = (five(totals(wall, &joined)), five(totals(wall, &[])));
    let (a, b) = (five(totals(wall, first)), five(totals(wall, second)));
    for i in 0..5 {
        assert_eq!(whole[i], a[i] + b[i] - bare[i]);
    }
    assert!(bare[0] > 0 && bare[2] > 0, "a wall weighs something");
}

#[test]
fn totals_of_joined_lists() {
    let mut random = Random::new(SEED);
    let (mut told, mut keyed) = (0, 0);
    for _ in 0..500 {
        let raw = wide_wall(&mut random);
        let mut draft = Draft::of(raw);
        for _ in 0..random.below(9) {
            draft.loads.push(any_load(&mut random, 1, &raw, 200_000));
        }
        let job = draft.job();
        assert_eq!(job.loads.len(), draft.loads.len());
        let (first, second) = job.loads.split_at(job.loads.len() / 2);
        hold(service_totals, &job.walls[0], first, second);
        hold(factored_totals, &job.walls[0], first, second);
        told +=
            usize::from(service_totals(&job.walls[0], first) != service_totals(&job.walls[0], &[]));
        keyed += usize::from(job.walls[0].downstand.depth > 0);
    }
    assert!(told > 200, "only {told} first lists changed a total");
    assert!(keyed > 200, "only {keyed} walls had a downstand");
}

/// Walls so low and keyed so deep that the fill turns them back.
#[test]
fn totals_of_joined_lists_where_mot_is_below_0() {
    let mut random = Random::new(SEED);
    let mut turned_back = 0;
    for _ in 0..200 {
        let mut raw = wide_wall(&mut random);
        raw[field::STEM_HEIGHT] = 500;
        raw[field::BASE_THICKNESS] = 200;
        raw[field::DOWNSTAND_DEPTH] = 1000;
        raw[field::WATER_HEIGHT] = 0;
        fit(&mut raw);
        let mut draft = Draft::of(raw);
        for _ in 0..4 {
            draft.loads.push(any_load(&mut random, 1, &raw, 5000));
        }
        let job = draft.job();
        let (first, second) = job.loads.split_at(2);
        hold(service_totals, &job.walls[0], first, second);
        hold(factored_totals, &job.walls[0], first, second);
        turned_back += usize::from(service_totals(&job.walls[0], &job.loads).mot < 0);
    }
    assert!(
        turned_back > 80,
        "only {turned_back} walls were turned back"
    );
}

/// Case A's totals with a downstand of 400 x 400 at 1900 mm and the same two loads: R is
/// 3840 N more, and H and the moments those of `downstand`.
#[test]
fn totals_of_case_a_with_a_downstand_and_two_loads() {
    let mut raw = common::CASE_A;
    raw[field::DOWNSTAND_DEPTH..].copy_from_slice(&[400, 1900, 400]);
    let mut draft = Draft::of(raw);
    draft.loads = vec![[1, 0, 1000, 100, 10], [1, 1, 2000, 30, 4]];
    let job = draft.job();
    let service = five(service_totals(&job.walls[0], &job.loads));
    let (mrest, mot) = (1_000_188_000 + 600_000, 312_337_700 + 34 * 12_000);
    let passing = 139_500_000 + 60_000;
    assert_eq!(
        service,
        [138_110, 53_384, mrest, mot, mrest - mot + passing]
    );
}

/// Case A's totals with one load of each direction, by hand.
#[test]
fn totals_of_case_a_with_two_loads() {
    let wall = common::case_a();
    let mut draft = common::case_a_draft();
    draft.loads = vec![[1, 0, 1000, 100, 10], [1, 1, 2000, 30, 4]];
    let loads = draft.job().loads;
    let service = five(service_totals(&wall, &loads));
    // Bare: R 134160, H 43627, Mrest 951804000, Mot 324201900.
    let (mrest, mot) = (951_804_000 + 600_000, 324_201_900 + 34 * 12_000);
    let passing = 139_500_000 + 60_000;
    assert_eq!(
        service,
        [134_270, 43_661, mrest, mot, mrest - mot + passing]
    );
    let factored = factored_totals(&wall, &loads);
    assert_eq!(factored.r, 14 * (119_160 + 100) + 16 * (15_000 + 10));
    assert_eq!(factored.h, 14 * (49_005 + 30) + 16 * (16_500 + 4));
}
