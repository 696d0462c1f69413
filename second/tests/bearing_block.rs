//! Document 01, "The bearing block": its equations, exactly, on generated jobs.

mod common;

use common::{accepted_jobs, downstand_jobs};
use second::bearing::{block, Block, Contact, Fraction};
use second::forces::Totals;
use second::sheet_line::work_job;
use second::Whole;

/// A reduced fraction with a lower number above 0.
#[derive(Clone, Copy, Debug, PartialEq, Eq)]
struct Ratio(i128, i128);

fn common_measure(a: i128, b: i128) -> i128 {
    if b == 0 {
        a.abs()
    } else {
        common_measure(b, a % b)
    }
}

fn ratio(over: impl Into<i128>, under: impl Into<i128>) -> Ratio {
    let (over, under) = (over.into(), under.into());
    assert!(under > 0);
    let by = common_measure(over, under);
    Ratio(over / by, under / by)
}

fn held(fraction: Fraction) -> Ratio {
    ratio(fraction.over, fraction.under)
}

impl Ratio {
    fn times(self, other: Ratio) -> Ratio {
        let (a, b) = (ratio(self.0, other.1), ratio(other.0, self.1));
        ratio(a.0 * b.0, a.1 * b.1)
    }
    fn plus(self, other: Ratio) -> Ratio {
        ratio(self.0 * other.1 + other.0 * self.1, self.1 * other.1)
    }
}

/// (t + g) c / 2, and six times the moment about the toe.
fn carried(block: &Block, l: Whole) -> (Ratio, Ratio) {
    let (t, g, c) = (held(block.toe), held(block.heel), held(block.contact));
    let force = t.plus(g).times(c).times(ratio(1, 2));
    let moment = match block.kind {
        Contact::Whole => t.plus(g.times(ratio(2, 1))).times(ratio(l * l, 1)),
        Contact::ToeTriangle => t.times(c).times(c),
        Contact::HeelTriangle => g.times(c).times(ratio(3 * l, 1).plus(ratio(-c.0, c.1))),
    };
    (force, moment)
}

fn hold(name: &str, total: &Totals, l: Whole, seen: &mut [usize; 5]) {
    let six_rl = 6 * total.r * l;
    let Some(block) = block(total.r, total.m6, l) else {
        assert!(total.m6 <= 0 || total.m6 >= six_rl, "{name}");
        seen[3 + usize::from(total.m6 > 0)] += 1;
        return;
    };
    assert!(0 < total.m6 && total.m6 < six_rl, "{name}");
    let (force, moment) = carried(&block, l);
    assert_eq!(force, ratio(total.r, 1), "{name}");
    assert_eq!(moment, ratio(total.m6, 1), "{name}");
    let (toe, heel, contact) = (block.toe, block.heel, block.contact);
    assert!(
        toe.over >= 0 && heel.over >= 0 && contact.over > 0,
        "{name}"
    );
    let reach = contact.over - l * contact.under;
    match block.kind {
        Contact::Whole => assert!(reach == 0, "{name}"),
        Contact::ToeTriangle => assert!(reach < 0 && heel.over == 0, "{name}"),
        Contact::HeelTriangle => assert!(reach < 0 && toe.over == 0, "{name}"),
    }
    seen[block.kind as usize] += 1;
}

#[test]
fn blocks_carry_r_at_m6_within_the_base() {
    let (mut service, mut factored) = ([0; 5], [0; 5]);
    // R is past the heel in few jobs but those for the downstand.
    for (name, job) in accepted_jobs(60).into_iter().chain(downstand_jobs(150)) {
        for (wall, worked) in job.walls.iter().zip(work_job(&job)) {
            let l = wall.base_length();
            hold(&name, &worked.service, l, &mut service);
            hold(&name, &worked.factored, l, &mut factored);
        }
    }
    assert!(service.iter().all(|count| *count > 20), "{service:?}");
    assert!(factored.iter().all(|count| *count > 20), "{factored:?}");
}

/// Moving M6 by one shows that neither equation holds by chance.
#[test]
fn a_block_for_another_moment_does_not_carry_this_one() {
    let l = 3000;
    for m6 in [1_000_000, 5_000_000, 9_000_000] {
        let block = block(600, m6 + 1, l).unwrap();
        assert_ne!(carried(&block, l).1, ratio(m6, 1));
    }
}
