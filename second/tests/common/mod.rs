//! What several tests share. Each test takes what it needs of it.
#![allow(dead_code)]

use second::bearing::{Contact, Reported};
use second::generator::draft::Draft;
use second::generator::{sample, Due, Sample, KINDS};
use second::job_file::{Job, RawWall, Reinforcement, Wall};
use second::rounding::{down, up};
use second::section::{twice_depth, twice_lever_arm, Effects};
use second::Whole;

pub const SEED: u64 = 20;

/// Case A of document 01, "The sheet line", field by field; its heel has the stem's cage,
/// and it has no downstand.
pub const CASE_A: RawWall = [
    0, 3000, 300, 500, 1500, 300, 0, 0, 0, 2400, 2400, 1800, 2000, 1800, 333, 500, 3000, 500, 150,
    1000, 35, 500, 13, 40, 12, 200, 40, 16, 150, 550, 550, 40, 16, 150, 550, 0, 0, 0,
];

pub const CASE_A_LINE: &str = "1 000 134160 43627 0 767102100 88312 28349 173078 0 71688 30840740 39000 80700 92700000 89165 75042 88187024 84824\n";

/// Lowest and highest values, as documents 01 and 02 print them, field by field; of the
/// water as far as case A's heights let it, and of a downstand's position and thickness as
/// case A may have them, which has no depth of one.
pub const ENDS: [(u32, u32); 38] = [
    (0, 1),
    (500, 8000),
    (200, 1500),
    (0, 5000),
    (0, 5000),
    (200, 1500),
    (0, 1000),
    (0, 1000),
    (0, 3300),
    (1500, 3000),
    (1500, 3000),
    (1000, 3000),
    (1000, 3000),
    (1000, 3000),
    (1, 1000),
    (1, 1000),
    (0, 15_000),
    (0, 1000),
    (1, 1000),
    (0, 10_000),
    (20, 60),
    (250, 500),
    (0, 100),
    (20, 75),
    (8, 40),
    (50, 500),
    (20, 75),
    (8, 40),
    (50, 500),
    (1, 5000),
    (1, 5000),
    (20, 75),
    (8, 40),
    (50, 500),
    (1, 5000),
    (0, 1000),
    (0, 0),
    (0, 0),
];

/// The 164 bytes of case A, from the header document 01 prints with request #107's
/// edition, offset and length.
pub fn case_a_bytes() -> Vec<u8> {
    let header: [u16; 6] = [2, 1, 12, 0, 164, 164];
    let mut bytes: Vec<u8> = header.iter().flat_map(|n| n.to_le_bytes()).collect();
    bytes.extend(CASE_A.iter().flat_map(|n| n.to_le_bytes()));
    assert_eq!(bytes.len(), 164);
    bytes
}

pub fn case_a() -> Wall {
    Wall::from_raw(&CASE_A)
}

pub fn case_a_draft() -> Draft {
    Draft::of(CASE_A)
}

/// So many samples of every kind.
pub fn samples_of_each_kind(count: usize) -> Vec<(String, Sample)> {
    let mut all = Vec::new();
    for (kind, (name, _)) in KINDS.iter().enumerate() {
        for index in 0..count {
            all.push((format!("{name}-{}", index + 1), sample(SEED, kind, index)));
        }
    }
    all
}

/// The accepted jobs among them.
pub fn accepted_jobs(count: usize) -> Vec<(String, Job)> {
    let samples = samples_of_each_kind(count);
    let jobs: Vec<(String, Job)> = samples
        .into_iter()
        .filter(|(_, sample)| sample.due == Due::Accepted)
        .map(taken_in)
        .collect();
    assert!(jobs.len() > 10 * count, "only {} jobs accepted", jobs.len());
    jobs
}

/// So many jobs for the downstand, all accepted.
pub fn downstand_jobs(count: usize) -> Vec<(String, Job)> {
    let kind = KINDS.iter().position(|(name, _)| *name == "downstand");
    let numbered = (0..count).map(|index| {
        let sample = sample(SEED, kind.unwrap(), index);
        (format!("downstand-{}", index + 1), sample)
    });
    numbered.map(taken_in).collect()
}

fn taken_in((name, sample): (String, Sample)) -> (String, Job) {
    let job = second::answers::accept(&sample.bytes);
    let job = job.unwrap_or_else(|refusal| panic!("{name}: {refusal}"));
    (name, job)
}

/// What the ground bears under a toe by document 01 alone, before request #105: for
/// every block a straight line from the toe on, however little of it bears.
pub fn borne_by_line(wall: &Wall, bearing: &Reported) -> Effects {
    let Reported { block, case, .. } = bearing;
    let twice_l = 2 * wall.base_length();
    let reach = 2 * block.contact.over;
    let pressure_at = |twice_s: Whole| match block.kind {
        Contact::Whole => {
            let line = block.toe.over * (twice_l - twice_s) + block.heel.over * twice_s;
            up(case.pascals() * line, twice_l * block.toe.under)
        }
        Contact::ToeTriangle => {
            let into = reach - block.contact.under * twice_s;
            up(bearing.toe * into.max(0), reach)
        }
        Contact::HeelTriangle => {
            let into = reach - block.contact.under * (twice_l - twice_s);
            up(bearing.heel * into.max(0), reach)
        }
    };
    let twice_a = 2 * wall.toe + wall.stem_thickness;
    let (at_end, at_face) = (pressure_at(0), pressure_at(2 * wall.toe));
    let at_middle = pressure_at(twice_a);
    Effects {
        shear: up((at_end + at_face) * wall.toe, 2000),
        moment: up((2 * at_end + at_middle) * twice_a * twice_a, 24_000),
    }
}

/// A cage by document 01 alone, before request #106: whole mm2.
#[derive(Clone, Copy, Debug, PartialEq, Eq)]
pub struct Before {
    /// 0 where compression steel would be needed.
    pub required: Whole,
    pub provided: Whole,
    pub fails: bool,
}

/// Needed and least steel rounded up to whole mm2, provided steel down.
pub fn steel_before(wall: &Wall, thickness: Whole, bars: &Reinforcement, moment: Whole) -> Before {
    let area = match bars.bar {
        8 => 5026,
        10 => 7853,
        12 => 11_309,
        16 => 20_106,
        20 => 31_415,
        25 => 49_087,
        32 => 80_424,
        40 => 125_663,
        other => panic!("no bar of {other} mm"),
    };
    let provided = down(area * 1000, 100 * bars.spacing);
    let arm = twice_lever_arm(moment, twice_depth(thickness, bars), wall.fcu);
    let required = arm.map(|z| {
        let needed = up(200 * moment, 87 * wall.fy * z);
        let least = up(wall.least_steel * 1000 * thickness, 10_000);
        needed.max(least)
    });
    Before {
        required: required.unwrap_or(0),
        provided,
        fails: required.is_none_or(|required| provided < required),
    }
}
