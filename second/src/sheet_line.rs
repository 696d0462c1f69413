//! Document 01, "The sheet line", and document 02, "#103 Heel steel": the failures and the
//! 19 numbers of a wall.

use crate::bearing::{Bearing, Case};
use crate::forces::{
    factored_totals, friction, passive_force, propping_force, service_totals, slides, Totals,
};
use crate::job_file::{Job, Load, Wall};
use crate::section::{heel_section, stem_section, toe_section, Section};
use crate::Whole;

/// How many numbers a wall's line has.
pub const LINE_NUMBERS: usize = 19;

pub const SLIDES: u16 = 1;
pub const OVERTURNS: u16 = 2;
pub const OVER_ALLOWABLE: u16 = 4;
pub const NO_SERVICE_BLOCK: u16 = 8;
pub const NO_FACTORED_BLOCK: u16 = 16;
pub const TOE_STEEL: u16 = 32;
pub const STEM_STEEL: u16 = 64;
/// Of toe, stem or heel.
pub const SHEAR: u16 = 128;
pub const HEEL_STEEL: u16 = 256;

/// The bits of all checks.
pub const CHECKS: [u16; 9] = [
    SLIDES,
    OVERTURNS,
    OVER_ALLOWABLE,
    NO_SERVICE_BLOCK,
    NO_FACTORED_BLOCK,
    TOE_STEEL,
    STEM_STEEL,
    SHEAR,
    HEEL_STEEL,
];

/// Everything worked for one wall.
#[derive(Clone, Debug, PartialEq)]
pub struct Worked {
    /// Counted from 1.
    pub number: usize,
    pub service: Totals,
    pub factored: Totals,
    pub passive: Whole,
    pub friction: Whole,
    pub prop: Whole,
    pub service_bearing: Bearing,
    pub factored_bearing: Bearing,
    pub toe: Option<Section>,
    pub stem: Section,
    pub heel: Option<Section>,
    pub failures: u16,
}

/// Works the wall with this number and these loads of its own.
pub fn work_wall(number: usize, wall: &Wall, loads: &[Load]) -> Worked {
    let l = wall.base_length();
    let service = service_totals(wall, loads);
    let factored = factored_totals(wall, loads);
    let passive = passive_force(wall);
    let friction = friction(wall, loads);
    let factored_bearing = Bearing::of(factored.r, factored.m6, l, Case::Factored);
    let mut worked = Worked {
        number,
        service,
        factored,
        passive,
        friction,
        prop: propping_force(wall, passive + friction, service.h),
        service_bearing: Bearing::of(service.r, service.m6, l, Case::Service),
        factored_bearing,
        toe: toe_section(wall, factored_bearing.given()),
        stem: stem_section(wall, loads),
        heel: heel_section(wall, factored_bearing.given()),
        failures: 0,
    };
    worked.failures = failures(wall, &worked);
    worked
}

/// All walls of a job in file order.
pub fn work_job(job: &Job) -> Vec<Worked> {
    let walls = job.walls.iter().zip(job.loads_by_wall());
    walls
        .enumerate()
        .map(|(index, (wall, loads))| work_wall(index + 1, wall, &loads))
        .collect()
}

fn failures(wall: &Wall, worked: &Worked) -> u16 {
    let (toe, heel) = worked.service_bearing.pressures();
    // Allowable in kN/m2. A reported pressure is over a whole number of N/m2
    // just when the exact one is.
    let allowable = 1000 * wall.allowable;
    let toe_part = |fails: fn(&Section) -> bool| worked.toe.as_ref().is_some_and(fails);
    let heel_part = |fails: fn(&Section) -> bool| worked.heel.as_ref().is_some_and(fails);
    let checks = [
        (
            SLIDES,
            slides(wall, worked.passive + worked.friction, worked.service.h),
        ),
        (OVERTURNS, worked.service.mrest < worked.service.mot),
        (OVER_ALLOWABLE, toe > allowable || heel > allowable),
        (NO_SERVICE_BLOCK, worked.service_bearing.given().is_none()),
        (NO_FACTORED_BLOCK, worked.factored_bearing.given().is_none()),
        (TOE_STEEL, toe_part(|s| s.steel_fails)),
        (STEM_STEEL, worked.stem.steel_fails),
        (
            SHEAR,
            toe_part(|s| s.shear_fails) || worked.stem.shear_fails || heel_part(|s| s.shear_fails),
        ),
        (HEEL_STEEL, heel_part(|s| s.steel_fails)),
    ];
    checks
        .iter()
        .filter(|(_, fails)| *fails)
        .fold(0, |set, (bit, _)| set | bit)
}

impl Worked {
    /// The numbers in the line's order; the three areas in hundredths of mm2.
    pub fn numbers(&self) -> [Whole; LINE_NUMBERS] {
        let (toe, heel) = self.service_bearing.pressures();
        let (factored_toe, factored_heel) = self.factored_bearing.pressures();
        let figures = |s: &Section| [s.effects.shear, s.effects.moment, s.required];
        let [toe_v, toe_m, toe_area] = self.toe.as_ref().map_or([0; 3], figures);
        let [stem_v, stem_m, stem_area] = figures(&self.stem);
        let [heel_v, heel_m, heel_area] = self.heel.as_ref().map_or([0; 3], figures);
        [
            self.number as Whole,
            Whole::from(self.failures),
            self.service.r,
            self.service.h,
            self.prop,
            self.service.m6,
            toe,
            heel,
            factored_toe,
            factored_heel,
            toe_v,
            toe_m,
            toe_area,
            stem_v,
            stem_m,
            stem_area,
            heel_v,
            heel_m,
            heel_area,
        ]
    }

    /// The printed line, without its newline.
    pub fn line(&self) -> String {
        let numbers = self.numbers();
        let mut words = vec![numbers[0].to_string(), format!("{:03x}", self.failures)];
        words.extend(numbers[2..].iter().map(Whole::to_string));
        words.join(" ")
    }
}
