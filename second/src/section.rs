//! Document 01, "Toe and stem": shear, moment, steel and the shear check; document 02,
//! "#106 Steel to the hundredth". What the ground bears under the toe is worked in
//! [`toe`](crate::toe), shear and moment of the heel in [`heel`](crate::heel). Steel and
//! shear are checked alike in all three.
//!
//! V in N, M in N mm and steel in hundredths of mm2, all per metre run.

use crate::bearing::Reported;
use crate::forces::{load_components, pushes, Action, Back, Component};
use crate::heel::heel_effects;
use crate::job_file::{Direction, Load, Reinforcement, Wall, BARS};
use crate::rounding::{down, up};
use crate::toe::{borne, twice_middle};
use crate::Whole;

/// Shear and moment of a part.
#[derive(Clone, Copy, Debug, PartialEq, Eq)]
pub struct Effects {
    pub shear: Whole,
    pub moment: Whole,
}

/// The toe under a factored block, its own weight (1.4 times) taken off. The
/// weight is worked from the slab itself, not from the rounded base weight, and
/// over all of the toe, however little of it bears. A downstand is no part of it.
pub fn toe_effects(wall: &Wall, bearing: &Reported) -> Effects {
    let borne = borne(wall, bearing);
    let twice_a = twice_middle(wall);
    // 14 tenths x (10 N/m3) x mm = 14/1000 N/m2, and (N/m2) x mm = N/1000.
    let slab = 14 * wall.base_density * wall.base_thickness;
    let shear = borne.shear - down(slab * wall.toe, 1_000_000);
    // A half of a^2 is (2a)^2/8.
    let moment = borne.moment - down(slab * twice_a * twice_a, 8_000_000);
    Effects {
        shear: shear.max(0),
        moment: moment.max(0),
    }
}

/// The stem above the base. Each push is rounded up in whole N before its
/// factor; the sums are rounded up once more.
pub fn stem_effects(wall: &Wall, loads: &[Load]) -> Effects {
    let mut table: Vec<Component> = pushes(wall, wall.k0, Back::of_stem(wall)).to_vec();
    let top_of_base = wall.base_thickness;
    table.extend(
        loads
            .iter()
            .filter(|load| load.direction == Direction::Across && load.position >= top_of_base)
            .flat_map(|load| load_components(load, top_of_base)),
    );
    let factored = |of: fn(&Component) -> Whole| -> Whole {
        table.iter().map(|c| Action::factor(c.action) * of(c)).sum()
    };
    // Tenths of a N; tenths of sixths of a N mm.
    Effects {
        shear: up(factored(|c| c.horizontal), 10),
        moment: up(factored(|c| c.moment), 60),
    }
}

/// D, twice the effective depth, mm.
pub fn twice_depth(thickness: Whole, bars: &Reinforcement) -> Whole {
    2 * thickness - 2 * bars.cover - bars.bar
}

/// The greatest moment that the concrete alone can take, N mm.
pub fn greatest_moment(d: Whole, fcu: Whole) -> Whole {
    39 * fcu * d * d
}

/// The greatest moment for which Z may be twice the lever arm, N mm.
pub fn moment_borne(z: Whole, d: Whole, fcu: Whole) -> Whole {
    225 * fcu * z * (d - z)
}

/// The greatest Z whatever the moment, 0.95 of D rounded down, mm.
pub fn greatest_arm(d: Whole) -> Whole {
    down(19 * d, 20)
}

/// Whether the concrete alone can't take the moment.
pub fn needs_compression_steel(moment: Whole, d: Whole, fcu: Whole) -> bool {
    moment > greatest_moment(d, fcu)
}

/// Z, twice the lever arm, mm; `None` where compression steel would be needed.
pub fn twice_lever_arm(moment: Whole, d: Whole, fcu: Whole) -> Option<Whole> {
    if needs_compression_steel(moment, d, fcu) {
        return None;
    }
    let least = up(d, 2);
    (least..=greatest_arm(d))
        .rev()
        .find(|z| moment <= moment_borne(*z, d, fcu))
}

/// Hundredths of mm2 for the moment, rounded up: M / (0.87 fy Z / 2) is in mm2. Where
/// there is an arm, M is at most [`greatest_moment`], so that 20000 M is below 2^49.
pub fn needed_steel(moment: Whole, fy: Whole, z: Whole) -> Whole {
    up(20_000 * moment, 87 * fy * z)
}

/// Whether that is whole before it is rounded.
pub fn needed_is_exact(moment: Whole, fy: Whole, z: Whole) -> bool {
    20_000 * moment % (87 * fy * z) == 0
}

/// The needed steel at a depth; `None` where compression steel would be needed.
pub fn needed_at_depth(moment: Whole, d: Whole, fcu: Whole, fy: Whole) -> Option<Whole> {
    twice_lever_arm(moment, d, fcu).map(|z| needed_steel(moment, fy, z))
}

/// Hundredths of mm2 whatever the moment, exact. The percentage is in hundredths, so
/// that one of them is a ten-thousandth of 1000 mm x thickness.
pub fn least_steel(percentage: Whole, thickness: Whole) -> Whole {
    10 * percentage * thickness
}

/// Area of one bar in hundredths of mm2, in the order of [`BARS`].
const BAR_AREAS: [Whole; 8] = [5026, 7853, 11309, 20106, 31415, 49087, 80424, 125_663];

/// Hundredths of mm2 put in, rounded down; 0 for a bar that isn't made.
pub fn provided_steel(bar: Whole, spacing: Whole) -> Whole {
    BARS.iter()
        .zip(BAR_AREAS)
        .find(|(size, _)| Whole::from(**size) == bar)
        .map_or(0, |(_, area)| down(area * 1000, spacing))
}

/// Whether V passes all three limits of stress; 2V over 1000 D is the stress
/// in N/mm2. The first limit is strict.
pub fn shear_passes(shear: Whole, d: Whole, stress: Whole, fcu: Whole) -> bool {
    let twice = 2 * shear;
    let area = 1000 * d;
    twice < stress * d && twice <= 5000 * d && 100 * twice * twice <= 64 * fcu * area * area
}

/// All that is worked for the toe, the stem or the heel; the four areas in hundredths of
/// mm2.
#[derive(Clone, Copy, Debug, PartialEq, Eq)]
pub struct Section {
    pub effects: Effects,
    pub twice_depth: Whole,
    pub lever_arm: Option<Whole>,
    pub needed: Whole,
    pub least: Whole,
    /// 0 where compression steel would be needed.
    pub required: Whole,
    pub provided: Whole,
    pub steel_fails: bool,
    pub shear_fails: bool,
}

impl Section {
    /// Whether the cage is just what is required, which is enough.
    pub fn is_even(&self) -> bool {
        self.lever_arm.is_some() && self.provided == self.required
    }

    /// Whether the cage fails for want of a hundredth of a mm2.
    pub fn is_hundredth_short(&self) -> bool {
        self.lever_arm.is_some() && self.provided + 1 == self.required
    }

    /// Whether the cage is enough, and wasn't before request #106: in whole mm2 what is
    /// required goes up and what is provided down.
    pub fn failed_in_mm2(&self) -> bool {
        !self.steel_fails && down(self.provided, 100) < up(self.required, 100)
    }
}

/// The checks of a section of the given thickness. Reading taken: where
/// compression steel would be needed the area is 0 even if a least area is set.
pub fn check_section(
    wall: &Wall,
    thickness: Whole,
    bars: &Reinforcement,
    effects: Effects,
) -> Section {
    let d = twice_depth(thickness, bars);
    let lever_arm = twice_lever_arm(effects.moment, d, wall.fcu);
    let needed = lever_arm.map_or(0, |z| needed_steel(effects.moment, wall.fy, z));
    let least = least_steel(wall.least_steel, thickness);
    let required = lever_arm.map_or(0, |_| needed.max(least));
    let provided = provided_steel(bars.bar, bars.spacing);
    Section {
        effects,
        twice_depth: d,
        lever_arm,
        needed,
        least,
        required,
        provided,
        steel_fails: lever_arm.is_none() || provided < required,
        shear_fails: !shear_passes(effects.shear, d, bars.concrete_shear_stress, wall.fcu),
    }
}

/// `None` where no toe check is made: no toe, or no factored block given (for
/// want of moment or for its peak).
/// Reading taken: the toe figures are V, M and the area; the block's own toe
/// pressure is not one of them and is still reported with a toe of 0 mm.
pub fn toe_section(wall: &Wall, factored: Option<&Reported>) -> Option<Section> {
    let bearing = factored.filter(|_| wall.toe > 0)?;
    let effects = toe_effects(wall, bearing);
    Some(check_section(
        wall,
        wall.base_thickness,
        &wall.toe_bars,
        effects,
    ))
}

/// `None` where no heel check is made: no heel, or no factored block given.
pub fn heel_section(wall: &Wall, factored: Option<&Reported>) -> Option<Section> {
    let bearing = factored.filter(|_| wall.heel > 0)?;
    let effects = heel_effects(wall, bearing);
    Some(check_section(
        wall,
        wall.base_thickness,
        &wall.heel_bars,
        effects,
    ))
}

pub fn stem_section(wall: &Wall, loads: &[Load]) -> Section {
    let effects = stem_effects(wall, loads);
    check_section(wall, wall.stem_thickness, &wall.stem_bars, effects)
}
