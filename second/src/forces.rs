//! Document 01, "Forces": weights, pushes, totals, sliding and the prop; with document
//! 02, "#107 Downstands".
//!
//! Forces are whole N per metre run, moments are sixths of a N mm.

use crate::job_file::{Direction, Load, Wall};
use crate::rounding::{down, half_up, up};
use crate::Whole;

/// Water, in 10 N/m3.
pub const WATER_DENSITY: Whole = 981;

/// mm x mm x (10 N/m3) = 10 x 10^-6 N: a weight is its product over 10^5.
pub const WEIGHT_SCALE: Whole = 100_000;
/// (10 N/m2) x mm = 10 x 10^-3 N.
const SURCHARGE_WEIGHT_SCALE: Whole = 100;
/// The surcharge's scale with a coefficient in thousandths.
const SURCHARGE_PUSH_SCALE: Whole = 100_000;
/// The weight's scale with a coefficient in thousandths.
const EARTH_PUSH_SCALE: Whole = 100_000_000;
/// Water pushes in full: no coefficient, so the weight's scale.
const WATER_PUSH_SCALE: Whole = WEIGHT_SCALE;
/// A coefficient in thousandths on a force in N.
const FRICTION_SCALE: Whole = 1000;

/// What a component is, which settles its factor and the sum it stands in.
#[derive(Clone, Copy, Debug, PartialEq, Eq)]
pub enum Action {
    OwnWeight,
    Fill,
    SurchargeDown,
    DeadDown,
    LiveDown,
    SurchargePush,
    EarthPush,
    WaterPush,
    DeadAcross,
    LiveAcross,
}

use Action::*;

impl Action {
    /// Stem, base, fill and dead loads down: what Mrest takes.
    pub fn restores(self) -> bool {
        matches!(self, OwnWeight | Fill | DeadDown)
    }

    /// Pushes and horizontal loads: what Mot takes.
    pub fn overturns(self) -> bool {
        matches!(
            self,
            SurchargePush | EarthPush | WaterPush | DeadAcross | LiveAcross
        )
    }

    /// Neither: down like a weight, but not relied on.
    pub fn is_transient(self) -> bool {
        matches!(self, SurchargeDown | LiveDown)
    }

    /// The factor of the factored case, in tenths.
    pub fn factor(self) -> Whole {
        match self {
            SurchargeDown | SurchargePush | LiveDown | LiveAcross => 16,
            _ => 14,
        }
    }
}

/// A row of the component table. The moment is about the toe, at the underside of the
/// base (or about the foot of the part looked at); above 0 it restores of a weight and
/// overturns of a push. A push that stands below that point has one below 0.
#[derive(Clone, Copy, Debug, PartialEq, Eq)]
pub struct Component {
    pub action: Action,
    pub vertical: Whole,
    pub horizontal: Whole,
    pub moment: Whole,
}

/// A force down; the distance from the toe is in sixths of a mm.
fn weight(action: Action, force: Whole, six_distances: Whole) -> Component {
    Component {
        action,
        vertical: force,
        horizontal: 0,
        moment: force * six_distances,
    }
}

/// A force towards the toe; its height is in sixths of a mm, and may be below 0.
fn push(action: Action, force: Whole, six_heights: Whole) -> Component {
    Component {
        action,
        vertical: 0,
        horizontal: force,
        moment: force * six_heights,
    }
}

/// Stem, base, downstand, the two fills and the surcharge over the heel. Reading taken:
/// the surcharge stands among the weights, so it is rounded as one, halves up.
pub fn weights(wall: &Wall) -> [Component; 6] {
    let length = wall.base_length();
    let downstand = &wall.downstand;
    let wet = wall.water_on_base();
    let dry = wall.stem_height - wet;
    let block = |area: Whole, density: Whole| half_up(area * density, WEIGHT_SCALE);
    let over_heel = 6 * length - 3 * wall.heel;
    [
        weight(
            OwnWeight,
            block(wall.stem_height * wall.stem_thickness, wall.stem_density),
            6 * wall.toe + 3 * wall.stem_thickness,
        ),
        weight(
            OwnWeight,
            block(length * wall.base_thickness, wall.base_density),
            3 * length,
        ),
        weight(
            OwnWeight,
            block(downstand.depth * downstand.thickness, wall.base_density),
            6 * downstand.position + 3 * downstand.thickness,
        ),
        weight(
            Fill,
            block(wall.heel * wet, wall.saturated_density),
            over_heel,
        ),
        weight(Fill, block(wall.heel * dry, wall.moist_density), over_heel),
        weight(
            SurchargeDown,
            half_up(wall.surcharge * wall.heel, SURCHARGE_WEIGHT_SCALE),
            over_heel,
        ),
    ]
}

/// What the fill pushes on: its height and the water's, mm above its foot, and how far
/// above the foot the point is about which moments are taken.
#[derive(Clone, Copy, Debug, PartialEq, Eq)]
pub struct Back {
    pub height: Whole,
    pub water: Whole,
    pub point: Whole,
}

impl Back {
    /// From the underside of the downstand up; moments about the underside of the base.
    pub fn of_wall(wall: &Wall) -> Back {
        Back {
            height: wall.height(),
            water: wall.water_height,
            point: wall.downstand.depth,
        }
    }

    /// From the top of the base up; moments about it.
    pub fn of_stem(wall: &Wall) -> Back {
        Back {
            height: wall.stem_height,
            water: wall.water_on_base(),
            point: 0,
        }
    }
}

/// The five pushes on a back, for a coefficient in thousandths.
pub fn pushes(wall: &Wall, coefficient: Whole, back: Back) -> [Component; 5] {
    let Back {
        height,
        water,
        point,
    } = back;
    let moist = coefficient * wall.moist_density;
    let buoyant = coefficient * (wall.saturated_density - WATER_DENSITY);
    let above = height - water;
    let push = |action, force, six_heights: Whole| push(action, force, six_heights - 6 * point);
    [
        push(
            SurchargePush,
            up(coefficient * wall.surcharge * height, SURCHARGE_PUSH_SCALE),
            3 * height,
        ),
        push(
            EarthPush,
            up(moist * above * above, 2 * EARTH_PUSH_SCALE),
            2 * (height + 2 * water),
        ),
        push(
            EarthPush,
            up(moist * above * water, EARTH_PUSH_SCALE),
            3 * water,
        ),
        push(
            EarthPush,
            up(buoyant * water * water, 2 * EARTH_PUSH_SCALE),
            2 * water,
        ),
        push(
            WaterPush,
            up(WATER_DENSITY * water * water, 2 * WATER_PUSH_SCALE),
            2 * water,
        ),
    ]
}

/// The dead and the live component of a load whose position counts from
/// `datum` mm.
pub fn load_components(load: &Load, datum: Whole) -> [Component; 2] {
    let arm = 6 * (load.position - datum);
    match load.direction {
        Direction::Down => [
            weight(DeadDown, load.dead, arm),
            weight(LiveDown, load.live, arm),
        ],
        Direction::Across => [
            push(DeadAcross, load.dead, arm),
            push(LiveAcross, load.live, arm),
        ],
    }
}

/// The component table of a whole wall for one coefficient of earth pressure.
pub fn component_table(wall: &Wall, loads: &[Load], coefficient: Whole) -> Vec<Component> {
    let mut table = weights(wall).to_vec();
    table.extend(pushes(wall, coefficient, Back::of_wall(wall)));
    table.extend(loads.iter().flat_map(|load| load_components(load, 0)));
    table
}

/// R, H in N; Mrest, Mot and M6 in sixths of a N mm. Factored: in tenths of
/// those.
#[derive(Clone, Copy, Debug, PartialEq, Eq)]
pub struct Totals {
    pub r: Whole,
    pub h: Whole,
    pub mrest: Whole,
    pub mot: Whole,
    pub m6: Whole,
}

/// Sums of a table, each row times the multiplier of its action.
pub fn totals(table: &[Component], multiplier: impl Fn(Action) -> Whole) -> Totals {
    let sum = |of: &dyn Fn(&Component) -> Whole| -> Whole {
        table.iter().map(|c| multiplier(c.action) * of(c)).sum()
    };
    let moment_where = |taken: &dyn Fn(Action) -> bool| -> Whole {
        sum(&|c| if taken(c.action) { c.moment } else { 0 })
    };
    let mrest = moment_where(&Action::restores);
    let mot = moment_where(&Action::overturns);
    Totals {
        r: sum(&|c| c.vertical),
        h: sum(&|c| c.horizontal),
        mrest,
        mot,
        m6: mrest - mot + moment_where(&Action::is_transient),
    }
}

pub fn service_totals(wall: &Wall, loads: &[Load]) -> Totals {
    totals(&component_table(wall, loads, wall.ka), |_| 1)
}

pub fn factored_totals(wall: &Wall, loads: &[Load]) -> Totals {
    totals(&component_table(wall, loads, wall.k0), Action::factor)
}

/// mm of soil in front that still resists.
pub fn passive_depth(wall: &Wall) -> Whole {
    let covered = wall.cover_in_front + wall.base_thickness + wall.downstand.depth;
    (covered - wall.excavation).max(0)
}

/// N, rounded down.
pub fn passive_force(wall: &Wall) -> Whole {
    let depth = passive_depth(wall);
    down(
        wall.kp_cos * wall.base_soil_density * depth * depth,
        2 * EARTH_PUSH_SCALE,
    )
}

/// N, rounded down, from all that stands on the base for good: the service R
/// less the rounded surcharge over the heel and the live loads down.
pub fn friction(wall: &Wall, loads: &[Load]) -> Whole {
    let lasting: Whole = component_table(wall, loads, wall.ka)
        .iter()
        .filter(|c| !c.action.is_transient())
        .map(|c| c.vertical)
        .sum();
    down(wall.tangent * lasting, FRICTION_SCALE)
}

/// Whether an unpropped wall slides; a propped one is held.
pub fn slides(wall: &Wall, resistance: Whole, h: Whole) -> bool {
    !wall.propped && resistance < h
}

/// N the prop must give; 0 without a prop.
pub fn propping_force(wall: &Wall, resistance: Whole, h: Whole) -> Whole {
    if wall.propped {
        (h - resistance).max(0)
    } else {
        0
    }
}
