//! A wall worked once more with its downstand, and judged once more; a step may be wrong.

use super::Fault::{self, *};
use second::bearing::{Bearing, Case};
use second::downstand::Underfoot;
use second::forces::{
    load_components, passive_force, propping_force, pushes, slides, totals, weights, Action, Back,
    Component, Totals,
};
use second::heel::{borne, less, pressed_down};
use second::job_file::{field, field_in_range, Direction, Load, RawLoad, RawWall, Wall};
use second::rounding::{down, half_up, up};
use second::section::{check_section, toe_effects, Effects, Section};
use second::sheet_line::{
    HEEL_STEEL, LINE_NUMBERS, NO_FACTORED_BLOCK, NO_SERVICE_BLOCK, OVERTURNS, OVER_ALLOWABLE,
    SHEAR, SLIDES, STEM_STEEL, TOE_STEEL,
};
use second::Whole;

/// What a downstand weighs, N.
fn newtons(fault: Fault, wall: &Wall) -> Whole {
    let density = match fault {
        DownstandOfStemsDensity => wall.stem_density,
        _ => wall.base_density,
    };
    let product = wall.downstand.depth * wall.downstand.thickness * density;
    match fault {
        DownstandRoundedUp => up(product, 100_000),
        DownstandRoundedDown => down(product, 100_000),
        DownstandHalfDown => up(2 * product - 100_000, 200_000),
        _ => half_up(product, 100_000),
    }
}

/// Six times its distance from the toe, mm.
fn six_distances(fault: Fault, wall: &Wall) -> Whole {
    let (position, thickness) = (wall.downstand.position, wall.downstand.thickness);
    match fault {
        DownstandAtItsFront => 6 * position,
        DownstandAtItsBack => 6 * (position + thickness),
        DownstandFromItsMiddle => 6 * position - 3 * thickness,
        _ => 6 * position + 3 * thickness,
    }
}

/// The wall by whose water the fill is wet.
fn wetted(fault: Fault, wall: &Wall) -> Wall {
    let mut wetted = wall.clone();
    if fault == WetWithoutDepth {
        wetted.downstand.depth = 0;
    }
    wetted
}

/// The five pushes on the whole back, with the levers of the paper.
fn pushes_on_back(fault: Fault, wall: &Wall, k: Whole) -> [Component; 5] {
    let dd = wall.downstand.depth;
    let mut back = Back::of_wall(wall);
    if fault == HeightWithoutDepth {
        back.height -= dd;
        back.water = back.water.min(back.height);
    }
    let (h, hw) = (back.height, back.water);
    let levers = [
        (SurchargeLeverWithoutDepth, 3 * h, 6 * dd),
        (MoistAboveLeverWithoutDepth, 2 * (h + 2 * hw), 6 * dd),
        (MoistBelowLeverWithoutDepth, 3 * hw, 6 * dd),
        (SaturatedLeverWithoutDepth, 2 * hw, 6 * dd),
        (WaterLeverWithoutDepth, 2 * hw, 6 * dd),
    ];
    let mut rows = pushes(wall, k, back);
    for (row, (own, above_foot, depth)) in rows.iter_mut().zip(levers) {
        let lever = match fault {
            LeversAboutDownstand => above_foot,
            _ if fault == own => above_foot,
            LeversCutOff => (above_foot - depth).max(0),
            _ => above_foot - depth,
        };
        row.moment = row.horizontal * lever;
    }
    rows
}

/// R to M6 of one case.
fn totals_of(fault: Fault, wall: &Wall, loads: &[Load], case: Case) -> Totals {
    let (k, multiplier): (Whole, fn(Action) -> Whole) = match case {
        Case::Service => (wall.ka, |_| 1),
        Case::Factored => (wall.k0, Action::factor),
    };
    let [stem, base, _, saturated, moist, surcharge] = weights(&wetted(fault, wall));
    let mut table = vec![stem, base, saturated, moist, surcharge];
    table.extend(pushes_on_back(fault, wall, k));
    for load in loads {
        let raised = match (fault, load.direction) {
            (LoadLeverByDepth, Direction::Across) => wall.downstand.depth,
            _ => 0,
        };
        table.extend(load_components(load, raised));
    }
    let mut total = totals(&table, multiplier);
    let factor = match (case, fault) {
        (Case::Factored, DownstandAt16) => 16,
        (Case::Factored, DownstandNotFactored) => 10,
        (Case::Factored, _) => 14,
        (Case::Service, _) => 1,
    };
    let weight = factor * newtons(fault, wall);
    if fault != DownstandNotInR {
        total.r += weight;
    }
    if fault != DownstandNotInMrest {
        total.mrest += weight * six_distances(fault, wall);
        total.m6 += weight * six_distances(fault, wall);
    }
    if fault == MotCutOff && total.mot < 0 {
        total.m6 += total.mot;
        total.mot = 0;
    }
    total
}

/// What holds the wall against sliding.
fn resistance(fault: Fault, wall: &Wall, loads: &[Load], r: Whole) -> Whole {
    let mut beside = wall.clone();
    if fault == PassiveWithoutDepth {
        beside.downstand.depth = 0;
    }
    let [.., surcharge] = weights(wall);
    let live: Whole = (loads.iter())
        .filter(|load| load.direction == Direction::Down)
        .map(|load| load.live)
        .sum();
    let left_out = match fault {
        DownstandNotInFriction => newtons(fault, wall),
        _ => 0,
    };
    let lasting = r - surcharge.vertical - live - left_out;
    passive_force(&beside) + down(wall.tangent * lasting, 1000)
}

/// Toe and heel pressure of one case, and whether a block is given.
fn pressures(fault: Fault, total: &Totals, l: Whole, case: Case) -> (Bearing, [Whole; 2], bool) {
    let bearing = Bearing::of(total.r, total.m6, l, case);
    let (toe, heel) = bearing.pressures();
    let left = 6 * total.r * l - total.m6;
    let own_bit = match case {
        Case::Service => PastHeelNotInBit8,
        Case::Factored => PastHeelNotInBit16,
    };
    match fault {
        // The formula for a heel triangle, whatever is left.
        BlockPastHeel if left < 0 => {
            let heel = up(-case.pascals() * 4 * total.r * total.r, -left);
            (bearing, [0, heel], true)
        }
        BlockAtHeelsEnd if left == 0 => (bearing, [0, 0], true),
        _ if fault == own_bit && left <= 0 => (bearing, [0, 0], true),
        _ => (bearing, [toe, heel], bearing.given().is_some()),
    }
}

fn toe_of(fault: Fault, wall: &Wall, bearing: &Bearing) -> Option<Section> {
    let given = bearing.given().filter(|_| wall.toe > 0)?;
    let mut effects = toe_effects(wall, given);
    if fault == DownstandInToesWeight && Underfoot::of(wall).under_toe() {
        let tenths = 14 * newtons(fault, wall);
        let twice_arm = 2 * wall.toe + wall.stem_thickness - six_distances(fault, wall) / 3;
        effects.shear = (effects.shear - down(tenths, 10)).max(0);
        effects.moment = (effects.moment - down(tenths * twice_arm, 20)).max(0);
    }
    Some(check_section(
        wall,
        wall.base_thickness,
        &wall.toe_bars,
        effects,
    ))
}

fn heel_of(fault: Fault, wall: &Wall, bearing: &Bearing) -> Option<Section> {
    let given = bearing.given().filter(|_| wall.heel > 0)?;
    let mut pressed = pressed_down(&wetted(fault, wall));
    if fault == DownstandInHeelsWeight && Underfoot::of(wall).under_heel() {
        let tenths = 14 * newtons(fault, wall);
        let twice_arm = six_distances(fault, wall) / 3 - 2 * wall.toe - wall.stem_thickness;
        pressed.shear += up(tenths, 10);
        pressed.moment += up(tenths * twice_arm, 20);
    }
    let effects = less(pressed, borne(wall, given));
    Some(check_section(
        wall,
        wall.base_thickness,
        &wall.heel_bars,
        effects,
    ))
}

fn stem_of(fault: Fault, wall: &Wall, loads: &[Load]) -> Section {
    let dd = wall.downstand.depth;
    let mut back = Back::of_stem(&wetted(fault, wall));
    match fault {
        DownstandInStemsHeight => back.height += dd,
        StemsLeversWithDepth => back.point = dd,
        _ => {}
    }
    let mut table = pushes(wall, wall.k0, back).to_vec();
    let top = wall.base_thickness;
    let lowest = match fault {
        LoadOnStemByDepth => top + dd,
        _ => top,
    };
    for load in loads {
        if load.direction == Direction::Across && load.position >= lowest {
            table.extend(load_components(load, top));
        }
    }
    let factored = |of: fn(&Component) -> Whole| -> Whole {
        table.iter().map(|c| c.action.factor() * of(c)).sum()
    };
    let effects = Effects {
        shear: up(factored(|c| c.horizontal), 10),
        moment: up(factored(|c| c.moment), 60).max(0),
    };
    check_section(wall, wall.stem_thickness, &wall.stem_bars, effects)
}

/// All that a line is made of.
struct Anew {
    service: Totals,
    resistance: Whole,
    in_service: ([Whole; 2], bool),
    factored: ([Whole; 2], bool),
    toe: Option<Section>,
    stem: Section,
    heel: Option<Section>,
}

impl Anew {
    fn of(fault: Fault, wall: &Wall, loads: &[Load]) -> Anew {
        let l = wall.base_length();
        let service = totals_of(fault, wall, loads, Case::Service);
        let factored = totals_of(fault, wall, loads, Case::Factored);
        let (_, reported, given) = pressures(fault, &service, l, Case::Service);
        let (block, factored_reported, factored_given) =
            pressures(fault, &factored, l, Case::Factored);
        Anew {
            service,
            resistance: resistance(fault, wall, loads, service.r),
            in_service: (reported, given),
            factored: (factored_reported, factored_given),
            toe: toe_of(fault, wall, &block),
            stem: stem_of(fault, wall, loads),
            heel: heel_of(fault, wall, &block),
        }
    }

    fn failures(&self, wall: &Wall) -> u16 {
        let parts = [
            (self.toe.as_ref(), TOE_STEEL),
            (Some(&self.stem), STEM_STEEL),
            (self.heel.as_ref(), HEEL_STEEL),
        ];
        let (service, ([toe, heel], given)) = (&self.service, self.in_service);
        let over = toe.max(heel) > 1000 * wall.allowable;
        let mut checks = vec![
            (SLIDES, slides(wall, self.resistance, service.h)),
            (OVERTURNS, service.mrest < service.mot),
            (OVER_ALLOWABLE, over),
            (NO_SERVICE_BLOCK, !given),
            (NO_FACTORED_BLOCK, !self.factored.1),
        ];
        for (section, bit) in parts {
            checks.push((bit, section.is_some_and(|s| s.steel_fails)));
            checks.push((SHEAR, section.is_some_and(|s| s.shear_fails)));
        }
        let set = checks.iter().filter(|(_, fails)| *fails);
        set.fold(0, |failures, (bit, _)| failures | bit)
    }
}

/// A wall's line.
pub fn line(fault: Fault, number: usize, wall: &Wall, loads: &[Load]) -> [i64; LINE_NUMBERS] {
    let anew = Anew::of(fault, wall, loads);
    let figures = |section: Option<&Section>| {
        section.map_or([0; 3], |s| [s.effects.shear, s.effects.moment, s.required])
    };
    let prop = propping_force(wall, anew.resistance, anew.service.h);
    let numbers: Vec<Whole> = [
        &[number as Whole, Whole::from(anew.failures(wall))][..],
        &[anew.service.r, anew.service.h, prop, anew.service.m6],
        &anew.in_service.0,
        &anew.factored.0,
        &figures(anew.toe.as_ref()),
        &figures(Some(&anew.stem)),
        &figures(anew.heel.as_ref()),
    ]
    .concat();
    std::array::from_fn(|place| numbers[place] as i64)
}

/// Whether a field, counted from 0, is taken.
fn is_taken(fault: Fault, raw: &RawWall, index: usize) -> bool {
    let of = |index: usize| u64::from(raw[index]);
    let l = of(field::TOE) + of(field::STEM_THICKNESS) + of(field::HEEL);
    let (depth, position) = (of(field::DOWNSTAND_DEPTH), of(field::DOWNSTAND_POSITION));
    let thickness = of(field::DOWNSTAND_THICKNESS);
    let fits = position + thickness <= l;
    match (fault, index) {
        (WaterWithoutDepth, field::WATER_HEIGHT) => {
            of(index) <= of(field::STEM_HEIGHT) + of(field::BASE_THICKNESS)
        }
        (WaterByWrappedDepth, field::WATER_HEIGHT) => {
            let crest = raw[field::STEM_HEIGHT].wrapping_add(raw[field::BASE_THICKNESS]);
            raw[index] <= crest.wrapping_add(raw[field::DOWNSTAND_DEPTH])
        }
        (WaterByGreatestDepth, field::WATER_HEIGHT) => {
            let crest = of(field::STEM_HEIGHT) + of(field::BASE_THICKNESS);
            of(index) <= crest + depth.min(1000)
        }
        (DepthUnbounded, field::DOWNSTAND_DEPTH) => true,
        (PositionUnbounded, field::DOWNSTAND_POSITION) if depth > 0 => true,
        (PositionWithThickness, field::DOWNSTAND_POSITION) if depth > 0 => fits,
        (PositionFreeWithoutDepth, field::DOWNSTAND_POSITION) if depth == 0 => true,
        (ThicknessWithoutPosition, field::DOWNSTAND_THICKNESS) if depth > 0 => {
            (100..=1500).contains(&thickness) && thickness <= l
        }
        (ThicknessUpToLength, field::DOWNSTAND_THICKNESS) if depth > 0 => thickness >= 100 && fits,
        (ThicknessFromNought, field::DOWNSTAND_THICKNESS) if depth > 0 => thickness <= 1500 && fits,
        (ThicknessFreeWithoutDepth, field::DOWNSTAND_THICKNESS) if depth == 0 => true,
        (ThicknessStrictlyWithin, field::DOWNSTAND_THICKNESS) if depth > 0 => {
            (100..=1500).contains(&thickness) && position + thickness < l
        }
        _ => field_in_range(raw, index),
    }
}

/// The first of a wall's fields, counted from 0, that isn't taken.
pub fn first_bad(fault: Fault, raw: &RawWall) -> Option<usize> {
    let first = (0..raw.len()).find(|index| !is_taken(fault, raw, *index));
    match first {
        Some(field::WATER_HEIGHT) if fault == DepthBeforeWater => {
            let depth = field::DOWNSTAND_DEPTH;
            Some(if is_taken(fault, raw, depth) {
                field::WATER_HEIGHT
            } else {
                depth
            })
        }
        first => first,
    }
}

/// A load, or none where it isn't taken.
pub fn load_taken(fault: Fault, raw: &RawLoad, walls: &[Wall]) -> Option<Load> {
    let on = walls.get((raw[0] as usize).checked_sub(1)?)?;
    let position = Whole::from(raw[2]);
    match (fault, raw[1]) {
        (LoadUpToHeight, 1) if on.crest() < position && position <= on.height() => {
            // As any load across, but for where it stands.
            let lower = [raw[0], raw[1], 0, raw[3], raw[4]];
            let load = Load::from_raw(&lower, walls)?;
            Some(Load { position, ..load })
        }
        (LoadFromDownstand, 1) if position + on.downstand.depth > on.crest() => None,
        _ => Load::from_raw(raw, walls),
    }
}
