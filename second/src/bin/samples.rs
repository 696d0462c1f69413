//! `samples DIR`: writes the sample job files of `jobs/` into DIR.
//!
//! Every number stands here under its name. Units are document 01's: mm,
//! 10 N/m3, thousandths, 10 N/m2, N/m.

use second::generator::draft::{crest, length, Draft, ACROSS, DOWN};
use second::job_file::{RawLoad, RawWall};
use std::path::Path;
use std::process::ExitCode;

const UNPROPPED: u32 = 0;
const PROPPED: u32 = 1;

/// The bars of toe, stem or heel, and the concrete's shear stress there.
#[derive(Clone, Copy)]
struct Bars {
    cover: u32,
    bar: u32,
    spacing: u32,
    shear_stress: u32,
}

/// A downstand: how deep it is, where it begins and how thick it is.
#[derive(Clone, Copy)]
struct Downstand {
    depth: u32,
    position: u32,
    thickness: u32,
}

const NO_DOWNSTAND: Downstand = Downstand {
    depth: 0,
    position: 0,
    thickness: 0,
};

/// The 38 fields of a wall under their names, in the order of documents 01 and 02 but
/// for the first two shear stresses, which stand with their bars.
#[derive(Clone, Copy)]
struct WallNumbers {
    kind: u32,
    stem_height: u32,
    stem_thickness: u32,
    toe: u32,
    heel: u32,
    base_thickness: u32,
    cover_in_front: u32,
    excavation: u32,
    water_height: u32,
    stem_density: u32,
    base_density: u32,
    moist_density: u32,
    saturated_density: u32,
    base_soil_density: u32,
    ka: u32,
    k0: u32,
    kp_cos: u32,
    tangent: u32,
    allowable: u32,
    surcharge: u32,
    fcu: u32,
    fy: u32,
    least_steel: u32,
    toe_bars: Bars,
    stem_bars: Bars,
    heel_bars: Bars,
    downstand: Downstand,
}

impl Bars {
    fn cage(&self) -> [u32; 3] {
        [self.cover, self.bar, self.spacing]
    }
}

impl WallNumbers {
    fn record(&self) -> RawWall {
        let (toe, stem, heel) = (&self.toe_bars, &self.stem_bars, &self.heel_bars);
        let Downstand {
            depth,
            position,
            thickness,
        } = self.downstand;
        let numbers = [
            &self.shape()[..],
            &self.ground_and_strength(),
            &toe.cage(),
            &stem.cage(),
            &[toe.shear_stress, stem.shear_stress],
            &heel.cage(),
            &[heel.shear_stress, depth, position, thickness],
        ];
        numbers.concat().try_into().expect("38 numbers")
    }

    /// Fields 1 to 9.
    fn shape(&self) -> [u32; 9] {
        [
            self.kind,
            self.stem_height,
            self.stem_thickness,
            self.toe,
            self.heel,
            self.base_thickness,
            self.cover_in_front,
            self.excavation,
            self.water_height,
        ]
    }

    /// Fields 10 to 23.
    fn ground_and_strength(&self) -> [u32; 14] {
        [
            self.stem_density,
            self.base_density,
            self.moist_density,
            self.saturated_density,
            self.base_soil_density,
            self.ka,
            self.k0,
            self.kp_cos,
            self.tangent,
            self.allowable,
            self.surcharge,
            self.fcu,
            self.fy,
            self.least_steel,
        ]
    }
}

/// One load but for the number of its wall.
#[derive(Clone, Copy)]
struct LoadNumbers {
    direction: u32,
    position: u32,
    dead: u32,
    live: u32,
}

impl LoadNumbers {
    fn on(&self, wall_number: u32) -> RawLoad {
        [
            wall_number,
            self.direction,
            self.position,
            self.dead,
            self.live,
        ]
    }
}

fn one_wall(wall: &WallNumbers, loads: &[LoadNumbers]) -> Draft {
    Draft {
        walls: vec![wall.record()],
        loads: loads.iter().map(|load| load.on(1)).collect(),
    }
}

/// Case A of document 01, which has no loads.
const CASE_A: WallNumbers = WallNumbers {
    kind: UNPROPPED,
    stem_height: 3000,
    stem_thickness: 300,
    toe: 500,
    heel: 1500,
    base_thickness: 300,
    cover_in_front: 0,
    excavation: 0,
    water_height: 0,
    stem_density: 2400,
    base_density: 2400,
    moist_density: 1800,
    saturated_density: 2000,
    base_soil_density: 1800,
    ka: 333,
    k0: 500,
    kp_cos: 3000,
    tangent: 500,
    allowable: 150,
    surcharge: 1000,
    fcu: 35,
    fy: 500,
    least_steel: 13,
    toe_bars: Bars {
        cover: 40,
        bar: 12,
        spacing: 200,
        shear_stress: 550,
    },
    stem_bars: CASE_A_STEM,
    heel_bars: CASE_A_STEM,
    downstand: NO_DOWNSTAND,
};

/// The stem's bars, and the heel's.
const CASE_A_STEM: Bars = Bars {
    cover: 40,
    bar: 16,
    spacing: 150,
    shear_stress: 550,
};

/// The wall of document 003, from its pages of details and of design.
const DOCUMENT_003: WallNumbers = WallNumbers {
    kind: PROPPED,           // cantilever propped at base
    stem_height: 3250,       // h_stem
    stem_thickness: 375,     // t_wall
    toe: 2600,               // l_toe
    heel: 200,               // l_heel
    base_thickness: 350,     // t_base
    cover_in_front: 0,       // d_cover
    excavation: 0,           // d_exc
    water_height: 3600,      // h_water, up to the crest
    stem_density: 2360,      // 23.6 kN/m3
    base_density: 2360,      // 23.6 kN/m3
    moist_density: 1800,     // 18.0 kN/m3; no fill is above the water
    saturated_density: 2000, // 20.0 kN/m3
    base_soil_density: 2000, // 20.0 kN/m3
    ka: 419,                 // 0.419; wall friction is 0
    k0: 590,                 // 0.590
    kp_cos: 3888,            // 4.193 x cos 22.0 = 3.8877
    tangent: 404,            // tan 22.0 = 0.4040
    allowable: 170,          // 170 kN/m2
    surcharge: 250,          // 2.5 kN/m2
    fcu: 35,
    fy: 500,
    least_steel: 13, // 0.13 %
    toe_bars: Bars {
        cover: 45,
        bar: 25,
        spacing: 175,
        shear_stress: 754, // 0.754 N/mm2, from Table 3.8
    },
    stem_bars: Bars {
        cover: 45,
        bar: 32,
        spacing: 175,
        shear_stress: 853, // 0.853 N/mm2, from Table 3.8
    },
    heel_bars: Bars {
        cover: 40,
        bar: 12,
        spacing: 100,
        shear_stress: 545, // 0.545 N/mm2, from Table 3.8
    },
    downstand: NO_DOWNSTAND, // d_ds 0; l_ds 1500 and t_ds 350 stand beside it idle
};

/// The loads of document 003.
const DOCUMENT_003_LOADS: [LoadNumbers; 2] = [
    LoadNumbers {
        direction: DOWN,
        position: 2750, // l_load, from the toe
        dead: 20_000,   // W_dead 20.0 kN/m
        live: 20_000,   // W_live 20.0 kN/m
    },
    LoadNumbers {
        direction: ACROSS,
        position: 1000, // h_load, above the base's underside
        dead: 35_000,   // F_dead 35.0 kN/m
        live: 0,        // F_live
    },
];

/// The lower wall of document 004. It has no toe, and its stem is of masonry:
/// `docs/SOURCES.md` says what stands in for what can't be given.
const DOCUMENT_004_LOWER: WallNumbers = WallNumbers {
    kind: UNPROPPED,         // unpropped cantilever
    stem_height: 1850,       // h_stem
    stem_thickness: 300,     // t_wall
    toe: 0,                  // l_toe
    heel: 700,               // l_heel
    base_thickness: 300,     // t_base
    cover_in_front: 0,       // d_cover
    excavation: 300,         // d_exc
    water_height: 0,         // h_water
    stem_density: 2000,      // 20.0 kN/m3, masonry
    base_density: 2360,      // 23.6 kN/m3
    moist_density: 1750,     // 17.5 kN/m3
    saturated_density: 2100, // 21.0 kN/m3; no fill is below water
    base_soil_density: 1800, // 18.0 kN/m3
    ka: 280,                 // Ka cos 22.8, the level part: 0.2803 before Ka is cut to 0.304
    k0: 511,                 // 0.511
    kp_cos: 5190,            // 5.571 x cos 21.3 = 5.1905; the passive depth is 0
    tangent: 390,            // tan 21.3 = 0.3899
    allowable: 200,          // 200 kN/m2
    surcharge: 250,          // 2.5 kN/m2
    fcu: 35,                 // of the base; the stem's masonry has 6.4 N/mm2
    fy: 500,
    least_steel: 13, // 0.13 %
    toe_bars: A393,  // the heel's, as there is no toe
    stem_bars: Bars {
        cover: 75, // the greatest there is; a depth of 170 mm takes 124
        bar: 12,
        spacing: 100,
        shear_stress: 304, // 0.304 N/mm2, the masonry's allowable stress
    },
    heel_bars: A393,
    downstand: NO_DOWNSTAND, // d_ds 0; l_ds 450 and t_ds 300 stand beside it idle
};

/// The mesh of document 004's heel, which is 10 mm at 200 mm.
const A393: Bars = Bars {
    cover: 35,
    bar: 10,
    spacing: 200,
    shear_stress: 419, // 0.419 N/mm2, from Table 3.8
};

/// The stone cladding on the front edge of document 004's lower wall.
const DOCUMENT_004_LOWER_LOADS: [LoadNumbers; 1] = [LoadNumbers {
    direction: DOWN,
    position: 0, // l_load
    dead: 4700,  // W_dead 4.7 kN/m
    live: 0,     // W_live
}];

/// Case A's wall made too high on too short a heel, with the steel of toe and stem as it
/// was and too little in the heel.
const OVERLOADED: WallNumbers = WallNumbers {
    stem_height: 4500,
    heel: 700,
    heel_bars: Bars {
        cover: 40,
        bar: 10,
        spacing: 250,
        shear_stress: 200,
    },
    ..CASE_A
};

/// A live load near the heel's end that alone keeps the overloaded wall on its
/// base: it counts for M6 and not for Mrest.
const HOLDING: LoadNumbers = LoadNumbers {
    direction: DOWN,
    position: 1400,
    dead: 0,
    live: 150_000,
};

/// The overloaded wall twice, with and without the load that holds it.
fn every_check() -> Draft {
    Draft {
        walls: vec![OVERLOADED.record(); 2],
        loads: vec![HOLDING.on(1)],
    }
}

/// Case A's wall on clay, where friction and what lies in front aren't enough.
const ON_CLAY: WallNumbers = WallNumbers {
    cover_in_front: 300,
    tangent: 250,
    ..CASE_A
};

/// The same with a key of 500 x 300 that begins at a place.
const fn keyed_at(position: u32) -> WallNumbers {
    WallNumbers {
        downstand: Downstand {
            depth: 500,
            position,
            thickness: 300,
        },
        ..ON_CLAY
    }
}

/// At the front edge of the toe, under the stem and at the end of the heel.
const KEYED_UNDER_TOE: WallNumbers = keyed_at(0);
const KEYED_UNDER_STEM: WallNumbers = keyed_at(500);
const KEYED_UNDER_HEEL: WallNumbers = keyed_at(2000);

/// Water that ends within the base, 100 mm above its underside.
const KEYED_IN_WATER: WallNumbers = WallNumbers {
    water_height: 600,
    ..KEYED_UNDER_HEEL
};

/// A low wall by a path, keyed deeper than it is high.
const LOW_AND_KEYED: WallNumbers = WallNumbers {
    stem_height: 600,
    stem_thickness: 200,
    toe: 400,
    heel: 400,
    base_thickness: 200,
    surcharge: 250,
    downstand: Downstand {
        depth: 900,
        position: 400,
        thickness: 200,
    },
    ..ON_CLAY
};

/// A panel cast in a trench: no toe, no heel, and a metre of it below the base.
const CAST_IN_A_TRENCH: WallNumbers = WallNumbers {
    stem_height: 500,
    stem_thickness: 200,
    toe: 0,
    heel: 0,
    base_thickness: 200,
    ka: 500,
    surcharge: 0,
    downstand: Downstand {
        depth: 1000,
        position: 0,
        thickness: 200,
    },
    ..ON_CLAY
};

/// A pull at the crest of the panel that brings R just to the end of its base.
const TO_THE_END: LoadNumbers = LoadNumbers {
    direction: ACROSS,
    position: 700,
    dead: 6885,
    live: 0,
};

/// The wall that slides, keyed in three ways and in water; a low one; a panel, and the
/// panel with a pull.
fn downstand() -> Draft {
    let walls = [
        ON_CLAY,
        KEYED_UNDER_TOE,
        KEYED_UNDER_STEM,
        KEYED_UNDER_HEEL,
        KEYED_IN_WATER,
        LOW_AND_KEYED,
        CAST_IN_A_TRENCH,
        CAST_IN_A_TRENCH,
    ];
    Draft {
        walls: walls.iter().map(WallNumbers::record).collect(),
        loads: vec![TO_THE_END.on(8)],
    }
}

/// A size of wall: stem height and thickness, base thickness, all bars.
struct Size {
    stem_height: u32,
    stem_thickness: u32,
    base_thickness: u32,
    bar: u32,
    spacing: u32,
}

const fn size(
    stem_height: u32,
    stem_thickness: u32,
    base_thickness: u32,
    bar: u32,
    spacing: u32,
) -> Size {
    Size {
        stem_height,
        stem_thickness,
        base_thickness,
        bar,
        spacing,
    }
}

/// From a garden wall to a deep basement, steel growing with the height.
const SIZES: [Size; 8] = [
    size(1000, 200, 200, 10, 200),
    size(1500, 205, 250, 12, 200),
    size(2000, 225, 250, 12, 150),
    size(2500, 250, 300, 16, 150),
    size(3000, 300, 350, 16, 100),
    size(3600, 375, 400, 20, 125),
    size(4500, 450, 500, 25, 125),
    size(6000, 625, 700, 32, 125),
];

/// A load of `full.job`: its place is in thousandths of the base's length from
/// the toe, or of the wall's height.
struct Share {
    direction: u32,
    place: u32,
    dead: u32,
    live: u32,
}

const fn down(place: u32, dead: u32, live: u32) -> Share {
    Share {
        direction: DOWN,
        place,
        dead,
        live,
    }
}

const fn across(place: u32, dead: u32, live: u32) -> Share {
    Share {
        direction: ACROSS,
        place,
        dead,
        live,
    }
}

/// Kerb, cladding, coping and path; a rail at the crest that is leant on.
const LIGHT: [Share; 8] = [
    down(0, 500, 0),
    down(200, 1000, 0),
    down(350, 4000, 1000),
    down(700, 0, 1500),
    down(1000, 500, 1500),
    across(0, 250, 0),
    across(400, 500, 250),
    across(1000, 0, 740),
];

/// A building's columns over the heel.
const OVER_THE_HEEL: [Share; 8] = [
    down(600, 5000, 2500),
    down(750, 15_000, 5000),
    down(850, 20_000, 10_000),
    down(950, 40_000, 0),
    down(1000, 50_000, 30_000),
    across(0, 1000, 1000),
    across(500, 500, 500),
    across(1000, 0, 0),
];

/// Bollards and ties that pull towards the toe, with some weight on the wall.
const PULLING: [Share; 8] = [
    down(0, 0, 2000),
    down(300, 8000, 0),
    down(500, 12_000, 6000),
    down(900, 6000, 3000),
    across(50, 3000, 0),
    across(300, 4000, 1000),
    across(600, 2000, 2000),
    across(1000, 0, 3000),
];

/// Where the downstand of a kind of wall stands.
#[derive(Clone, Copy)]
enum Key {
    FrontOfToe,
    UnderStem,
    EndOfHeel,
}

/// A kind of wall of `full.job`: toe, heel and depth of downstand in thousandths of the
/// stem's height, water in thousandths of the wall's; the rest is document 01's field. A
/// downstand is as thick as the stem.
struct Family {
    kind: u32,
    toe: u32,
    heel: u32,
    water: u32,
    surcharge: u32,
    cover_in_front: u32,
    excavation: u32,
    allowable: u32,
    downstand: Option<(u32, Key)>,
    loads: &'static [Share; 8],
}

const FREE_STANDING: Family = Family {
    kind: UNPROPPED,
    toe: 250,
    heel: 550,
    water: 0,
    surcharge: 500,
    cover_in_front: 300,
    excavation: 0,
    allowable: 150,
    downstand: None,
    loads: &LIGHT,
};

const BEHIND_A_FLOOR: Family = Family {
    kind: PROPPED,
    toe: 500,
    heel: 150,
    water: 450,
    surcharge: 500,
    cover_in_front: 200,
    excavation: 0,
    allowable: 150,
    downstand: None,
    loads: &PULLING,
};

const BY_A_POND: Family = Family {
    kind: UNPROPPED,
    toe: 400,
    heel: 800,
    water: 350,
    surcharge: 0,
    cover_in_front: 500,
    excavation: 200,
    allowable: 100,
    downstand: Some((120, Key::EndOfHeel)),
    loads: &LIGHT,
};

const BASEMENT: Family = Family {
    kind: PROPPED,
    toe: 800,
    heel: 60,
    water: 1000,
    surcharge: 250,
    cover_in_front: 0,
    excavation: 0,
    allowable: 170,
    downstand: None,
    loads: &LIGHT,
};

const AT_THE_BOUNDARY: Family = Family {
    kind: PROPPED,
    toe: 750,
    heel: 0,
    water: 40,
    surcharge: 1000,
    cover_in_front: 0,
    excavation: 300,
    allowable: 200,
    downstand: Some((150, Key::FrontOfToe)),
    loads: &LIGHT,
};

const WITHOUT_A_TOE: Family = Family {
    kind: UNPROPPED,
    toe: 0,
    heel: 700,
    water: 0,
    surcharge: 250,
    cover_in_front: 0,
    excavation: 400,
    allowable: 200,
    downstand: Some((150, Key::UnderStem)),
    loads: &LIGHT,
};

const UNDER_A_BUILDING: Family = Family {
    kind: PROPPED,
    toe: 200,
    heel: 800,
    water: 0,
    surcharge: 1500,
    cover_in_front: 0,
    excavation: 0,
    allowable: 300,
    downstand: None,
    loads: &OVER_THE_HEEL,
};

const QUAY: Family = Family {
    kind: UNPROPPED,
    toe: 350,
    heel: 500,
    water: 600,
    surcharge: 2000,
    cover_in_front: 300,
    excavation: 150,
    allowable: 120,
    downstand: None,
    loads: &PULLING,
};

const FAMILIES: [Family; 8] = [
    FREE_STANDING,
    BEHIND_A_FLOOR,
    BY_A_POND,
    BASEMENT,
    AT_THE_BOUNDARY,
    WITHOUT_A_TOE,
    UNDER_A_BUILDING,
    QUAY,
];

fn part(thousandths: u32, whole: u32) -> u32 {
    thousandths * whole / 1000
}

/// The downstand of a family's wall with these lengths of toe and heel.
fn downstand_of(family: &Family, size: &Size, toe: u32, heel: u32) -> Downstand {
    let Some((depth, key)) = family.downstand else {
        return NO_DOWNSTAND;
    };
    Downstand {
        depth: part(depth, size.stem_height),
        position: match key {
            Key::FrontOfToe => 0,
            Key::UnderStem => toe,
            Key::EndOfHeel => toe + heel,
        },
        thickness: size.stem_thickness,
    }
}

/// A family's wall of a size; soil, concrete and covers are case A's.
fn wall_of(family: &Family, size: &Size) -> RawWall {
    let bars = |case_a: Bars| Bars {
        bar: size.bar,
        spacing: size.spacing,
        ..case_a
    };
    let toe = part(family.toe, size.stem_height);
    let heel = part(family.heel, size.stem_height);
    let downstand = downstand_of(family, size, toe, heel);
    let height = size.stem_height + size.base_thickness + downstand.depth;
    let wall = WallNumbers {
        kind: family.kind,
        stem_height: size.stem_height,
        stem_thickness: size.stem_thickness,
        toe,
        heel,
        base_thickness: size.base_thickness,
        cover_in_front: family.cover_in_front,
        excavation: family.excavation,
        water_height: part(family.water, height),
        allowable: family.allowable,
        surcharge: family.surcharge,
        toe_bars: bars(CASE_A.toe_bars),
        stem_bars: bars(CASE_A.stem_bars),
        heel_bars: bars(CASE_A.heel_bars),
        downstand,
        ..CASE_A
    };
    wall.record()
}

/// A load of a family at its place on a wall.
fn load_of(share: &Share, wall: &RawWall, wall_number: u32) -> RawLoad {
    let span = if share.direction == DOWN {
        length(wall)
    } else {
        crest(wall)
    };
    let load = LoadNumbers {
        direction: share.direction,
        position: part(share.place, span),
        dead: share.dead,
        live: share.live,
    };
    load.on(wall_number)
}

/// Every family in every size. The loads go round the walls: the first load
/// of each, then the second of each, and so on.
fn full() -> Draft {
    let mut walls = Vec::new();
    let mut shares = Vec::new();
    for family in &FAMILIES {
        for size in &SIZES {
            walls.push(wall_of(family, size));
            shares.push(family.loads);
        }
    }
    let mut loads = Vec::new();
    for turn in 0..8 {
        for (number, (wall, shares)) in (1..).zip(walls.iter().zip(&shares)) {
            loads.push(load_of(&shares[turn], wall, number));
        }
    }
    Draft { walls, loads }
}

fn samples() -> [(&'static str, Draft); 6] {
    [
        ("case-a.job", one_wall(&CASE_A, &[])),
        (
            "document-003.job",
            one_wall(&DOCUMENT_003, &DOCUMENT_003_LOADS),
        ),
        (
            "document-004-lower.job",
            one_wall(&DOCUMENT_004_LOWER, &DOCUMENT_004_LOWER_LOADS),
        ),
        ("downstand.job", downstand()),
        ("every-check.job", every_check()),
        ("full.job", full()),
    ]
}

fn write_samples(directory: &Path) -> std::io::Result<()> {
    std::fs::create_dir_all(directory)?;
    for (name, draft) in samples() {
        std::fs::write(directory.join(name), draft.bytes())?;
    }
    Ok(())
}

fn main() -> ExitCode {
    let words: Vec<_> = std::env::args_os().skip(1).collect();
    let [directory] = words.as_slice() else {
        eprintln!("usage: samples DIR");
        return ExitCode::from(2);
    };
    match write_samples(Path::new(directory)) {
        Ok(()) => ExitCode::SUCCESS,
        Err(error) => {
            eprintln!("samples: {error}");
            ExitCode::FAILURE
        }
    }
}
