//! The comparison finds nothing where nothing differs, and every fault that is
//! put into the answers.

mod common;
#[path = "compare/downstand.rs"]
mod downstand;

use common::borne_by_line;
use second::answers::accept;
use second::bearing::{Contact, Fraction, Reported};
use second::compare::{run, Found, Until, Wish};
use second::forces::weights;
use second::generator::{numbered, samples, KINDS};
use second::job_file::{
    field_in_range, read_numbers, Direction, Header, Load, Reinforcement, Wall, WALL_FIELDS,
};
use second::office::{Office, Packed, Second, TEXT_ROOM};
use second::rounding::{down, half_up, up};
use second::section::{check_section, provided_steel, shear_passes, Effects, Section};
use second::sheet_line::{
    work_job, Worked, HEEL_STEEL, LINE_NUMBERS, SHEAR, STEM_STEEL, TOE_STEEL,
};
use second::traits::of;
use second::wide::{quotient_up, Wide};
use second::writing::records;
use second::Whole;
use std::time::Duration;

const JOBS: usize = 23 * KINDS.len();

fn wish(threads: usize) -> Wish {
    Wish {
        seed: 4,
        until: Until::Jobs(JOBS),
        threads,
    }
}

macro_rules! faults {
    ($($fault:ident,)*) => {
        /// One wrong thing that an office does.
        #[derive(Clone, Copy, Debug, PartialEq, Eq)]
        enum Fault {
            $($fault,)*
        }

        use Fault::*;

        const FAULTS: &[Fault] = &[$($fault,)*];
    };
}

faults! {
    LastNumber,
    NumberBehind,
    NumberAfterRefusal,
    QuotientRoundedDown,
    QuotientOneTooGreat,
    RootOneTooSmall,
    RootOfSquareTooSmall,
    RootRoundedUp,
    LowerRoot,
    HalfRoundedUp,
    HalvesRoundedApart,
    LimitLeftOut,
    LimitRoundedUp,
    CompressionAtMost,
    CompressionTooLate,
    ContactAgainstFace,
    EndAtMiddleAsShort,
    LongAsShort,
    ShortByLine,
    HeelByLine,
    WholeTriangleInShear,
    ThirdLeftOut,
    HalfForThird,
    MomentAboutFace,
    HeelFromToe,
    NegativeSquared,
    HeelUnderToeAlone,
    RoundedUnderFace,
    RoundedContact,
    MomentOfRoundedShear,
    BearingRoundedDown,
    ExactPeak,
    WeightUnderContactAlone,
    NeededRoundedDown,
    NeededOneMore,
    NeededToNearest,
    NeededToWhole,
    NeededInMm2,
    LeastToWholeUp,
    LeastToWholeDown,
    LeastInMm2,
    ProvidedInMm2,
    ProvidedRoundedUp,
    ProvidedToWhole,
    RuleBefore,
    RuleBeforeTimes100,
    EqualSteelFails,
    EqualLeastFails,
    SteelUnrounded,
    LeastThoughCompression,
    CompressionPasses,
    HeelPeakReported,
    HeelByServiceBlock,
    HeelToeTriangleLeftOut,
    HeelTriangleAsFull,
    HeelMomentAboutFace,
    HeelMomentAboutBack,
    HeelMomentOfHeelAlone,
    HeelShearFromMiddle,
    HeelBearingRoundedUp,
    HeelSumByParts,
    HeelSumRoundedDown,
    HeelSurchargeAt14,
    HeelFillAt16,
    HeelFillAtHalfHeel,
    HeelFillAtItsEnd,
    HeelFillUnrounded,
    HeelSlabFromBaseWeight,
    HeelSlabOfHeelAlone,
    HeelLoadsCounted,
    HeelNegativeKept,
    HeelNoughtUnchecked,
    HeelCheckedWithoutHeel,
    HeelCheckedWithoutBlock,
    HeelCoverOfToe,
    HeelBarOfStem,
    HeelSpacingOfStem,
    HeelStressOfToe,
    HeelThicknessOfStem,
    HeelSteelByShear,
    HeelShearNotIn128,
    HeelSteelIn32,
    HeelNumbersBeforeStems,
    HeelFailuresOneByte,
    HeelTwoHexDigits,
    PassiveWithoutDepth,
    SurchargeLeverWithoutDepth,
    MoistAboveLeverWithoutDepth,
    MoistBelowLeverWithoutDepth,
    SaturatedLeverWithoutDepth,
    WaterLeverWithoutDepth,
    LeversAboutDownstand,
    LeversCutOff,
    MotCutOff,
    WetWithoutDepth,
    HeightWithoutDepth,
    DownstandInStemsHeight,
    StemsLeversWithDepth,
    DownstandNotInR,
    DownstandNotInFriction,
    DownstandNotInMrest,
    DownstandAt16,
    DownstandNotFactored,
    DownstandAtItsFront,
    DownstandAtItsBack,
    DownstandFromItsMiddle,
    DownstandRoundedUp,
    DownstandRoundedDown,
    DownstandHalfDown,
    DownstandOfStemsDensity,
    DownstandInToesWeight,
    DownstandInHeelsWeight,
    BlockPastHeel,
    BlockAtHeelsEnd,
    PastHeelNotInBit8,
    PastHeelNotInBit16,
    LoadOnStemByDepth,
    LoadLeverByDepth,
    WaterWithoutDepth,
    WaterByWrappedDepth,
    WaterByGreatestDepth,
    DepthBeforeWater,
    DepthUnbounded,
    PositionUnbounded,
    PositionWithThickness,
    PositionFreeWithoutDepth,
    ThicknessWithoutPosition,
    ThicknessUpToLength,
    ThicknessFromNought,
    ThicknessFreeWithoutDepth,
    ThicknessStrictlyWithin,
    LoadUpToHeight,
    LoadFromDownstand,
    EditionOneTaken,
    DistanceCutToBase,
    EditionOneWritten,
    WaterWithoutDepthInWriting,
    PlaceOfLoad,
    PlaceOfLoadMultiplied,
    WallFromNought,
    FieldFromNought,
    WallAlone,
    LastBadField,
    HeightsAfterWater,
    TenBeforeFour,
    FourForLength,
    FourForInputsLength,
    FiveBeforeTen,
    LengthOfInputAlone,
    LengthOfCountsAlone,
    NinthAsBadLoad,
    OneTooFewTaken,
    TooShortTestedFirst,
    LetterOfText,
    LengthOfText,
    ByteBehindText,
    TextIntoLess,
    WallAloneInText,
    BitOfFigure,
    FiguresOfNothing,
    TrianglesSwapped,
    ShapeOfRefusal,
    NoSuchWallLast,
    PlaceOfNoWall,
    WallAloneInDrawing,
    SteelOfTheOther,
    AnyBitOfNumber,
    OffsetFromLoads,
    FieldTurnedRound,
    LoadsBeforeWalls,
    LastRecordLeftOut,
    ByteBehindFile,
    CountOfBytes,
    ExactRoomRefused,
    NineBeforeFive,
    NineAsEight,
    OneByteTooFewTaken,
    HeaderThoughRefused,
    BytesOfRefusal,
    WallOf39Numbers,
    NoWallsTaken,
    WallsBeforeCounts,
    LoadsBeforeCounts,
    AllLoadsForSixFirst,
    CountCutTo16Bits,
    PlaceOfWrittenLoad,
    WrittenLoadMultiplied,
    WallAloneInWriting,
    FieldFromNoughtInWriting,
    LastBadFieldInWriting,
    HeightsAfterWaterInWriting,
    LastLoadNotTaken,
    NumberTurnedRound,
    NumberBehindWalls,
    NumberBehindLoads,
    BytesOfRecords,
    EightFirst,
    NumberOfRefusedJob,
    OneWallNumberTooFewTaken,
    OneLoadNumberTooFewTaken,
    RoomsTakenTogether,
    WallsThoughLoadsTooShort,
    WallAloneInRecords,
    FourForLengthInRecords,
    Panic,
}

/// Faults of a downstand for which a line is worked once more.
const WORKED_ANEW: [Fault; 33] = [
    PassiveWithoutDepth,
    SurchargeLeverWithoutDepth,
    MoistAboveLeverWithoutDepth,
    MoistBelowLeverWithoutDepth,
    SaturatedLeverWithoutDepth,
    WaterLeverWithoutDepth,
    LeversAboutDownstand,
    LeversCutOff,
    MotCutOff,
    WetWithoutDepth,
    HeightWithoutDepth,
    DownstandInStemsHeight,
    StemsLeversWithDepth,
    DownstandNotInR,
    DownstandNotInFriction,
    DownstandNotInMrest,
    DownstandAt16,
    DownstandNotFactored,
    DownstandAtItsFront,
    DownstandAtItsBack,
    DownstandFromItsMiddle,
    DownstandRoundedUp,
    DownstandRoundedDown,
    DownstandHalfDown,
    DownstandOfStemsDensity,
    DownstandInToesWeight,
    DownstandInHeelsWeight,
    BlockPastHeel,
    BlockAtHeelsEnd,
    PastHeelNotInBit8,
    PastHeelNotInBit16,
    LoadOnStemByDepth,
    LoadLeverByDepth,
];

/// And those for which a job is judged once more.
const JUDGED_ANEW: [Fault; 15] = [
    WaterWithoutDepth,
    WaterByWrappedDepth,
    WaterByGreatestDepth,
    DepthBeforeWater,
    DepthUnbounded,
    PositionUnbounded,
    PositionWithThickness,
    PositionFreeWithoutDepth,
    ThicknessWithoutPosition,
    ThicknessUpToLength,
    ThicknessFromNought,
    ThicknessFreeWithoutDepth,
    ThicknessStrictlyWithin,
    LoadUpToHeight,
    LoadFromDownstand,
];

struct Wrong(Fault);

fn numbers_of(job: &[u8]) -> usize {
    accept(job).map_or(LINE_NUMBERS, |job| LINE_NUMBERS * job.walls.len())
}

/// A refusal 5 of some walls with a place that is made wrong.
fn misplaced(fault: Fault, answer: Packed, walls: &[u32]) -> Packed {
    let wall_number = answer.place() / 100;
    let start = WALL_FIELDS * (wall_number as usize - 1);
    let wall = walls[start..start + WALL_FIELDS].try_into().unwrap();
    let bad: Vec<u64> = (0..WALL_FIELDS)
        .filter(|index| !field_in_range(&wall, *index))
        .map(|index| index as u64 + 1)
        .collect();
    let height_and_water = matches!(bad[0], 2 | 6) && bad.contains(&9);
    let place = match fault {
        WallFromNought => answer.place() - 100,
        FieldFromNought => answer.place() - 1,
        WallAlone => wall_number,
        LastBadField => 100 * wall_number + bad[bad.len() - 1],
        HeightsAfterWater if height_and_water => 100 * wall_number + 9,
        _ => answer.place(),
    };
    Packed(5 << 32 | place)
}

/// The same refusal with a hundred times its place.
fn multiplied(answer: Packed) -> Packed {
    Packed((answer.number() << 32) | (100 * answer.place()))
}

/// Twice the lever arm by a whole-number root; a step of it may be wrong.
fn arm_by_root(fault: Fault, moment: Whole, d: Whole, fcu: Whole) -> Option<Whole> {
    let most = match fault {
        CompressionAtMost => 39 * fcu * d * d - 1,
        CompressionTooLate => 39 * fcu * d * d + 1,
        _ => 39 * fcu * d * d,
    };
    if moment > most {
        return None;
    }
    let quotient = match fault {
        QuotientRoundedDown => down(moment, 225 * fcu),
        QuotientOneTooGreat => down(moment, 225 * fcu) + 1,
        _ => up(moment, 225 * fcu),
    };
    let square = d * d - 4 * quotient;
    let root = match fault {
        RootOneTooSmall => square.isqrt() - 1,
        RootOfSquareTooSmall => (square - 1).isqrt(),
        RootRoundedUp => (square - 1).isqrt() + 1,
        LowerRoot => -square.isqrt(),
        _ => square.isqrt(),
    };
    let arm = match fault {
        HalfRoundedUp => up(d + root, 2),
        HalvesRoundedApart => down(d, 2) + down(root, 2),
        _ => down(d + root, 2),
    };
    let limit = match fault {
        LimitLeftOut => d,
        LimitRoundedUp => up(19 * d, 20),
        _ => down(19 * d, 20),
    };
    // The lower root of a small moment may be 0, by which nothing is divided.
    Some(arm.min(limit).max(1))
}

/// A triangle under a toe, with which something may be wrong. Lengths are in parts of
/// a mm of which the contact and half a mm are whole numbers.
struct Triangle {
    fault: Fault,
    /// N/m2, over another number.
    peak: (Whole, Whole),
    contact: Whole,
    /// From the toe.
    tip: Whole,
    face: Whole,
    middle: Whole,
    parts: Whole,
}

impl Triangle {
    fn of(fault: Fault, wall: &Wall, bearing: &Reported) -> Triangle {
        let block = &bearing.block;
        let heel = block.kind == Contact::HeelTriangle;
        let exact = if heel { block.heel } else { block.toe };
        let parts = 2 * block.contact.under;
        let contact = match fault {
            RoundedContact => parts * up(block.contact.over, block.contact.under),
            _ => 2 * block.contact.over,
        };
        Triangle {
            fault,
            peak: match fault {
                ExactPeak => (bearing.case.pascals() * exact.over, exact.under),
                _ => (bearing.peak(), 1),
            },
            contact,
            tip: match (heel, fault) {
                (true, HeelFromToe) | (false, _) => contact,
                (true, _) => parts * wall.base_length() - contact,
            },
            face: parts * wall.toe,
            middle: block.contact.under * (2 * wall.toe + wall.stem_thickness),
            parts,
        }
    }

    /// Whether document 01's formula isn't the one for a toe triangle.
    fn ends_short(&self) -> bool {
        match self.fault {
            ContactAgainstFace => self.contact < self.face,
            EndAtMiddleAsShort => self.contact <= self.middle,
            LongAsShort => true,
            ShortByLine => false,
            _ => self.contact < self.middle,
        }
    }

    /// The peak times some lengths over others, which leave one length or two.
    fn borne(&self, over: &[Whole], under: &[Whole]) -> Whole {
        let (peak, by) = self.peak;
        let lengths = over.len() - under.len() + 1;
        let over = [&[peak], over].concat();
        let under = [under, &[by, 1000], &[self.parts; 2][..lengths]].concat();
        let quotient = quotient_up(&over, &under);
        // What was rounded up, if anything was, times the lower number is more than the
        // upper one. Of a quotient of 1 that is taken for granted.
        let is_rounded = || quotient_up(&[&under[..], &[quotient]].concat(), &over) > 1;
        match self.fault {
            BearingRoundedDown if quotient == 1 || quotient > 1 && is_rounded() => quotient - 1,
            _ => quotient,
        }
    }

    fn at_toe(&self) -> Effects {
        let (c, a) = (self.contact, self.middle);
        let loaded = match self.fault {
            WholeTriangleInShear => c,
            _ => c.min(self.face),
        };
        let shear = self.borne(&[loaded, 2 * c - loaded], &[2, c]);
        let six_arms = match self.fault {
            ThirdLeftOut => 6 * a,
            HalfForThird => 6 * a - 3 * c,
            MomentAboutFace => (6 * self.face - 2 * c).max(0),
            // Below 0 only of a contact past the middle, for which it isn't meant.
            _ => (6 * a - 2 * c).max(0),
        };
        let moment = self.borne(&[c, six_arms], &[12]);
        match self.fault {
            RoundedUnderFace => Effects {
                shear: self.shear_of_rounded(loaded),
                moment,
            },
            MomentOfRoundedShear => Effects {
                shear,
                moment: quotient_up(&[self.borne(&[c], &[2]), six_arms], &[6, self.parts]),
            },
            _ => Effects { shear, moment },
        }
    }

    /// By the pressure at the end of the loaded part, rounded up before its use.
    fn shear_of_rounded(&self, loaded: Whole) -> Whole {
        let (peak, _) = self.peak;
        let at_end = quotient_up(&[peak, self.contact - loaded], &[self.contact]);
        quotient_up(&[peak + at_end, loaded], &[2000, self.parts])
    }

    fn at_heel(&self) -> Effects {
        let c = self.contact;
        let to_face = match self.fault {
            NegativeSquared => (self.face - self.tip).abs(),
            _ => (self.face - self.tip).max(0),
        };
        let to_middle = (self.middle - self.tip).max(0);
        let six_arms = 6 * (self.middle - self.face) + 2 * to_face;
        Effects {
            shear: self.borne(&[to_face, to_face], &[2, c]),
            moment: match self.fault {
                HeelUnderToeAlone => self.borne(&[to_face, to_face, six_arms], &[12, c]),
                _ => self.borne(&[to_middle, to_middle, to_middle], &[6, c]),
            },
        }
    }
}

/// V and M of a toe, worked once more; a step may be wrong.
fn effects_on_toe(fault: Fault, wall: &Wall, bearing: &Reported) -> Effects {
    let triangle = Triangle::of(fault, wall, bearing);
    let borne = match bearing.block.kind {
        Contact::HeelTriangle if fault != HeelByLine => triangle.at_heel(),
        Contact::ToeTriangle if triangle.ends_short() => triangle.at_toe(),
        _ => borne_by_line(wall, bearing),
    };
    let slab = 14 * wall.base_density * wall.base_thickness;
    let twice_a = 2 * wall.toe + wall.stem_thickness;
    let weighed = match fault {
        WeightUnderContactAlone => wall.toe.min(down(triangle.contact, triangle.parts)),
        _ => wall.toe,
    };
    let weight = down(slab * weighed, 1_000_000);
    let its_moment = down(slab * twice_a * twice_a, 8_000_000);
    Effects {
        shear: (borne.shear - weight).max(0),
        moment: (borne.moment - its_moment).max(0),
    }
}

/// The toe with these effects, where there is one to check.
fn toe_checked(fault: Fault, wall: &Wall, worked: &Worked) -> Option<Section> {
    worked.toe?;
    let bearing = worked.factored_bearing.given()?;
    let effects = effects_on_toe(fault, wall, bearing);
    Some(check_section(
        wall,
        wall.base_thickness,
        &wall.toe_bars,
        effects,
    ))
}

/// What the ground bears under a heel, by the trapeziums and triangles that a block leaves
/// there; something may be wrong. Lengths are from the toe, in parts of a mm.
struct Behind {
    fault: Fault,
    kind: Contact,
    toe: Fraction,
    heel: Fraction,
    contact: Whole,
    end: Whole,
    parts: Whole,
    pascals: Whole,
}

impl Behind {
    fn of(fault: Fault, wall: &Wall, bearing: &Reported) -> Behind {
        let Reported { block, case, .. } = bearing;
        let reported = |over| Fraction {
            over,
            under: case.pascals(),
        };
        let (toe, heel) = match fault {
            HeelPeakReported => (reported(bearing.toe), reported(bearing.heel)),
            _ => (block.toe, block.heel),
        };
        let parts = 2 * block.contact.under;
        let end = parts * wall.base_length();
        let full = fault == HeelTriangleAsFull && block.kind == Contact::HeelTriangle;
        Behind {
            fault,
            kind: block.kind,
            toe,
            heel,
            contact: if full { end } else { 2 * block.contact.over },
            end,
            parts,
            pascals: case.pascals(),
        }
    }

    /// Products of the toe's pressure and of the heel's, over one lower number.
    fn toe_times(&self, lengths: &[Whole]) -> Wide {
        let over = [self.toe.over, self.heel.under, self.pascals];
        Wide::product(over.iter().chain(lengths))
    }

    fn heel_times(&self, lengths: &[Whole]) -> Wide {
        let over = [self.heel.over, self.toe.under, self.pascals];
        Wide::product(over.iter().chain(lengths))
    }

    /// Twice the force past a point times the contact, and six times its moment about
    /// the point times the contact.
    fn past(&self, point: Whole) -> (Wide, Wide) {
        let (c, rest) = (self.contact, self.end - point);
        let start = self.end - c;
        match self.kind {
            Contact::ToeTriangle => {
                let rest = match self.fault {
                    HeelToeTriangleLeftOut => 0,
                    _ => (c - point).max(0),
                };
                let force = self.toe_times(&[rest, rest]);
                (force, self.toe_times(&[rest, rest, rest]))
            }
            Contact::HeelTriangle if point < start => {
                let arms = 3 * rest - c;
                (self.heel_times(&[c, c]), self.heel_times(&[c, c, arms]))
            }
            // A trapezium; of the toe's pressure there is as much left as there is rest.
            _ => {
                let toe = match self.kind {
                    Contact::Whole => rest,
                    _ => 0,
                };
                let force = self.toe_times(&[toe, rest]);
                let moment = self.toe_times(&[toe, rest, rest]);
                let into = point - start;
                (
                    force.plus(self.heel_times(&[into + c, rest])),
                    moment.plus(self.heel_times(&[into + 2 * c, rest, rest])),
                )
            }
        }
    }

    /// A product of the above in N or N mm: (N/m2) x mm is N/1000.
    fn rounded(&self, over: Wide, scale: &[Whole]) -> Whole {
        let under = [self.toe.under, self.heel.under, self.contact, 1000];
        let under = Wide::product(under.iter().chain(scale));
        match self.fault {
            HeelBearingRoundedUp => over.over_rounded_up(&under),
            _ => over.over_rounded_down(&under),
        }
    }

    fn borne(&self, wall: &Wall) -> Effects {
        let parts = self.parts;
        let face = parts * wall.toe;
        let middle = face + parts / 2 * wall.stem_thickness;
        let back = face + parts * wall.stem_thickness;
        let sheared_from = match self.fault {
            HeelShearFromMiddle => middle,
            _ => back,
        };
        let (force, _) = self.past(sheared_from);
        let (_, moment) = match self.fault {
            HeelMomentAboutFace => self.past(face),
            HeelMomentAboutBack => self.past(back),
            HeelMomentOfHeelAlone => {
                let (force, moment) = self.past(back);
                let thrice = 3 * (back - middle);
                (force, moment.plus(force.times(thrice as u64)))
            }
            _ => self.past(middle),
        };
        Effects {
            shear: self.rounded(force, &[2, parts]),
            moment: self.rounded(moment, &[6, parts, parts]),
        }
    }
}

/// A load on a heel: tenths of a N, and twice its arm in mm.
type Standing = (Whole, Whole);

/// Fill, surcharge, and what else is taken for them.
fn standing_on_heel(fault: Fault, wall: &Wall, loads: &[Load]) -> Vec<Standing> {
    let arm = match fault {
        HeelFillAtHalfHeel | HeelMomentAboutBack => wall.heel,
        HeelFillAtItsEnd => 2 * wall.heel + wall.stem_thickness,
        HeelMomentAboutFace => wall.heel + 2 * wall.stem_thickness,
        _ => wall.heel + wall.stem_thickness,
    };
    let [_, _, _, saturated, moist, surcharge] = weights(wall).map(|weight| weight.vertical);
    let fill_factor = if fault == HeelFillAt16 { 16 } else { 14 };
    let surcharge_factor = if fault == HeelSurchargeAt14 { 14 } else { 16 };
    let mut standing = vec![
        (fill_factor * (saturated + moist), arm),
        (surcharge_factor * surcharge, arm),
    ];
    if fault == HeelLoadsCounted {
        let back = wall.toe + wall.stem_thickness;
        let over_heel = |load: &&Load| load.direction == Direction::Down && load.position > back;
        let from_middle = |load: &Load| 2 * (load.position - back) + wall.stem_thickness;
        let loads = loads.iter().filter(over_heel);
        standing.extend(loads.map(|load| (14 * load.dead + 16 * load.live, from_middle(load))));
    }
    standing
}

/// Parts of a N and of a N mm in which every weight on a heel is whole.
const N: Whole = 1_000_000;
const N_MM: Whole = 8_000_000;

/// The base's own weight in these parts.
fn slab_of_heel(fault: Fault, wall: &Wall) -> Effects {
    let a_mm = 14 * wall.base_density * wall.base_thickness;
    let (l, heel) = (wall.base_length(), wall.heel);
    let twice_b = match fault {
        HeelMomentAboutFace => 2 * (wall.stem_thickness + heel),
        HeelMomentAboutBack => 2 * heel,
        _ => 2 * heel + wall.stem_thickness,
    };
    match fault {
        HeelSlabFromBaseWeight => {
            let [_, base, ..] = weights(wall).map(|weight| weight.vertical);
            Effects {
                shear: up(N / 10 * 14 * base * heel, l),
                moment: up(N_MM / 80 * 14 * base * twice_b * twice_b, l),
            }
        }
        HeelSlabOfHeelAlone => Effects {
            shear: a_mm * heel,
            moment: 4 * a_mm * heel * (heel + wall.stem_thickness),
        },
        _ => Effects {
            shear: a_mm * heel,
            moment: a_mm * twice_b * twice_b,
        },
    }
}

/// All that weighs on a heel.
fn down_on_heel(fault: Fault, wall: &Wall, loads: &[Load]) -> Effects {
    let slab = slab_of_heel(fault, wall);
    let mut parts = vec![(slab.shear, slab.moment)];
    if fault == HeelFillUnrounded {
        let wet = wall.water_on_base();
        let fill = wall.saturated_density * wet + wall.moist_density * (wall.stem_height - wet);
        let exact = wall.heel * (14 * fill + 16 * 1000 * wall.surcharge);
        parts.push((exact, 4 * exact * (wall.heel + wall.stem_thickness)));
    } else {
        let standing = standing_on_heel(fault, wall, loads);
        parts.extend(
            standing
                .iter()
                .map(|(tenths, twice_arm)| (N / 10 * tenths, N_MM / 20 * tenths * twice_arm)),
        );
    }
    let sum = |of: fn(&(Whole, Whole)) -> Whole, unit: Whole| -> Whole {
        let each = parts.iter().map(of);
        match fault {
            HeelSumByParts => each.map(|part| up(part, unit)).sum(),
            HeelSumRoundedDown => down(each.sum(), unit),
            _ => up(each.sum(), unit),
        }
    };
    Effects {
        shear: sum(|part| part.0, N),
        moment: sum(|part| part.1, N_MM),
    }
}

/// V and M of a heel, worked once more; a step may be wrong.
fn effects_on_heel(fault: Fault, wall: &Wall, loads: &[Load], worked: &Worked) -> Effects {
    let bearing = match fault {
        HeelByServiceBlock => worked.service_bearing.given(),
        _ => worked.factored_bearing.given(),
    };
    let nothing = Effects {
        shear: 0,
        moment: 0,
    };
    let up = bearing.map_or(nothing, |b| Behind::of(fault, wall, b).borne(wall));
    let down = down_on_heel(fault, wall, loads);
    let least = if fault == HeelNegativeKept {
        Whole::MIN
    } else {
        0
    };
    Effects {
        shear: (down.shear - up.shear).max(least),
        moment: (down.moment - up.moment).max(least),
    }
}

/// The bars of a heel, of which some may be another's.
fn bars_of_heel(fault: Fault, wall: &Wall) -> Reinforcement {
    let Wall {
        toe_bars,
        stem_bars,
        heel_bars,
        ..
    } = wall;
    let mut bars = *heel_bars;
    match fault {
        HeelCoverOfToe => bars.cover = toe_bars.cover,
        HeelBarOfStem => bars.bar = stem_bars.bar,
        HeelSpacingOfStem => bars.spacing = stem_bars.spacing,
        HeelStressOfToe => bars.concrete_shear_stress = toe_bars.concrete_shear_stress,
        _ => {}
    }
    bars
}

/// The heel with these effects, where there is one to check.
fn heel_checked(fault: Fault, wall: &Wall, loads: &[Load], worked: &Worked) -> Option<Section> {
    let has_heel = wall.heel > 0 || fault == HeelCheckedWithoutHeel;
    let has_block = worked.factored_bearing.given().is_some() || fault == HeelCheckedWithoutBlock;
    if !has_heel || !has_block {
        return None;
    }
    let effects = effects_on_heel(fault, wall, loads, worked);
    let left = effects.shear != 0 || effects.moment != 0;
    if fault == HeelNoughtUnchecked && !left {
        return None;
    }
    let thickness = match fault {
        HeelThicknessOfStem => wall.stem_thickness,
        _ => wall.base_thickness,
    };
    Some(check_section(
        wall,
        thickness,
        &bars_of_heel(fault, wall),
        effects,
    ))
}

/// What a section requires, and whether its cage fails; a step may be wrong. Areas are in
/// hundredths of mm2.
fn steel_checked(
    fault: Fault,
    wall: &Wall,
    bars: &Reinforcement,
    section: &Section,
) -> (Whole, bool) {
    let (moment, d) = (section.effects.moment, section.twice_depth);
    let thickness = bars.cover + (d + bars.bar) / 2;
    let least = least_of(fault, 10 * wall.least_steel * thickness);
    let Some(z) = arm_by_root(fault, moment, d, wall.fcu) else {
        let printed = if fault == LeastThoughCompression {
            least
        } else {
            0
        };
        return (printed, fault != CompressionPasses);
    };
    let (over, under) = (20_000 * moment, 87 * wall.fy * z);
    let (bars_of_a_metre, spacing) = (provided_steel(bars.bar, 1), bars.spacing);
    let required = needed_of(fault, over, under).max(least);
    let provided = provided_of(fault, bars_of_a_metre, spacing);
    let fails = match fault {
        EqualSteelFails => provided <= required,
        EqualLeastFails => provided < required || provided == least,
        SteelUnrounded => {
            bars_of_a_metre * under < over * spacing || bars_of_a_metre < least * spacing
        }
        _ => provided < required,
    };
    (required, fails)
}

fn needed_of(fault: Fault, over: Whole, under: Whole) -> Whole {
    match fault {
        NeededRoundedDown => down(over, under),
        NeededOneMore => down(over, under) + 1,
        NeededToNearest => half_up(over, under),
        NeededToWhole | RuleBeforeTimes100 => 100 * up(over, 100 * under),
        NeededInMm2 | RuleBefore => up(over, 100 * under),
        _ => up(over, under),
    }
}

fn least_of(fault: Fault, least: Whole) -> Whole {
    match fault {
        LeastToWholeUp | RuleBeforeTimes100 => 100 * up(least, 100),
        LeastToWholeDown => 100 * down(least, 100),
        LeastInMm2 | RuleBefore => up(least, 100),
        _ => least,
    }
}

fn provided_of(fault: Fault, bars_of_a_metre: Whole, spacing: Whole) -> Whole {
    match fault {
        ProvidedInMm2 | RuleBefore => down(bars_of_a_metre, 100 * spacing),
        ProvidedToWhole | RuleBeforeTimes100 => 100 * down(bars_of_a_metre, 100 * spacing),
        ProvidedRoundedUp => up(bars_of_a_metre, spacing),
        _ => down(bars_of_a_metre, spacing),
    }
}

/// A sheet whose failures have two digits where two are enough, and how long it is.
fn in_two_digits(sheet: &mut [u8]) -> usize {
    let text = String::from_utf8(sheet.to_vec()).unwrap();
    let shorter: String = text
        .lines()
        .map(|line| format!("{}\n", line.replacen(" 0", " ", usize::from(is_wall(line)))))
        .collect();
    sheet[..shorter.len()].copy_from_slice(shorter.as_bytes());
    shorter.len()
}

/// Whether a line is a wall's and its failures begin with 0.
fn is_wall(line: &str) -> bool {
    let failures = line.split(' ').nth(1).unwrap_or_default();
    !line.starts_with("refused") && failures.starts_with('0')
}

impl Office for Wrong {
    fn calculate(&self, job: &[u8], out: &mut [i64]) -> Packed {
        let numbers = numbers_of(job);
        let answer = Second.calculate(job, out);
        match (self.0, answer.number()) {
            (LastNumber, 0) => out[numbers - 1] += 1,
            (NumberBehind, 0) if out.len() > numbers => out[numbers] = 0,
            (NumberAfterRefusal, 1..) if !out.is_empty() => out[0] = 0,
            (PlaceOfLoad, 6 | 7) => return Packed(answer.0 - 1),
            (PlaceOfLoadMultiplied, 6 | 7) => return multiplied(answer),
            (NinthAsBadLoad, 7) => return Packed(answer.0 - (1 << 32)),
            (OneTooFewTaken, 8) if out.len() == numbers - 1 => return Packed::WORKED,
            (TooShortTestedFirst, 1..) if out.is_empty() => return Packed(8 << 32),
            (Panic, 7) => panic!("a ninth load"),
            (EditionOneTaken, 2) if job.starts_with(&[1, 0]) => {
                return Second.calculate(&[&[2, 0], &job[2..]].concat(), out);
            }
            (fault, 0 | 5..=8) if JUDGED_ANEW.contains(&fault) => {
                return self.judge_anew(job, out);
            }
            (fault, 0) if WORKED_ANEW.contains(&fault) => self.work_anew(job, out),
            (_, 0) => self.spoil_sections(job, out),
            (_, 4 | 10) => return self.spoil_header_refusal(answer, job, out),
            (_, 5) => return misplaced(self.0, answer, &read_numbers(&job[12..])),
            _ => {}
        }
        answer
    }

    fn text(&self, job: &[u8], out: &mut [u8]) -> usize {
        let printed = Second.text(job, out);
        match self.0 {
            LetterOfText if printed > 0 => out[printed - 2] ^= 1,
            LengthOfText if printed > 0 => return printed - 1,
            ByteBehindText if printed > 0 => out[printed] = 0,
            TextIntoLess if out.len() == TEXT_ROOM - 1 => out[0] = b'1',
            HeelTwoHexDigits if printed > 0 => return in_two_digits(&mut out[..printed]),
            WallAloneInText if out.starts_with(b"refused 5 ") => {
                out[printed - 3] = b'\n';
                return printed - 2;
            }
            _ => {}
        }
        printed
    }

    fn drawing(&self, job: &[u8], wall: u32, out: &mut [f64]) -> Packed {
        let answer = Second.drawing(job, wall, out);
        let drawn = answer.number() == 0;
        match self.0 {
            BitOfFigure if drawn => out[2] = f64::from_bits(out[2].to_bits() ^ 1),
            FiguresOfNothing if answer == Packed(0) => out[3] = 0.0,
            TrianglesSwapped if answer.shape() > 1 => return Packed((5 - answer.shape()) << 48),
            ShapeOfRefusal if !drawn => return Packed(answer.0 | 1 << 48),
            NoSuchWallLast if answer.number() == 18 && out.len() < 5 => return Packed(8 << 32),
            PlaceOfNoWall if answer.place() == u64::from(u32::MAX) => return Packed(18 << 32),
            DistanceCutToBase if drawn => {
                let l = accept(job).unwrap().walls[wall as usize - 1].base_length();
                out[2] = out[2].min(l as f64);
            }
            WallAloneInDrawing if answer.number() == 5 => {
                return misplaced(WallAlone, answer, &read_numbers(&job[12..]));
            }
            _ => {}
        }
        answer
    }

    fn has_failed(&self, failures: u16, check: u16) -> bool {
        match (self.0, check) {
            // Of a wall's own failures alone, which never have 4 and 8 both.
            (SteelOfTheOther, TOE_STEEL) if failures & 12 != 12 => failures & STEM_STEEL != 0,
            (AnyBitOfNumber, _) => failures & check != 0,
            _ => Second.has_failed(failures, check),
        }
    }

    fn write(&self, walls: &[u32], loads: &[u32], out: &mut [u8]) -> Packed {
        let before = out.to_vec();
        let answer = Second.write(walls, loads, out);
        match answer.number() {
            0 if self.0 == WaterWithoutDepthInWriting => {
                let refused = bad_wall(WaterWithoutDepth, walls);
                refused.map_or(answer, |refusal| {
                    out.copy_from_slice(&before);
                    refusal
                })
            }
            0 => self.spoil_file(answer, loads, &before, out),
            _ => self.spoil_refusal(answer, walls, loads, out),
        }
    }

    fn records(&self, job: &[u8], walls: &mut [u32], loads: &mut [u32]) -> Packed {
        let apart = records(job).unwrap_or_default();
        let before = loads.to_vec();
        let answer = Second.records(job, walls, loads);
        let (wall_numbers, load_numbers) = (apart.walls.len(), apart.loads.len());
        match (self.0, answer.number()) {
            (LastLoadNotTaken, 0) if load_numbers > 0 => {
                loads[load_numbers - 5..].copy_from_slice(&before[load_numbers - 5..]);
            }
            (NumberTurnedRound, 0) => walls[1] = walls[1].swap_bytes(),
            (NumberBehindWalls, 0) if walls.len() > wall_numbers => walls[wall_numbers] = 0,
            (NumberBehindLoads, 0) if loads.len() > load_numbers => loads[load_numbers] = 0,
            (BytesOfRecords, 0) => return Packed((job.len() as u64) << 48),
            (NumberOfRefusedJob, 1..=7 | 10) if !loads.is_empty() => loads[0] = 1,
            (EightFirst, 1..=7 | 10) if walls.is_empty() => return Packed(8 << 32),
            (WallAloneInRecords, 5) => {
                return misplaced(WallAlone, answer, &read_numbers(&job[12..]));
            }
            (FourForLengthInRecords, 10) => return Packed(4 << 32),
            (OneWallNumberTooFewTaken, 8) if walls.len() + 1 == wall_numbers => {
                return Packed::WORKED;
            }
            (OneLoadNumberTooFewTaken, 8) if loads.len() + 1 == load_numbers => {
                return Packed::WORKED;
            }
            (RoomsTakenTogether, 8) if walls.len() + loads.len() >= wall_numbers + load_numbers => {
                return Packed::WORKED;
            }
            (WallsThoughLoadsTooShort, 8) if walls.len() >= wall_numbers => {
                walls[..wall_numbers].copy_from_slice(&apart.walls);
            }
            _ => {}
        }
        answer
    }
}

/// The refusal of the first wall with a field that isn't taken.
fn bad_wall(fault: Fault, walls: &[u32]) -> Option<Packed> {
    let (walls, _) = walls.as_chunks::<WALL_FIELDS>();
    let mut each = (1..).zip(walls);
    each.find_map(|(number, wall)| {
        let field = downstand::first_bad(fault, wall)? as u64 + 1;
        Some(Packed(5 << 32 | (100 * number + field)))
    })
}

impl Wrong {
    /// Lines worked once more with their downstand.
    fn work_anew(&self, job: &[u8], out: &mut [i64]) {
        let job = accept(job).unwrap();
        let walls = (1..).zip(job.walls.iter().zip(job.loads_by_wall()));
        for ((number, (wall, loads)), line) in walls.zip(out.chunks_exact_mut(LINE_NUMBERS)) {
            line.copy_from_slice(&downstand::line(self.0, number, wall, &loads));
        }
    }

    /// A job with a right header whose walls and loads are judged once more, and worked
    /// where they are taken.
    fn judge_anew(&self, job: &[u8], out: &mut [i64]) -> Packed {
        let header = Header::read(job).unwrap();
        let numbers = read_numbers(&job[12..]);
        let (walls, loads) = numbers.split_at(WALL_FIELDS * usize::from(header.walls));
        if let Some(refusal) = bad_wall(self.0, walls) {
            return refusal;
        }
        let walls: Vec<Wall> = walls.as_chunks().0.iter().map(Wall::from_raw).collect();
        let mut taken = vec![Vec::new(); walls.len()];
        for (number, load) in (1..).zip(loads.as_chunks().0) {
            let Some(load) = downstand::load_taken(self.0, load, &walls) else {
                return Packed(6 << 32 | number);
            };
            let on_wall = &mut taken[load.wall - 1];
            on_wall.push(load);
            if on_wall.len() > 8 {
                return Packed(7 << 32 | number);
            }
        }
        if out.len() < LINE_NUMBERS * walls.len() {
            return Packed(8 << 32);
        }
        let lines = out.chunks_exact_mut(LINE_NUMBERS);
        for ((number, (wall, loads)), line) in (1..).zip(walls.iter().zip(&taken)).zip(lines) {
            line.copy_from_slice(&downstand::line(self.0, number, wall, loads));
        }
        Packed::WORKED
    }

    /// The V and M of toe and heel, all three areas, and the failures that hang on them,
    /// as a wrong bearing, a wrong lever arm or a wrong rule for steel gives them.
    fn spoil_sections(&self, job: &[u8], out: &mut [i64]) {
        let job = accept(job).unwrap();
        let loads = job.loads_by_wall();
        let lines = out.chunks_exact_mut(LINE_NUMBERS);
        let walls = job.walls.iter().zip(&loads).zip(work_job(&job));
        for (((wall, loads), worked), line) in walls.zip(lines) {
            line[1] &= !i64::from(TOE_STEEL | STEM_STEEL | SHEAR | HEEL_STEEL);
            if let Some(toe) = toe_checked(self.0, wall, &worked) {
                let bits = (TOE_STEEL, SHEAR);
                self.spoil_section(wall, &wall.toe_bars, &toe, &mut line[1..=12], bits);
            }
            let (stem, bits) = (&worked.stem, (STEM_STEEL, SHEAR));
            self.spoil_section(wall, &wall.stem_bars, stem, &mut line[1..=15], bits);
            line[16..].fill(0);
            if let Some(heel) = heel_checked(self.0, wall, loads, &worked) {
                let (bars, bits) = (bars_of_heel(self.0, wall), self.bits_of_heel());
                self.spoil_section(wall, &bars, &heel, &mut line[1..], bits);
            }
            match self.0 {
                HeelNumbersBeforeStems => line[13..].rotate_left(3),
                HeelFailuresOneByte => line[1] &= 0xff,
                _ => {}
            }
        }
    }

    /// The bits of a heel's steel and of its shear.
    fn bits_of_heel(&self) -> (u16, u16) {
        match self.0 {
            HeelSteelByShear => (HEEL_STEEL, HEEL_STEEL),
            HeelShearNotIn128 => (HEEL_STEEL, 0),
            HeelSteelIn32 => (TOE_STEEL, SHEAR),
            _ => (HEEL_STEEL, SHEAR),
        }
    }

    /// From the failures to V, M and the area of one section, which stand last.
    fn spoil_section(
        &self,
        wall: &Wall,
        bars: &Reinforcement,
        section: &Section,
        line: &mut [i64],
        (steel_bit, shear_bit): (u16, u16),
    ) {
        let (required, fails) = steel_checked(self.0, wall, bars, section);
        let Effects { shear, moment } = section.effects;
        let (failures, numbers) = line.split_first_mut().unwrap();
        let [.., printed_shear, printed_moment, area] = numbers else {
            panic!("a line that is too short");
        };
        *printed_shear = shear as i64;
        *printed_moment = moment as i64;
        *area = required as i64;
        if fails {
            *failures |= i64::from(steel_bit);
        }
        if !shear_passes(
            shear,
            section.twice_depth,
            bars.concrete_shear_stress,
            wall.fcu,
        ) {
            *failures |= i64::from(shear_bit);
        }
    }

    /// A refusal of an offset or of the length made wrong.
    fn spoil_header_refusal(&self, answer: Packed, job: &[u8], out: &mut [i64]) -> Packed {
        let header = Header::read(job).unwrap();
        let due = Header::due(header.walls.into(), header.loads.into());
        let due_length = usize::from(due.length);
        let by_counts = header.length == due.length;
        let by_input = usize::from(header.length) == job.len();
        match (self.0, answer.number()) {
            (TenBeforeFour, 4) if !by_counts || !by_input => Packed(10 << 32),
            (FourForLength, 10) => Packed(4 << 32),
            (FourForInputsLength, 10) if by_counts => Packed(4 << 32),
            (FiveBeforeTen, 10) => {
                let numbers = read_numbers(&job[12..]);
                let walls = numbers.get(..WALL_FIELDS * usize::from(header.walls));
                let found = Second.write(walls.unwrap_or_default(), &[], &mut []);
                if found.number() == 5 {
                    found
                } else {
                    answer
                }
            }
            (LengthOfInputAlone, 10) if by_input => {
                let mut job = job.to_vec();
                job.resize(due_length, 0);
                job[10..12].copy_from_slice(&due.length.to_le_bytes());
                Second.calculate(&job, out)
            }
            (LengthOfCountsAlone, 10) if by_counts && job.len() > due_length => {
                Second.calculate(&job[..due_length], out)
            }
            _ => answer,
        }
    }

    /// The place of a refusal of records made wrong.
    fn misplace_written(&self, answer: Packed, walls: &[u32]) -> Packed {
        match (self.0, answer.number()) {
            (PlaceOfWrittenLoad, 6 | 7) => Packed(answer.0 - 1),
            (WrittenLoadMultiplied, 6 | 7) => multiplied(answer),
            (WallAloneInWriting, 5) => misplaced(WallAlone, answer, walls),
            (FieldFromNoughtInWriting, 5) => misplaced(FieldFromNought, answer, walls),
            (LastBadFieldInWriting, 5) => misplaced(LastBadField, answer, walls),
            (HeightsAfterWaterInWriting, 5) => misplaced(HeightsAfterWater, answer, walls),
            _ => answer,
        }
    }

    /// A file that was written, or what is said of it, made wrong.
    fn spoil_file(&self, answer: Packed, loads: &[u32], before: &[u8], out: &mut [u8]) -> Packed {
        let bytes = answer.bytes() as usize;
        match self.0 {
            EditionOneWritten => out[0] = 1,
            OffsetFromLoads => {
                let offset = (12 + 152 * (loads.len() / 5)) as u16;
                out[8..10].copy_from_slice(&offset.to_le_bytes());
            }
            FieldTurnedRound => out[16..20].reverse(),
            LoadsBeforeWalls => out[12..bytes].rotate_right(4 * loads.len()),
            LastRecordLeftOut => {
                let start = bytes - if loads.is_empty() { 152 } else { 20 };
                out[start..bytes].copy_from_slice(&before[start..bytes]);
            }
            ByteBehindFile if out.len() > bytes => out[bytes] = 0,
            CountOfBytes => return Packed(answer.0 - (1 << 48)),
            ExactRoomRefused if out.len() == bytes => {
                out.copy_from_slice(before);
                return Packed(9 << 32);
            }
            _ => {}
        }
        answer
    }

    /// A refusal, or what stands in the buffer after it, made wrong.
    fn spoil_refusal(
        &self,
        answer: Packed,
        walls: &[u32],
        loads: &[u32],
        out: &mut [u8],
    ) -> Packed {
        let needed = 12 + 4 * (walls.len() + loads.len());
        let short = out.len() < needed;
        match (self.0, answer.number()) {
            (_, 3) => return self.spoil_three(answer, walls, loads, out),
            (NineBeforeFive, 5) if short => return Packed(9 << 32),
            (NineAsEight, 9) => return Packed(8 << 32),
            (OneByteTooFewTaken, 9) if out.len() + 1 == needed => {
                return Packed((needed as u64) << 48);
            }
            (HeaderThoughRefused, _) if out.len() >= 12 => out[..2].copy_from_slice(&[2, 0]),
            (BytesOfRefusal, _) => return Packed(answer.0 | 164 << 48),
            (AllLoadsForSixFirst, 7) => {
                let behind = &loads[5 * answer.place() as usize..];
                let later = Second.write(walls, behind, &mut []);
                if later.number() == 6 {
                    return Packed(later.0 + answer.place());
                }
            }
            _ => {}
        }
        self.misplace_written(answer, walls)
    }

    /// Buffers taken, or looked into, that must be refused with 3.
    fn spoil_three(&self, answer: Packed, walls: &[u32], loads: &[u32], out: &mut [u8]) -> Packed {
        let in_range = |walls: &[u32], loads: &[u32]| {
            let other = Second.write(walls, loads, &mut []);
            if other.number() == 9 {
                answer
            } else {
                other
            }
        };
        match (self.0, walls.len(), loads.len()) {
            (WallOf39Numbers, 39, _) => Second.write(&walls[..38], loads, out),
            (NoWallsTaken, 0, 0) => Packed(12 << 48),
            (WallsBeforeCounts, 2470, _) => in_range(&walls[38..], loads),
            (LoadsBeforeCounts, _, 2565) => in_range(walls, &loads[5..]),
            (CountCutTo16Bits, _, 327_680..) => {
                Second.write(walls, &loads[..loads.len() - 327_680], out)
            }
            _ => answer,
        }
    }
}

fn found(office: &(impl Office + Sync), threads: usize) -> Option<Found> {
    run(office, &wish(threads)).found
}

#[test]
fn nothing_differs_from_itself() {
    let ended = run(&Second, &wish(2));
    assert_eq!(ended.found, None);
    assert_eq!(ended.tally.jobs(), JOBS as u64);
    let again = run(&Second, &wish(1)).tally;
    assert_eq!(ended.tally, again);
    let table = again.to_string();
    assert!(table.starts_with("| | |\n|---|---|\n| jobs | worked "));
    assert!(table.contains(&format!("| calls of text | {} |", 2 * JOBS)));
    assert!(table.contains("| calls of records | taken apart "));
    assert!(table.contains("| calls of write | written "));
    assert!(table.contains("| toe block's end, in toes | before the face "));
    assert!(table.contains("| toe block's end, in heels | before the middle "));
    assert!(table.contains("| full block, in heels | with pressure at the base's end "));
    assert!(table.contains("; under the toe "), "{table}");
    assert!(table.contains("| beside a downstand, in walls with one | water below the base "));
    for row in [
        "toe steel, in toes",
        "stem steel, in walls",
        "heel steel, in heels",
    ] {
        let start = format!("| {row} | enough though not in whole mm2 ");
        assert!(table.contains(&start), "{table}");
    }
    let nones = [
        " face 0",
        " middle 0",
        " end 0,",
        " there 0",
        " heel 0,",
        " block 0",
        " alone 0",
        " mm2 0,",
        " hundredth 0,",
        " short 0",
        " past it 0",
        " toe 0,",
        " stem 0,",
        " base 0,",
        " below 0 0",
    ];
    assert!(nones.iter().all(|none| !table.contains(none)), "{table}");
}

#[test]
fn every_fault_is_found() {
    for &fault in FAULTS {
        let found = found(&Wrong(fault), 2).unwrap_or_else(|| panic!("{fault:?} is not found"));
        let (name, sample) = numbered(4, found.number);
        assert_eq!((name, sample.bytes), (found.name, found.job), "{fault:?}");
    }
}

/// So what is found of a wrong arm, bearing or steel is due to its fault.
#[test]
fn sections_with_no_step_wrong_change_nothing() {
    let mut walls = 0;
    for number in 0..JOBS {
        let job = numbered(4, number).1.bytes;
        let mut out = vec![0; numbers_of(&job)];
        if Second.calculate(&job, &mut out) == Packed::WORKED {
            let due = out.clone();
            Wrong(LastNumber).spoil_sections(&job, &mut out);
            assert_eq!(out, due);
            walls += out.len() / LINE_NUMBERS;
        }
    }
    assert!(walls > 500, "{walls}");
}

/// Where the stem's needed steel governs, a word of its arm stands just where the
/// fault shows in the area.
#[test]
fn words_of_the_arm_stand_where_its_faults_show() {
    let pairs = [
        (QuotientRoundedDown, "stem-arm-by-quotient"),
        (QuotientOneTooGreat, "stem-arm-even"),
        (RootOneTooSmall, "stem-arm-by-root"),
        (HalfRoundedUp, "stem-arm-by-half"),
        (CompressionAtMost, "stem-compression-even"),
    ];
    let stem_area = |office: &dyn Office, job: &[u8]| {
        let mut line = [0; LINE_NUMBERS];
        office.calculate(job, &mut line);
        line[15]
    };
    let mut shown = [0; 5];
    for (name, sample) in samples(4, 2 * JOBS) {
        let (job, words) = (&sample.bytes, of(&sample.bytes).1);
        if !words.contains("one-wall") || !words.contains("stem-steel-needed") {
            continue;
        }
        for ((fault, word), shown) in pairs.iter().zip(&mut shown) {
            let shows = stem_area(&Wrong(*fault), job) != stem_area(&Second, job);
            assert_eq!(shows, words.contains(word), "{name}: {fault:?}");
            *shown += usize::from(shows);
        }
    }
    assert!(shown.iter().all(|count| *count >= 3), "{shown:?}");
}

const SHORT: &[&str] = &[
    "toe-block-ends-before-face",
    "toe-block-ends-at-face",
    "toe-block-ends-before-middle",
];
const LONG: &[&str] = &["toe-block-ends-at-middle", "toe-block-ends-past-middle"];
const STARTS: &[&str] = &[
    "heel-block-starts-before-face",
    "heel-block-starts-at-face",
    "heel-block-starts-before-middle",
];
const STARTS_LATE: &[&str] = &[
    "heel-block-starts-at-middle",
    "heel-block-starts-past-middle",
];

/// Every fault of the bearing, and the words without which it can't show.
const BEARING_FAULTS: [(Fault, &[&[&str]]); 18] = [
    (ContactAgainstFace, &[SHORT]),
    (EndAtMiddleAsShort, &[&["toe-rounding-at-middle"]]),
    (LongAsShort, &[LONG]),
    (ShortByLine, &[SHORT]),
    (HeelByLine, &[STARTS]),
    (WholeTriangleInShear, &[&["toe-block-ends-before-middle"]]),
    (ThirdLeftOut, &[SHORT]),
    (HalfForThird, &[SHORT]),
    (MomentAboutFace, &[SHORT]),
    (HeelFromToe, &[STARTS, STARTS_LATE]),
    (NegativeSquared, &[STARTS, STARTS_LATE]),
    (HeelUnderToeAlone, &[STARTS]),
    (RoundedUnderFace, &[&["toe-block-ends-before-middle"]]),
    (RoundedContact, &[SHORT, STARTS]),
    (MomentOfRoundedShear, &[SHORT]),
    (BearingRoundedDown, &[SHORT, STARTS]),
    (ExactPeak, &[SHORT, STARTS]),
    (WeightUnderContactAlone, &[SHORT, STARTS, STARTS_LATE]),
];

/// The numbers of all lines.
fn numbers(office: &dyn Office, job: &[u8]) -> Vec<i64> {
    let mut lines = vec![0; numbers_of(job)];
    office.calculate(job, &mut lines);
    lines
}

/// A fault of the bearing shows only in jobs with a word of its own; and where the
/// contact ends at the middle of the stem, in every job with the word.
#[test]
fn faults_of_the_bearing_show_where_its_words_stand() {
    let mut shown = [0; BEARING_FAULTS.len()];
    for (name, sample) in samples(4, JOBS) {
        let (job, words) = (&sample.bytes, of(&sample.bytes).1);
        let due = numbers(&Second, job);
        for ((fault, own), shown) in BEARING_FAULTS.iter().zip(&mut shown) {
            let shows = numbers(&Wrong(*fault), job) != due;
            let stands = own.concat().iter().any(|word| words.contains(word));
            assert!(stands || !shows, "{name}: {fault:?}");
            let always = *fault == EndAtMiddleAsShort;
            assert!(shows || !stands || !always, "{name}: {fault:?}");
            *shown += usize::from(shows);
        }
    }
    assert!(shown.iter().all(|count| *count > 0), "{shown:?}");
}

const NEEDED: &[&str] = &["toe-steel-needed", "stem-steel-needed", "heel-steel-needed"];
const LEAST: &[&str] = &["toe-steel-least", "stem-steel-least", "heel-steel-least"];
const NEEDED_NOT_WHOLE: &[&str] = &[
    "toe-needed-not-whole",
    "stem-needed-not-whole",
    "heel-needed-not-whole",
];
const LEAST_NOT_WHOLE: &[&str] = &[
    "toe-least-not-whole",
    "stem-least-not-whole",
    "heel-least-not-whole",
];
const PASSES: &[&str] = &["bit-32-clear", "bit-64-clear", "bit-256-clear"];
const FAILED_IN_MM2: &[&str] = &[
    "toe-steel-failed-in-mm2",
    "stem-steel-failed-in-mm2",
    "heel-steel-fails-in-mm2",
];
const EVEN: &[&str] = &["toe-steel-even", "stem-steel-even", "heel-steel-even"];
const LEAST_EVEN: &[&str] = &["toe-least-even", "stem-least-even", "heel-least-even"];
const HUNDREDTH_SHORT: &[&str] = &[
    "toe-steel-hundredth-short",
    "stem-steel-hundredth-short",
    "heel-steel-hundredth-short",
];
const COMPRESSION: &[&str] = &[
    "toe-compression-steel",
    "stem-compression-steel",
    "heel-compression-steel",
];

/// Words of toe, stem and heel, of some facts.
type Own = &'static [&'static [&'static str]];

/// Every fault of the steel, the words without which it can't show, and those beside
/// which it always does.
const STEEL_FAULTS: [(Fault, Own, Own); 18] = [
    (NeededRoundedDown, &[NEEDED], &[]),
    (NeededOneMore, &[NEEDED, LEAST], &[&["stem-needed-exact"]]),
    (NeededToNearest, &[NEEDED], &[]),
    (
        NeededToWhole,
        &[NEEDED_NOT_WHOLE, LEAST_NOT_WHOLE],
        &[NEEDED_NOT_WHOLE],
    ),
    (NeededInMm2, &[NEEDED], &[]),
    (
        LeastToWholeUp,
        &[LEAST_NOT_WHOLE, NEEDED_NOT_WHOLE],
        &[LEAST_NOT_WHOLE],
    ),
    (LeastToWholeDown, &[LEAST_NOT_WHOLE], &[]),
    (LeastInMm2, &[LEAST], &[]),
    (ProvidedInMm2, &[PASSES], &[]),
    (ProvidedRoundedUp, &[HUNDREDTH_SHORT], &[]),
    (ProvidedToWhole, &[FAILED_IN_MM2], &[FAILED_IN_MM2]),
    (RuleBefore, &[NEEDED, LEAST], &[]),
    (
        RuleBeforeTimes100,
        &[NEEDED_NOT_WHOLE, LEAST_NOT_WHOLE],
        &[NEEDED_NOT_WHOLE, LEAST_NOT_WHOLE],
    ),
    (EqualSteelFails, &[EVEN], &[EVEN]),
    (EqualLeastFails, &[LEAST_EVEN], &[LEAST_EVEN]),
    (SteelUnrounded, &[HUNDREDTH_SHORT], &[]),
    (LeastThoughCompression, &[COMPRESSION], &[]),
    (CompressionPasses, &[COMPRESSION], &[COMPRESSION]),
];

/// A fault of the steel shows only in jobs with a word of its own, and in every job with
/// a word that hangs on nothing else.
#[test]
fn faults_of_the_steel_show_where_its_words_stand() {
    let mut shown = [0; STEEL_FAULTS.len()];
    for (name, sample) in samples(4, 2 * JOBS) {
        let (job, words) = (&sample.bytes, of(&sample.bytes).1);
        let stands = |own: Own| own.concat().iter().any(|word| words.contains(word));
        let due = numbers(&Second, job);
        for ((fault, own, always), shown) in STEEL_FAULTS.iter().zip(&mut shown) {
            let shows = numbers(&Wrong(*fault), job) != due;
            assert!(stands(own) || !shows, "{name}: {fault:?}");
            assert!(shows || !stands(always), "{name}: {fault:?}");
            *shown += usize::from(shows);
        }
    }
    assert!(shown.iter().all(|count| *count >= 3), "{shown:?}");
}

const CHECKED: &[&str] = &["heel-checked"];
const BELOW_0: &[&str] = &["heel-shear-below-0", "heel-moment-below-0"];
const ENDS_PAST_MIDDLE: &[&str] = &[
    "under-heel-toe-block-ends-before-back",
    "under-heel-toe-block-ends-at-back",
    "under-heel-toe-block-ends-past-back",
];
const FULL_UNDER_HEEL: &[&str] = &["under-heel-whole", "under-heel-whole-to-its-end"];
const STARTS_UNDER_HEEL: &[&str] = &[
    "under-heel-heel-block-starts-before-middle",
    "under-heel-heel-block-starts-at-middle",
    "under-heel-heel-block-starts-before-back",
];
const STARTS_BEHIND: &[&str] = &[
    "under-heel-heel-block-starts-at-back",
    "under-heel-heel-block-starts-past-back",
];
const ANY_HEEL: &[&str] = &[
    "heel-checked",
    "heel-unchecked-no-heel",
    "heel-unchecked-no-block",
];

/// Every fault of the heel, the words without which it can't show, and those beside which
/// it always does.
const HEEL_FAULTS: [(Fault, Own, Own); 34] = [
    (
        HeelPeakReported,
        &[&["heel-peak-shows"]],
        &[&["heel-peak-shows"]],
    ),
    (HeelByServiceBlock, &[CHECKED], &[]),
    (HeelToeTriangleLeftOut, &[ENDS_PAST_MIDDLE], &[]),
    (HeelTriangleAsFull, &[STARTS_UNDER_HEEL, STARTS_BEHIND], &[]),
    (HeelMomentAboutFace, &[CHECKED], &[]),
    (HeelMomentAboutBack, &[CHECKED], &[]),
    (
        HeelMomentOfHeelAlone,
        &[ENDS_PAST_MIDDLE, FULL_UNDER_HEEL, STARTS_UNDER_HEEL],
        &[],
    ),
    (
        HeelShearFromMiddle,
        &[ENDS_PAST_MIDDLE, FULL_UNDER_HEEL, STARTS_UNDER_HEEL],
        &[],
    ),
    (
        HeelBearingRoundedUp,
        &[&["heel-bearing-not-whole"]],
        &[&["heel-bearing-not-whole"]],
    ),
    (
        HeelSumByParts,
        &[&["heel-sum-by-parts"]],
        &[&["heel-sum-by-parts"]],
    ),
    (
        HeelSumRoundedDown,
        &[&["heel-sum-not-whole"]],
        &[&["heel-sum-not-whole"]],
    ),
    (HeelSurchargeAt14, &[&["heel-surcharge"]], &[]),
    (HeelFillAt16, &[CHECKED], &[]),
    (HeelFillAtHalfHeel, &[CHECKED], &[]),
    (HeelFillAtItsEnd, &[CHECKED], &[]),
    (HeelFillUnrounded, &[CHECKED], &[]),
    (HeelSlabFromBaseWeight, &[CHECKED], &[]),
    (HeelSlabOfHeelAlone, &[CHECKED], &[]),
    (HeelLoadsCounted, &[&["heel-loaded"]], &[]),
    (HeelNegativeKept, &[BELOW_0], &[BELOW_0]),
    (HeelNoughtUnchecked, &[&["heel-shear-below-0"]], &[]),
    (HeelCheckedWithoutHeel, &[&["heel-unchecked-no-heel"]], &[]),
    (
        HeelCheckedWithoutBlock,
        &[&["heel-unchecked-no-block"]],
        &[&["heel-unchecked-no-block"]],
    ),
    (HeelCoverOfToe, &[CHECKED], &[]),
    (HeelBarOfStem, &[CHECKED], &[]),
    (HeelSpacingOfStem, &[CHECKED], &[]),
    (HeelStressOfToe, &[CHECKED], &[]),
    (HeelThicknessOfStem, &[CHECKED], &[]),
    (
        HeelSteelByShear,
        &[&["heel-shear-fails"]],
        &[&["heel-shear-fails-alone"]],
    ),
    (
        HeelShearNotIn128,
        &[&["heel-shear-fails-alone"]],
        &[&["heel-shear-fails-alone"]],
    ),
    (
        HeelSteelIn32,
        &[&["heel-steel-fails"]],
        &[&["heel-steel-fails"]],
    ),
    (HeelNumbersBeforeStems, &[ANY_HEEL], &[]),
    (
        HeelFailuresOneByte,
        &[&["bit-256-set"]],
        &[&["bit-256-set"]],
    ),
    (
        HeelTwoHexDigits,
        &[&["bit-256-clear"]],
        &[&["bit-256-clear"]],
    ),
];

/// The printed sheet.
fn text(office: &dyn Office, job: &[u8]) -> Vec<u8> {
    let mut out = vec![0; TEXT_ROOM];
    let printed = office.text(job, &mut out);
    out.truncate(printed);
    out
}

/// A fault of the heel shows only in jobs with a word of its own, and in every job with a
/// word that hangs on nothing else.
#[test]
fn faults_of_the_heel_show_where_its_words_stand() {
    let mut shown = [0; HEEL_FAULTS.len()];
    for (name, sample) in samples(4, 2 * JOBS) {
        let (job, words) = (&sample.bytes, of(&sample.bytes).1);
        let stands = |own: Own| own.concat().iter().any(|word| words.contains(word));
        let due = (numbers(&Second, job), text(&Second, job));
        for ((fault, own, always), shown) in HEEL_FAULTS.iter().zip(&mut shown) {
            let office = Wrong(*fault);
            let shows = (numbers(&office, job), text(&office, job)) != due;
            assert!(stands(own) || !shows, "{name}: {fault:?}");
            assert!(shows || !stands(always), "{name}: {fault:?}");
            *shown += usize::from(shows);
        }
    }
    assert!(shown.iter().all(|count| *count >= 3), "{shown:?}");
}

/// So what is found of a wrong downstand is due to its fault: worked and judged once more
/// with no step wrong, every job is answered as it was.
#[test]
fn downstands_with_no_step_wrong_change_nothing() {
    let (mut walls, mut refused) = (0, 0);
    for (name, sample) in samples(4, JOBS) {
        let job = &sample.bytes;
        let mut due = vec![0; numbers_of(job)];
        let answer = Second.calculate(job, &mut due);
        if !matches!(answer.number(), 0 | 5..=7) {
            continue;
        }
        let mut out = vec![0; due.len()];
        let given = Wrong(LastNumber).judge_anew(job, &mut out);
        assert_eq!((given, &out), (answer, &due), "{name}");
        match answer.number() {
            0 => walls += out.len() / LINE_NUMBERS,
            _ => refused += 1,
        }
        if answer == Packed::WORKED {
            let mut out = vec![0; due.len()];
            Wrong(LastNumber).work_anew(job, &mut out);
            assert_eq!(out, due, "{name}");
        }
    }
    assert!(walls > 500 && refused > 100, "{walls} and {refused}");
}

const DOWNSTAND: &[&str] = &["downstand"];
const LEVERS: &[&str] = &[
    "lever-surcharge-negative",
    "lever-moist-above-negative",
    "lever-moist-below-negative",
    "lever-wet-negative",
];
const MOT: &[&str] = &["service-mot-negative", "factored-mot-negative"];
const WEIGHT_NOT_WHOLE: &[&str] = &["downstand-weight-not-whole"];
const WEIGHT_HALF: &[&str] = &["downstand-weight-half"];
const PAST_HEEL: &[&str] = &["service-none-past-heel", "factored-none-past-heel"];
const JUST_PAST: &[&str] = &["service-m6-just-past-6rl", "factored-m6-just-past-6rl"];
const AT_HEELS_END: &[&str] = &["service-m6-is-6rl", "factored-m6-is-6rl"];
const BAD_FIELD: &[&str] = &["refused-5"];
const BACK_EDGE: &[&str] = &["downstand-at-back-edge"];

/// Every fault of the downstand in the numbers of a sheet, the words without which it
/// can't show, and those beside which it always does.
const DOWNSTAND_FAULTS: [(Fault, Own, Own); 49] = [
    (PassiveWithoutDepth, &[DOWNSTAND], &[]),
    (
        SurchargeLeverWithoutDepth,
        &[DOWNSTAND],
        &[LEVER_OF_SURCHARGE],
    ),
    (
        MoistAboveLeverWithoutDepth,
        &[DOWNSTAND],
        &[LEVER_OF_MOIST_ABOVE],
    ),
    (
        MoistBelowLeverWithoutDepth,
        &[DOWNSTAND],
        &[LEVER_OF_MOIST_BELOW],
    ),
    (SaturatedLeverWithoutDepth, &[DOWNSTAND], &[LEVER_OF_WET]),
    (WaterLeverWithoutDepth, &[DOWNSTAND], &[LEVER_OF_WET]),
    (LeversAboutDownstand, &[DOWNSTAND], &[DOWNSTAND]),
    (LeversCutOff, &[LEVERS], &[LEVERS]),
    (MotCutOff, &[MOT], &[&["service-mot-negative"]]),
    (WetWithoutDepth, &[DOWNSTAND], &[WETS_BASE]),
    (HeightWithoutDepth, &[DOWNSTAND], &[]),
    (DownstandInStemsHeight, &[DOWNSTAND], &[]),
    (StemsLeversWithDepth, &[DOWNSTAND], &[]),
    (DownstandNotInR, &[DOWNSTAND], &[DOWNSTAND]),
    (DownstandNotInFriction, &[DOWNSTAND], &[]),
    (DownstandNotInMrest, &[DOWNSTAND], &[DOWNSTAND]),
    (DownstandAt16, &[DOWNSTAND], &[]),
    (DownstandNotFactored, &[DOWNSTAND], &[]),
    (DownstandAtItsFront, &[DOWNSTAND], &[DOWNSTAND]),
    (DownstandAtItsBack, &[DOWNSTAND], &[DOWNSTAND]),
    (DownstandFromItsMiddle, &[DOWNSTAND], &[DOWNSTAND]),
    (DownstandRoundedUp, &[WEIGHT_NOT_WHOLE], &[]),
    (DownstandRoundedDown, &[WEIGHT_NOT_WHOLE], &[WEIGHT_HALF]),
    (DownstandHalfDown, &[WEIGHT_HALF], &[WEIGHT_HALF]),
    (DownstandOfStemsDensity, &[DOWNSTAND], &[]),
    (DownstandInToesWeight, &[&["downstand-under-toe"]], &[]),
    (DownstandInHeelsWeight, &[&["downstand-under-heel"]], &[]),
    (BlockPastHeel, &[PAST_HEEL], &[JUST_PAST]),
    (BlockAtHeelsEnd, &[AT_HEELS_END], &[AT_HEELS_END]),
    (
        PastHeelNotInBit8,
        &[&["service-none-past-heel"]],
        &[&["service-none-past-heel"]],
    ),
    (
        PastHeelNotInBit16,
        &[&["factored-none-past-heel"]],
        &[&["factored-none-past-heel"]],
    ),
    (LoadOnStemByDepth, &[LOW_ON_STEM], &[LOW_ON_STEM]),
    (LoadLeverByDepth, &[DOWNSTAND], &[LOW_ON_STEM]),
    (WaterWithoutDepth, &[DOWNSTAND, BAD_FIELD], &[]),
    (WaterByWrappedDepth, &[BAD_FIELD], &[]),
    (WaterByGreatestDepth, &[BAD_FIELD], &[]),
    (DepthBeforeWater, &[BAD_FIELD], &[]),
    (DepthUnbounded, &[BAD_FIELD], &[]),
    (PositionUnbounded, &[BAD_FIELD], &[]),
    (PositionWithThickness, &[BAD_FIELD], &[]),
    (PositionFreeWithoutDepth, &[BAD_FIELD], &[]),
    (ThicknessWithoutPosition, &[BAD_FIELD], &[]),
    (ThicknessUpToLength, &[BAD_FIELD], &[]),
    (ThicknessFromNought, &[BAD_FIELD], &[]),
    (ThicknessFreeWithoutDepth, &[BAD_FIELD], &[]),
    (
        ThicknessStrictlyWithin,
        &[BACK_EDGE, BAD_FIELD],
        &[BACK_EDGE],
    ),
    (LoadUpToHeight, &[&["refused-6"]], &[]),
    (
        LoadFromDownstand,
        &[DOWNSTAND, &["refused-6", "refused-7"]],
        &[CREST],
    ),
    (EditionOneTaken, &[&["refused-2"]], &[]),
];

const LEVER_OF_SURCHARGE: &[&str] = &["lever-surcharge-negative"];
const LEVER_OF_MOIST_ABOVE: &[&str] = &["lever-moist-above-negative"];
const LEVER_OF_MOIST_BELOW: &[&str] = &["lever-moist-below-negative"];
const LEVER_OF_WET: &[&str] = &["lever-wet-negative"];
const WETS_BASE: &[&str] = &["water-wets-base-but-for-downstand"];
const LOW_ON_STEM: &[&str] = &["downstand-across-low-on-stem"];
const CREST: &[&str] = &["downstand-across-at-crest"];

/// A fault of the downstand shows only in jobs with a word of its own, and in every job
/// with a word that hangs on nothing else.
#[test]
fn faults_of_the_downstand_show_where_its_words_stand() {
    let mut shown = [0; DOWNSTAND_FAULTS.len()];
    for (name, sample) in samples(4, 2 * JOBS) {
        let job = &sample.bytes;
        let (answer, mut words) = of(job);
        words.insert(answer);
        let stands = |own: Own| own.concat().iter().any(|word| words.contains(word));
        let answered = |office: &dyn Office| {
            let mut lines = vec![0; numbers_of(job)];
            (office.calculate(job, &mut lines), lines)
        };
        let due = answered(&Second);
        for ((fault, own, always), shown) in DOWNSTAND_FAULTS.iter().zip(&mut shown) {
            let shows = answered(&Wrong(*fault)) != due;
            assert!(stands(own) || !shows, "{name}: {fault:?}");
            assert!(shows || !stands(always), "{name}: {fault:?}");
            *shown += usize::from(shows);
        }
    }
    assert!(shown.iter().all(|count| *count >= 2), "{shown:?}");
}

#[test]
fn what_differs_is_said() {
    let said = |fault| found(&Wrong(fault), 1).map_or(String::new(), |found| found.what);
    let words = said(PlaceOfNoWall);
    assert!(words.starts_with("drawing of wall 4294967295, 4 figures lent: the answer is"));
    let not = "and not (number 18, place 4294967295, highest bits 0)";
    assert!(words.ends_with(&format!("place 0, highest bits 0) {not}")));
    let words = said(NumberBehind);
    assert!(words.starts_with("calculate, ") && words.contains(" holds 0 and not -922"));
    let words = "check 3 in failures 021: the answer is true and not false";
    assert_eq!(said(AnyBitOfNumber), words);
    assert_eq!(said(Panic), "a panic: a ninth load");
}

#[test]
fn what_differs_in_places_is_said() {
    let said = |fault| {
        let found = found(&Wrong(fault), 1).unwrap();
        let words = found.what.split_once(": the answer is ").unwrap().1;
        let (given, due) = words.split_once(" and not ").unwrap();
        let kind = found.name.rsplit_once('-').unwrap().0;
        (kind.to_string(), given.to_string(), due.to_string())
    };
    let answer = |number, place| format!("(number {number}, place {place}, highest bits 0)");
    let wall = |given, due| ("refused-wall".into(), answer(5, given), answer(5, due));
    assert_eq!(said(WallAlone), wall(3, 334));
    assert_eq!(said(WallFromNought), wall(234, 334));
    assert_eq!(said(FieldFromNought), wall(333, 334));
    assert_eq!(said(HeightsAfterWater), wall(309, 302));
    let header = |given, due| ("refused-offset".into(), answer(given, 0), answer(due, 0));
    assert_eq!(said(TenBeforeFour), header(10, 4));
    assert_eq!(said(FourForInputsLength), header(4, 10));
}

#[test]
fn what_differs_in_writing_is_said() {
    let said = |fault| found(&Wrong(fault), 1).map_or(String::new(), |found| found.what);
    let own = "write of 114 and 15 numbers (the job's own), 528 bytes lent: ";
    let words = said(CountOfBytes);
    assert!(words.starts_with(own), "{words}");
    assert!(words.contains(" highest bits 527) and not (number 0, place 0, highest bits 528)"));
    let words = said(LastRecordLeftOut);
    assert!(words.starts_with(&format!("{own}place 508 of what was lent")));
    let words = said(WallOf39Numbers);
    let changed = "write of 39 and 10 numbers (one wall of 39 numbers), 204 bytes lent: ";
    let given = "the answer is (number 0, place 0, highest bits 204) and not (number 3, ";
    assert!(words.starts_with(&format!("{changed}{given}")), "{words}");
    let words = said(NumberBehindLoads);
    assert!(words.starts_with("records, "), "{words}");
    assert!(
        words.contains(" numbers lent: in the loads place 15 of what was lent, from 0, holds 0")
    );
}

/// The first difference is the same one however many threads look for it.
#[test]
fn the_first_difference_is_found() {
    for fault in [FiguresOfNothing, NinthAsBadLoad, AllLoadsForSixFirst, Panic] {
        let alone = found(&Wrong(fault), 1);
        assert!(alone.is_some());
        for _ in 0..3 {
            assert_eq!(found(&Wrong(fault), 3), alone);
        }
    }
}

#[test]
fn a_run_by_time_ends() {
    let wish = Wish {
        until: Until::Passed(Duration::from_millis(50)),
        ..wish(2)
    };
    let ended = run(&Second, &wish);
    assert_eq!(ended.found, None);
    assert!(ended.tally.jobs() > 0);
}
