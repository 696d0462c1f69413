//! Document 01, "What is answered", with document 02, "#102 Say which field": every
//! refusal, its place and the order.

mod common;

use common::{case_a_bytes, samples_of_each_kind, CASE_A, ENDS};
use second::answers::{accept, accept_wall, Refusal};
use second::drawing::draw;
use second::generator::draft::{Draft, ACROSS, DOWN};
use second::generator::Due;
use second::job_file::{field, RawLoad, RawWall, WALL_FIELDS};

fn answer(bytes: &[u8]) -> Option<(u8, u64)> {
    accept(bytes).err().map(|r| (r.number, r.place))
}

/// Three walls of case A with the loads given.
fn three(loads: &[RawLoad]) -> Draft {
    Draft {
        walls: vec![CASE_A; 3],
        loads: loads.to_vec(),
    }
}

const GOOD: RawLoad = [1, DOWN, 100, 1000, 1000];
const BAD: RawLoad = [4, DOWN, 100, 1000, 1000];

#[test]
fn one_fewer_than_twelve_bytes_before_all() {
    for count in 0..12 {
        assert_eq!(answer(&case_a_bytes()[..count]), Some((1, 0)));
        assert_eq!(answer(&vec![9; count]), Some((1, 0)));
    }
    assert_eq!(answer(&case_a_bytes()[..12]), Some((10, 0)));
}

/// The answer to three walls behind a header with some numbers changed.
fn with_header(changes: &[(usize, u16)]) -> Option<(u8, u64)> {
    let draft = three(&[]);
    let mut header = draft.header();
    for (place, value) in changes {
        header[*place] = *value;
    }
    answer(&draft.bytes_with(header))
}

#[test]
fn two_before_three_before_four() {
    let with = with_header;
    assert_eq!(with(&[]), None);
    for edition in [0, 1, 3, 258, 512, 514, 65_535] {
        assert_eq!(with(&[(0, edition)]), Some((2, 0)));
    }
    assert_eq!(with(&[(0, 1), (1, 0), (5, 0)]), Some((2, 0)));
    for (place, value) in [(1, 0), (1, 65), (3, 513)] {
        assert_eq!(with(&[(place, value)]), Some((3, 0)));
        assert_eq!(with(&[(place, value), (2, 13)]), Some((3, 0)));
    }
    // The header of three walls is 2 3 12 0 468 468.
    for (place, due) in [(2, 12), (4, 468)] {
        for wrong in [due + 1, due - 1, 0, 65_535] {
            assert_eq!(with(&[(place, wrong)]), Some((4, 0)));
        }
    }
    // A wall fewer: the loads' offset isn't the one that two walls give.
    assert_eq!(with(&[(1, 2)]), Some((4, 0)));
}

/// Ten is for the length alone, by the counts and by the input.
#[test]
fn four_before_ten() {
    let with = with_header;
    for wrong in [469, 467, 0, 12, 65_535] {
        assert_eq!(with(&[(5, wrong)]), Some((10, 0)));
        for (place, offset) in [(2, 13), (2, 0), (4, 467), (4, 488)] {
            assert_eq!(with(&[(5, wrong), (place, offset)]), Some((4, 0)));
        }
    }
    // A load more: both offsets are right, and the length is not.
    assert_eq!(with(&[(3, 1)]), Some((10, 0)));
    assert_eq!(with(&[(3, 1), (5, 488)]), Some((10, 0)));
    assert_eq!(with(&[(3, 513), (5, 0)]), Some((3, 0)));
    assert_eq!(with(&[(0, 1), (5, 0)]), Some((2, 0)));
}

/// The stated length is to be the one that the counts give and the input's.
#[test]
fn ten_for_the_input_itself() {
    let due = three(&[GOOD]).header();
    let lengths = |stated: u16, input: usize, first_load: u16| {
        let mut header = due;
        (header[4], header[5]) = (first_load, stated);
        let mut bytes = three(&[GOOD]).bytes_with(header);
        bytes.resize(input, 0);
        answer(&bytes)
    };
    assert_eq!(lengths(488, 488, 468), None);
    let wrong = [
        (488, 487),
        (488, 489),
        (488, 12),
        (488, 488 + 65_536),
        (487, 487),
        (508, 508),
        (12, 12),
        (65_535, 65_535),
        (487, 488),
        (489, 487),
    ];
    for (stated, input) in wrong {
        assert_eq!(lengths(stated, input, 468), Some((10, 0)));
        assert_eq!(lengths(stated, input, 469), Some((4, 0)));
    }
}

#[test]
fn ten_before_five() {
    let mut draft = three(&[GOOD]);
    draft.walls[0][field::FY] = 0;
    let mut bytes = draft.bytes();
    assert_eq!(answer(&bytes), Some((5, 122)));
    bytes.push(0);
    assert_eq!(answer(&bytes), Some((10, 0)));
    bytes.truncate(bytes.len() - 2);
    assert_eq!(answer(&bytes), Some((10, 0)));
    let mut header = draft.header();
    header[5] -= 1;
    assert_eq!(answer(&draft.bytes_with(header)), Some((10, 0)));
    header[4] += 1;
    assert_eq!(answer(&draft.bytes_with(header)), Some((4, 0)));
}

#[test]
fn counts_at_their_ends() {
    let full = |walls: usize, loads: usize| {
        let load = |i: usize| [(i % 64) as u32 + 1, DOWN, 0, 0, 0];
        let draft = Draft {
            walls: vec![CASE_A; walls],
            loads: (0..loads).map(load).collect(),
        };
        answer(&draft.bytes())
    };
    assert_eq!(full(0, 0), Some((3, 0)));
    assert_eq!(full(64, 0), None);
    assert_eq!(full(65, 0), Some((3, 0)));
    assert_eq!(full(64, 512), None);
    assert_eq!(full(64, 513), Some((3, 0)));
}

/// The answer to three walls, one of them with some fields changed, and a bad load.
fn with_fields(wall: usize, changes: &[(usize, u32)]) -> Option<(u8, u64)> {
    let mut draft = three(&[BAD]);
    for (place, value) in changes {
        draft.walls[wall][*place] = *value;
    }
    answer(&draft.bytes())
}

/// What is left to refuse where all fields are in range.
const IN_RANGE: Option<(u8, u64)> = Some((6, 1));

#[test]
fn five_each_field_at_and_past_its_ends() {
    for (wall, hundreds) in [100, 200, 300].into_iter().enumerate() {
        for (place, (low, high)) in ENDS.into_iter().enumerate() {
            let with = |value| with_fields(wall, &[(place, value)]);
            let refused = Some((5, hundreds + place as u64 + 1));
            assert_eq!(with(low), IN_RANGE, "{refused:?}");
            if place != field::DOWNSTAND_DEPTH {
                assert_eq!(with(high), IN_RANGE, "{refused:?}");
            }
            assert_eq!(with(high + 1), refused);
            assert_eq!(with(u32::MAX), refused);
            assert_eq!(with(low.wrapping_sub(1)), refused);
        }
    }
    for bar in 0..50 {
        let made = [8, 10, 12, 16, 20, 25, 32, 40].contains(&bar);
        for (place, refused) in [
            (field::TOE_BAR, (5, 225)),
            (field::STEM_BAR, (5, 228)),
            (field::HEEL_BAR, (5, 233)),
        ] {
            let due = if made { IN_RANGE } else { Some(refused) };
            assert_eq!(with_fields(1, &[(place, bar)]), due);
        }
    }
}

#[test]
fn five_for_the_first_bad_field_of_the_first_bad_wall() {
    let mut draft = three(&[]);
    draft.walls[2][field::KA] = 0;
    assert_eq!(answer(&draft.bytes()), Some((5, 315)));
    draft.walls[2][field::DOWNSTAND_DEPTH] = 1001;
    assert_eq!(answer(&draft.bytes()), Some((5, 315)));
    draft.walls[1][field::DOWNSTAND_THICKNESS] = 100;
    assert_eq!(answer(&draft.bytes()), Some((5, 238)));
    draft.walls[1][field::DOWNSTAND_POSITION] = 1;
    assert_eq!(answer(&draft.bytes()), Some((5, 237)));
    draft.walls[1][field::DOWNSTAND_DEPTH] = 1001;
    assert_eq!(answer(&draft.bytes()), Some((5, 236)));
    draft.walls[1][field::HEEL_SHEAR_STRESS] = 5001;
    assert_eq!(answer(&draft.bytes()), Some((5, 235)));
    draft.walls[1][field::HEEL_COVER] = 19;
    assert_eq!(answer(&draft.bytes()), Some((5, 232)));
    draft.walls[1][field::STEM_SHEAR_STRESS] = 5001;
    assert_eq!(answer(&draft.bytes()), Some((5, 231)));
    draft.walls[1][field::KIND] = 2;
    assert_eq!(answer(&draft.bytes()), Some((5, 201)));
    draft.walls[0] = [u32::MAX; WALL_FIELDS];
    assert_eq!(answer(&draft.bytes()), Some((5, 101)));
}

/// Every two fields, whichever of them is spoilt first; but water goes by the depth of the
/// downstand as it stands, and with the greatest there is none is too high.
#[test]
fn five_for_the_first_of_two_bad_fields() {
    for (first, (_, high)) in ENDS.into_iter().enumerate() {
        for later in first + 1..WALL_FIELDS {
            let (one, other) = ((first, high + 1), (later, u32::MAX));
            let named = match (first, later) {
                (field::WATER_HEIGHT, field::DOWNSTAND_DEPTH) => later,
                _ => first,
            };
            let refused = Some((5, 201 + named as u64));
            assert_eq!(with_fields(1, &[one, other]), refused);
            assert_eq!(with_fields(1, &[other, one]), refused);
        }
    }
}

/// Water goes by its own wall's heights as they stand, but they come before it.
#[test]
fn heights_are_found_bad_before_the_water() {
    let with = |stem, base, water| {
        let heights = [(field::STEM_HEIGHT, stem), (field::BASE_THICKNESS, base)];
        let [stem, base] = heights;
        with_fields(2, &[stem, base, (field::WATER_HEIGHT, water)])
    };
    assert_eq!(with(3000, 300, 3300), IN_RANGE);
    assert_eq!(with(3000, 300, 3301), Some((5, 309)));
    assert_eq!(with(8000, 1500, 9500), IN_RANGE);
    assert_eq!(with(8000, 1500, 9501), Some((5, 309)));
    assert_eq!(with(500, 200, 700), IN_RANGE);
    assert_eq!(with(500, 200, 701), Some((5, 309)));
    for water in [0, 699, 700, 701, u32::MAX] {
        assert_eq!(with(499, 200, water), Some((5, 302)));
        assert_eq!(with(500, 199, water), Some((5, 306)));
        assert_eq!(with(499, 199, water), Some((5, 302)));
        assert_eq!(with(u32::MAX, u32::MAX, water), Some((5, 302)));
        assert_eq!(with(3000, u32::MAX, water), Some((5, 306)));
    }
}

/// A wall by itself, and the same places in whatever job it stands.
#[test]
fn a_wall_alone_is_refused_as_wall_one() {
    let place = |number: usize, raw: &RawWall| accept_wall(number, raw).map_err(|r| r.to_string());
    assert!(place(1, &CASE_A).is_ok());
    for (index, (_, high)) in ENDS.into_iter().enumerate() {
        let mut raw = CASE_A;
        raw[index] = high + 1;
        let field = index + 1;
        assert_eq!(place(1, &raw), Err(format!("refused 5 1{field:02}")));
        assert_eq!(place(64, &raw), Err(format!("refused 5 64{field:02}")));
    }
    let mut walls = vec![CASE_A; 64];
    walls[63][field::DOWNSTAND_THICKNESS] = 100;
    let loads = Vec::new();
    assert_eq!(answer(&Draft { walls, loads }.bytes()), Some((5, 6438)));
}

#[test]
fn six_each_way_a_load_can_be_bad() {
    let with = |load: RawLoad| answer(&three(&[GOOD, load, BAD]).bytes());
    // Case A: l 2300, h 3300.
    for good in [
        [1, DOWN, 0, 0, 0],
        [3, DOWN, 2300, 200_000, 200_000],
        [2, ACROSS, 3300, 0, 200_000],
    ] {
        assert_eq!(with(good), Some((6, 3)));
    }
    for bad in [
        [0, DOWN, 0, 0, 0],
        [4, DOWN, 0, 0, 0],
        [u32::MAX, DOWN, 0, 0, 0],
        [1, 2, 0, 0, 0],
        [1, DOWN, 2301, 0, 0],
        [1, ACROSS, 3301, 0, 0],
        [1, DOWN, 0, 200_001, 0],
        [1, ACROSS, 0, 0, 200_001],
        [1, ACROSS, u32::MAX, 0, 0],
    ] {
        assert_eq!(with(bad), Some((6, 2)), "{bad:?}");
    }
}

#[test]
fn seven_for_the_ninth_load_and_its_order_with_six() {
    let mut loads = vec![GOOD; 8];
    assert_eq!(answer(&three(&loads).bytes()), None);
    loads.push([2, DOWN, 0, 0, 0]);
    assert_eq!(answer(&three(&loads).bytes()), None);
    loads.push(GOOD);
    assert_eq!(answer(&three(&loads).bytes()), Some((7, 10)));
    // A bad load after the ninth is not reached.
    loads.push(BAD);
    assert_eq!(answer(&three(&loads).bytes()), Some((7, 10)));
    // A bad load before it is.
    loads[3] = BAD;
    assert_eq!(answer(&three(&loads).bytes()), Some((6, 4)));
    // Both on the same load: 6.
    loads[3] = GOOD;
    loads[9] = [1, DOWN, 2301, 0, 0];
    assert_eq!(answer(&three(&loads).bytes()), Some((6, 10)));
}

#[test]
fn eighteen_after_every_other_refusal() {
    let refused = |bytes: &[u8], wall: u64| draw(bytes, wall).err();
    let eighteen = |place| Some(Refusal { number: 18, place });
    let bytes = case_a_bytes();
    assert_eq!(refused(&bytes, 1), None);
    for wall in [0, 2, 65, u64::MAX] {
        assert_eq!(refused(&bytes, wall), eighteen(wall));
    }
    let mut bad = three(&[BAD]);
    bad.walls[2][field::FCU] = 19;
    let answer = refused(&bad.bytes(), 9).map(|r| (r.number, r.place));
    assert_eq!(answer, Some((5, 321)));
    let mut long = case_a_bytes();
    long.push(0);
    let answer = refused(&long, 9).map(|r| (r.number, r.place));
    assert_eq!(answer, Some((10, 0)));
}

#[test]
fn generated_refusals_are_the_ones_they_were_made_for() {
    let mut seen = [0; 11];
    for (name, sample) in samples_of_each_kind(70) {
        match sample.due {
            Due::Accepted => assert_eq!(answer(&sample.bytes), None, "{name}"),
            Due::Refused(number, place) => {
                assert_eq!(answer(&sample.bytes), Some((number, place)), "{name}");
                seen[usize::from(number)] += 1;
            }
            Due::Unknown => {}
        }
    }
    let wanted = [1, 2, 3, 4, 5, 6, 7, 10];
    assert!(wanted.iter().all(|n| seen[*n] > 10), "{seen:?}");
}
