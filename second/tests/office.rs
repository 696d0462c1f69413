//! The entries of the office library as this program answers them, on lent
//! buffers of every size.

mod common;

use common::{case_a_bytes, case_a_draft, CASE_A, CASE_A_LINE};
use second::answers::{Refusal, BUFFER_TOO_SHORT};
use second::office::{Office, Packed, Second, TEXT_ROOM};

const CASE_A_NUMBERS: [i64; 19] = [
    1,
    0,
    134_160,
    43_627,
    0,
    767_102_100,
    88_312,
    28_349,
    173_078,
    0,
    71_688,
    30_840_740,
    39_000,
    80_700,
    92_700_000,
    89_165,
    75_042,
    88_187_024,
    84_824,
];

#[test]
fn numbers_stand_at_the_start_and_the_rest_stays() {
    for more in [0, 1, 20] {
        let mut out = vec![-7; 19 + more];
        assert_eq!(second::calculate(&case_a_bytes(), &mut out), Ok(()));
        assert_eq!(out[..19], CASE_A_NUMBERS);
        assert!(out[19..].iter().all(|number| *number == -7));
    }
}

#[test]
fn a_buffer_too_short_is_refused_last_and_left_alone() {
    let mut draft = case_a_draft();
    draft.walls.push(draft.walls[0]);
    for room in [0, 16, 18, 19, 32, 37] {
        let mut out = vec![-7; room];
        let refused = second::calculate(&draft.bytes(), &mut out);
        assert_eq!(refused, Err(BUFFER_TOO_SHORT));
        assert!(out.iter().all(|number| *number == -7));
    }
    draft.walls[1][0] = 2;
    let refused = Err(Refusal {
        number: 5,
        place: 201,
    });
    for room in [0, 37, 38] {
        let mut out = vec![-7; room];
        assert_eq!(second::calculate(&draft.bytes(), &mut out), refused);
        assert!(out.iter().all(|number| *number == -7));
    }
}

#[test]
fn texts_need_the_room_of_any_text() {
    let mut out = vec![0xff; TEXT_ROOM];
    let printed = Second.text(&case_a_bytes(), &mut out);
    assert_eq!(&out[..printed], CASE_A_LINE.as_bytes());
    assert!(out[printed..].iter().all(|byte| *byte == 0xff));
    assert_eq!(Second.text(&[], &mut out), "refused 1 0\n".len());
    let mut short = vec![0xff; TEXT_ROOM - 1];
    assert_eq!(Second.text(&case_a_bytes(), &mut short), 0);
    assert!(short.iter().all(|byte| *byte == 0xff));
}

#[test]
fn drawings_have_their_refusals_in_order() {
    let drawn = |wall: u32, room: usize| {
        let mut out = vec![-0.5; room];
        let answer = Second.drawing(&case_a_bytes(), wall, &mut out);
        (answer, out)
    };
    let (answer, out) = drawn(1, 7);
    assert_eq!((answer.shape(), answer.number(), answer.place()), (1, 0, 0));
    assert_eq!(out[..2], [134.16, 43.627]);
    assert_eq!(out[3..], [88.312, 28.349, -0.5, -0.5]);
    assert_eq!(drawn(1, 4), (Packed(8 << 32), vec![-0.5; 4]));
    for room in [0, 4, 5] {
        for wall in [0, 2, u32::MAX] {
            let refused = Packed(18 << 32 | u64::from(wall));
            assert_eq!(drawn(wall, room), (refused, vec![-0.5; room]));
        }
    }
}

/// No block: the record's three figures, and two of the five left alone.
#[test]
fn a_drawing_of_nothing_has_three_figures() {
    let mut draft = case_a_draft();
    draft.loads.push([1, 1, 3300, 200_000, 0]);
    let mut out = [-0.5; 6];
    let answer = Second.drawing(&draft.bytes(), 1, &mut out);
    assert_eq!(answer, Packed(0));
    assert_eq!(out[..2], [134.16, 243.627]);
    assert!(out[2] < 0.0 && out[2] != -0.5);
    assert_eq!(out[3..], [-0.5; 3]);
}

/// A check is asked for by its bit, and no number but these nine is one.
#[test]
fn checks_are_asked_for_by_their_bits() {
    let bits = [1, 2, 4, 8, 16, 32, 64, 128, 256];
    let set = |failures: u16| -> Vec<u16> {
        let asked = 0..=u16::MAX;
        asked
            .filter(|check| Second.has_failed(failures, *check))
            .collect()
    };
    assert_eq!(set(u16::MAX), bits);
    assert_eq!(set(0), []);
    assert_eq!(set(0xff), bits[..8]);
    assert_eq!(set(0xfe00), []);
    assert_eq!(set(0b1_1010_0110), [2, 4, 32, 128, 256]);
    for bit in bits {
        assert_eq!(set(bit), [bit]);
        assert!(!set(u16::MAX - bit).contains(&bit));
    }
}

/// How many bytes stand in the highest bits of the answer, and 0 of a refusal.
#[test]
fn a_written_file_says_how_many_bytes_it_has() {
    let write = |walls: &[u32], loads: &[u32], room: usize| {
        let mut out = vec![0xff; room];
        let answer = Second.write(walls, loads, &mut out);
        (answer, out)
    };
    let (answer, out) = write(&CASE_A, &[], 168);
    assert_eq!(answer, Packed(164 << 48));
    assert_eq!((answer.bytes(), answer.number()), (164, 0));
    assert_eq!(out[..164], case_a_bytes());
    assert_eq!(out[164..], [0xff; 4]);
    let refusals = [
        (&CASE_A[..37], &[][..], 3 << 32),
        (&[0; 38], &[4], 3 << 32),
        (&[0; 38], &[0; 5], 5 << 32 | 102),
        (&CASE_A, &[0; 5], 6 << 32 | 1),
        (&CASE_A, &[1, 0, 0, 0, 0].repeat(9), 7 << 32 | 9),
    ];
    for (walls, loads, answer) in refusals {
        for room in [0, 400] {
            assert_eq!(
                write(walls, loads, room),
                (Packed(answer), vec![0xff; room])
            );
        }
    }
    assert_eq!(write(&CASE_A, &[], 163), (Packed(9 << 32), vec![0xff; 163]));
}

#[test]
fn records_are_taken_apart_into_two_buffers() {
    let mut draft = case_a_draft();
    draft.loads.push([1, 0, 2300, 1, 2]);
    let apart = |job: &[u8], walls: usize, loads: usize| {
        let (mut walls, mut loads) = (vec![u32::MAX; walls], vec![u32::MAX; loads]);
        let answer = Second.records(job, &mut walls, &mut loads);
        (answer, walls, loads)
    };
    let (answer, walls, loads) = apart(&draft.bytes(), 39, 6);
    assert_eq!(answer, Packed::WORKED);
    assert_eq!((&walls[..38], walls[38]), (&CASE_A[..], u32::MAX));
    assert_eq!(loads, [1, 0, 2300, 1, 2, u32::MAX]);
    for (walls, loads) in [(37, 5), (38, 4), (0, 0)] {
        let untouched = (vec![u32::MAX; walls], vec![u32::MAX; loads]);
        let (answer, walls, loads) = apart(&draft.bytes(), walls, loads);
        assert_eq!((answer, (walls, loads)), (Packed(8 << 32), untouched));
    }
    draft.loads[0][2] = 2301;
    assert_eq!(apart(&draft.bytes(), 0, 0).0, Packed(6 << 32 | 1));
    draft.walls[0][37] = 100;
    assert_eq!(apart(&draft.bytes(), 0, 0).0, Packed(5 << 32 | 138));
    draft.walls[0][34] = 0;
    assert_eq!(apart(&draft.bytes(), 0, 0).0, Packed(5 << 32 | 135));
    draft.walls[0][30] = 0;
    assert_eq!(apart(&draft.bytes(), 0, 0).0, Packed(5 << 32 | 131));
    assert_eq!(apart(&draft.bytes()[..183], 0, 0).0, Packed(10 << 32));
}
