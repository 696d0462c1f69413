//! Document 02, "#101 Write job files", with the places of "#102 Say which field":
//! every refusal, its place and the order, what stands in the lent buffers, and round
//! trips.

mod common;

use common::{case_a_bytes, samples_of_each_kind, CASE_A, ENDS};
use second::answers::{accept, Refusal};
use second::generator::draft::{Draft, ACROSS, DOWN};
use second::job_file::{field, Header, RawLoad, MOST_BYTES, WALL_FIELDS};
use second::writing::{records, rewrite, take_apart, write, Records};

const GOOD: RawLoad = [1, DOWN, 100, 1000, 2000];
const BAD: RawLoad = [4, DOWN, 100, 1000, 2000];

/// What a lent byte and a lent number hold before a call.
const BYTE: u8 = 0xee;
const NUMBER: u32 = 0xeeee_eeee;

/// Three walls of case A with the loads given.
fn three(loads: &[RawLoad]) -> Records {
    Records {
        walls: CASE_A.repeat(3),
        loads: loads.concat(),
    }
}

/// The answer to some records and what the buffer holds after it.
fn written(records: &Records, room: usize) -> (Result<usize, Refusal>, Vec<u8>) {
    let mut out = vec![BYTE; room];
    let answer = write(&records.walls, &records.loads, &mut out);
    (answer, out)
}

/// The refusal of some records, whatever the room, and that nothing is written.
fn refused(records: &Records) -> (u8, u64) {
    let answers = [0, 11, 12, 163, 164, 528, MOST_BYTES, 20_000].map(|room| {
        let (answer, out) = written(records, room);
        assert!(out.iter().all(|byte| *byte == BYTE), "{room} bytes lent");
        answer.unwrap_err()
    });
    assert!(answers.iter().all(|answer| *answer == answers[0]));
    (answers[0].number, answers[0].place)
}

#[test]
fn case_a_is_written_as_document_01_prints_it() {
    let records = Records {
        walls: CASE_A.to_vec(),
        loads: Vec::new(),
    };
    let (answer, out) = written(&records, 164);
    assert_eq!(answer, Ok(164));
    let header = Header::read(&out).unwrap().numbers();
    assert_eq!(header, [2, 1, 12, 0, 164, 164]);
    assert_eq!(out, case_a_bytes());
}

#[test]
fn offsets_go_by_the_counts_and_loads_keep_their_order() {
    let loads = [[3, ACROSS, 3300, 0, 0x0001_0203], [1, DOWN, 0, 7, 0], GOOD];
    let (answer, out) = written(&three(&loads), 550);
    assert_eq!(answer, Ok(528));
    let header = Header::read(&out).unwrap().numbers();
    assert_eq!(header, [2, 3, 12, 3, 468, 528]);
    let first_load = [
        3, 0, 0, 0, 1, 0, 0, 0, 0xe4, 0x0c, 0, 0, 0, 0, 0, 0, 3, 2, 1, 0,
    ];
    assert_eq!(out[468..488], first_load);
    let draft = Draft {
        walls: vec![CASE_A; 3],
        loads: loads.to_vec(),
    };
    assert_eq!(out[..528], draft.bytes());
    assert!(out[528..].iter().all(|byte| *byte == BYTE));
}

#[test]
fn room_for_exactly_the_file_is_enough() {
    let records = three(&[GOOD]);
    for more in [0, 1, 12, 1000] {
        let (answer, out) = written(&records, 488 + more);
        assert_eq!(answer, Ok(488));
        assert_eq!(out[488..], vec![BYTE; more]);
    }
    let nine = Refusal {
        number: 9,
        place: 0,
    };
    for room in [0, 1, 12, 468, 487] {
        assert_eq!(written(&records, room), (Err(nine), vec![BYTE; room]));
    }
}

#[test]
fn three_for_buffers_that_are_not_whole_records() {
    let whole = three(&[GOOD, GOOD]);
    for count in (0..=115).filter(|count| count % 38 != 0) {
        let mut records = whole.clone();
        records.walls.resize(count, 0);
        assert_eq!(refused(&records), (3, 0), "{count} numbers of walls");
    }
    for count in (0..=11).filter(|count| count % 5 != 0) {
        let mut records = whole.clone();
        records.loads.resize(count, 0);
        assert_eq!(refused(&records), (3, 0), "{count} numbers of loads");
    }
}

#[test]
fn three_for_counts_out_of_range() {
    let counts = |walls: usize, loads: usize| {
        let load = |i: usize| [(i % 64) as u32 + 1, DOWN, 0, 0, 0];
        Records {
            walls: CASE_A.repeat(walls),
            loads: (0..loads).flat_map(load).collect(),
        }
    };
    for (walls, loads) in [(0, 0), (0, 1), (65, 0), (64, 513), (65_537, 0), (1, 65_536)] {
        assert_eq!(refused(&counts(walls, loads)), (3, 0), "{walls}, {loads}");
    }
    assert_eq!(written(&counts(64, 0), 9740).0, Ok(9740));
    assert_eq!(written(&counts(64, 512), MOST_BYTES).0, Ok(19_980));
}

#[test]
fn five_six_and_seven_with_their_places() {
    let mut records = three(&[GOOD, BAD]);
    assert_eq!(refused(&records), (6, 2));
    records.walls[2 * WALL_FIELDS + field::KA] = 0;
    assert_eq!(refused(&records), (5, 315));
    records.walls[WALL_FIELDS + field::WATER_HEIGHT] = 3301;
    assert_eq!(refused(&records), (5, 209));
    records.walls[WALL_FIELDS + field::BASE_THICKNESS] = 1501;
    assert_eq!(refused(&records), (5, 206));
    records.walls[WALL_FIELDS + field::STEM_HEIGHT] = 8001;
    assert_eq!(refused(&records), (5, 202));
    let mut loads = vec![GOOD; 9];
    loads.insert(2, [2, ACROSS, 3300, 0, 200_000]);
    assert_eq!(refused(&three(&loads)), (7, 10));
    loads.push(BAD);
    assert_eq!(refused(&three(&loads)), (7, 10));
    loads[9] = [1, ACROSS, 3301, 0, 0];
    assert_eq!(refused(&three(&loads)), (6, 10));
    loads[4] = BAD;
    assert_eq!(refused(&three(&loads)), (6, 5));
}

/// The writer names the field that the reader names, in each of three walls.
#[test]
fn a_bad_field_has_the_readers_place() {
    for place in 0..3 * WALL_FIELDS {
        let (wall, index) = (place / WALL_FIELDS, place % WALL_FIELDS);
        let (low, high) = ENDS[index];
        for value in [low.wrapping_sub(1), high + 1] {
            let mut records = three(&[]);
            records.walls[place] = value;
            let due = (5, 100 * (wall as u64 + 1) + index as u64 + 1);
            assert_eq!(refused(&records), due);
            let mut draft = Draft {
                walls: vec![CASE_A; 3],
                loads: Vec::new(),
            };
            draft.walls[wall][index] = value;
            let read = accept(&draft.bytes()).unwrap_err();
            assert_eq!((read.number, read.place), due);
        }
    }
}

/// Each fault taken away shows the next; the room is the last.
#[test]
fn three_before_five_before_six_before_seven_before_nine() {
    let mut records = three(&[BAD]);
    for _ in 0..9 {
        records.loads.extend(GOOD);
    }
    records.walls[field::FY] = 249;
    records.walls.push(0);
    assert_eq!(refused(&records), (3, 0));
    records.walls.pop();
    records.loads.push(0);
    assert_eq!(refused(&records), (3, 0));
    records.loads.pop();
    assert_eq!(refused(&records), (5, 122));
    records.walls[field::FY] = 250;
    assert_eq!(refused(&records), (6, 1));
    records.loads[0] = 2;
    assert_eq!(refused(&records), (7, 10));
    records.loads.truncate(45);
    let nine = written(&records, 647).0.unwrap_err();
    assert_eq!((nine.number, nine.place), (9, 0));
    assert_eq!(written(&records, 648).0, Ok(648));
}

/// Of the numbers behind a right header the writer says what the reader says.
#[test]
fn records_are_refused_as_the_reader_would() {
    let mut seen = [0; 11];
    for (name, sample) in samples_of_each_kind(30) {
        let bytes = &sample.bytes;
        let answer = accept(bytes).map(|_| bytes.len());
        let number = answer.map_or_else(|refusal| refusal.number, |_| 0);
        if [1, 2, 3, 4, 10].contains(&number) {
            continue;
        }
        let walls = usize::from(Header::read(bytes).unwrap().walls);
        let (walls, loads) = bytes[12..].split_at(152 * walls);
        let numbers = |bytes: &[u8]| -> Vec<u32> {
            let each = bytes.chunks(4);
            each.map(|b| u32::from_le_bytes(b.try_into().unwrap()))
                .collect()
        };
        let mut out = vec![BYTE; bytes.len()];
        let said = write(&numbers(walls), &numbers(loads), &mut out);
        assert_eq!(said, answer, "{name}");
        assert!(number > 0 || out == *bytes, "{name}");
        seen[usize::from(number)] += 1;
    }
    assert!([0, 5, 6, 7].iter().all(|n| seen[*n] > 10), "{seen:?}");
}

#[test]
fn round_trips_over_generated_jobs() {
    let mut accepted = 0;
    for (name, sample) in samples_of_each_kind(30) {
        match records(&sample.bytes) {
            Err(refusal) => {
                assert_eq!(accept(&sample.bytes), Err(refusal), "{name}");
                assert_eq!(rewrite(&sample.bytes), Err(refusal), "{name}");
            }
            Ok(apart) => {
                let (answer, file) = written(&apart, sample.bytes.len());
                assert_eq!(answer, Ok(sample.bytes.len()), "{name}");
                assert!(file == sample.bytes, "{name}");
                assert_eq!(records(&file), Ok(apart), "{name}");
                assert_eq!(rewrite(&sample.bytes), Ok(file), "{name}");
                accepted += 1;
            }
        }
    }
    assert!(accepted > 300, "{accepted}");
}

/// The answer to a job and what the two buffers hold after it.
fn taken_apart(job: &[u8], walls: usize, loads: usize) -> (Result<(), Refusal>, Records) {
    let mut apart = Records {
        walls: vec![NUMBER; walls],
        loads: vec![NUMBER; loads],
    };
    let answer = take_apart(job, &mut apart.walls, &mut apart.loads);
    (answer, apart)
}

#[test]
fn records_stand_at_the_start_and_the_rest_stays() {
    let whole = three(&[GOOD, [2, ACROSS, 0, 5, 6]]);
    let (_, job) = written(&whole, 508);
    assert_eq!(taken_apart(&job, 114, 10), (Ok(()), whole.clone()));
    let (answer, apart) = taken_apart(&job, 121, 17);
    assert_eq!(answer, Ok(()));
    assert_eq!(apart.walls[..114], whole.walls);
    assert_eq!(apart.loads[..10], whole.loads);
    let behind = [&apart.walls[114..], &apart.loads[10..]].concat();
    assert_eq!(behind, [NUMBER; 14]);
    // Without loads no room is needed for them.
    let apart = taken_apart(&case_a_bytes(), 38, 0).1;
    assert_eq!(apart.walls, CASE_A);
}

#[test]
fn eight_where_either_buffer_is_too_short_after_all_others() {
    let (_, mut job) = written(&three(&[GOOD, GOOD]), 508);
    let answers = |job: &[u8]| {
        [(0, 0), (113, 10), (114, 9), (113, 1000), (1000, 9)].map(|(walls, loads)| {
            let (answer, apart) = taken_apart(job, walls, loads);
            let lent = [apart.walls, apart.loads].concat();
            assert!(lent.iter().all(|number| *number == NUMBER));
            answer.map_err(|refusal| (refusal.number, refusal.place))
        })
    };
    assert_eq!(answers(&job), [Err((8, 0)); 5]);
    job[488] = 4;
    assert_eq!(answers(&job), [Err((6, 2)); 5]);
    job[321] = 0;
    assert_eq!(answers(&job), [Err((5, 302)); 5]);
    job[316] = 2;
    assert_eq!(answers(&job), [Err((5, 301)); 5]);
    job[10] = 0;
    assert_eq!(answers(&job), [Err((10, 0)); 5]);
    job[8] = 0;
    assert_eq!(answers(&job), [Err((4, 0)); 5]);
    job[2] = 0;
    assert_eq!(answers(&job), [Err((3, 0)); 5]);
    job[0] = 1;
    assert_eq!(answers(&job), [Err((2, 0)); 5]);
    assert_eq!(answers(&job[..11]), [Err((1, 0)); 5]);
}
