//! docs/JOB-FILE.md held to this program: its tables by what is answered at the
//! ends of every range and past them, its small job byte for byte with its sheet, and
//! the numbers and failures of a line.

mod common;

use common::CASE_A;
use second::generator::draft::{Draft, ACROSS, DOWN};
use second::job_file::{field, RawLoad, RawWall, MOST_BYTES, WALL_FIELDS};
use second::sheet;
use second::sheet_line::{CHECKS, LINE_NUMBERS};
use std::path::{Path, PathBuf};

const FIELDS: &str = "| no. | field | unit | range |";
const LOADS: &str = "| no. | number of a load | unit | range |";
const HEADER: &str = "| bytes | number of the header | range |";
const WORKED: &str = "| from byte | bytes | number |";
const LINE: &str = "| number of the line | what it is | unit |";
const FAILURES: &str = "| bit | printed | check that fails |";

fn repository() -> PathBuf {
    Path::new(env!("CARGO_MANIFEST_DIR")).join("..")
}

fn page() -> String {
    std::fs::read_to_string(repository().join("docs/JOB-FILE.md")).unwrap()
}

type Rows = Vec<Vec<String>>;

fn cells(line: &str) -> Option<Vec<String>> {
    let within = line.trim_end().strip_prefix('|')?.strip_suffix('|')?;
    Some(within.split('|').map(|cell| cell.trim().into()).collect())
}

/// The rows of the one table whose header row begins so, each as wide as that.
fn table(page: &str, start: &str) -> Result<Rows, String> {
    let tables = page.lines().filter(|line| line.starts_with(start)).count();
    if tables != 1 {
        return Err(format!("{tables} tables begin {start}"));
    }
    let mut lines = page.lines().skip_while(|line| !line.starts_with(start));
    let header = lines.next().and_then(cells).ok_or("no header row")?;
    let rule = lines.next().and_then(cells).ok_or("no rule below it")?;
    let rows: Rows = lines.map_while(cells).collect();
    let dashes = rule.iter().all(|cell| cell.trim_matches(':') == "---");
    let narrow = rows.iter().find(|row| row.len() != header.len());
    match narrow {
        Some(row) => Err(format!("a row of other width below {start}: {row:?}")),
        None if !dashes || rule.len() != header.len() => Err(format!("no rule below {start}")),
        None => Ok(rows),
    }
}

/// What stands in a column of a table whose first column is given.
fn column(page: &str, start: &str, first: &[String], at: usize) -> Result<Vec<String>, String> {
    let rows = table(page, start)?;
    let names: Vec<&String> = rows.iter().map(|row| &row[0]).collect();
    if !names.iter().copied().eq(first) {
        return Err(format!("below {start} stand the rows {names:?}"));
    }
    Ok(rows.into_iter().map(|mut row| row.remove(at)).collect())
}

fn numbered(count: usize) -> Vec<String> {
    (1..=count).map(|number| number.to_string()).collect()
}

/// The ranges of the 38 fields.
fn field_ranges(page: &str) -> Result<Vec<String>, String> {
    column(page, FIELDS, &numbered(WALL_FIELDS), 3)
}

/// The ranges of a load's five numbers.
fn load_ranges(page: &str) -> Result<Vec<String>, String> {
    column(page, LOADS, &numbered(5), 3)
}

/// The ranges of the header's six numbers.
fn header_ranges(page: &str) -> Result<Vec<String>, String> {
    let places = ["0, 1", "2, 3", "4, 5", "6, 7", "8, 9", "10, 11"];
    column(page, HEADER, &places.map(String::from), 2)
}

/// The bytes of the small job: each row one number, of two bytes in the header and
/// of four behind it, and each next to the last.
fn worked_bytes(page: &str) -> Result<Vec<u8>, String> {
    let mut all = Vec::new();
    for row in table(page, WORKED)? {
        let wrong = || format!("below {WORKED}: {row:?}");
        let hex = row[1].strip_prefix('`').and_then(|s| s.strip_suffix('`'));
        let bytes: Result<Vec<u8>, _> = hex
            .ok_or_else(wrong)?
            .split(' ')
            .map(|byte| u8::from_str_radix(byte, 16))
            .collect();
        let bytes = bytes.map_err(|_| wrong())?;
        let value = bytes
            .iter()
            .rev()
            .fold(0, |sum: u64, b| sum << 8 | u64::from(*b));
        let width = if all.len() < 12 { 2 } else { 4 };
        let due = [all.len().to_string(), value.to_string()];
        if bytes.len() != width || [&row[0], &row[2]] != [&due[0], &due[1]] {
            return Err(wrong());
        }
        all.extend(bytes);
    }
    Ok(all)
}

/// Everything that a page must have to be read, and the small job's bytes.
fn read(page: &str) -> Result<(), String> {
    field_ranges(page)?;
    load_ranges(page)?;
    header_ranges(page)?;
    let job = std::fs::read(repository().join("jobs/document-004-lower.job")).unwrap();
    if worked_bytes(page)? != job {
        return Err("the small job's bytes are others".into());
    }
    if page.contains("refused 5 309") {
        Ok(())
    } else {
        Err("the page doesn't say refused 5 309".into())
    }
}

/// "LOW to HIGH".
fn ends(range: &str) -> (u32, u32) {
    let ends = range.split_once(" to ");
    let number = |word: &str| word.parse().unwrap_or_else(|_| panic!("{range}"));
    let (low, high) = ends.unwrap_or_else(|| panic!("{range}"));
    (number(low), number(high))
}

/// What a number may be by the page: of a range its ends and what is next to them,
/// of the bars all up to 50. "Below" 0 is what -1 becomes.
fn judged(range: &str, height: u32) -> Vec<(u32, bool)> {
    let bars = ["8", "10", "12", "16", "20", "25", "32", "40"];
    let (low, high) = match range.split_once(" or ") {
        Some(("0", "1")) => (0, 1),
        Some((most, last)) => {
            let made: Vec<&str> = most.split(", ").chain([last]).collect();
            assert_eq!(made, bars, "{range}");
            let is_made = |bar: u32| made.contains(&bar.to_string().as_str());
            return (0..=50).map(|bar| (bar, is_made(bar))).collect();
        }
        None if range.split(',').next() == Some("0 to the wall's own height") => (0, height),
        None => ends(range),
    };
    let below = low.wrapping_sub(1);
    vec![(low, true), (high, true), (below, false), (high + 1, false)]
}

fn job(walls: &[RawWall], loads: &[RawLoad]) -> Draft {
    Draft {
        walls: walls.to_vec(),
        loads: loads.to_vec(),
    }
}

/// Whether a job is worked, or the line that refuses it.
fn answer(bytes: &[u8]) -> Result<(), String> {
    let printed = sheet(bytes);
    if printed.starts_with("refused") {
        Err(printed)
    } else {
        Ok(())
    }
}

/// What is due where the page takes a number, and where not.
fn due(taken: bool, number: u32, place: usize) -> Result<(), String> {
    if taken {
        Ok(())
    } else {
        Err(format!("refused {number} {place}\n"))
    }
}

/// Three walls, each of other heights and another length: hs + tb 3300, 700 and 9500, with
/// a downstand in the last two h 701 and 10500; l 2300, 2301 and 2302.
fn three_walls() -> [RawWall; 3] {
    let mut walls = [CASE_A; 3];
    let heights = [(3000, 300, 0), (500, 200, 1), (8000, 1500, 1000)];
    for (more, (wall, (stem, base, depth))) in (0..).zip(walls.iter_mut().zip(heights)) {
        wall[field::STEM_HEIGHT] = stem;
        wall[field::BASE_THICKNESS] = base;
        wall[field::HEEL] += more;
        put_downstand(wall, depth, 0, if depth > 0 { 100 } else { 0 });
    }
    walls
}

fn put_downstand(wall: &mut RawWall, depth: u32, position: u32, thickness: u32) {
    wall[field::DOWNSTAND_DEPTH..].copy_from_slice(&[depth, position, thickness]);
}

#[test]
fn the_page_has_all_its_tables_and_the_small_job() {
    assert_eq!(read(&page()), Ok(()));
}

/// Without any one row of any of them, or with a row twice, it is not right.
#[test]
fn a_missing_row_is_found() {
    let page = page();
    let lines: Vec<&str> = page.lines().collect();
    let mut rows = 0;
    for start in [FIELDS, LOADS, HEADER, WORKED] {
        let first = lines.iter().position(|line| line.starts_with(start));
        let first = first.unwrap();
        let table = lines[first..]
            .iter()
            .take_while(|line| line.starts_with('|'));
        for at in first..first + table.count() {
            let without = [&lines[..at], &lines[at + 1..]].concat().join("\n");
            let twice = [&lines[..=at], &lines[at..]].concat().join("\n");
            assert!(read(&without).is_err(), "without: {}", lines[at]);
            assert!(read(&twice).is_err(), "twice: {}", lines[at]);
            rows += 1;
        }
    }
    // The small job is 184 bytes: six numbers of two, and 43 of four.
    assert_eq!(rows, 4 * 2 + 38 + 5 + 6 + 49);
}

#[test]
fn each_field_has_the_range_that_is_answered() {
    let ranges = field_ranges(&page()).unwrap();
    let own = |range: &String| range.starts_with("0 to the wall's own height");
    assert!(ranges.iter().position(own) == Some(8) && ranges.iter().rposition(own) == Some(8));
    for (index, range) in ranges[..field::DOWNSTAND_DEPTH].iter().enumerate() {
        for (wall, height) in [3300, 701, 10_500].into_iter().enumerate() {
            for (value, taken) in judged(range, height) {
                let mut walls = three_walls();
                walls[wall][index] = value;
                let due = due(taken, 5, 100 * (wall + 1) + index + 1);
                let answer = answer(&job(&walls, &[]).bytes());
                assert_eq!(answer, due, "field {}, {range}: {value}", index + 1);
            }
        }
    }
}

/// The answer to three walls, one of them with this downstand.
fn with_downstand(wall: usize, [depth, position, thickness]: [u32; 3]) -> Result<(), String> {
    let mut walls = three_walls();
    put_downstand(&mut walls[wall], depth, position, thickness);
    answer(&job(&walls, &[]).bytes())
}

#[test]
fn a_downstand_has_the_ranges_that_are_answered() {
    let ranges = field_ranges(&page()).unwrap();
    let [depth, position, thickness] = &ranges[field::DOWNSTAND_DEPTH..] else {
        panic!("{ranges:?}");
    };
    let nought = "; 0 where field 36 is 0";
    assert_eq!(position, &format!("0 to the base's length{nought}"));
    let (within, with_position) = thickness.split_once(", and ").unwrap();
    let due_words = format!("with field 37 no more than the base's length{nought}");
    assert_eq!(with_position, due_words);
    for (wall, length) in [2300, 2301, 2302].into_iter().enumerate() {
        let named = |field: usize| Err(format!("refused 5 {}\n", 100 * (wall + 1) + field));
        let with = |downstand| with_downstand(wall, downstand);
        for (value, taken) in judged(depth, 0) {
            let thickness = if value > 0 { 100 } else { 0 };
            let due = if taken { Ok(()) } else { named(36) };
            assert_eq!(with([value, 0, thickness]), due, "{depth}: {value}");
        }
        for (value, taken) in judged(within, 0) {
            let due = if taken { Ok(()) } else { named(38) };
            assert_eq!(with([500, 0, value]), due, "{within}: {value}");
        }
        assert_eq!(with([500, length - 100, 100]), Ok(()));
        assert_eq!(with([500, length - 99, 100]), named(38));
        assert_eq!(with([500, length, 100]), named(38));
        assert_eq!(with([500, length + 1, 100]), named(37));
        assert_eq!(with([500, length - 700, 700]), Ok(()));
        assert_eq!(with([500, length - 700, 701]), named(38));
        assert_eq!(with([0, 0, 0]), Ok(()));
        assert_eq!(with([0, 1, 0]), named(37));
        assert_eq!(with([0, 0, 100]), named(38));
    }
}

/// The page's example of water beside a depth that is too great.
#[test]
fn water_goes_by_the_depth_that_stands_in_the_file() {
    assert!(page().contains("with a depth of 2000, which is too much"));
    let with = |water| {
        let mut walls = three_walls();
        put_downstand(&mut walls[0], 2000, 0, 100);
        walls[0][field::WATER_HEIGHT] = water;
        answer(&job(&walls, &[]).bytes())
    };
    assert_eq!(with(5300), Err("refused 5 136\n".into()));
    assert_eq!(with(5301), Err("refused 5 109\n".into()));
}

/// The answer to a load as the second of two.
fn with_load(load: RawLoad) -> Result<(), String> {
    answer(&job(&three_walls(), &[[1, DOWN, 0, 0, 0], load]).bytes())
}

#[test]
fn each_number_of_a_load_has_the_range_that_is_answered() {
    let ranges = load_ranges(&page()).unwrap();
    assert_eq!(ranges[0], "1 to the number of walls");
    let furthest = "0 to the base's length, or to field 2 + field 6";
    assert_eq!(ranges[2], furthest);
    for (index, range) in [
        (0, "1 to 3"),
        (1, &ranges[1]),
        (3, &ranges[3]),
        (4, &ranges[4]),
    ] {
        for (value, taken) in judged(range, 0) {
            let mut load = [2, DOWN, 0, 0, 0];
            load[index] = value;
            assert_eq!(with_load(load), due(taken, 6, 2), "{range}: {load:?}");
        }
    }
}

#[test]
fn a_load_stands_as_far_as_the_page_says() {
    let furthest = [(2300, 3300), (2301, 700), (2302, 9500)];
    for (wall, (length, height)) in (1..).zip(furthest) {
        for (direction, end) in [(DOWN, length), (ACROSS, height)] {
            for (position, taken) in judged(&format!("0 to {end}"), 0) {
                let load = [wall, direction, position, 0, 0];
                assert_eq!(with_load(load), due(taken, 6, 2), "{load:?}");
            }
        }
    }
}

/// The answer to a job of so many walls and loads, with the number at a place of
/// the header changed where one is given.
fn with_counts(walls: usize, loads: usize, change: Option<(usize, u32)>) -> Result<(), String> {
    let load = |index: usize| [(index % walls) as u32 + 1, DOWN, 0, 0, 0];
    let loads: Vec<RawLoad> = (0..loads).map(load).collect();
    let mut bytes = job(&vec![CASE_A; walls], &loads).bytes();
    if let Some((place, value)) = change {
        bytes[2 * place..2 * place + 2].copy_from_slice(&(value as u16).to_le_bytes());
    }
    answer(&bytes)
}

#[test]
fn the_header_has_the_ranges_that_are_answered() {
    let ranges = header_ranges(&page()).unwrap();
    assert_eq!([&ranges[0], &ranges[2]], ["2", "12"]);
    for (place, right, number) in [(0, 2, 2), (2, 12, 4)] {
        for value in [right - 1, right, right + 1, 65_535] {
            let due = due(value == right, number, 0);
            assert_eq!(with_counts(2, 3, Some((place, value))), due, "{value}");
        }
    }
    for place in [1, 3] {
        for (value, taken) in judged(&ranges[place], 0) {
            let count = value as usize;
            let answer = match (place, value) {
                // What -1 becomes, which only a header can say.
                (_, u32::MAX) => with_counts(2, 3, Some((place, value))),
                (1, _) => with_counts(count, 0, None),
                _ => with_counts(64, count, None),
            };
            assert_eq!(answer, due(taken, 3, 0), "{}: {value}", ranges[place]);
        }
    }
}

/// "12 + 152 x walls" and "12 + 152 x walls + 20 x loads", in numbers.
fn sum(range: &str, walls: u32, loads: u32) -> u32 {
    let part = |part: &str| match part.split_once(" x ") {
        None => part.parse().unwrap(),
        Some((each, "walls")) => each.parse::<u32>().unwrap() * walls,
        Some((each, "loads")) => each.parse::<u32>().unwrap() * loads,
        Some(_) => panic!("{range}"),
    };
    range.split(" + ").map(part).sum()
}

#[test]
fn offset_and_length_go_by_the_pages_sums() {
    let ranges = header_ranges(&page()).unwrap();
    let sums = ["12 + 152 x walls", "12 + 152 x walls + 20 x loads"];
    assert_eq!(ranges[4..], sums);
    for (walls, loads) in [(1, 0), (1, 1), (2, 0), (3, 8), (64, 512)] {
        if (walls, loads) == (64, 512) {
            let longest = sum(&ranges[5], walls, loads);
            assert_eq!(longest as usize, MOST_BYTES);
            assert!(page().contains(&format!("loads, has {longest} bytes")));
        }
        for (place, number) in [(4, 4), (5, 10)] {
            let right = sum(&ranges[place], walls, loads);
            for value in [right - 1, right, right + 1] {
                let change = Some((place, value));
                let answer = with_counts(walls as usize, loads as usize, change);
                assert_eq!(answer, due(value == right, number, 0), "{walls}, {loads}");
            }
        }
    }
}

/// The line's numbers one after another, each check with its bit, and the sheet of the
/// small job.
#[test]
fn the_page_shows_the_line_and_its_failures() {
    let page = page();
    let rows = table(&page, LINE).unwrap();
    let numbers: Vec<&str> = rows.iter().flat_map(|row| row[0].split(", ")).collect();
    assert_eq!(numbers, numbered(LINE_NUMBERS));
    let printed: Vec<[String; 2]> = CHECKS
        .iter()
        .map(|bit| [bit.to_string(), format!("`{bit:03x}`")])
        .collect();
    let rows = table(&page, FAILURES).unwrap();
    assert!(rows.iter().map(|row| &row[..2]).eq(&printed));
    let job = std::fs::read(repository().join("jobs/document-004-lower.job")).unwrap();
    assert!(page.contains(&format!("    {}", sheet(&job))));
    assert!(page.contains(&format!("of {LINE_NUMBERS} numbers")));
}

/// The page's own example: water one above the height of wall 3.
#[test]
fn the_pages_refusal_is_answered() {
    assert!(page().contains("refused 5 309"));
    // Behind two walls and eight fields.
    assert!(page().contains(&format!("-j{} -N4", 12 + 2 * 4 * WALL_FIELDS + 4 * 8)));
    for mut walls in [[CASE_A; 3], three_walls()] {
        let wall = &mut walls[2];
        wall[8] = wall[1] + wall[5] + wall[35] + 1;
        let refusal = "refused 5 309\n".to_string();
        assert_eq!(answer(&job(&walls, &[]).bytes()), Err(refusal));
        walls[2][8] -= 1;
        assert_eq!(answer(&job(&walls, &[]).bytes()), Ok(()));
    }
}
