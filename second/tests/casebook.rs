//! The jobs that the gate gives to `crates/casebook`: they are the generator's,
//! they touch everything, and the text it is held to is this program's.

mod common;

use common::{steel_before, ENDS};
use second::answers::accept;
use second::generator::samples;
use second::job_file::{field, read_record, RawWall, Reinforcement, Wall};
use second::section::Section;
use second::sheet_line::work_job;
use second::traits::{of, VOCABULARY};
use second::{rewritten, sheet, Whole};
use std::collections::{BTreeMap, BTreeSet};
use std::fs::{read, read_dir, read_to_string, File};
use std::path::{Path, PathBuf};
use std::process::Command;

const SEED: u64 = 57;
const COUNT: usize = 2584;

/// So many jobs of a kind are taken, the first ones.
fn taken(kind: &str) -> usize {
    match kind {
        "refused-field" => 76,
        "edges" | "refused-offset" => 34,
        "heel" => 33,
        "downstand" => 25,
        "toe-and-stem" | "refused-wall" => 16,
        "refused-downstand" => 14,
        "steel-hundredth" => 13,
        "lever-arm" | "contact-end" => 12,
        "raw" => 8,
        _ => 7,
    }
}

fn crate_part(part: &str) -> PathBuf {
    Path::new(env!("CARGO_MANIFEST_DIR"))
        .join("../crates/casebook")
        .join(part)
}

/// The jobs that stand there, in the order of their names.
fn kept() -> BTreeMap<String, Vec<u8>> {
    read_dir(crate_part("data"))
        .unwrap()
        .map(|entry| entry.unwrap())
        .map(|entry| {
            let name = entry.file_name().into_string().unwrap();
            (name, read(entry.path()).unwrap())
        })
        .collect()
}

/// The jobs that should.
fn made() -> BTreeMap<String, Vec<u8>> {
    samples(SEED, COUNT)
        .filter(|(name, _)| {
            let (kind, number) = name.rsplit_once('-').unwrap();
            number.parse::<usize>().unwrap() <= taken(kind)
        })
        .map(|(name, sample)| (format!("{name}.job"), sample.bytes))
        .collect()
}

#[test]
fn the_jobs_are_the_generators_byte_for_byte() {
    let (kept, made) = (kept(), made());
    assert!(kept.keys().eq(made.keys()), "other names than are made");
    for (name, bytes) in &made {
        assert!(kept[name] == *bytes, "{name} isn't what generate makes");
    }
    assert_eq!(kept.len(), 447);
}

#[test]
fn the_arguments_name_them_in_order() {
    let lines: String = kept().keys().map(|name| format!("{name}\n")).collect();
    assert_eq!(read_to_string(crate_part("args")).unwrap(), lines);
}

#[test]
fn the_text_is_what_this_program_prints() {
    let mut printed = Vec::new();
    for name in kept().keys() {
        let job = File::open(crate_part("data").join(name)).unwrap();
        let mut command = Command::new(env!("CARGO_BIN_EXE_second"));
        let output = command.stdin(job).output().unwrap();
        assert!(output.status.success(), "{name}");
        printed.extend(output.stdout);
    }
    printed.extend(last_line().into_bytes());
    let text = read(crate_part("stdout")).unwrap();
    assert!(text == printed, "other text than second prints");
}

/// How many of the jobs are taken apart and written again: all that are accepted.
fn last_line() -> String {
    let jobs = kept();
    let again = jobs.values().filter(|job| rewritten(job) == **job).count();
    let accepted = jobs.values().filter(|job| accept(job).is_ok()).count();
    assert_eq!(again, accepted);
    format!("{again} jobs written again, byte for byte\n")
}

/// Fields that are bad in a wall with a downstand; all others in one without.
const BESIDE_DOWNSTAND: [usize; 2] = [field::DOWNSTAND_DEPTH, field::DOWNSTAND_THICKNESS];

/// The greatest thickness that a downstand may have where it begins.
fn thickest(wall: &RawWall) -> u32 {
    let length = wall[field::TOE] + wall[field::STEM_THICKNESS] + wall[field::HEEL];
    length
        .saturating_sub(wall[field::DOWNSTAND_POSITION])
        .min(1500)
}

/// Of each field a job with the value just below its range, or what -1 becomes
/// where that begins at 0, and one with the value just above it.
#[test]
fn every_field_is_refused_below_and_above_its_range() {
    let jobs = kept();
    for (index, (low, high)) in ENDS.into_iter().enumerate() {
        for above in [false, true] {
            let number = 2 * index + 1 + usize::from(above);
            let job = &jobs[&format!("refused-field-{number:04}.job")];
            let walls: [RawWall; 3] = std::array::from_fn(|i| read_record(job, 12 + 152 * i));
            let beyond = |wall: &RawWall| {
                let (low, high) = match index {
                    field::WATER_HEIGHT => {
                        (0, wall[field::STEM_HEIGHT] + wall[field::BASE_THICKNESS])
                    }
                    field::DOWNSTAND_THICKNESS => (100, thickest(wall)),
                    _ => (low, high),
                };
                let has_downstand = wall[field::DOWNSTAND_DEPTH] > 0;
                let value = if above { high + 1 } else { low.wrapping_sub(1) };
                has_downstand == BESIDE_DOWNSTAND.contains(&index) && wall[index] == value
            };
            let wall = walls.iter().position(beyond).unwrap() + 1;
            let refusal = format!("refused 5 {wall}{:02}\n", index + 1);
            assert_eq!(sheet(job), refusal, "refused-field {number}");
        }
    }
}

/// Required and provided steel of a section in hundredths of mm2, and what they were
/// before request #106 in whole mm2. It passes now and failed then.
fn now_and_before(
    wall: &Wall,
    thickness: Whole,
    bars: &Reinforcement,
    section: &Section,
) -> [Whole; 4] {
    let before = steel_before(wall, thickness, bars, section.effects.moment);
    assert!(before.fails && !section.steel_fails);
    [
        section.required,
        section.provided,
        before.required,
        before.provided,
    ]
}

/// The two that the README names, a stem's and a toe's.
#[test]
fn cages_that_failed_in_whole_mm2_pass_now() {
    let jobs = kept();
    let named = |name: &str, word: &str| {
        let bytes = &jobs[name];
        assert!(of(bytes).1.contains(word), "{name}");
        let job = accept(bytes).unwrap();
        (job.walls[0].clone(), work_job(&job).remove(0))
    };
    let (wall, worked) = named("steel-hundredth-0003.job", "stem-steel-failed-in-mm2");
    let stem = now_and_before(&wall, wall.stem_thickness, &wall.stem_bars, &worked.stem);
    assert_eq!(stem, [687_352, 687_384, 6874, 6873]);
    let (wall, worked) = named("steel-hundredth-0009.job", "toe-steel-failed-in-mm2");
    let toe = worked.toe.unwrap();
    let toe = now_and_before(&wall, wall.base_thickness, &wall.toe_bars, &toe);
    assert_eq!(toe, [60_801, 60_875, 609, 608]);
}

/// Every refusal, every block in service and factored, every bit set and
/// clear, a toe of no length, limits at equality and all the rest.
#[test]
fn every_word_of_the_traits_is_touched() {
    let mut touched = BTreeSet::new();
    for bytes in kept().values() {
        let (answer, words) = of(bytes);
        touched.insert(answer);
        touched.extend(words);
    }
    let missed: Vec<_> = VOCABULARY
        .iter()
        .filter(|word| !touched.contains(**word))
        .collect();
    assert!(missed.is_empty(), "missed: {missed:?}");
}
