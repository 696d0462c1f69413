//! The files of `jobs/` are what `samples` makes, and show what its README says.

mod common;

use common::case_a_bytes;
use second::answers::accept;
use second::downstand::Underfoot;
use second::forces::{pushes, weights, Back};
use second::job_file::{Job, Wall};
use second::section::Section;
use second::sheet_line::{work_job, Worked};
use second::{sheet, traits, Whole};
use std::path::{Path, PathBuf};
use std::process::Command;

const FILES: [&str; 6] = [
    "case-a.job",
    "document-003.job",
    "document-004-lower.job",
    "downstand.job",
    "every-check.job",
    "full.job",
];

fn repository() -> PathBuf {
    Path::new(env!("CARGO_MANIFEST_DIR")).join("..")
}

fn kept(name: &str) -> Vec<u8> {
    std::fs::read(repository().join("jobs").join(name)).unwrap()
}

fn page(path: &str) -> String {
    std::fs::read_to_string(repository().join(path)).unwrap()
}

fn job_files_in(directory: &Path) -> Vec<String> {
    let mut names: Vec<String> = std::fs::read_dir(directory)
        .unwrap()
        .map(|entry| entry.unwrap().file_name().into_string().unwrap())
        .filter(|name| name.ends_with(".job"))
        .collect();
    names.sort();
    names
}

#[test]
fn every_kept_file_is_made_byte_for_byte() {
    let made = Path::new(env!("CARGO_TARGET_TMPDIR")).join("samples");
    // What an earlier run left there, if any.
    let _ = std::fs::remove_dir_all(&made);
    let status = Command::new(env!("CARGO_BIN_EXE_samples"))
        .arg(&made)
        .status()
        .unwrap();
    assert!(status.success());
    assert_eq!(job_files_in(&made), FILES);
    assert_eq!(job_files_in(&repository().join("jobs")), FILES);
    for name in FILES {
        let bytes = std::fs::read(made.join(name)).unwrap();
        assert!(bytes == kept(name), "{name} isn't what samples makes");
    }
}

#[test]
fn samples_wants_one_directory() {
    for words in [&[][..], &["one", "two"]] {
        let mut command = Command::new(env!("CARGO_BIN_EXE_samples"));
        let output = command.args(words).output().unwrap();
        assert_eq!(output.status.code(), Some(2));
    }
}

#[test]
fn case_a_is_document_01s() {
    assert_eq!(kept("case-a.job"), case_a_bytes());
}

#[test]
fn every_check_fails_on_one_line_or_the_other() {
    let job = accept(&kept("every-check.job")).unwrap();
    let failures: Vec<u16> = work_job(&job).iter().map(|wall| wall.failures).collect();
    assert_eq!(failures, [0x1e7, 0x0db]);
    assert_eq!(failures[0] | failures[1], 0x1ff);
}

/// What the README says of the job line by line: the wall that slides and doesn't when it
/// is keyed, levers and Mot below 0, and M6 past 6Rl and just there.
#[test]
fn the_downstand_job_shows_what_is_said() {
    let job = accept(&kept("downstand.job")).unwrap();
    let worked = work_job(&job);
    let failures: Vec<u16> = worked.iter().map(|wall| wall.failures).collect();
    assert_eq!(failures, [1, 0, 0, 0, 0, 0, 0x18, 0x18]);
    let held = |wall: &Worked| [wall.passive, wall.friction, wall.service.h];
    assert_eq!(held(&worked[0]), [9720, 29_790, 43_627]);
    for (wall, worked) in job.walls[1..4].iter().zip(&worked[1..4]) {
        assert_eq!(held(worked), [32_670, 30_690, 55_931]);
        assert_eq!(weights(wall)[2].vertical, 3600);
    }
    assert!(worked[1].service.mrest < worked[2].service.mrest);
    assert!(worked[2].service.mrest < worked[3].service.mrest);
    let places: Vec<_> = job.walls.iter().map(Underfoot::of).collect();
    assert!(places[1].under_toe() && places[2].under_stem() && places[3].under_heel());
    // Sixths of a mm.
    let levers = |wall: &Wall| {
        let each = pushes(wall, wall.ka, Back::of_wall(wall));
        each.map(|push| push.moment / push.horizontal.max(1))
    };
    assert_eq!(levers(&job.walls[4])[2..], [-1200, -1800, -1800]);
    assert!(worked[4].service.m6 > worked[3].service.m6);
    assert_eq!(levers(&job.walls[5])[..2], [-300, -2000]);
    assert_eq!(worked[5].service.mot, 6 * -2_958_133 - 2);
    assert_eq!(six_rl(&job, &worked, 6), (9_792_000, 38_709_000));
    assert_eq!(six_rl(&job, &worked, 7), (9_792_000, 9_792_000));
    for worked in &worked[1..5] {
        assert_eq!(worked.stem, worked_stem_of_case_a());
    }
}

/// 6Rl and M6 of a line, counted from 0.
fn six_rl(job: &Job, worked: &[Worked], line: usize) -> (Whole, Whole) {
    let total = &worked[line].service;
    (6 * total.r * job.walls[line].base_length(), total.m6)
}

fn worked_stem_of_case_a() -> Section {
    let job = accept(&kept("case-a.job")).unwrap();
    work_job(&job).remove(0).stem
}

#[test]
fn the_full_job_is_full_and_of_many_kinds() {
    let bytes = kept("full.job");
    let job = accept(&bytes).unwrap();
    assert_eq!((job.walls.len(), job.loads.len()), (64, 512));
    assert!((1..=64).all(|number| job.loads_of(number).len() == 8));
    let printed = traits::line(&bytes);
    let words: Vec<&str> = printed.split_whitespace().collect();
    for wanted in [
        "propped",
        "unpropped",
        "water-at-0",
        "water-below-base-top",
        "water-above-base-top",
        "water-at-crest",
        "no-toe",
        "no-heel",
        "service-whole",
        "service-toe",
        "service-heel",
        "loads-interleaved",
        "no-downstand",
        "downstand-under-toe",
        "downstand-under-stem",
        "downstand-under-heel",
        "water-in-downstand",
    ] {
        assert!(words.contains(&wanted), "{wanted}");
    }
}

/// Whether every line stands by itself on the page.
fn has_lines(page: &str, lines: &str) -> bool {
    lines
        .lines()
        .all(|line| page.lines().any(|there| there.trim() == line))
}

#[test]
fn the_pages_show_what_is_printed() {
    let readme = page("jobs/README.md");
    for name in &FILES[..5] {
        assert!(has_lines(&readme, &sheet(&kept(name))), "{name}");
    }
    let full = sheet(&kept("full.job"));
    assert!(has_lines(&readme, full.lines().next().unwrap()));
    let sources = page("docs/SOURCES.md");
    for name in ["document-003.job", "document-004-lower.job"] {
        assert!(has_lines(&sources, &sheet(&kept(name))), "{name}");
    }
}

/// "58-60" or "57": the first line and the last.
fn lines_of(words: &str) -> (usize, usize) {
    let (first, last) = words.split_once('-').unwrap_or((words, words));
    (first.parse().unwrap(), last.parse().unwrap())
}

/// What the page says of the full job's failures, line by line: the last cell of a
/// row, as in "001 on 57; 041 on 58-60", for the lines in its first.
fn failures_shown(page: &str) -> Vec<String> {
    let mut shown = vec!["000".to_string(); 64];
    let mut rows = 0;
    for row in page.lines().filter(|row| row.starts_with("| ")) {
        let cells: Vec<&str> = row.trim_matches('|').split('|').map(str::trim).collect();
        let (lines, failures) = (cells[0], cells[cells.len() - 1]);
        if cells.len() != 5 || lines == "lines" {
            continue;
        }
        rows += 1;
        let each = failures.split("; ").filter(|words| *words != "none");
        for (bits, on) in each.map(|words| words.split_once(" on ").unwrap()) {
            for (first, last) in on.split(", ").map(lines_of) {
                let row = lines_of(lines);
                assert!(row.0 <= first && last <= row.1, "{failures} in {lines}");
                shown[first - 1..last].fill(bits.to_string());
            }
        }
    }
    assert_eq!(rows, 8);
    shown
}

#[test]
fn the_page_shows_the_full_jobs_failures() {
    let readme = page("jobs/README.md");
    let (_, of_full) = readme.split_once("## full.job").unwrap();
    let job = accept(&kept("full.job")).unwrap();
    let worked = work_job(&job);
    let failures: Vec<String> = worked
        .iter()
        .map(|w| format!("{:03x}", w.failures))
        .collect();
    assert_eq!(failures_shown(of_full), failures);
}
