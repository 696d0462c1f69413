//! The program itself: standard input to standard output.

mod common;

use common::{case_a_bytes, case_a_draft, CASE_A_LINE};
use std::io::Write;
use std::process::{Command, Stdio};

fn run(arguments: &[&str], input: &[u8]) -> (String, Option<i32>) {
    let (printed, status) = run_for_bytes(arguments, input);
    (String::from_utf8(printed).unwrap(), status)
}

fn run_for_bytes(arguments: &[&str], input: &[u8]) -> (Vec<u8>, Option<i32>) {
    let mut child = Command::new(env!("CARGO_BIN_EXE_second"))
        .args(arguments)
        .stdin(Stdio::piped())
        .stdout(Stdio::piped())
        .stderr(Stdio::null())
        .spawn()
        .unwrap();
    let mut pipe = child.stdin.take().unwrap();
    let input = input.to_vec();
    let writer = std::thread::spawn(move || pipe.write_all(&input));
    let output = child.wait_with_output().unwrap();
    // A program that refuses its arguments need not read its input.
    let _ = writer.join().unwrap();
    (output.stdout, output.status.code())
}

#[test]
fn the_sheet_of_case_a_and_of_two_walls() {
    assert_eq!(run(&[], &case_a_bytes()), (CASE_A_LINE.into(), Some(0)));
    let mut draft = case_a_draft();
    draft.walls.push(draft.walls[0]);
    draft.loads.push([2, 1, 0, 1, 0]);
    let second_line = CASE_A_LINE
        .replacen("1 000", "2 000", 1)
        .replacen(" 43627 ", " 43628 ", 1);
    let (printed, _) = run(&[], &draft.bytes());
    assert_eq!(printed, format!("{CASE_A_LINE}{second_line}"));
}

#[test]
fn refusals_are_printed_alone() {
    assert_eq!(run(&[], &[]), ("refused 1 0\n".into(), Some(0)));
    let mut draft = case_a_draft();
    draft.loads.push([1, 0, 2301, 0, 0]);
    assert_eq!(run(&[], &draft.bytes()).0, "refused 6 1\n");
    assert_eq!(run(&["draw", "1"], &draft.bytes()).0, "refused 6 1\n");
    draft.walls[0][8] = 3301;
    for arguments in [&[][..], &["draw", "1"], &["rewrite"]] {
        assert_eq!(run(arguments, &draft.bytes()).0, "refused 5 109\n");
        assert_eq!(run(arguments, &case_a_bytes()[..12]).0, "refused 10 0\n");
    }
    assert_eq!(run(&["traits"], &case_a_bytes()[..12]).0, "refused-10\n");
    assert_eq!(run(&["draw", "0"], &case_a_bytes()).0, "refused 18 0\n");
}

#[test]
fn an_input_past_all_bounds_is_refused() {
    let mut long = case_a_bytes();
    long.resize(3_000_000, 1);
    assert_eq!(run(&[], &long).0, "refused 10 0\n");
    // Right when its length is cut to 16 bits.
    long.resize(65_536 + 164, 1);
    assert_eq!(run(&[], &long).0, "refused 10 0\n");
}

#[test]
fn drawings_and_traits_are_one_line() {
    let (drawn, _) = run(&["draw", "1"], &case_a_bytes());
    assert_eq!(drawn, second::drawing_line(&case_a_bytes(), 1));
    assert!(drawn.starts_with("whole 4060c51eb851eb85 "));
    let (traits, _) = run(&["traits"], &case_a_bytes());
    assert!(traits.starts_with("accepted "));
    assert_eq!(traits.lines().count(), 1);
}

/// A file whose bytes are no text, without a line's end at its own.
#[test]
fn a_job_is_written_again_or_its_refusal_printed() {
    let mut draft = case_a_draft();
    draft.loads.push([1, 0, 2300, 199_999, 0x0a]);
    draft.loads.push([1, 1, 0, 0, 0xff]);
    for bytes in [case_a_bytes(), draft.bytes()] {
        assert_eq!(run_for_bytes(&["rewrite"], &bytes), (bytes, Some(0)));
    }
    draft.loads[1][0] = 2;
    let printed = run(&["rewrite"], &draft.bytes());
    assert_eq!(printed, ("refused 6 2\n".into(), Some(0)));
    assert_eq!(run(&["rewrite"], &[]), ("refused 1 0\n".into(), Some(0)));
}

#[test]
fn other_arguments_are_turned_away() {
    for arguments in [
        &["draw"][..],
        &["draw", "x"],
        &["draw", "-1"],
        &["rewrite", "1"],
        &["sheet"],
    ] {
        assert_eq!(run(arguments, &case_a_bytes()), (String::new(), Some(2)));
    }
}
