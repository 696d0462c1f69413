//! Walls whose lines were worked apart from this program (`worked.txt`), many
//! of them with a figure just at the edge of a rule.

use second::generator::draft::Draft;
use second::traits::of;
use std::collections::BTreeSet;

const WORKED: &str = include_str!("worked.txt");

fn numbers(text: &str) -> Vec<u32> {
    text.split_whitespace()
        .map(|word| word.parse().unwrap())
        .collect()
}

/// The job of a row, and its line.
fn read_row(row: &str) -> (Draft, &str) {
    let parts: Vec<&str> = row.split("; ").collect();
    let [fields, loads, line] = parts[..] else {
        panic!("{row}");
    };
    let mut draft = Draft::of(numbers(fields).try_into().unwrap());
    for load in loads.split(", ").filter(|load| !load.is_empty()) {
        let rest: [u32; 4] = numbers(load).try_into().unwrap();
        draft.loads.push([1, rest[0], rest[1], rest[2], rest[3]]);
    }
    (draft, line)
}

fn rows() -> impl Iterator<Item = (Draft, &'static str)> {
    let lines = WORKED.lines().filter(|line| !line.starts_with('#'));
    lines.map(read_row)
}

#[test]
fn every_row_prints_its_line() {
    let mut count = 0;
    for (draft, line) in rows() {
        assert_eq!(second::sheet(&draft.bytes()), format!("{line}\n"));
        count += 1;
    }
    assert!(count > 400, "{count}");
}

/// The edges that the rows were chosen for.
const EDGES: &[&str] = &[
    "sliding-even",
    "overturning-even",
    "allowable-even",
    "toe-steel-even",
    "stem-steel-even",
    "toe-shear-even",
    "stem-shear-even",
    "stem-shear-fcu-even",
    "service-m6-is-0",
    "service-m6-is-2rl",
    "service-m6-is-4rl",
    "service-peak-at-limit",
    "factored-m6-is-0",
    "factored-m6-is-2rl",
    "factored-m6-is-4rl",
    "factored-peak-at-limit",
    "toe-block-ends-before-face",
    "toe-block-ends-at-face",
    "toe-block-ends-before-middle",
    "toe-block-ends-at-middle",
    "toe-block-ends-past-middle",
    "toe-rounding-at-middle",
    "heel-block-starts-before-face",
    "heel-block-starts-at-face",
    "heel-block-starts-before-middle",
    "heel-block-starts-at-middle",
    "heel-block-starts-past-middle",
    "toe-shear-0",
    "toe-moment-0",
    "toe-steel-failed-in-mm2",
    "stem-steel-failed-in-mm2",
    "toe-steel-hundredth-short",
    "stem-steel-hundredth-short",
    "toe-needed-not-whole",
    "stem-needed-not-whole",
    "toe-least-not-whole",
    "stem-least-not-whole",
    "toe-least-even",
    "stem-least-even",
    "stem-steel-last-moment",
    "stem-steel-past-last-moment",
    "stem-needed-exact",
    "toe-compression-steel",
    "stem-compression-steel",
    "service-heel",
    "factored-heel",
    "service-none-peak",
    "factored-none-peak",
    "heel-unchecked-no-heel",
    "heel-unchecked-no-block",
    "heel-shear-below-0",
    "heel-moment-below-0",
    "heel-compression-steel",
    "heel-steel-least",
    "heel-steel-needed",
    "heel-steel-fails-alone",
    "heel-steel-even",
    "heel-steel-hundredth-short",
    "heel-least-even",
    "heel-shear-fails-alone",
    "heel-shear-even",
    "heel-fill-moist",
    "heel-fill-saturated",
    "heel-fill-both",
    "heel-surcharge-0",
    "heel-loaded",
    "under-heel-whole",
    "under-heel-whole-to-its-end",
    "under-heel-toe-block-ends-before-middle",
    "under-heel-toe-block-ends-at-middle",
    "under-heel-toe-block-ends-before-back",
    "under-heel-toe-block-ends-at-back",
    "under-heel-toe-block-ends-past-back",
    "under-heel-heel-block-starts-before-middle",
    "under-heel-heel-block-starts-at-middle",
    "under-heel-heel-block-starts-before-back",
    "under-heel-heel-block-starts-at-back",
    "under-heel-heel-block-starts-past-back",
    "heel-sum-by-parts",
    "heel-sum-not-whole",
    "heel-bearing-not-whole",
    "heel-peak-shows",
    "downstand-under-toe",
    "downstand-under-stem",
    "downstand-under-heel",
    "downstand-across-face",
    "downstand-across-back",
    "downstand-at-front-edge",
    "downstand-at-back-edge",
    "downstand-weight-half",
    "downstand-weight-not-whole",
    "water-in-downstand",
    "water-at-base-underside",
    "water-in-base",
    "water-wets-base-but-for-downstand",
    "passive-depth-by-downstand",
    "downstand-across-at-crest",
    "downstand-across-low-on-stem",
    "lever-surcharge-negative",
    "lever-moist-above-negative",
    "lever-moist-below-negative",
    "lever-wet-negative",
    "service-mot-negative",
    "factored-mot-negative",
    "service-none-past-heel",
    "factored-none-past-heel",
    "service-m6-just-below-6rl",
    "service-m6-is-6rl",
    "service-m6-just-past-6rl",
    "factored-m6-just-below-6rl",
    "factored-m6-is-6rl",
    "factored-m6-just-past-6rl",
];

#[test]
fn the_rows_meet_every_edge() {
    let met: BTreeSet<&str> = rows().flat_map(|(draft, _)| of(&draft.bytes()).1).collect();
    for word in EDGES {
        assert!(met.contains(word), "{word}");
    }
}
