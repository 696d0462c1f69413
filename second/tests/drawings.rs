//! The drawing's figures: one division each, of numbers a double holds.

mod common;

use common::{accepted_jobs, case_a_bytes};
use second::drawing::{draw, Drawing, Shape};
use second::sheet_line::work_job;

#[test]
fn case_a_is_drawn_whole() {
    let drawing = draw(&case_a_bytes(), 1).unwrap();
    assert_eq!(drawing.r.value(), 134.16);
    assert_eq!(drawing.h.value(), 43.627);
    assert_eq!(drawing.distance.value(), 767_102_100.0 / 804_960.0);
    let Shape::Whole(toe, heel) = drawing.shape else {
        panic!("{drawing:?}");
    };
    assert_eq!((toe.value(), heel.value()), (88.312, 28.349));
    assert_eq!(
        second::drawing_line(&case_a_bytes(), 1),
        "whole 4060c51eb851eb85 4045d04189374bc7 408dc7c0f43ee4ad 405613f7ced91687 403c595810624dd3\n"
    );
}

#[test]
fn every_number_is_held_exactly_and_the_shapes_lie_where_r_is() {
    let mut seen = [0; 4];
    for (name, job) in accepted_jobs(60) {
        for (wall, worked) in job.walls.iter().zip(work_job(&job)) {
            let drawing = Drawing::of(&worked);
            for quotient in drawing.quotients() {
                assert!(quotient.over.abs() < 1 << 53, "{name}");
                assert!((1..1 << 53).contains(&quotient.under), "{name}");
            }
            // A triangle's contact is three times R's distance from its peak.
            let distance = drawing.distance.value();
            let l = wall.base_length() as f64;
            let near = |a: f64, b: f64| (a - b).abs() < 1e-6;
            let turn = match drawing.shape {
                Shape::Whole(..) => {
                    assert!(l / 3.0 - 1e-6 < distance && distance < l / 1.5 + 1e-6);
                    0
                }
                Shape::Toe(_, contact) => {
                    assert!(near(contact.value(), 3.0 * distance), "{name}");
                    1
                }
                Shape::Heel(_, contact) => {
                    assert!(near(contact.value(), 3.0 * (l - distance)), "{name}");
                    2
                }
                Shape::Nothing => {
                    assert_eq!(worked.numbers()[6..8], [0, 0], "{name}");
                    3
                }
            };
            seen[turn] += 1;
        }
    }
    assert!(seen.iter().all(|count| *count > 20), "{seen:?}");
}
