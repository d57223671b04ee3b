//! The picture that the benchmark draws: its scale, its lines and the places of its names.

#[path = "../benches/picture/mod.rs"]
mod picture;

use picture::{spread, svg, Line, Scale, Words};

#[test]
fn equal_ratios_have_equal_distances() {
    let scale = Scale {
        first: 1.0,
        last: 10_000.0,
        start: 400.0,
        end: 0.0,
    };
    let places = [1.0, 10.0, 100.0, 1_000.0, 10_000.0].map(|value| scale.place(value));
    for (place, expected) in places.into_iter().zip([400.0, 300.0, 200.0, 100.0, 0.0]) {
        assert!((place - expected).abs() < 1e-9, "{place}, not {expected}");
    }
}

#[test]
fn a_line_has_all_its_points_and_its_name() {
    let line = |name, points| Line {
        name,
        colour: "#000000",
        dashes: "",
        width: 2.0,
        points,
    };
    let lines = [
        line(
            "five",
            [1, 2, 3, 4, 5].map(|n| (f64::from(n), 9.0)).to_vec(),
        ),
        line("two & more", vec![(1.0, 3_000.0), (5.0, 0.3)]),
    ];
    let words = Words {
        title: "",
        below_title: ["", ""],
        across: "",
        up: "",
    };
    let drawn = svg(&words, &lines);
    let is_line = |text: &&str| text.contains("class=\"line\"");
    let paths: Vec<&str> = drawn.lines().filter(is_line).collect();
    assert_eq!(paths.len(), lines.len());
    for (line, path) in lines.iter().zip(paths) {
        let steps = path.split('"').nth(3).expect("the path has steps");
        assert_eq!(steps.matches(['M', 'L']).count(), line.points.len());
    }
    assert!(drawn.contains(">five: 9.0<"));
    assert!(drawn.contains(">two &amp; more: 0.3<"));
}

#[test]
fn names_do_not_overlap() {
    assert_eq!(spread(&[100.0, 200.0], 480.0), [100.0, 200.0]);
    assert_eq!(spread(&[100.0, 101.0], 480.0), [91.0, 110.0]);
    assert_eq!(
        spread(&[9.0, 100.0, 101.0, 108.0], 480.0),
        [9.0, 84.0, 103.0, 122.0]
    );
    assert_eq!(spread(&[470.0, 475.0], 480.0), [461.0, 480.0]);
}
