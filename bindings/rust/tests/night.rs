//! Compares what the example prints with night.txt.

#[allow(dead_code, reason = "its main prints what the test compares")]
#[path = "../examples/night.rs"]
mod night;

/// The text was worked out from the specification.
#[test]
fn the_example_prints_night_txt() {
    let printed = night::night().expect("nothing is refused");
    assert_eq!(printed, include_str!("../examples/night.txt"));
}
