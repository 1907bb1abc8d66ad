//! Asks for a new table.

use super::Script;
use crate::fixtures::FEATURE;
use crate::random::Random;

/// Adds every ask for a new table.
pub fn add(script: &mut Script) {
    lengths(script);
    sides(script);
    features(script);
    over_old_tables(script);
    random_bytes(script);
}

/// Adds buffers of every length around the header's, and of others, with each fill and some sides.
fn lengths(script: &mut Script) {
    script.title("new table: lengths");
    let long = [255, 256, 257, 480, 57_375, 57_376, 57_377, 65_535, 65_536];
    for length in (0..=40).chain(long) {
        for fill in [0, 0xff, 0xa5] {
            for side in [0, 1, 2] {
                script.ask_creation(&vec![fill; length], side, &FEATURE);
            }
        }
    }
}

/// Adds every side, where there is room and where there is not.
fn sides(script: &mut Script) {
    script.title("new table: every side");
    for length in [31, 32, 300] {
        for side in 0..=255 {
            script.ask_creation(&vec![0x5a; length], side, &FEATURE);
        }
    }
}

/// Adds features of any bytes, and longer ones, of which the first sixteen count.
fn features(script: &mut Script) {
    script.title("new table: features");
    for place in 0..16 {
        let mut feature = FEATURE;
        feature[place] ^= 0xff;
        script.ask_creation(&[0; 40], 1, &feature);
    }
    for feature in [
        vec![0; 16],
        vec![0xff; 17],
        (1..=64).collect(),
        vec![b'T'; 33],
    ] {
        for fill in [0, 0xff] {
            script.ask_creation(&[fill; 48], 0, &feature);
        }
    }
}

/// Adds new tables over old ones: all of the header is written, and nothing after it.
fn over_old_tables(script: &mut Script) {
    script.title("new table: over an old one");
    let bytes: Vec<u8> = (0..=255).rev().collect();
    for side in [0, 1] {
        script.ask_creation(&bytes, side, &FEATURE);
        let made = script.made.table.clone();
        script.ask_creation(&made, 1 - side, &FEATURE);
        script.ask_creation(&made, side, &FEATURE);
        script.ask_creation(&made, 2, &FEATURE);
    }
}

/// Adds buffers with random bytes.
fn random_bytes(script: &mut Script) {
    script.title("new table: over random bytes");
    let mut random = Random::new(9);
    for _ in 0..20 {
        let mut bytes = vec![0; 24 + random.below(40)];
        random.fill(&mut bytes);
        let mut feature = [0; 16];
        random.fill(&mut feature);
        script.ask_creation(&bytes, random.pick(&[0, 1]), &feature);
    }
}
