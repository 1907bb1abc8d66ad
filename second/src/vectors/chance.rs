//! Random slices, and sound slices with bits flipped.

use super::Script;
use crate::fixtures::{
    cancelled_cases, sound_cases, Case, FEATURE, FLAGS, KIND, PARTS, SPARE, TIMES,
};
use crate::random::Random;
use crate::supply::drift;

/// Adds every random ask about slices.
pub fn add(script: &mut Script) {
    random_slices(script);
    flipped_slices(script);
    drifting_slices(script);
}

/// Adds slices that are random throughout, then with the right feature, then with a right head.
fn random_slices(script: &mut Script) {
    script.title("slice: random bytes");
    let mut random = Random::new(6);
    let mut case = sound_cases().remove(0);
    for round in 0..50 {
        random.fill(&mut case.slice);
        case.side = random.pick(&[0, 1]);
        if round >= 10 {
            case.slice[..FEATURE.len()].copy_from_slice(&FEATURE);
        }
        if round >= 20 {
            case.slice[KIND] = random.pick(&[1, 2, 3]);
            case.slice[FLAGS] = random.pick(&[0, 1]);
            case.slice[SPARE..PARTS].fill(0);
        }
        script.ask_slice(&case);
    }
}

/// Adds each sound and cancelled slice with one to four bits flipped, anywhere or in its head.
fn flipped_slices(script: &mut Script) {
    script.title("slice: bits turned over");
    let mut random = Random::new(7);
    for base in sound_cases().into_iter().chain(cancelled_cases()) {
        for round in 0..120 {
            let mut case = base.clone();
            match round % 3 {
                0 => random.flip(&mut case.slice, 1 + round % 4),
                1 => random.flip(&mut case.slice[KIND..PARTS], 1 + round % 4),
                _ => random.flip(&mut case.slice[TIMES..SPARE], 1 + round % 4),
            }
            script.ask_slice(&case);
        }
    }
}

/// Adds slices that drift: a field or two changed each time, and sometimes a sound one again.
fn drifting_slices(script: &mut Script) {
    script.title("slice: random fields");
    let mut random = Random::new(8);
    let starts: Vec<Case> = sound_cases().into_iter().chain(cancelled_cases()).collect();
    let mut case = starts[0].clone();
    for round in 0..900 {
        if round % 8 == 0 {
            case = starts[random.below(starts.len())].clone();
        }
        for _ in 0..=random.below(2) {
            case = drift(case, &mut random);
        }
        script.ask_slice(&case);
    }
}
