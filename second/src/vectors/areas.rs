//! Asks for the property rule over the eight properties of a record.

use super::Script;
use crate::fixtures::{
    broken_parts, choices, code, mentions, sound_parts, unmentioned, Area, Part,
};
use crate::layout::{PROPERTIES, PROPERTY_BYTES};
use crate::random::Random;

/// Adds every ask for the property rule.
pub fn add(script: &mut Script) {
    sound_areas(script);
    one_broken(script);
    two_broken(script);
    area_lengths(script);
    bytes_beyond(script);
    random_areas(script);
    flipped_areas(script);
}

/// Returns eight sound properties of mixed forms, two of them not mentioned.
fn mixed() -> Area {
    let mut area = mentions();
    area[2] = unmentioned();
    area[5] = unmentioned();
    area
}

/// Adds sound properties: mixed, every sound part in every position, and every choice of mentions.
fn sound_areas(script: &mut Script) {
    script.title("properties: sound");
    script.ask_area(&mentions().concat());
    script.ask_area(&mixed().concat());
    for part in sound_parts() {
        script.ask_area(&[part; PROPERTIES].concat());
        for index in 0..PROPERTIES {
            script.ask_area(&with(&mixed(), index, &part).concat());
        }
    }
    script.title("properties: every choice of mentions");
    choices().for_each(|area| script.ask_area(&area.concat()));
}

/// Returns the properties with one replaced.
fn with(area: &Area, index: usize, part: &Part) -> Area {
    let mut area = *area;
    area[index] = *part;
    area
}

/// Adds each of the eight broken alone, in every way, among mentions and among nothing.
fn one_broken(script: &mut Script) {
    script.title("properties: one broken");
    for area in [mixed(), [unmentioned(); PROPERTIES]] {
        for broken in broken_parts() {
            for index in 0..PROPERTIES {
                script.ask_area(&with(&area, index, &broken).concat());
            }
        }
    }
}

/// Adds each pair of the eight broken, in some ways.
fn two_broken(script: &mut Script) {
    script.title("properties: two broken");
    let ways = broken_parts();
    for (way, other_way) in [(0, 0), (3, 13), (13, 3), (5, 19)] {
        for first in 0..PROPERTIES {
            for second in first + 1..PROPERTIES {
                let area = with(&mixed(), first, &ways[way]);
                script.ask_area(&with(&area, second, &ways[other_way]).concat());
            }
        }
    }
}

/// Returns whether a length is a number of whole properties, or one byte more or less.
fn beside(length: usize) -> bool {
    matches!(length % PROPERTY_BYTES, 0 | 1 | 23)
}

/// Adds property bytes of other lengths, cut short or made longer.
fn area_lengths(script: &mut Script) {
    script.title("properties: other lengths");
    for length in (0..=200).filter(|&length| !(30..=188).contains(&length) || beside(length)) {
        let mut bytes = mixed().concat();
        bytes.resize(length, 0);
        script.ask_area(&bytes);
    }
    for length in (0..=217).filter(|&length| beside(length)) {
        script.ask_area(&vec![0; length]);
    }
    for length in [216, 240, 255, 256, 257, 511, 512] {
        let mut bytes = mixed().concat();
        bytes.resize(length, 0xff);
        script.ask_area(&bytes);
    }
}

/// Adds bytes after the eighth property, which are not looked at, and just before.
fn bytes_beyond(script: &mut Script) {
    script.title("properties: bytes beyond the eighth");
    let mut bytes = [mixed().concat(), vec![0; 8]].concat();
    for offset in 184..200 {
        for value in [1, 0x80, 0xff] {
            let kept = std::mem::replace(&mut bytes[offset], value);
            script.ask_area(&bytes);
            bytes[offset] = kept;
        }
    }
    bytes[191] = 1;
    bytes[192] = 6;
    script.ask_area(&bytes);
}

/// Adds properties replaced at random, one after the other, sometimes by a broken one.
fn random_areas(script: &mut Script) {
    script.title("properties: random choices");
    let mut random = Random::new(4);
    let (sound, broken) = (sound_parts(), broken_parts());
    let mut area = mixed();
    for _ in 0..400 {
        let index = random.below(PROPERTIES);
        area[index] = match random.below(8) {
            0 => random.pick(&broken),
            1 => code(random.bits() as u16),
            _ => random.pick(&sound),
        };
        script.ask_area(&area.concat());
    }
}

/// Adds mixed sound properties with one to four bits flipped.
fn flipped_areas(script: &mut Script) {
    script.title("properties: bits turned over");
    let mut random = Random::new(5);
    for round in 0..400 {
        let mut bytes = mixed().concat();
        random.flip(&mut bytes, 1 + round % 4);
        script.ask_area(&bytes);
    }
}
