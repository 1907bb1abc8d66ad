//! Asks about one property part.

use super::Script;
use crate::fixtures::doubles::{border_doubles, edge_coordinates};
use crate::fixtures::{
    broken_parts, code, length, mentions, nil, number, part, point, sound_parts, unmentioned, Part,
};
use crate::random::Random;

/// Adds every ask about one part.
pub fn add(script: &mut Script) {
    samples(script);
    forms(script);
    details(script);
    disturbed_bytes(script);
    codes_and_numbers(script);
    doubles(script);
    coordinates(script);
    part_lengths(script);
    random_parts(script);
    random_contents(script);
    flipped_parts(script);
}

/// Adds the samples, sound and broken.
fn samples(script: &mut Script) {
    script.title("property: samples");
    sound_parts()
        .iter()
        .chain(&broken_parts())
        .for_each(|part| script.ask_part(part));
}

/// Returns one sound part of each form, with content in it where the form has any.
fn each_form() -> [Part; 6] {
    let [code, nil, number, length, point, ..] = mentions();
    [unmentioned(), nil, code, number, length, point]
}

/// Adds a part with every value of one of its bytes.
fn every_value(script: &mut Script, mut part: Part, offset: usize) {
    for value in 0..=255 {
        part[offset] = value;
        script.ask_part(&part);
    }
}

/// Adds every form byte, with no detail and with one, and over the content of each form.
fn forms(script: &mut Script) {
    script.title("property: every form byte");
    for base in [part(0, 1, &[])].into_iter().chain(each_form()) {
        every_value(script, base, 0);
    }
}

/// Adds every detail byte for each form.
fn details(script: &mut Script) {
    script.title("property: every detail byte of each form");
    for base in each_form() {
        every_value(script, base, 1);
    }
}

/// Adds each byte of a part of each form set to some values, and with some bits flipped.
fn disturbed_bytes(script: &mut Script) {
    script.title("property: each byte disturbed");
    for base in each_form() {
        for offset in 0..base.len() {
            let byte = base[offset];
            for value in [0, 1, 0x7f, 0x80, 0xff, byte ^ 1, byte ^ 0x80, byte ^ 0xff] {
                let mut part = base;
                part[offset] = value;
                script.ask_part(&part);
            }
        }
    }
}

/// Adds codes and whole numbers: the ends, and each single bit.
fn codes_and_numbers(script: &mut Script) {
    script.title("property: codes and whole numbers");
    let ends = [0, 1, 255, 256, 257, 32_767, 32_769, 65_534, 65_535];
    ends.into_iter()
        .chain((0..16).map(|bit| 1 << bit))
        .for_each(|value| script.ask_part(&code(value)));
    let ends = [
        0,
        1,
        -1,
        i32::MAX,
        i32::MIN,
        i32::MAX - 1,
        i32::MIN + 1,
        65_535,
        65_536,
        -65_536,
    ];
    ends.into_iter()
        .chain((0..32).flat_map(|bit| [1 << bit, !(1 << bit)]))
        .for_each(|value| script.ask_part(&number(value)));
}

/// Adds the border doubles as a length in two units, as a latitude and as a longitude.
fn doubles(script: &mut Script) {
    script.title("property: border doubles");
    let borders = border_doubles();
    for unit in [1, 4] {
        borders
            .iter()
            .for_each(|&bits| script.ask_part(&length(bits, unit)));
    }
    borders
        .iter()
        .for_each(|&bits| script.ask_part(&point(bits, 7f64.to_bits())));
    borders
        .iter()
        .for_each(|&bits| script.ask_part(&point(7f64.to_bits(), bits)));
}

/// Adds every pair of edge coordinates.
fn coordinates(script: &mut Script) {
    script.title("property: coordinates at the ends of their ranges");
    let edges = edge_coordinates();
    for &latitude in &edges {
        for &longitude in &edges {
            script.ask_part(&point(latitude, longitude));
        }
    }
}

/// Adds parts of all lengths from 0 to 32, sound and unsound, and some far longer.
fn part_lengths(script: &mut Script) {
    script.title("property: parts of other lengths");
    for base in [unmentioned(), nil(4), mentions()[4], broken_parts()[0]] {
        for length in (0..=32).chain([48, 192]) {
            let mut part = base.to_vec();
            part.resize(length, 0);
            script.ask_part(&part);
        }
    }
    for length in 0..=32 {
        script.ask_part(&vec![0xff; length]);
    }
}

/// Adds parts that are random throughout.
fn random_parts(script: &mut Script) {
    script.title("property: random parts");
    let mut random = Random::new(1);
    for _ in 0..300 {
        let mut part = [0; 24];
        random.fill(&mut part);
        script.ask_part(&part);
    }
}

/// Adds parts with a right form and detail and random content, and random points.
fn random_contents(script: &mut Script) {
    script.title("property: random content of a right form and detail");
    let mut random = Random::new(2);
    for _ in 0..300 {
        let form = random.pick(&[0u8, 1, 2, 3, 4, 4, 5, 5]);
        let detail = match form {
            1 => 1 + random.below(5),
            4 => 1 + random.below(4),
            _ => 0,
        };
        let filled = random.pick(&[0, 2, 4, 8, 16]);
        let mut part = part(form, detail as u8, &[]);
        random.fill(&mut part[8..8 + filled]);
        script.ask_part(&part);
    }
    for _ in 0..150 {
        let mut degrees = |limit: f64| limit * (random.below(2_200_001) as f64 / 1e6 - 1.1);
        script.ask_part(&point(degrees(90.0).to_bits(), degrees(180.0).to_bits()));
    }
}

/// Adds sound parts with one to three bits flipped.
fn flipped_parts(script: &mut Script) {
    script.title("property: sound parts with bits turned over");
    let mut random = Random::new(3);
    for base in sound_parts() {
        for round in 0..40 {
            let mut part = base;
            random.flip(&mut part, 1 + round % 3);
            script.ask_part(&part);
        }
    }
}
