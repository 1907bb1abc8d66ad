//! Whole deliveries, shuffled, with repeats and damaged slices among them, each to a new table.

use super::Script;
use crate::fixtures::{code, Case, FEATURE};
use crate::layout::bytes_of;
use crate::random::Random;
use crate::record::{Kind, Side};
use crate::supply::{damage, delivery, shuffle};
use crate::table::Sides;

/// Adds every delivery.
pub fn add(script: &mut Script) {
    mixed_deliveries(script);
    one_set_in_many_orders(script);
    full_deliveries(script);
}

/// Makes a new table with room for this many records and some bytes after them.
fn begin(script: &mut Script, side: Side, room: usize, fill: u8) {
    let length = bytes_of(room) + 17;
    script.ask_creation(&vec![fill; length], side.byte(), &FEATURE);
}

/// Adds deliveries of any slices, with room for all keys or for fewer.
fn mixed_deliveries(script: &mut Script) {
    script.title("delivery: any slices, shuffled, repeated and damaged");
    let mut random = Random::new(11);
    for round in 0..12 {
        let side = [Side::Permanent, Side::Temporary][round % 2];
        let room = [12, 8, 3, 10][round % 4];
        begin(script, side, room, random.pick(&[0, 0xff, 0x5c]));
        for slice in delivery(&mut random, side, 10) {
            script.deliver(&slice);
        }
        script.ask_table(&script.made.table.clone(), Sides::Both);
    }
}

/// Adds one set of slices in many orders: the table comes out the same.
fn one_set_in_many_orders(script: &mut Script) {
    script.title("delivery: one set in many orders");
    let mut random = Random::new(12);
    let mut slices = vec![];
    for sequence in [0, 1, 255, 256, u32::MAX] {
        for correction in [0, 1, 65_535] {
            let case = Case::usual(Kind::TempDelta).with_sequence(sequence);
            slices.push(case.with_correction(correction).slice);
        }
    }
    for _ in 0..12 {
        shuffle(&mut random, &mut slices);
        begin(script, Side::Temporary, 5, 0);
        slices.iter().for_each(|slice| script.deliver(slice));
    }
}

/// Adds deliveries that fill a table, of 90 and of 256 records, and go on.
fn full_deliveries(script: &mut Script) {
    script.title("delivery: 256 and more, shuffled, repeated and damaged");
    let mut random = Random::new(13);
    for (side, room, keys) in [(Side::Permanent, 90, 96), (Side::Temporary, 257, 260)] {
        let mut slices = alike(&mut random, side, keys);
        shuffle(&mut random, &mut slices);
        begin(script, side, room, 0);
        slices.iter().for_each(|slice| script.deliver(slice));
        script.ask_table(&script.made.table.clone(), Sides::Both);
    }
}

/// Makes slices of this many keys that differ little, a higher correction or a damaged one of some.
fn alike(random: &mut Random, side: Side, count: u32) -> Vec<Vec<u8>> {
    let kind = match side {
        Side::Permanent => Kind::PermDelta,
        Side::Temporary => Kind::TempDelta,
    };
    let mut slices = vec![];
    for sequence in 0..count {
        let case = Case::usual(kind).with_sequence(sequence).with_correction(0);
        slices.push(case.slice.clone());
        match random.below(8) {
            0 => slices.push(case.slice),
            1 => slices.push(case.with_correction(1).with_part(0, &code(7)).slice),
            2 => {
                let mut damaged = case.slice;
                damage(random, &mut damaged);
                slices.push(damaged);
            }
            _ => {}
        }
    }
    slices
}
