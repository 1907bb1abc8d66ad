//! Random sound slices, sound tables and deliveries of many slices, and damage to all of them.

use crate::fixtures::brief::{cancelling, from_to, opening};
use crate::fixtures::{self, Area, Case, FEATURE, FLAGS, KIND, RECORD, SPARE, TIMES};
use crate::layout::{bytes_of, HEADER_BYTES, PROPERTIES, RECORD_BYTES};
use crate::random::Random;
use crate::record::{Kind, Side, NONE};
use std::collections::BTreeSet;

/// A kind with a sequence number.
pub type Key = (Kind, u32);

/// Sequence numbers at both ends, and around each power of 256.
pub const EDGES: [u32; 12] = [
    0,
    1,
    255,
    256,
    65_535,
    65_536,
    0x00ff_ffff,
    0x0100_0000,
    0x7fff_ffff,
    0x8000_0000,
    NONE - 1,
    NONE,
];

/// Returns the kinds of a side.
pub fn kinds(side: Side) -> &'static [Kind] {
    match side {
        Side::Permanent => &[Kind::Baseline, Kind::PermDelta],
        Side::Temporary => &[Kind::TempDelta],
    }
}

/// Makes a sound slice of a key and a correction; one in six is cancelled.
pub fn slice(random: &mut Random, (kind, sequence): Key, correction: u16) -> Vec<u8> {
    let case = if random.below(6) == 0 {
        Case::cancelled(kind)
    } else {
        uncancelled(random, kind)
    };
    case.with_sequence(sequence)
        .with_correction(correction)
        .slice
}

/// Makes a sound uncancelled slice of a kind, with any times and parts.
fn uncancelled(random: &mut Random, kind: Kind) -> Case {
    let begin = random.pick(&[0, 1, 100, 150, 1_000_000, NONE - 2]);
    let end = random.pick(&[NONE, NONE - 1, begin + 1]);
    let times = match kind {
        Kind::Baseline => [begin, end, random.pick(&[NONE, 0, begin]), NONE],
        Kind::TempDelta => [begin, end, NONE, NONE],
        Kind::PermDelta => {
            let [life_begin, life_end] = random.pick(&[[NONE, NONE], [begin, NONE], [NONE, begin]]);
            [begin, NONE, life_begin, life_end]
        }
    };
    Case::any(kind)
        .with_times(times)
        .with_parts(&parts(random, kind))
}

/// Makes eight sound parts, enough of them mentioned for the kind.
pub fn parts(random: &mut Random, kind: Kind) -> Area {
    let sound = fixtures::sound_parts();
    let (mut area, sure) = (fixtures::mentions(), random.below(8));
    for (index, part) in area.iter_mut().enumerate() {
        if random.below(2) == 0 && kind != Kind::Baseline && index != sure {
            *part = fixtures::unmentioned();
        } else if random.below(2) == 0 {
            *part = random.pick(&sound[1..]);
        }
    }
    area
}

/// Returns this many different keys of a side in ascending order: close together, at the edges, or
/// anywhere.
pub fn keys(random: &mut Random, side: Side, count: usize) -> Vec<Key> {
    let mut found = BTreeSet::new();
    while found.len() < count {
        let kind = random.pick(kinds(side));
        let sequence = match random.below(4) {
            0 => random.pick(&EDGES),
            1 => random.bits() as u32,
            _ => random.below(2 * count + 2) as u32,
        };
        found.insert((kind.byte(), sequence));
    }
    let kind = |byte| Kind::of(byte).expect("only kinds are put in");
    found
        .iter()
        .map(|&(byte, sequence)| (kind(byte), sequence))
        .collect()
}

/// Makes a sound table of a side with this many records, and some bytes after them.
pub fn table(random: &mut Random, side: Side, count: usize, rest: usize) -> Vec<u8> {
    let mut records = vec![];
    for key in keys(random, side, count) {
        let correction = random.pick(&[0, 1, 2, 255, 256, 65_534, 65_535]);
        records.push(slice(random, key, correction)[RECORD..].to_vec());
    }
    let length = bytes_of(count) + rest;
    fixtures::table(side, &records, length, random.byte())
}

/// Makes the slices of this many keys, up to three corrections each.
pub fn corrections(random: &mut Random, side: Side, count: usize) -> Vec<Vec<u8>> {
    let mut slices = vec![];
    for key in keys(random, side, count) {
        let first = random.pick(&[0, 0, 1, 255, 65_533]);
        for correction in 0..=random.below(3) as u16 {
            slices.push(slice(random, key, first + correction));
        }
    }
    slices
}

/// Adds repeats and damaged slices to some slices, and shuffles them all.
pub fn mingled(random: &mut Random, mut slices: Vec<Vec<u8>>) -> Vec<Vec<u8>> {
    for _ in 0..slices.len() / 3 {
        let mut again = slices[random.below(slices.len())].clone();
        if random.below(2) == 0 {
            damage(random, &mut again);
        }
        slices.push(again);
    }
    shuffle(random, &mut slices);
    slices
}

/// Makes a delivery of this many keys: up to three corrections each, repeats and damage among them.
pub fn delivery(random: &mut Random, side: Side, count: usize) -> Vec<Vec<u8>> {
    let slices = corrections(random, side, count);
    mingled(random, slices)
}

/// Makes a delivery of a few BASELINEs, mostly without end, and an opening: up to three corrections
/// each, some of which cancel, in any order. They begin close together.
pub fn closings(random: &mut Random) -> Vec<Vec<u8>> {
    let first = random.pick(&[0, 100, NONE - 4]);
    let mut slices = vec![];
    for sequence in 0..4 {
        for correction in 0..=random.below(3) as u16 {
            let begin = first + random.below(4) as u32;
            let case = match random.below(4) {
                _ if sequence == 0 => opening(sequence, begin, 9),
                0 => from_to(sequence, begin, begin + 1),
                _ => from_to(sequence, begin, NONE),
            };
            let case = match random.below(4) {
                0 => cancelling(&case, correction),
                _ => case.with_correction(correction),
            };
            slices.push(case.slice);
        }
    }
    shuffle(random, &mut slices);
    slices
}

/// How long each BASELINE of a crowd holds; the next one begins where it ends.
pub const STRETCH: usize = 100;

/// How the BASELINEs of a crowd end.
#[derive(Clone, Copy, Debug)]
pub enum Ends {
    /// Where the next one begins.
    Fixed,
    /// Without an end of their own: the next one closes each.
    Open,
    /// Either way, and some are cancelled.
    Any,
}

impl Ends {
    /// Every way.
    pub const ALL: [Ends; 3] = [Ends::Fixed, Ends::Open, Ends::Any];
}

/// Makes this many slices for each side: a row of BASELINEs, three times as many changes anywhere
/// in it, and TEMPDELTAs of any period; properties of forms at random, and some deltas cancelled.
pub fn crowd(random: &mut Random, count: usize, ends: Ends) -> Vec<Case> {
    let baselines = count / 4;
    let mut cases = vec![];
    for index in 0..count {
        let [instant, passing] = [(); 2].map(|()| random.below(baselines * STRETCH) as u32);
        let length = 1 + random.below(5000) as u32;
        let end = random.pick(&[NONE, passing + length]);
        cases.push(if index < baselines {
            one_of_row(random, index, ends)
        } else {
            one_of_many(random, Kind::PermDelta, index, [instant, NONE, NONE, NONE])
        });
        let times = [passing, end, NONE, NONE];
        cases.push(one_of_many(random, Kind::TempDelta, index, times));
    }
    cases
}

/// Makes a BASELINE of a crowd.
fn one_of_row(random: &mut Random, index: usize, ends: Ends) -> Case {
    let [begin, next] = [index, index + 1].map(|index| (index * STRETCH) as u32);
    let end = match ends {
        Ends::Fixed => next,
        Ends::Open => NONE,
        Ends::Any => random.pick(&[next, NONE]),
    };
    let case = one_of_many(random, Kind::Baseline, index, [begin, end, NONE, NONE]);
    match ends {
        Ends::Any if random.below(8) == 0 => cancelling(&case, 3),
        _ => case,
    }
}

/// Makes a slice of a kind with these times; a delta may be cancelled.
fn one_of_many(random: &mut Random, kind: Kind, index: usize, times: [u32; 4]) -> Case {
    let sequence = 7 * index as u32;
    if kind != Kind::Baseline && random.below(8) == 0 {
        return Case::cancelled(kind).with_sequence(sequence);
    }
    let parts = parts(random, kind);
    Case::any(kind)
        .with_sequence(sequence)
        .with_times(times)
        .with_parts(&parts)
}

/// Shuffles things.
pub fn shuffle<T>(random: &mut Random, things: &mut [T]) {
    for last in (1..things.len()).rev() {
        things.swap(last, random.below(last + 1));
    }
}

/// Damages bytes: a bit or a few flipped, a byte set, a property blanked, or a length changed.
pub fn damage(random: &mut Random, bytes: &mut Vec<u8>) {
    let length = bytes.len();
    match random.below(9) {
        0 => bytes.resize((length + random.below(3)).saturating_sub(1), 0),
        1 => bytes.truncate(random.below(length + 1)),
        2 if length > 0 => bytes[random.below(length)] = random.byte(),
        3 if length >= 48 => random.flip(&mut bytes[16..48], 1),
        4 if length >= 240 => bytes[48 + 24 * random.below(8)..][..24].fill(0),
        _ if length > 0 => {
            let flips = 1 + random.below(3);
            random.flip(bytes, flips);
        }
        _ => {}
    }
}

/// Damages a table so that it breaks one rule or another.
pub fn spoil(random: &mut Random, table: &mut Vec<u8>) {
    let length = table.len();
    if length < HEADER_BYTES {
        return damage(random, table);
    }
    match random.below(6) {
        0 => random.flip(&mut table[..8], 1),
        1 => random.flip(&mut table[24..32], 1),
        2 => table[6..8].copy_from_slice(&random.pick(&[[0, 1], [1, 0], [1, 1], [255, 255]])),
        3 => swap_records(random, table),
        4 => table.truncate(length - random.below(length.min(300))),
        _ => damage(random, table),
    }
}

/// Swaps two of a table's records, or writes one over another.
fn swap_records(random: &mut Random, table: &mut [u8]) {
    let (records, _) = table[HEADER_BYTES..].as_chunks_mut::<RECORD_BYTES>();
    if records.is_empty() {
        return;
    }
    let (one, other) = (random.below(records.len()), random.below(records.len()));
    if random.below(2) == 0 {
        records.swap(one, other);
    } else {
        records[one] = records[other];
    }
}

/// Makes a mostly sound slice for a table, with a stored key or one next to it.
pub fn slice_for(random: &mut Random, table: &[u8]) -> Vec<u8> {
    let (records, _) = table
        .get(HEADER_BYTES..)
        .unwrap_or(&[])
        .as_chunks::<RECORD_BYTES>();
    let count = records.len().min(256);
    if count == 0 || random.below(8) == 0 {
        let key = (random.pick(&Kind::ALL), random.pick(&EDGES));
        return slice(random, key, 0);
    }
    let stored = records[random.below(count)];
    let mut slice = [&FEATURE[..], &stored].concat();
    let sequence = u32::from_be_bytes([stored[4], stored[5], stored[6], stored[7]]);
    let correction = u16::from_be_bytes([stored[2], stored[3]]);
    let change = |by: [u16; 3], random: &mut Random| correction.wrapping_add(random.pick(&by));
    let kind = Kind::of(stored[0]).unwrap_or(Kind::Baseline);
    match random.below(6) {
        0 => {}
        1 => slice[18..20].copy_from_slice(&change([1, 2, 65_535], random).to_be_bytes()),
        2 => slice[20..24].copy_from_slice(&(sequence.wrapping_add(1)).to_be_bytes()),
        3 => slice[20..24].copy_from_slice(&(sequence.wrapping_sub(1)).to_be_bytes()),
        _ => {
            let correction = change([0, 1, 65_535], random);
            slice = self::slice(random, (kind, sequence), correction);
        }
    }
    slice
}

/// Makes a part with a double at a border or at the end of a range, sound or not.
#[cfg(any(test, feature = "linked"))]
pub fn edge_part(random: &mut Random) -> fixtures::Part {
    use fixtures::doubles;
    let (borders, edges) = (doubles::border_doubles(), doubles::edge_coordinates());
    match random.below(3) {
        0 => fixtures::length(random.pick(&borders), 1 + random.below(4) as u8),
        1 => fixtures::point(random.pick(&borders), random.pick(&edges)),
        _ => fixtures::point(random.pick(&edges), random.pick(&edges)),
    }
}

/// Returns the case with one field changed at random, mostly to something that could be right.
pub fn drift(case: Case, random: &mut Random) -> Case {
    let index = random.below(PROPERTIES);
    match random.below(24) {
        0 => case.with_byte(KIND, random.pick(&[1, 1, 2, 2, 3, 4])),
        1 => case.with_byte(FLAGS, random.pick(&[0, 1, 1, 2])),
        2 => case.with_side(random.pick(&[0, 1])),
        3 => case.with_byte(SPARE + index, random.pick(&[0, 1])),
        4 => case.with_part(index, &random.pick(&fixtures::broken_parts())),
        5..=12 => drift_time(case, random),
        13 => case.with_byte(KIND + 2 + random.below(6), random.byte()),
        14..=18 => case.with_part(index, &fixtures::unmentioned()),
        _ => case.with_part(index, &random.pick(&fixtures::sound_parts())),
    }
}

/// Returns the case with one of its times changed at random.
fn drift_time(mut case: Case, random: &mut Random) -> Case {
    let place = TIMES + 4 * random.below(4);
    let time: u32 = random.pick(&[
        0,
        99,
        100,
        101,
        120,
        140,
        150,
        200,
        300,
        NONE - 1,
        NONE,
        NONE,
        NONE,
    ]);
    case.slice[place..place + 4].copy_from_slice(&time.to_be_bytes());
    case
}

#[cfg(test)]
mod tests {
    use super::*;
    use crate::slice;
    use crate::table::{check, Sides, Table};

    /// Tables are sound, whatever their number of records.
    #[test]
    fn tables_are_sound() {
        let mut random = Random::new(3);
        for side in [Side::Permanent, Side::Temporary] {
            for count in [0, 1, 2, 7, 256] {
                let bytes = table(&mut random, side, count, 100);
                let table = Table::read(&bytes, Sides::Both).unwrap();
                assert_eq!((table.side, table.records.len()), (side, count));
            }
        }
    }

    /// Every slice is sound; some cancel, some have an end, and some begin at the last instant.
    #[test]
    fn closings_are_sound_and_of_every_sort() {
        let mut random = Random::new(5);
        let slices: Vec<_> = (0..50).flat_map(|_| closings(&mut random)).collect();
        for slice in &slices {
            assert_eq!(
                slice::check(slice, &FEATURE, Side::Permanent.byte()),
                Ok(())
            );
        }
        let often = |is: fn(&[u8]) -> bool| slices.iter().filter(|slice| is(slice)).count() > 20;
        assert!(often(|slice| slice[FLAGS] == 1));
        assert!(often(
            |slice| slice[KIND] == 1 && slice[TIMES + 4..TIMES + 8] < [255; 4][..]
        ));
        assert!(often(
            |slice| slice[TIMES..TIMES + 4] == [255, 255, 255, 254]
        ));
    }

    /// Most damaged tables are refused.
    #[test]
    fn spoiled_tables_are_mostly_refused() {
        let mut random = Random::new(4);
        let refused = (0..200).filter(|_| {
            let mut bytes = table(&mut random, Side::Permanent, 3, 0);
            spoil(&mut random, &mut bytes);
            check(&bytes, Sides::Both).is_err()
        });
        assert!(refused.count() > 100);
    }
}
