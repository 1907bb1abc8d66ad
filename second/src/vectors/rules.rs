//! Tables that break one of the rules 1 to 7, two of them, and every one from a number on.

use super::Script;
use crate::fixtures::{cases, nil, table_of, unmentioned, Case, RECORD};
use crate::layout::{bytes_of, HEADER_BYTES, PROPERTIES, RECORD_BYTES};
use crate::random::Random;
use crate::record::{Kind, Side, NONE};
use crate::supply;
use crate::table::Sides;

/// The three sets of sides that a check takes.
const SIDES: [Sides; 3] = [Sides::Permanent, Sides::Temporary, Sides::Both];

/// A way to spoil a table, with the number it alone is refused for.
#[derive(Clone, Copy)]
pub struct Fault {
    pub number: u8,
    pub spoil: fn(Vec<u8>) -> Vec<u8>,
}

/// Makes a fault.
const fn fault(number: u8, spoil: fn(Vec<u8>) -> Vec<u8>) -> Fault {
    Fault { number, spoil }
}

/// Faults of a table of three records with room for four, in the order of their numbers.
pub const FAULTS: [Fault; 34] = [
    fault(1, |table| table[..0].to_vec()),
    fault(1, |table| table[..31].to_vec()),
    fault(2, |table| set(table, 0, b"t")),
    fault(2, |table| set(table, 1, b"T")),
    fault(2, |table| set(table, 2, &[0])),
    fault(2, |table| set(table, 3, &[2])),
    fault(2, |table| set(table, 3, &[255])),
    fault(3, |table| set(table, 4, &[0, 0])),
    fault(3, |table| set(table, 4, &[0, 2])),
    fault(3, |table| set(table, 4, &[1, 0])),
    fault(3, |table| set(table, 4, &[1, 1])),
    fault(4, |table| set(table, 24, &[1])),
    fault(4, |table| set(table, 31, &[0x80])),
    fault(5, |table| set(table, 6, &[0, 5])),
    fault(5, |table| set(table, 6, &[1, 3])),
    fault(5, |table| set(table, 6, &[255, 255])),
    fault(5, |table| table[..at(3) - 1].to_vec()),
    fault(5, |table| table[..32].to_vec()),
    fault(6, |table| set(table, at(0), &[0])),
    fault(6, |table| set(table, at(1), &[4])),
    fault(6, other_side),
    fault(6, |table| set(table, at(1) + 1, &[2])),
    fault(6, |table| set(table, at(2) + 31, &[1])),
    fault(6, |table| set(table, at(0) + 1, &[1])),
    fault(6, |table| set(table, at(1) + 32, &[6])),
    fault(6, |table| set(table, at(2) + 33, &[9])),
    fault(6, |table| set(table, at(0) + 8, &NONE.to_be_bytes())),
    fault(6, |table| set(table, at(2) + 12, &[0; 4])),
    fault(6, |table| set(table, at(1) + 32, &[0; 192])),
    fault(6, |table| set(table, 6, &[0, 4])),
    fault(7, |table| swap(table, 0, 1)),
    fault(7, |table| swap(table, 1, 2)),
    fault(7, |table| swap(table, 0, 2)),
    fault(7, again),
];

/// Returns where a record begins in a table.
pub fn at(index: usize) -> usize {
    bytes_of(index)
}

/// Returns the table with some bytes set.
pub fn set(mut table: Vec<u8>, offset: usize, bytes: &[u8]) -> Vec<u8> {
    table[offset..offset + bytes.len()].copy_from_slice(bytes);
    table
}

/// Returns the table with two records swapped.
fn swap(mut table: Vec<u8>, one: usize, other: usize) -> Vec<u8> {
    let (records, _) = table[HEADER_BYTES..].as_chunks_mut::<RECORD_BYTES>();
    records.swap(one, other);
    table
}

/// Returns the table with its second record where the third was, under another correction.
fn again(table: Vec<u8>) -> Vec<u8> {
    let second = table[at(1)..at(2)].to_vec();
    set(set(table, at(2), &second), at(2) + 2, &[1])
}

/// Returns the table with a last record of the other side.
fn other_side(table: Vec<u8>) -> Vec<u8> {
    let kind = if table[3] == 0 { 3 } else { 2 };
    set(table, at(2), &[kind])
}

/// Makes a table of each side: three records, a fourth that is not counted and not sound.
pub fn bases() -> [Vec<u8>; 2] {
    let keys = [
        (Kind::Baseline, 7),
        (Kind::PermDelta, 3),
        (Kind::PermDelta, 4),
    ];
    let other = [3, 4, 70_001].map(|sequence| (Kind::TempDelta, sequence));
    [keys, other].map(|keys| table_of(&cases(&keys), RECORD_BYTES + 10, 0xee))
}

/// Returns the table with a second BASELINE where its second record was.
pub fn with_two_anchors(table: Vec<u8>) -> Vec<u8> {
    let other = Case::usual(Kind::Baseline).with_sequence(8);
    set(table, at(1), &other.record())
}

/// Adds every ask about the rules of a table.
pub fn add(script: &mut Script) {
    script.title("table: faults alone, in pairs, and all from a number on");
    for base in bases() {
        let tables = spoiled(&base);
        for (table, _) in &tables {
            ask_each_way(script, table);
        }
        for (table, _) in &tables {
            script.ask_arrival(table, &[]);
        }
    }
    every_byte(script);
    every_fault_of_a_record(script);
    random_faults(script);
}

/// Asks for the check of a table with each set of sides, and for two arrivals, one of another
/// feature.
fn ask_each_way(script: &mut Script, table: &[u8]) {
    for sides in SIDES {
        script.ask_table(table, sides);
    }
    let case = Case::usual(Kind::PermDelta);
    script.ask_arrival(table, &case.slice);
    script.ask_arrival(table, &case.disturbed(0, 1).slice);
}

/// Returns the table spoiled by each fault, each pair and chains, with the number expected.
pub fn spoiled(base: &[u8]) -> Vec<(Vec<u8>, u8)> {
    let mut tables = vec![(base.to_vec(), 0)];
    for first in FAULTS {
        tables.push(((first.spoil)(base.to_vec()), first.number));
        for second in FAULTS.iter().filter(|fault| fault.number > first.number) {
            let table = (second.spoil)(base.to_vec());
            if let Some(table) = spoiled_too(table, first) {
                tables.push((table, first.number));
            }
        }
    }
    tables.extend((1..=7).map(|number| (chain(base, number), number)));
    tables
}

/// Returns a spoiled table with an earlier fault as well, where its bytes are still there.
fn spoiled_too(table: Vec<u8>, fault: Fault) -> Option<Vec<u8>> {
    let is_whole = table.len() > at(4);
    (is_whole || fault.number <= 4).then(|| (fault.spoil)(table))
}

/// Returns a table with a fault of every number from the given one on, the later spoiled first.
fn chain(base: &[u8], from: u8) -> Vec<u8> {
    let mut chosen: Vec<Fault> = FAULTS.to_vec();
    chosen.retain(|fault| fault.number >= from);
    chosen.dedup_by_key(|fault| fault.number);
    chosen
        .iter()
        .rev()
        .fold(base.to_vec(), |table, fault| (fault.spoil)(table))
}

/// Adds tables with each byte disturbed: of the header in each way, of two records and after them.
fn every_byte(script: &mut Script) {
    script.title("table: each byte disturbed");
    for base in bases() {
        let slice = [&base[8..24], &base[at(1)..at(2)]].concat();
        for offset in (0..at(2) + 20).chain(at(3) - 4..at(3) + 4) {
            for bits in [1, 0x80, 0xff] {
                let table = set(base.clone(), offset, &[base[offset] ^ bits]);
                script.ask_arrival(&table, &slice);
                if offset < HEADER_BYTES {
                    SIDES
                        .into_iter()
                        .for_each(|sides| script.ask_table(&table, sides));
                }
            }
        }
    }
}

/// Adds a table of one record for each fault that a slice can have, and for cancelled ones.
fn every_fault_of_a_record(script: &mut Script) {
    script.title("table: each fault of a record");
    for (case, _) in super::faults::spoiled_cases() {
        if case.slice.len() == RECORD + RECORD_BYTES {
            script.ask_table(&table_of(&[case], 0, 0), Sides::Both);
        }
    }
    for kind in Kind::ALL {
        for part in [nil(6), unmentioned()] {
            let case = Case::usual(kind).with_parts(&[part; PROPERTIES]);
            script.ask_table(&table_of(&[case], 0, 0), Sides::Both);
        }
    }
}

/// Adds random tables, spoiled or not, with slices that may be damaged.
fn random_faults(script: &mut Script) {
    script.title("table: random faults");
    let mut random = Random::new(10);
    for round in 0..20 {
        let side = random.pick(&[Side::Permanent, Side::Temporary]);
        let (count, rest) = (round % 4, random.pick(&[0, 10, 224, 250]));
        let base = supply::table(&mut random, side, count, rest);
        for _ in 0..6 {
            let mut table = base.clone();
            supply::spoil(&mut random, &mut table);
            let slice = supply::slice_for(&mut random, &base);
            script.ask_table(&table, Sides::Both);
            script.ask_arrival(&table, &slice);
        }
    }
}

#[cfg(test)]
mod tests {
    use super::*;
    use crate::refusal::number_of;
    use crate::table::check;

    /// Each fault has its number, and of two the earlier counts.
    #[test]
    fn the_earlier_number_wins() {
        assert!(FAULTS.is_sorted_by_key(|fault| fault.number));
        for base in bases() {
            let tables = spoiled(&base);
            assert!(tables.len() > 300);
            for (table, number) in tables {
                assert_eq!(number_of(check(&table, Sides::Both)), number);
            }
        }
    }
}
