//! Arrivals at sound tables: every position, every answer, every correction and sequence that
//! matters.

use super::Script;
use crate::fixtures::{cases, choices, code, length, table_of, Case, FEATURE, RECORD};
use crate::layout::RECORD_BYTES;
use crate::record::{Kind, Side};
use crate::supply::{kinds, EDGES};
use crate::table::Sides;

/// Correction numbers at both ends, and around each change of length.
const CORRECTIONS: [u16; 9] = [0, 1, 2, 255, 256, 32_767, 32_768, 65_534, 65_535];

/// The keys of a permanent table.
const PERMANENT: [(Kind, u32); 5] = [
    (Kind::Baseline, 1),
    (Kind::Baseline, 5),
    (Kind::PermDelta, 1),
    (Kind::PermDelta, 5),
    (Kind::PermDelta, 70_001),
];

/// The keys of a temporary table.
const TEMPORARY: [(Kind, u32); 3] = [
    (Kind::TempDelta, 3),
    (Kind::TempDelta, 9),
    (Kind::TempDelta, 70_001),
];

/// Adds every arrival at a sound table.
pub fn add(script: &mut Script) {
    every_place(script);
    every_correction(script);
    every_sequence(script);
    every_order(script);
    cancelled_and_back(script);
    zeros(script);
    other_sides_and_features(script);
    slices_with_faults(script);
}

/// Adds, for tables of each count, with and without room, every answer for keys on and beside
/// theirs.
fn every_place(script: &mut Script) {
    script.title("arrival: every place, every answer");
    for keys in [&PERMANENT[..], &TEMPORARY] {
        for count in 0..=keys.len() {
            for (rest, fill) in [(0, 0), (223, 0), (460, 0xa5)] {
                let (stored, others) = keys.split_at(count);
                let mut table = table_of(&corrected(&cases(stored)), rest, fill);
                table[3] = keys[0].0.side().byte();
                for case in cases(stored) {
                    ask_each_answer(script, &table, &case);
                }
                for case in beside(keys).chain(cases(others)) {
                    script.ask_arrival(&table, &case.slice);
                }
            }
        }
    }
}

/// Returns the cases with correction 2.
fn corrected(cases: &[Case]) -> Vec<Case> {
    cases
        .iter()
        .map(|case| case.clone().with_correction(2))
        .collect()
}

/// Returns a case before each key and after it.
fn beside(keys: &[(Kind, u32)]) -> impl Iterator<Item = Case> + '_ {
    keys.iter().flat_map(|&(kind, sequence)| {
        [sequence - 1, sequence + 1].map(|sequence| Case::usual(kind).with_sequence(sequence))
    })
}

/// Asks for a higher, a lower and an equal correction, of the same content and of another.
fn ask_each_answer(script: &mut Script, table: &[u8], case: &Case) {
    for correction in [1, 2, 3] {
        let case = case.clone().with_correction(correction);
        script.ask_arrival(table, &case.slice);
        script.ask_arrival(table, &case.with_part(0, &code(6)).slice);
    }
}

/// Adds, for each kind, every stored correction with every one arriving, of both contents.
fn every_correction(script: &mut Script) {
    script.title("arrival: corrections up and down");
    for kind in Kind::ALL {
        for stored in CORRECTIONS {
            let table = table_of(&[Case::usual(kind).with_correction(stored)], 0, 0);
            for correction in CORRECTIONS {
                let case = Case::usual(kind).with_correction(correction);
                script.ask_arrival(&table, &case.slice);
                script.ask_arrival(&table, &case.with_part(0, &code(6)).slice);
            }
        }
    }
    climbing(script);
}

/// Adds corrections that climb through 65,535 and fall again, each at the table left by the last.
fn climbing(script: &mut Script) {
    let case = Case::usual(Kind::TempDelta);
    script.ask_arrival(&table_of(std::slice::from_ref(&case), 3, 7), &case.slice);
    for correction in CORRECTIONS.into_iter().chain(CORRECTIONS.into_iter().rev()) {
        for value in [correction, 1] {
            let case = case.clone().with_correction(correction);
            script.deliver(&case.with_part(0, &code(value)).slice);
        }
    }
}

/// Adds tables of every two edges with every edge arriving.
fn every_sequence(script: &mut Script) {
    script.title("arrival: sequence numbers at both ends");
    for kind in [Kind::PermDelta, Kind::TempDelta] {
        for (index, &first) in EDGES.iter().enumerate() {
            for &second in &EDGES[index + 1..] {
                let stored = cases(&[(kind, first), (kind, second)]);
                let table = table_of(&stored, RECORD_BYTES, 0);
                for sequence in EDGES {
                    let case = Case::usual(kind).with_sequence(sequence);
                    script.ask_arrival(&table, &case.slice);
                }
            }
        }
    }
}

/// Adds tables of every two keys, whichever comes first: the check, and a slice of another feature.
fn every_order(script: &mut Script) {
    script.title("table: every order of two keys");
    for side in [Side::Permanent, Side::Temporary] {
        let keys: Vec<(Kind, u32)> = kinds(side)
            .iter()
            .flat_map(|&kind| EDGES.map(|sequence| (kind, sequence)))
            .collect();
        for &first in &keys {
            for &second in &keys {
                let table = table_of(&cases(&[first, second]), 0, 0);
                script.ask_table(&table, Sides::Both);
                let foreign = Case::usual(first.0).disturbed(15, 1);
                script.ask_arrival(&table, &foreign.slice);
            }
        }
    }
}

/// Adds a change that is cancelled, comes late, and is brought back.
fn cancelled_and_back(script: &mut Script) {
    script.title("arrival: cancelled and brought back");
    for kind in Kind::ALL {
        let (usual, cancelled) = (Case::usual(kind), Case::cancelled(kind));
        script.ask_arrival(
            &table_of(std::slice::from_ref(&usual), 230, 0x11),
            &usual.slice,
        );
        for (case, correction) in [
            (&cancelled, 2),
            (&cancelled, 3),
            (&usual, 2),
            (&usual, 3),
            (&cancelled, 3),
            (&usual, 4),
            (&cancelled, 4),
            (&cancelled, 65_535),
            (&usual, 65_535),
        ] {
            script.deliver(&case.clone().with_correction(correction).slice);
        }
        script.deliver(&cancelled.with_sequence(5).slice);
    }
}

/// Adds the two zeros of a double: their bytes differ, so they clash.
fn zeros(script: &mut Script) {
    script.title("arrival: the two zeros clash");
    let zero = length(0, 1);
    let minus = length(1 << 63, 1);
    for kind in Kind::ALL {
        let [plus, minus] = [zero, minus].map(|part| Case::any(kind).with_part(4, &part));
        for (stored, case) in [(&plus, &minus), (&minus, &plus), (&minus, &minus)] {
            script.ask_arrival(&table_of(std::slice::from_ref(stored), 0, 0), &case.slice);
        }
    }
}

/// Adds slices of the other side and of another feature, to empty, roomy and full tables.
fn other_sides_and_features(script: &mut Script) {
    script.title("arrival: kinds of the other side, other features");
    for keys in [&PERMANENT[..], &TEMPORARY] {
        for rest in [0, 224] {
            let table = table_of(&cases(keys), rest, 0);
            for kind in Kind::ALL {
                for case in [Case::usual(kind), Case::cancelled(kind)] {
                    script.ask_arrival(&table, &case.slice);
                    for place in 0..FEATURE.len() {
                        let other = case.clone().disturbed(place, 1 << (place % 8));
                        script.ask_arrival(&table, &other.slice);
                    }
                }
            }
        }
    }
}

/// Adds slices with every fault that a slice can have, at full and roomy tables.
fn slices_with_faults(script: &mut Script) {
    script.title("arrival: slices with faults");
    for keys in [&PERMANENT[..], &TEMPORARY] {
        for (stored, rest) in [(keys, 0), (&keys[..2], 224)] {
            let table = table_of(&cases(stored), rest, 0);
            for (case, number) in super::faults::spoiled_cases() {
                // One table is enough for slices of the wrong length.
                if case.feature == FEATURE && (number != 9 || stored == TEMPORARY) {
                    script.ask_arrival(&table, &case.slice);
                }
            }
        }
    }
    lengths(script);
    mentions(script);
}

/// Adds BASELINEs with every choice of mentions, of which one is enough.
fn mentions(script: &mut Script) {
    let table = table_of(&cases(&PERMANENT[..1]), 224, 0);
    let base = Case::usual(Kind::Baseline);
    for area in choices() {
        script.ask_arrival(&table, &base.clone().with_parts(&area).slice);
    }
}

/// Adds slices of other lengths.
fn lengths(script: &mut Script) {
    let table = table_of(&cases(&TEMPORARY), 0, 0);
    let case = Case::usual(Kind::TempDelta);
    for length in (0..=20).chain(220..=260).chain([RECORD, 479, 480, 512]) {
        script.ask_arrival(&table, &case.clone().resized(length).slice);
    }
}
