//! Slices with one fault, with two, and with every fault from a number on: the earlier number wins.

use super::Script;
use crate::fixtures::{
    code, length, nil, part, unmentioned, Case, Time, FLAGS, KIND, PARTS, SPARE,
};
use crate::record::{Kind, NONE};

/// A way to spoil a case, with the number it alone is refused for.
#[derive(Clone, Copy)]
struct Fault {
    number: u8,
    spoil: fn(Case) -> Case,
}

/// Makes a fault.
const fn fault(number: u8, spoil: fn(Case) -> Case) -> Fault {
    Fault { number, spoil }
}

/// Faults of any slice.
const OF_ALL: [Fault; 13] = [
    fault(9, |case| case.resized(239)),
    fault(9, |case| case.resized(241)),
    fault(9, |case| case.resized(224)),
    fault(10, |case| case.disturbed(0, 1)),
    fault(10, |case| case.disturbed(15, 0x80)),
    fault(10, |case| Case {
        feature: case.feature[..15].to_vec(),
        ..case
    }),
    fault(11, |case| case.with_byte(KIND, 0)),
    fault(11, |case| case.with_byte(KIND, 4)),
    fault(11, |case| Case {
        side: 1 - case.side,
        ..case
    }),
    fault(12, |case| case.flagged(0x02)),
    fault(12, |case| case.flagged(0x80)),
    fault(12, |case| case.with_byte(SPARE, 1)),
    fault(12, |case| case.with_byte(SPARE + 7, 0x80)),
];

/// Faults of a cancelled slice.
const OF_CANCELLED: [Fault; 6] = [
    fault(13, |case| case.with_time(Time::Begin, 100)),
    fault(13, |case| case.with_time(Time::End, 0)),
    fault(13, |case| case.with_time(Time::LifeEnd, NONE - 1)),
    fault(13, |case| case.with_byte(PARTS, 6)),
    fault(13, |case| case.with_part(4, &nil(1))),
    fault(13, |case| case.with_byte(PARTS + 191, 1)),
];

/// Faults of an uncancelled slice, whatever its kind.
const OF_UNCANCELLED: [Fault; 7] = [
    fault(13, |case| case.flagged(1).with_time(Time::Begin, 100)),
    fault(13, |case| {
        case.flagged(1).with_times([NONE; 4]).with_part(6, &code(1))
    }),
    fault(14, |case| case.with_part(0, &part(6, 0, &[]))),
    fault(14, |case| case.with_part(3, &nil(6))),
    fault(14, |case| {
        case.with_part(5, &length(f64::INFINITY.to_bits(), 1))
    }),
    fault(14, |case| {
        case.with_part(7, &unmentioned()).with_byte(PARTS + 191, 1)
    }),
    fault(15, |case| case.with_time(Time::Begin, NONE)),
];

/// Faults of a BASELINE, from 100 to 200 in a life from 50 to 300.
const OF_BASELINE: [Fault; 8] = [
    fault(15, |case| case.with_time(Time::End, 100)),
    fault(15, |case| case.with_time(Time::End, 99)),
    fault(15, |case| case.with_time(Time::LifeBegin, 101)),
    fault(15, |case| {
        case.with_time(Time::End, NONE)
            .with_time(Time::LifeEnd, 100)
    }),
    fault(15, |case| case.with_time(Time::LifeEnd, 99)),
    fault(15, |case| case.with_time(Time::LifeEnd, 199)),
    fault(16, |case| case.with_part(1, &unmentioned())),
    fault(16, |case| case.with_part(6, &unmentioned())),
];

/// Faults of a PERMDELTA at 150.
const OF_PERMDELTA: [Fault; 6] = [
    fault(15, |case| case.with_time(Time::End, 151)),
    fault(15, |case| case.with_time(Time::End, 150)),
    fault(15, |case| case.with_time(Time::LifeBegin, 149)),
    fault(15, |case| case.with_time(Time::LifeEnd, 151)),
    fault(15, |case| {
        case.with_time(Time::LifeBegin, 150)
            .with_time(Time::LifeEnd, 150)
    }),
    fault(16, |case| case.with_part(0, &unmentioned())),
];

/// Faults of a TEMPDELTA from 120 to 140.
const OF_TEMPDELTA: [Fault; 5] = [
    fault(15, |case| case.with_time(Time::End, 120)),
    fault(15, |case| case.with_time(Time::End, 119)),
    fault(15, |case| case.with_time(Time::LifeBegin, 120)),
    fault(15, |case| case.with_time(Time::LifeEnd, 140)),
    fault(16, |case| case.with_part(0, &unmentioned())),
];

impl Case {
    /// Returns the case with some flag bits set.
    fn flagged(mut self, bits: u8) -> Case {
        self.slice[FLAGS] |= bits;
        self
    }
}

/// Adds every slice with faults.
pub fn add(script: &mut Script) {
    script.title("slice: faults alone, in pairs, and all from a number on");
    for (case, _) in spoiled_cases() {
        script.ask_slice(&case);
    }
}

/// Returns every spoiled slice of every kind, with the number expected.
pub fn spoiled_cases() -> Vec<(Case, u8)> {
    spoilable()
        .iter()
        .flat_map(|(base, faults)| spoiled(base, faults))
        .collect()
}

/// Returns the sound slices, each with the faults it can have, in the order of their numbers.
fn spoilable() -> Vec<(Case, Vec<Fault>)> {
    let uncancelled = Kind::ALL
        .into_iter()
        .map(|kind| (Case::usual(kind), faults_of(kind)));
    let cancelled = Kind::ALL
        .into_iter()
        .map(|kind| (Case::cancelled(kind), [&OF_ALL[..], &OF_CANCELLED].concat()));
    uncancelled.chain(cancelled).collect()
}

/// Returns the faults of an uncancelled slice of a kind, in the order of their numbers.
fn faults_of(kind: Kind) -> Vec<Fault> {
    let own = match kind {
        Kind::Baseline => &OF_BASELINE[..],
        Kind::PermDelta => &OF_PERMDELTA,
        Kind::TempDelta => &OF_TEMPDELTA,
    };
    [&OF_ALL[..], &OF_UNCANCELLED, own].concat()
}

/// Returns a slice spoiled by each fault, each pair and chains, with the number expected.
fn spoiled(base: &Case, faults: &[Fault]) -> Vec<(Case, u8)> {
    let mut cases = vec![];
    for first in faults {
        cases.push(((first.spoil)(base.clone()), first.number));
        for second in faults.iter().filter(|fault| fault.number > first.number) {
            let case = (first.spoil)((second.spoil)(base.clone()));
            cases.push((case, first.number));
        }
    }
    cases.extend((9..=16).filter_map(|number| chain(base, faults, number)));
    cases
}

/// Returns a slice with one fault of every number from the given one on, the later spoiled first.
fn chain(base: &Case, faults: &[Fault], from: u8) -> Option<(Case, u8)> {
    let mut chosen: Vec<Fault> = faults
        .iter()
        .filter(|fault| fault.number >= from)
        .copied()
        .collect();
    chosen.dedup_by_key(|fault| fault.number);
    let first = chosen.first()?.number;
    let case = chosen
        .iter()
        .rev()
        .fold(base.clone(), |case, fault| (fault.spoil)(case));
    Some((case, first))
}

#[cfg(test)]
mod tests {
    use super::*;
    use crate::refusal::number_of;
    use crate::slice::check;

    /// Returns the number of the slice check, 0 if the slice is sound.
    fn number(case: &Case) -> u8 {
        number_of(check(&case.slice, &case.feature, case.side))
    }

    /// Each fault has its number, and of two the earlier counts.
    #[test]
    fn the_earlier_number_wins() {
        for (base, faults) in spoilable() {
            assert_eq!(number(&base), 0);
            assert!(faults.is_sorted_by_key(|fault| fault.number));
            for (case, expected) in spoiled(&base, &faults) {
                assert_eq!(number(&case), expected);
            }
        }
    }

    /// No number from 9 to 16 is left out for any kind.
    #[test]
    fn each_number_has_a_fault() {
        for kind in Kind::ALL {
            let faults = faults_of(kind);
            assert!((9..=16).all(|number| faults.iter().any(|fault| fault.number == number)));
        }
    }
}
