//! Whether a property is touched: where the last record that touches it is, what does not touch it,
//! the edges of periods, and every byte of a table.

use super::Script;
use crate::fixtures::brief::{base, cancelling, mention_only, passing};
use crate::fixtures::{sound_parts, Case};
use crate::layout::{bytes_of, RECORD_BYTES};
use crate::record::NONE;
use crate::tables::{Question, Tables};

/// The instant of the questions, and how many records their tables have.
const INSTANT: u32 = 150;
const RECORDS: u32 = 5;

/// Ways in which a TEMPDELTA that would touch property 0 does not: it is cancelled, it mentions
/// another property, it is over, or it has not begun.
const WAYS: [fn(Case) -> Case; 4] = [
    |case| cancelling(&case, 1),
    |case| mention_only(case, 1, 9),
    |case| case.with_times([100, INSTANT, NONE, NONE]),
    |case| case.with_times([INSTANT + 1, NONE, NONE, NONE]),
];

/// Periods of every sort: a second, longer, without end, and at both ends of time.
const PERIODS: [[u32; 2]; 8] = [
    [0, 1],
    [0, NONE],
    [100, 101],
    [100, 200],
    [100, NONE],
    [0, NONE - 1],
    [NONE - 2, NONE - 1],
    [NONE - 1, NONE],
];

/// Adds every ask about what touches a property.
pub fn add(script: &mut Script) {
    places(script);
    uncounted(script);
    periods(script);
    forms(script);
    disturbed(script);
}

/// Makes a table of five TEMPDELTAs, of which the chosen ones touch property 0, by their bits.
fn chosen(choice: u32, way: fn(Case) -> Case) -> Tables {
    let delta = |index: u32| {
        let case = passing(10 * index, 100, 200, 7);
        match choice >> index & 1 {
            1 => case,
            _ => way(case),
        }
    };
    let deltas = (0..RECORDS).map(delta);
    Tables::of(&Vec::from_iter(deltas.chain([base()])))
}

/// Returns every choice of the five, each different from the one before in one of them.
fn choices() -> impl Iterator<Item = u32> {
    (0..1 << RECORDS).map(|count| count ^ count >> 1)
}

/// Adds every choice of the records that touch, the others in each way.
fn places(script: &mut Script) {
    script.title("touched: every choice of five records, the others in each way");
    for way in WAYS {
        for choice in choices() {
            script.ask_properties(&chosen(choice, way), INSTANT, &[0]);
        }
    }
}

/// Adds an empty table, and tables that count fewer records than there are.
fn uncounted(script: &mut Script) {
    script.title("touched: no records, and records that are not counted");
    let empty = Tables::of(&[base()]);
    script.ask_properties(&empty, INSTANT, &[0, 7, 8]);
    for choice in [0b11111, 0b00001, 0b10000, 0b01110] {
        for count in 0..=RECORDS as u8 + 1 {
            let mut tables = chosen(choice, WAYS[1]);
            tables.temporary[7] = count;
            script.ask_properties(&tables, INSTANT, &[0]);
        }
    }
}

/// Adds periods of every sort, alone and before one that does not touch, at and next to their times.
fn periods(script: &mut Script) {
    script.title("touched: the edges of periods");
    for [begin, end] in PERIODS {
        let one = passing(1, begin, end, 5);
        let other = mention_only(passing(2, 0, NONE, 0), 1, 6);
        for cases in [&[one.clone()][..], &[one, other]] {
            let tables = Tables::of(cases);
            for instant in tables.instants().into_iter().chain([INSTANT, NONE]) {
                script.ask_properties(&tables, instant, &[0, 1]);
            }
        }
    }
}

/// Adds each form, nil of each reason too, in each property.
fn forms(script: &mut Script) {
    script.title("touched: every form in every property");
    for part in sound_parts() {
        for property in 0..8 {
            let other = (property + 1) % 8;
            let case = mention_only(passing(1, 100, 200, 0), other, 3);
            let case = case.with_part(property, &part);
            let tables = Tables::of(&[base(), case]);
            script.ask_properties(&tables, INSTANT, &[property as u8, other as u8]);
        }
    }
}

/// Adds a table with each byte disturbed: of the header, of a record that touches, and of one that
/// is not counted.
fn disturbed(script: &mut Script) {
    script.title("touched: each byte disturbed");
    let mut sound = Tables::of(&[base(), passing(1, 100, 200, 7)]);
    sound.temporary.resize(bytes_of(1) + RECORD_BYTES, 0xee);
    for offset in 0..bytes_of(1) + 8 {
        for bits in [1, 0x80] {
            let mut tables = sound.clone();
            tables.temporary[offset] ^= bits;
            script.ask_question(&tables, INSTANT, Question::Touched(0), &[]);
        }
    }
}

#[cfg(test)]
mod tests {
    use super::*;
    use crate::touched::{touched, Touched};

    /// The highest chosen record and all after it are looked at, or all five.
    #[test]
    fn every_choice_has_its_answer() {
        for way in WAYS {
            for choice in choices() {
                let tables = chosen(choice, way);
                let expected = Touched {
                    is_touched: choice != 0,
                    looked: match choice {
                        0 => 5,
                        _ => choice.leading_zeros() as usize - 26,
                    },
                };
                assert_eq!(touched(&tables.temporary, INSTANT, 0), Ok(expected));
            }
        }
    }

    /// All of them once.
    #[test]
    fn choices_are_all_there() {
        let mut all: Vec<u32> = choices().collect();
        all.sort();
        assert_eq!(all, Vec::from_iter(0..32));
    }
}
