//! Whether anything temporary touches a property: the answer, the records looked at, and the property itself.

use crate::slices::*;
use timeslices::{arrive, property, touched, Arrival, Mention, Side, Touched, NONE, RECORD_BYTES};
use Touched::{No, Yes};

/// Returns what a table of some TEMPDELTAs says of a property at an instant.
fn said(slices: &[Slice], instant: u32, number: u8) -> Touched {
    let table = Tables::of(slices).temporary;
    touched(&table, at(instant), number).expect("the table is sound")
}

/// Makes a TEMPDELTA of property 1 alone, from 100 to 200.
fn other(sequence: u8) -> Slice {
    let slice = with(t(sequence, 100, 200, 0), PARTS, &[0; 10]);
    with(slice, PARTS + 24, &MISSING)
}

/// The last TEMPDELTA that touches the property, and all records after it; cancelled ones, other properties and
/// other periods are looked at too.
#[test]
fn records_looked_at() {
    let touch = |sequence| t(sequence, 100, 200, 5);
    assert_eq!(said(&[], 150, 0), No(0));
    assert_eq!(said(&[touch(1)], 150, 0), Yes(1));
    assert_eq!(said(&[touch(1), touch(2), touch(3)], 150, 0), Yes(1));
    assert_eq!(said(&[touch(1), other(2), other(3)], 150, 0), Yes(3));
    assert_eq!(said(&[other(1), touch(2), other(3)], 150, 0), Yes(2));
    assert_eq!(said(&[other(3), other(1), touch(2)], 150, 1), Yes(1));
    let rest = [cancelled(3, 2), other(3), t(4, 151, NONE, 6)];
    assert_eq!(said(&[&[touch(1)], &rest[..]].concat(), 150, 0), Yes(4));
    assert_eq!(said(&[&[other(1)], &rest[..]].concat(), 150, 0), No(4));
    assert_eq!(said(&[cancelled(3, 1), cancelled(3, 2)], 150, 0), No(2));
}

/// A period includes its begin and excludes its end, and an end of none runs on.
#[test]
fn edges_of_periods() {
    let ended = [t(1, 100, 200, 5)];
    let instants = [0, 99, 100, 199, 200, NONE - 1];
    let answers = instants.map(|instant| said(&ended, instant, 0));
    assert_eq!(answers, [No(1), No(1), Yes(1), Yes(1), No(1), No(1)]);
    let open = [t(1, 100, NONE, 5)];
    let answers = instants.map(|instant| said(&open, instant, 0));
    assert_eq!(answers, [No(1), No(1), Yes(1), Yes(1), Yes(1), Yes(1)]);
    assert_eq!(said(&[t(1, NONE - 1, NONE, 5)], NONE - 1, 0), Yes(1));
}

/// Nil of each reason is a mention, in each property.
#[test]
fn nil_is_a_mention() {
    for number in 0..8u8 {
        for reason in 1..=5 {
            let place = PARTS + 24 * usize::from(number);
            let blank = timed(blank(3, 1), TIMES, 100);
            let slices = [with(blank, place, &[1, reason])];
            let answers = (0..8).map(|asked| said(&slices, 150, asked).is_yes());
            assert!(answers.eq((0..8).map(|asked| asked == number)));
        }
    }
}

/// 255 and 256 records: one of them is looked at, or all.
#[test]
fn full_tables() {
    let mut table = empty(Side::Temporary, 256);
    let numbered = |sequence: u16, slice| with(slice, 22, &sequence.to_be_bytes());
    let first = numbered(0, t(0, 100, 200, 5));
    assert_eq!(arrive(&mut table, &first), Ok(Arrival::Added));
    for sequence in 1..256 {
        let slice = numbered(sequence, other(0));
        assert_eq!(arrive(&mut table, &slice), Ok(Arrival::Added));
        let count = usize::from(sequence) + 1;
        let answers = [0, 1, 2].map(|number| touched(&table, at(150), number));
        assert_eq!(answers, [Ok(Yes(count)), Ok(Yes(1)), Ok(No(count))]);
    }
}

/// The answer is yes exactly if the property is in the temporary table, and the last record looked at is the one
/// with its bytes. Where the property is refused, the answer may be yes.
#[test]
fn agreement_with_the_property() {
    let deltas = [t(1, 90, 120, 5), other(2), t(3, 110, 130, 6)];
    let unknown = with(t(4, 115, 118, 0), PARTS, &[1, 4]);
    let opening = timed(p(1, 100, 3), LIFE_BEGIN, 100);
    for anchor in [base(), opening] {
        let tables = Tables::of(&[&[anchor, unknown], &deltas[..]].concat());
        for (instant, number) in (95..205).flat_map(|i| (0..8).map(move |n| (i, n))) {
            let answer = touched(&tables.temporary, at(instant), number).expect("sound");
            let mention = property(&tables.permanent, &tables.temporary, at(instant), number);
            if let Ok(mention) = mention {
                let is_temporary = matches!(mention, Mention::Temporary(_));
                assert_eq!(answer.is_yes(), is_temporary, "{number} at {instant}");
            }
            if let Ok(Mention::Temporary(bytes)) = mention {
                let record = 32 + RECORD_BYTES * (4 - answer.looked());
                let place = record + 32 + 24 * usize::from(number);
                assert!(std::ptr::eq(bytes, &tables.temporary[place..place + 24]));
            }
        }
        assert_eq!(said(&deltas, 95, 0), Yes(3));
        let early = property(&tables.permanent, &tables.temporary, at(95), 0);
        assert!(early.is_err());
    }
}
