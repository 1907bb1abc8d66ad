//! The fourteen examples, written down from the specification, and the order of the refusals.

use crate::arrival::{arrive, Arrival};
use crate::property::{decode, Reason, Value};
use crate::question::{permanent_state, property, snapshot};
use crate::record::Side;
use crate::refusal::Refusal;
use crate::table::create;

const FEATURE: [u8; 16] = [7; 16];
const NONE: u32 = 4_294_967_295;

/// The two tables of a feature.
#[derive(Clone)]
struct Tables {
    permanent: Vec<u8>,
    temporary: Vec<u8>,
}

/// Makes a slice: kind, sequence number and four times; property 0 as given, the rest not
/// mentioned.
fn slice(kind: u8, sequence: u8, times: [u32; 4], property_0: &[u8]) -> Vec<u8> {
    let mut slice = vec![0; 240];
    slice[..16].copy_from_slice(&FEATURE);
    slice[16] = kind;
    slice[23] = sequence;
    for (place, time) in slice[24..40].chunks_mut(4).zip(times) {
        place.copy_from_slice(&time.to_be_bytes());
    }
    slice[48..48 + property_0.len()].copy_from_slice(property_0);
    slice
}

/// Makes the bytes of a code.
fn code(value: u8) -> [u8; 10] {
    [2, 0, 0, 0, 0, 0, 0, 0, 0, value]
}

/// Makes every property that a slice does not mention nil, unknown.
fn with_nils(mut slice: Vec<u8>) -> Vec<u8> {
    for part in slice[48..].chunks_mut(24).filter(|part| part[0] == 0) {
        part[..2].copy_from_slice(&[1, 4]);
    }
    slice
}

/// Makes a BASELINE; its life begins with it.
fn b(sequence: u8, begin: u32, end: u32, value: u8) -> Vec<u8> {
    with_nils(slice(1, sequence, [begin, end, begin, NONE], &code(value)))
}

/// Makes a PERMDELTA.
fn p(sequence: u8, instant: u32, value: u8) -> Vec<u8> {
    slice(2, sequence, [instant, NONE, NONE, NONE], &code(value))
}

/// Makes a TEMPDELTA.
fn t(sequence: u8, begin: u32, end: u32, value: u8) -> Vec<u8> {
    slice(3, sequence, [begin, end, NONE, NONE], &code(value))
}

/// Gives a slice a correction number.
fn corrected(mut slice: Vec<u8>, correction: u8) -> Vec<u8> {
    slice[19] = correction;
    slice
}

/// Makes the slice that cancels another, as its correction 1.
fn cancelled(of: &[u8]) -> Vec<u8> {
    let mut slice = slice(of[16], of[23], [NONE; 4], &[]);
    slice[17] = 1;
    corrected(slice, 1)
}

/// Makes two tables and delivers these slices to them.
fn tables(slices: &[Vec<u8>]) -> Tables {
    let mut tables = Tables {
        permanent: vec![0xee; 32 + 4 * 224],
        temporary: vec![0xee; 32 + 4 * 224],
    };
    create(&mut tables.permanent, 0, &FEATURE).unwrap();
    create(&mut tables.temporary, 1, &FEATURE).unwrap();
    for slice in slices {
        tables.arrive(slice).unwrap();
    }
    tables
}

impl Tables {
    /// Delivers a slice to its table.
    fn arrive(&mut self, slice: &[u8]) -> Result<Arrival, Refusal> {
        let table = match slice[16] {
            3 => &mut self.temporary,
            _ => &mut self.permanent,
        };
        arrive(table, slice)
    }

    /// Returns property 0 of the snapshot at an instant, which must agree with the property
    /// question: a code, "nil", or "!" and the number of the refusal.
    fn at(&self, instant: u32) -> String {
        let mut record = [0xee; 224];
        let written = snapshot(&self.permanent, &self.temporary, instant, &mut record);
        let part = property(&self.permanent, &self.temporary, instant, 0);
        assert_eq!(written, part.map(|_| ()));
        if let Err(refusal) = written {
            assert_eq!(record, [0xee; 224]);
            return format!("!{}", refusal.number());
        }
        let part = part.unwrap().unwrap();
        let table = match part.side {
            Side::Permanent => &self.permanent,
            Side::Temporary => &self.temporary,
        };
        assert_eq!(table[part.place..part.place + 24], part.bytes);
        assert_eq!(record[32..56], part.bytes);
        match decode(&part.bytes) {
            Some(Value::Code(code)) => code.to_string(),
            Some(Value::Nil(Reason::Unknown)) => "nil".to_string(),
            other => panic!("no example has {other:?}"),
        }
    }
}

/// Checks the answer at each instant, with deltas that mention property 0 alone and with deltas
/// that have nil in the others.
fn hold(slices: &[Vec<u8>], answers: &str) {
    let nils: Vec<Vec<u8>> = slices
        .iter()
        .map(|slice| match slice[17] {
            0 => with_nils(slice.clone()),
            _ => slice.clone(),
        })
        .collect();
    for tables in [tables(slices), tables(&nils)] {
        for line in answers.split(", ") {
            let (instant, answer) = line.split_once(' ').unwrap();
            assert_eq!(tables.at(instant.parse().unwrap()), answer, "{line}");
        }
    }
}

/// "B" alone.
fn base() -> Vec<u8> {
    b(1, 100, NONE, 1)
}

/// 1: empty tables.
#[test]
fn example_1() {
    hold(&[], "100 !20");
}

/// 2: a period includes its begin and excludes its end.
#[test]
fn example_2() {
    hold(&[b(1, 100, 200, 1)], "99 !20, 100 1, 199 1, 200 !20");
}

/// 3: a PERMDELTA from its instant on.
#[test]
fn example_3() {
    hold(&[base(), p(1, 150, 2)], "149 1, 150 2");
}

/// 4: a PERMDELTA at the begin is already in the BASELINE.
#[test]
fn example_4() {
    hold(&[base(), p(1, 100, 2)], "100 1");
}

/// 5: a cancelled PERMDELTA.
#[test]
fn example_5() {
    let change = p(1, 150, 2);
    hold(&[base(), change.clone(), cancelled(&change)], "150 1");
}

/// 6: TEMPDELTAs that overlap.
#[test]
fn example_6() {
    let slices = [base(), t(1, 120, 140, 5), t(2, 130, 160, 6)];
    hold(&slices, "125 5, 135 6, 159 6, 160 1");
}

/// 7: a TEMPDELTA that is moved leaves nothing behind.
#[test]
fn example_7() {
    let moved = corrected(t(1, 200, 210, 5), 1);
    let slices = [base(), t(1, 120, 140, 5), t(2, 130, 160, 6), moved];
    hold(&slices, "125 1, 205 5");
}

/// 8: a lower correction that comes late.
#[test]
fn example_8() {
    let mut tables = tables(&[corrected(t(1, 120, 140, 5), 1)]);
    assert_eq!(tables.arrive(&t(1, 120, 140, 5)), Ok(Arrival::Superseded));
}

/// 9: the same again, and another value under the same correction.
#[test]
fn example_9() {
    let mut tables = tables(&[t(1, 120, 140, 5)]);
    assert_eq!(tables.arrive(&t(1, 120, 140, 5)), Ok(Arrival::Repeat));
    assert_eq!(tables.arrive(&t(1, 120, 140, 9)), Err(Refusal::Clash));
}

/// 10: equal instants go by the sequence number, not by arrival.
#[test]
fn example_10() {
    hold(&[base(), p(4, 150, 8), p(3, 150, 9)], "150 8");
}

/// 11: the next BASELINE closes one without end.
#[test]
fn example_11() {
    hold(&[base(), b(2, 200, NONE, 2)], "199 1, 200 2");
}

/// 12: the life ends.
#[test]
fn example_12() {
    let end = slice(2, 1, [300, NONE, NONE, 300], &[]);
    hold(&[base(), end], "299 1, 300 !22");
}

/// 13: an opening PERMDELTA that mentions property 0 only.
#[test]
fn example_13() {
    let tables = tables(&[slice(2, 1, [100, NONE, 100, NONE], &code(3))]);
    assert_eq!(tables.at(100), "3");
    let question = property(&tables.permanent, &tables.temporary, 100, 1);
    assert_eq!(question, Ok(None));
    let mut record = [0; 224];
    permanent_state(&tables.permanent, 100, &mut record).unwrap();
    assert_eq!(record[56..58], [1, 4]);
}

/// 14: nil replaces.
#[test]
fn example_14() {
    let nil = slice(3, 1, [120, NONE, NONE, NONE], &[1, 4]);
    hold(&[base(), nil], "119 1, 120 nil");
}

/// Every byte of a written record, worked out on paper.
#[test]
fn a_state_is_written_by_the_layout() {
    let life_end = slice(2, 9, [400, NONE, NONE, 400], &[]);
    let tables = tables(&[base(), p(1, 150, 2), t(1, 120, 140, 5), life_end]);
    let mut expected = vec![4, 0, 0, 0, 0, 0, 0, 0, 0, 0, 0, 130];
    expected.extend([255, 255, 255, 255, 0, 0, 0, 100, 255, 255, 255, 255]);
    expected.extend([0; 8]);
    for property in 0..8 {
        let part = if property == 0 {
            code(5)
        } else {
            [1, 4, 0, 0, 0, 0, 0, 0, 0, 0]
        };
        expected.extend(part);
        expected.extend([0; 14]);
    }
    let mut record = [0xee; 224];
    snapshot(&tables.permanent, &tables.temporary, 130, &mut record).unwrap();
    assert_eq!(record[..], expected);
    permanent_state(&tables.permanent, 130, &mut record).unwrap();
    expected[41] = 1;
    assert_eq!(record[..], expected);
}

/// "permanent table 1-7; temporary table 1-7, then 8 ..; 19; 23 ..; then 21, 20, 22", each before
/// the next.
#[test]
fn refusals_come_in_their_order() {
    let mut tables = tables(&[b(1, 100, 300, 1), b(2, 200, NONE, 2)]);
    let answers = |tables: &Tables, instant, length, property_number| {
        let mut record = vec![0xee; length];
        let (one, other) = (&tables.permanent, &tables.temporary);
        let state = permanent_state(one, instant, &mut record);
        let whole = snapshot(one, other, instant, &mut record);
        assert_eq!(record, vec![0xee; length]);
        let part = property(one, other, instant, property_number).map(|_| ());
        [state, whole, part].map(|answer| answer.map_or_else(Refusal::number, |()| 0))
    };
    assert_eq!(answers(&tables, 200, 224, 0), [21, 21, 21]);
    assert_eq!(answers(&tables, 200, 223, 8), [23, 23, 19]);
    assert_eq!(answers(&tables, 99, 225, 7), [23, 23, 20]);
    assert_eq!(answers(&tables, NONE, 223, 7), [19, 19, 19]);
    assert_eq!(answers(&tables, 99, 0, 255), [23, 23, 19]);
    tables.temporary[8] = 0;
    assert_eq!(answers(&tables, NONE, 223, 8), [19, 8, 8]);
    tables.temporary[24] = 1;
    assert_eq!(answers(&tables, NONE, 223, 8), [19, 4, 4]);
    tables.temporary[3] = 0;
    assert_eq!(answers(&tables, NONE, 223, 8), [19, 2, 2]);
    tables.permanent[4] = 1;
    assert_eq!(answers(&tables, NONE, 223, 8), [3, 3, 3]);
    tables.permanent[3] = 1;
    assert_eq!(answers(&tables, NONE, 223, 8), [2, 2, 2]);
}
