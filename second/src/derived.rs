//! Derived baselines: from one change instant to the next, the permanent state as a BASELINE.

use crate::layout::{bytes_of, MOST_RECORDS};
use crate::record::{Instant, Kind, Record, Sequence, Side, Span};
use crate::refusal::{hold, Refusal};
use crate::slice;
use crate::state::{lasting, State};
use crate::table::{Feature, Sides, Table};

/// Writes the derived baselines of a permanent table and returns their number. If the call is
/// refused, no byte changes; bytes after the result never change.
pub fn derive(permanent: &[u8], output: &mut [u8]) -> Result<usize, Refusal> {
    let table = Table::read(permanent, Sides::Permanent)?;
    let derived = baselines(&table)?;
    for record in &derived {
        check(record, &table.feature)?;
    }
    hold(fits(derived.len(), output.len()), Refusal::Buffer)?;
    let count = derived.len();
    let result = Table {
        side: Side::Permanent,
        feature: table.feature,
        room: count,
        records: derived.into_iter().map(|one| (one.key(), one)).collect(),
    };
    result.write(output);
    Ok(count)
}

/// Returns whether a table may have this many records, and fits into this many bytes.
fn fits(records: usize, bytes: usize) -> bool {
    records <= MOST_RECORDS && bytes_of(records) <= bytes
}

/// Returns 24 if a record is not sound as a slice of the feature, delivered to the permanent side.
fn check(record: &Record, feature: &Feature) -> Result<(), Refusal> {
    let slice = [&feature[..], &record.write()].concat();
    slice::check(&slice, feature, Side::Permanent.byte()).map_err(|_| Refusal::Derived)
}

/// Returns the change instants of a permanent table in ascending order.
pub fn change_instants(table: &Table) -> Vec<Instant> {
    let is_counted = |record: &&Record| !record.head.is_cancelled();
    let counted = table.records.values().filter(is_counted);
    let mut instants: Vec<Instant> = counted.flat_map(changes).flatten().collect();
    instants.sort();
    instants.dedup();
    instants
}

/// Returns the instants at which a counted record may change the state, if they are given.
fn changes(record: &Record) -> [Option<Instant>; 3] {
    let (period, life) = (record.head.period, record.head.life);
    if record.head.kind == Kind::Baseline.byte() {
        [period.begin, period.end, life.end]
    } else {
        [period.begin, None, None]
    }
}

/// Returns the permanent state at an instant, if there is one, or 21.
fn state(table: &Table, instant: Instant) -> Result<Option<State>, Refusal> {
    match lasting(table, instant) {
        Ok(applied) => Ok(Some(State::after(&applied))),
        Err(Refusal::TwoAnchors) => Err(Refusal::TwoAnchors),
        Err(_) => Ok(None),
    }
}

/// Returns a BASELINE for each change instant that has a permanent state, however many, or 21.
fn baselines(table: &Table) -> Result<Vec<Record>, Refusal> {
    let instants = change_instants(table);
    let mut derived = vec![];
    for (index, &begin) in instants.iter().enumerate() {
        if let Some(state) = state(table, begin)? {
            let period = Span {
                begin: Some(begin),
                end: instants.get(index + 1).copied(),
            };
            let sequence = Sequence(derived.len() as u32 + 1);
            derived.push(state.baseline(sequence, period));
        }
    }
    Ok(derived)
}

#[cfg(test)]
mod tests {
    use super::*;
    use crate::fixtures::brief::{base, baseline, cancelling, change, closing, from_to, opening};
    use crate::fixtures::rows::apart;
    use crate::fixtures::{Case, FEATURE};
    use crate::histories::History;
    use crate::question::permanent_state;
    use crate::random::Random;
    use crate::record::NONE;
    use crate::supply::{crowd, Ends};
    use crate::tables::{permanent, Tables};
    use std::collections::BTreeMap;

    /// The byte that fills an output before the call.
    const FILL: u8 = 0xa5;

    /// Returns the head of each derived record: sequence number, four times and the code in
    /// property 0; or the number of the refusal.
    fn heads(cases: &[Case]) -> Result<Vec<[u32; 6]>, u8> {
        let mut output = vec![FILL; 32 + 10 * 224];
        let count = derive(&permanent(cases), &mut output).map_err(Refusal::number)?;
        let word = |at: usize| {
            u32::from_be_bytes([output[at], output[at + 1], output[at + 2], output[at + 3]])
        };
        let head = |index: usize| {
            let at = 32 + 224 * index;
            let code = u32::from(output[at + 41]);
            [4, 8, 12, 16, 20]
                .map(|place| word(at + place))
                .into_iter()
                .chain([code])
                .collect::<Vec<_>>()
                .try_into()
                .unwrap()
        };
        Ok((0..count).map(head).collect())
    }

    /// The bytes of the specification's example, written out by its layout.
    #[test]
    fn the_result_is_a_permanent_table() {
        let cases = [base(), change(1, 300, 2)];
        let mut output = vec![FILL; 32 + 2 * 224 + 9];
        assert_eq!(derive(&permanent(&cases), &mut output), Ok(2));
        let header = [&b"TSL"[..], &[0, 0, 1, 0, 2], &FEATURE, &[0; 8]].concat();
        assert_eq!(output[..32], header);
        let first = [
            1, 0, 0, 0, 0, 0, 0, 1, 0, 0, 0, 100, 0, 0, 1, 44, 0, 0, 0, 100,
        ];
        assert_eq!(output[32..52], first);
        assert_eq!(output[52..64], [255, 255, 255, 255, 0, 0, 0, 0, 0, 0, 0, 0]);
        assert_eq!(output[64..74], [2, 0, 0, 0, 0, 0, 0, 0, 0, 1]);
        assert_eq!(output[88..92], [1, 4, 0, 0]);
        let second = [1, 0, 0, 0, 0, 0, 0, 2, 0, 0, 1, 44, 255, 255, 255, 255];
        assert_eq!(output[256..272], second);
        assert_eq!(output[288..298], [2, 0, 0, 0, 0, 0, 0, 0, 0, 2]);
        assert_eq!(output[480..], [FILL; 9]);
    }

    /// "the distinct begins, ends and life ends, where given, of counted BASELINEs and the instants
    /// of counted PERMDELTAs".
    #[test]
    fn change_instants_are_distinct_and_rising() {
        let cases = [
            baseline(1, [100, 200, 50, 300], 1),
            baseline(2, [200, 250, NONE, NONE], 2),
            cancelling(&baseline(3, [7, 8, NONE, NONE], 3), 1),
            change(1, 270, 4),
            change(2, 100, 5),
            opening(3, 90, 6),
            cancelling(&change(4, 9, 7), 1),
        ];
        let table = Table::read(&permanent(&cases), Sides::Permanent).unwrap();
        let instants: Vec<u32> = change_instants(&table).iter().map(|one| one.0).collect();
        assert_eq!(instants, [90, 100, 200, 250, 270, 300]);
    }

    /// "Equal neighbours are not merged", and a change at the begin of a BASELINE is in it already.
    #[test]
    fn each_change_instant_begins_a_record() {
        let cases = [
            base(),
            change(1, 100, 9),
            change(2, 150, 1),
            change(3, 150, 1),
        ];
        let expected = [[1, 100, 150, 100, NONE, 1], [2, 150, NONE, 100, NONE, 1]];
        assert_eq!(heads(&cases), Ok(expected.to_vec()));
    }

    /// "Withdrawn stretches yield no record": at the end, in the middle; nor does a gap.
    #[test]
    fn withdrawn_stretches_have_no_record() {
        let cases = [base(), closing(1, 300)];
        assert_eq!(heads(&cases), Ok(vec![[1, 100, 300, 100, NONE, 1]]));
        let cases = [
            baseline(1, [100, 200, 100, NONE], 1),
            baseline(2, [250, NONE, 100, 400], 2),
            closing(1, 150),
            change(2, 225, 8),
        ];
        let expected = [[1, 100, 150, 100, NONE, 1], [2, 250, 400, 100, 400, 2]];
        assert_eq!(heads(&cases), Ok(expected.to_vec()));
    }

    /// What an opening does not mention is nil, unknown.
    #[test]
    fn an_opening_leaves_the_rest_unknown() {
        let mut output = vec![FILL; 256];
        assert_eq!(
            derive(&permanent(&[opening(1, 100, 3)]), &mut output),
            Ok(1)
        );
        assert_eq!(output[32..40], [1, 0, 0, 0, 0, 0, 0, 1]);
        assert_eq!(output[48..56], [0, 0, 0, 100, 255, 255, 255, 255]);
        assert_eq!(output[64..66], [2, 0]);
        for property in 1..8 {
            let at = 64 + 24 * property;
            let mut unknown = [0; 24];
            unknown[..2].copy_from_slice(&[1, 4]);
            assert_eq!(output[at..at + 24], unknown);
        }
    }

    /// The last instant, 4,294,967,294, as a begin and as an end.
    #[test]
    fn the_last_instant_is_one() {
        let last = NONE - 1;
        let cases = [base(), change(1, last, 2)];
        let expected = [[1, 100, last, 100, NONE, 1], [2, last, NONE, 100, NONE, 2]];
        assert_eq!(heads(&cases), Ok(expected.to_vec()));
        let cases = [baseline(1, [100, last, NONE, last], 1)];
        assert_eq!(heads(&cases), Ok(vec![[1, 100, last, NONE, last, 1]]));
    }

    /// No change instant, no record.
    #[test]
    fn nothing_is_derived_from_nothing() {
        assert_eq!(heads(&[]), Ok(vec![]));
        assert_eq!(heads(&[cancelling(&base(), 1)]), Ok(vec![]));
        assert_eq!(heads(&[change(1, 100, 1)]), Ok(vec![]));
        let mut output = vec![FILL; 32];
        assert_eq!(derive(&permanent(&[]), &mut output), Ok(0));
        assert_eq!(output[..8], *b"TSL\0\0\x01\0\0");
    }

    /// A BASELINE without end is derived up to where the next one begins, which is a change instant
    /// already; after a fixed end inside it, there is no state or the opening's.
    #[test]
    fn open_ends_are_derived_up_to_their_close() {
        let (next, short) = (from_to(2, 200, NONE), from_to(3, 150, 160));
        let expected = [[1, 100, 200, 100, NONE, 1], [2, 200, NONE, 200, NONE, 2]];
        assert_eq!(heads(&[base(), next.clone()]), Ok(expected.to_vec()));
        let expected = [[1, 100, 150, 100, NONE, 1], [2, 150, 160, 150, NONE, 3]];
        assert_eq!(heads(&[base(), short.clone()]), Ok(expected.to_vec()));
        let cases = [base(), short, next, opening(1, 90, 4), change(2, 155, 5)];
        let expected = [
            [1, 90, 100, 90, NONE, 4],
            [2, 100, 150, 100, NONE, 1],
            [3, 150, 155, 150, NONE, 3],
            [4, 155, 160, 150, NONE, 5],
            [5, 160, 200, 90, NONE, 5],
            [6, 200, NONE, 200, NONE, 2],
        ];
        assert_eq!(heads(&cases), Ok(expected.to_vec()));
    }

    /// "Equal begins still clash", also where a later begin closes both.
    #[test]
    fn equal_begins_are_refused() {
        let (one, later) = (from_to(2, 100, NONE), from_to(3, 150, NONE));
        assert_eq!(heads(&[base(), one.clone()]), Err(21));
        assert_eq!(heads(&[base(), one, later]), Err(21));
        assert_eq!(heads(&[base(), from_to(2, 100, 101)]), Err(21));
    }

    /// "If 21 holds at any, refuse 21", before 23; a refused call changes no byte.
    #[test]
    fn two_anchors_come_before_the_room() {
        let cases = [base(), baseline(2, [100, 201, NONE, NONE], 2)];
        assert_eq!(heads(&cases), Err(21));
        assert_eq!(heads(&[opening(1, 100, 1), opening(2, 100, 2)]), Err(21));
        for length in [0, 31, 255, 1000] {
            let mut output = vec![FILL; length];
            let answer = derive(&permanent(&cases), &mut output);
            assert_eq!(answer, Err(Refusal::TwoAnchors));
            assert_eq!(output, vec![FILL; length]);
        }
    }

    /// "23 if it has over 256 records or exceeds the buffer."
    #[test]
    fn the_result_has_to_fit() {
        let mut output = vec![FILL; 255];
        assert_eq!(
            derive(&permanent(&[base()]), &mut output),
            Err(Refusal::Buffer)
        );
        assert_eq!(
            derive(&permanent(&[]), &mut output[..31]),
            Err(Refusal::Buffer)
        );
        assert_eq!(output, [FILL; 255]);
        let mut output = vec![FILL; 65_536];
        for (count, answer) in [(255, Ok(255)), (256, Ok(256)), (257, Err(Refusal::Buffer))] {
            assert_eq!(derive(&permanent(&apart(count)), &mut output), answer);
        }
    }

    /// Returns the record of the permanent state at an instant, or the refusal.
    fn state_at(table: &[u8], instant: u32) -> Result<Vec<u8>, Refusal> {
        let mut record = vec![FILL; 224];
        permanent_state(table, instant, &mut record).map(|()| record)
    }

    /// Checks that a derived table gives the same states as the original at some instants: the same
    /// record, or 20 if there was none; and that deriving again gives the same bytes.
    fn hold_read_back(original: &[u8], derived: &[u8], instants: &[u32]) {
        for &instant in instants {
            let state = state_at(original, instant).map_err(|_| Refusal::NoState);
            assert_eq!(state_at(derived, instant), state, "{instant}");
        }
        let mut again = vec![0; derived.len()];
        assert!(derive(derived, &mut again).is_ok());
        assert_eq!(again, derived);
    }

    /// Checks that a history with two anchors is refused and that any other reads back; returns the
    /// number of derived baselines, if it is not refused.
    fn hold_history(tables: &Tables) -> Option<usize> {
        let (table, instants) = (&tables.permanent, tables.instants());
        let mut output = vec![FILL; 32 + 64 * 224 + 7];
        let has_two = |&instant: &u32| state_at(table, instant) == Err(Refusal::TwoAnchors);
        if instants.iter().any(has_two) {
            assert_eq!(derive(table, &mut output), Err(Refusal::TwoAnchors));
            assert!(output.iter().all(|&byte| byte == FILL));
            return None;
        }
        let count = derive(table, &mut output).unwrap();
        let (derived, rest) = output.split_at(32 + count * 224);
        assert!(rest.iter().all(|&byte| byte == FILL));
        hold_read_back(table, derived, &instants);
        Some(count)
    }

    /// Ten thousand random histories, at and next to every instant that matters.
    #[test]
    fn random_histories_are_read_back() {
        let mut random = Random::new(31);
        let mut history = History::new(&mut random);
        let mut counts = BTreeMap::new();
        for _ in 0..10_000 {
            history.go_on(&mut random, 20);
            *counts.entry(hold_history(history.tables())).or_insert(0) += 1;
        }
        let often = [None, Some(0), Some(1), Some(2), Some(3), Some(4), Some(5)];
        assert!(often.iter().all(|count| counts[count] > 100), "{counts:?}");
    }

    /// Large histories: rows of BASELINEs with changes anywhere in them.
    #[test]
    fn large_histories_are_read_back() {
        for (seed, ends) in (0..20).flat_map(|seed| Ends::ALL.map(|ends| (seed, ends))) {
            let cases = crowd(&mut Random::new(seed), 40, ends);
            let count = hold_history(&Tables::of(&cases));
            assert!(count.is_some_and(|count| count > 20), "{count:?}");
        }
    }
}
