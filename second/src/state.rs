//! The state at an instant: the anchor, the records that are applied after it in order, and the
//! result.

use crate::layout::PROPERTIES;
use crate::property::{Reason, Value};
use crate::record::{Correction, Head, Instant, Kind, Record, Sequence, Span};
use crate::refusal::{hold, Refusal};
use crate::table::Table;

/// The kind byte of a state that is written as a record.
const STATE: u8 = 4;

/// The life times and the properties after some records are applied; a property that none of them
/// mentions has no value.
#[derive(Clone, Copy, Debug, PartialEq)]
pub struct State {
    life: Span,
    properties: [Option<Value>; PROPERTIES],
}

/// Returns the counted records of a kind in the order of their sequence numbers.
fn counted(table: &Table, kind: Kind) -> impl Iterator<Item = &Record> {
    let is_counted = |record: &&Record| !record.head.is_cancelled();
    table
        .records
        .values()
        .filter(is_counted)
        .filter(move |record| record.head.kind == kind.byte())
}

/// Returns the least begin, strictly after a BASELINE's own, of any other counted BASELINE.
fn next_begin(table: &Table, baseline: &Record) -> Option<Instant> {
    counted(table, Kind::Baseline)
        .filter_map(|other| other.head.period.begin)
        .filter(|&begin| Some(begin) > baseline.head.period.begin)
        .min()
}

/// Returns the period of a counted record. A BASELINE whose end is none closes at the next begin; a
/// fixed end stays as it was sent.
fn period(table: &Table, record: &Record) -> Span {
    let sent = record.head.period;
    if record.head.kind != Kind::Baseline.byte() || sent.end.is_some() {
        return sent;
    }
    Span {
        end: next_begin(table, record),
        ..sent
    }
}

/// Returns the counted records of a kind whose period has the instant, in the order of their
/// sequence numbers.
fn valid(table: &Table, kind: Kind, instant: Instant) -> impl Iterator<Item = &Record> {
    counted(table, kind).filter(move |record| period(table, record).has(instant))
}

/// Returns the only anchor, if there is one, or 21 if there are more.
fn only<'a>(anchors: impl Iterator<Item = &'a Record>) -> Result<Option<&'a Record>, Refusal> {
    let anchors: Vec<&Record> = anchors.collect();
    hold(anchors.len() <= 1, Refusal::TwoAnchors)?;
    Ok(anchors.first().copied())
}

/// Returns the anchor, the BASELINE at the instant or else the opening PERMDELTA by then; or 21 or
/// 20.
fn anchor(table: &Table, instant: Instant) -> Result<&Record, Refusal> {
    if let Some(baseline) = only(valid(table, Kind::Baseline, instant))? {
        return Ok(baseline);
    }
    let is_opening = |record: &&Record| record.head.life.begin.is_some();
    let openings = valid(table, Kind::PermDelta, instant).filter(is_opening);
    only(openings)?.ok_or(Refusal::NoState)
}

/// Returns what orders PERMDELTAs: the instant, then the sequence number.
fn turn(record: &Record) -> (Option<Instant>, Sequence) {
    (record.head.period.begin, record.head.sequence)
}

/// Returns whether a PERMDELTA is applied after an anchor. A BASELINE already contains the changes
/// at its begin.
fn follows(change: &Record, anchor: &Record) -> bool {
    if anchor.head.kind == Kind::Baseline.byte() {
        change.head.period.begin > anchor.head.period.begin
    } else {
        turn(change) > turn(anchor)
    }
}

/// Returns the records of the permanent state in the order in which they are applied, the anchor
/// first; or 21, 20 or 22.
pub fn lasting(table: &Table, instant: Instant) -> Result<Vec<&Record>, Refusal> {
    let anchor = anchor(table, instant)?;
    let mut applied: Vec<&Record> = valid(table, Kind::PermDelta, instant)
        .filter(|change| follows(change, anchor))
        .collect();
    applied.sort_by_key(|change| turn(change));
    applied.insert(0, anchor);
    let life_end = State::after(&applied).life.end;
    hold(life_end.is_none_or(|end| end > instant), Refusal::Withdrawn)?;
    Ok(applied)
}

/// Returns the TEMPDELTAs of the instant in the order in which they are applied.
pub fn passing(table: &Table, instant: Instant) -> Vec<&Record> {
    valid(table, Kind::TempDelta, instant).collect()
}

/// Returns whether a record mentions a property.
pub fn mentions(record: &Record, property: usize) -> bool {
    record.properties[property].is_some_and(|value| value.is_mention())
}

impl State {
    /// The state before any record is applied.
    const NOTHING: State = State {
        life: Span::NEITHER,
        properties: [None; PROPERTIES],
    };

    /// Returns the state after some records are applied in order.
    pub fn after(applied: &[&Record]) -> State {
        applied
            .iter()
            .fold(State::NOTHING, |state, record| state.with(record))
    }

    /// Returns the state after a record replaces what it mentions and each life time it gives.
    fn with(self, record: &Record) -> State {
        let given = record.head.life;
        let mut properties = self.properties;
        for (index, property) in properties.iter_mut().enumerate() {
            if mentions(record, index) {
                *property = record.properties[index];
            }
        }
        let life = Span {
            begin: given.begin.or(self.life.begin),
            end: given.end.or(self.life.end),
        };
        State { life, properties }
    }

    /// Returns the state as the record of an instant.
    pub fn record(&self, instant: Instant) -> Record {
        let period = Span {
            begin: Some(instant),
            end: None,
        };
        self.written(STATE, Sequence(0), period)
    }

    /// Returns the state as the BASELINE of a period.
    pub fn baseline(&self, sequence: Sequence, period: Span) -> Record {
        self.written(Kind::Baseline.byte(), sequence, period)
    }

    /// Returns the state as a record of a kind, with correction 0; a property that nothing mentions
    /// is nil, unknown.
    fn written(&self, kind: u8, sequence: Sequence, period: Span) -> Record {
        let head = Head {
            kind,
            flags: 0,
            correction: Correction(0),
            sequence,
            period,
            life: self.life,
            spare: [0; 8],
        };
        let unknown = Value::Nil(Reason::Unknown);
        Record {
            head,
            properties: self.properties.map(|value| value.or(Some(unknown))),
        }
    }
}

#[cfg(test)]
mod tests {
    use super::*;
    use crate::record::{Side, NONE};
    use crate::refusal::number_of;
    use std::collections::BTreeMap;

    /// Makes a record: kind, sequence number and four times; a code in property 0.
    fn record(kind: Kind, sequence: u32, [begin, end, born, gone]: [u32; 4]) -> Record {
        let mut properties = [Some(Value::Unmentioned); PROPERTIES];
        properties[0] = Some(Value::Code(sequence as u16));
        let head = Head {
            kind: kind.byte(),
            flags: 0,
            correction: Correction(0),
            sequence: Sequence(sequence),
            period: Span::new(begin, end),
            life: Span::new(born, gone),
            spare: [0; 8],
        };
        Record { head, properties }
    }

    /// Makes a BASELINE of a period and a life.
    fn baseline(sequence: u32, times: [u32; 4]) -> Record {
        record(Kind::Baseline, sequence, times)
    }

    /// Makes a PERMDELTA that gives no life time.
    fn change(sequence: u32, instant: u32) -> Record {
        record(Kind::PermDelta, sequence, [instant, NONE, NONE, NONE])
    }

    /// Makes an opening PERMDELTA.
    fn opening(sequence: u32, instant: u32) -> Record {
        record(Kind::PermDelta, sequence, [instant, NONE, instant, NONE])
    }

    /// Makes a PERMDELTA that ends the life.
    fn closing(sequence: u32, instant: u32) -> Record {
        record(Kind::PermDelta, sequence, [instant, NONE, NONE, instant])
    }

    /// Makes a table of records, in any order.
    fn table(records: &[Record]) -> Table {
        let records: BTreeMap<_, _> = records.iter().map(|one| (one.key(), *one)).collect();
        Table {
            side: Side::Permanent,
            feature: [0; 16],
            room: records.len(),
            records,
        }
    }

    /// Returns the sequence numbers of what is applied at an instant, or the number of the refusal.
    fn applied(records: &[Record], instant: u32) -> Result<Vec<u32>, u8> {
        let table = table(records);
        let applied = lasting(&table, Instant(instant)).map_err(Refusal::number)?;
        Ok(applied.iter().map(|one| one.head.sequence.0).collect())
    }

    /// "rising by instant, then sequence number: those strictly later than a BASELINE anchor's
    /// begin".
    #[test]
    fn changes_after_a_baseline_go_by_instant_then_sequence() {
        let anchor = baseline(7, [100, NONE, NONE, NONE]);
        let changes = [
            change(9, 99),
            change(8, 100),
            change(6, 101),
            change(5, 150),
        ];
        let records = [&[anchor], &changes[..], &[change(4, 150), change(3, 151)]].concat();
        assert_eq!(applied(&records, 99), Err(20));
        assert_eq!(applied(&records, 100), Ok(vec![7]));
        assert_eq!(applied(&records, 150), Ok(vec![7, 6, 4, 5]));
        assert_eq!(applied(&records, NONE - 1), Ok(vec![7, 6, 4, 5, 3]));
    }

    /// "or those after an opening anchor in that same order".
    #[test]
    fn changes_after_an_opening_go_by_the_same_order() {
        let changes = [
            change(9, 99),
            change(4, 100),
            change(6, 100),
            change(1, 101),
        ];
        let records = [&[opening(5, 100)], &changes[..]].concat();
        assert_eq!(applied(&records, 99), Err(20));
        assert_eq!(applied(&records, 100), Ok(vec![5, 6]));
        assert_eq!(applied(&records, 101), Ok(vec![5, 6, 1]));
    }

    /// "Two or more: 21"; "If there is none: an opening PERMDELTA".
    #[test]
    fn a_baseline_comes_before_openings() {
        let openings = [opening(1, 100), opening(2, 200)];
        assert_eq!(applied(&openings, 199), Ok(vec![1]));
        assert_eq!(applied(&openings, 200), Err(21));
        let base = baseline(3, [150, 250, NONE, NONE]);
        let records = [&openings[..], &[base]].concat();
        assert_eq!(applied(&records, 150), Ok(vec![3]));
        assert_eq!(applied(&records, 200), Ok(vec![3, 2]));
        assert_eq!(applied(&records, 250), Err(21));
        let records = [&records[..], &[baseline(4, [249, 250, NONE, NONE])]].concat();
        assert_eq!(applied(&records, 248), Ok(vec![3, 2]));
        assert_eq!(applied(&records, 249), Err(21));
    }

    /// Makes a BASELINE of a period that gives no life time.
    fn from_to(sequence: u32, begin: u32, end: u32) -> Record {
        baseline(sequence, [begin, end, NONE, NONE])
    }

    /// Returns the sequence number of the only record applied at each instant, or the number of the
    /// refusal.
    fn anchors<const N: usize>(records: &[Record], instants: [u32; N]) -> [Result<u32, u8>; N] {
        instants.map(|instant| {
            let applied = applied(records, instant)?;
            assert_eq!(applied.len(), 1);
            Ok(applied[0])
        })
    }

    /// "A BASELINE whose end is none shall close at the least begin, strictly after its own, of any
    /// other counted BASELINE."
    #[test]
    fn an_open_baseline_closes_at_the_next_begin() {
        let records = [(9, 100), (4, 200), (7, 150)].map(|(one, begin)| from_to(one, begin, NONE));
        assert_eq!(
            anchors(&records, [99, 100, 149, 150, 199, 200, NONE - 1]),
            [Err(20), Ok(9), Ok(9), Ok(7), Ok(7), Ok(4), Ok(4)]
        );
        let records = [from_to(1, 0, NONE), from_to(2, NONE - 1, NONE)];
        assert_eq!(
            anchors(&records, [0, NONE - 2, NONE - 1]),
            [Ok(1), Ok(1), Ok(2)]
        );
    }

    /// "Fixed ends stay as sent": such a BASELINE closes an open one for good, and is closed by none.
    #[test]
    fn fixed_ends_stay_as_sent() {
        let records = [from_to(1, 100, NONE), from_to(2, 150, 160)];
        assert_eq!(
            anchors(&records, [149, 150, 159, 160, NONE - 1]),
            [Ok(1), Ok(2), Ok(2), Err(20), Err(20)]
        );
        let records = [from_to(1, 100, 200), from_to(2, 150, NONE)];
        assert_eq!(
            anchors(&records, [149, 150, 199, 200]),
            [Ok(1), Err(21), Err(21), Ok(2)]
        );
        let records = [from_to(1, 100, 200), from_to(2, 200, NONE)];
        assert_eq!(anchors(&records, [199, 200]), [Ok(1), Ok(2)]);
    }

    /// "Equal begins still clash", until the next later begin closes those that are open.
    #[test]
    fn equal_begins_still_clash() {
        let open = [from_to(1, 100, NONE), from_to(2, 100, NONE)];
        assert_eq!(anchors(&open, [100, NONE - 1]), [Err(21); 2]);
        let closed = [open[0], open[1], from_to(3, 150, NONE)];
        assert_eq!(anchors(&closed, [149, 150]), [Err(21), Ok(3)]);
        let fixed = [open[0], from_to(2, 100, 160)];
        assert_eq!(anchors(&fixed, [100, 159, 160]), [Err(21), Err(21), Ok(1)]);
        let closed = [fixed[0], fixed[1], from_to(3, 150, NONE)];
        assert_eq!(
            anchors(&closed, [149, 150, 159, 160]),
            [Err(21), Err(21), Err(21), Ok(3)]
        );
    }

    /// "Any other counted BASELINE": a cancelled one closes nothing, nor does a PERMDELTA.
    #[test]
    fn only_counted_baselines_close() {
        let mut gone = from_to(2, 150, NONE);
        gone.head.flags = 1;
        let records = [from_to(1, 100, NONE), gone];
        assert_eq!(anchors(&records, [150, NONE - 1]), [Ok(1); 2]);
        let records = [from_to(1, 100, NONE), opening(2, 150), change(3, 160)];
        assert_eq!(applied(&records, 160), Ok(vec![1, 2, 3]));
        let records = [from_to(1, 200, NONE), opening(2, 150)];
        assert_eq!(anchors(&records, [150, 200]), [Ok(2), Ok(1)]);
    }

    /// Where a closed BASELINE leaves a gap, "an opening PERMDELTA" is the anchor again.
    #[test]
    fn an_opening_takes_over_after_a_close() {
        let openings = [opening(1, 90), change(2, 120), change(3, 155)];
        let both = [from_to(8, 100, NONE), from_to(9, 150, 160)];
        let records = [&openings[..], &both].concat();
        assert_eq!(applied(&records, 99), Ok(vec![1]));
        assert_eq!(applied(&records, 149), Ok(vec![8, 2]));
        assert_eq!(applied(&records, 150), Ok(vec![9]));
        assert_eq!(applied(&records, 159), Ok(vec![9, 3]));
        assert_eq!(applied(&records, 160), Ok(vec![1, 2, 3]));
    }

    /// "If the life end is then given and at most t: 22."
    #[test]
    fn a_life_ends() {
        let base = baseline(1, [100, NONE, 50, 300]);
        assert_eq!(applied(&[base], 299), Ok(vec![1]));
        assert_eq!(applied(&[base], 300), Err(22));
        let records = [base, closing(2, 200)];
        assert_eq!(applied(&records, 199), Ok(vec![1]));
        assert_eq!(applied(&records, 200), Err(22));
        let records = [records[0], records[1], baseline(3, [150, 250, NONE, NONE])];
        assert_eq!(applied(&records[1..], 199), Ok(vec![3]));
        assert_eq!(applied(&records[1..], 200), Err(22));
        assert_eq!(
            applied(&[closing(2, 200), opening(3, 200)], 200),
            Ok(vec![3])
        );
        assert_eq!(applied(&[closing(4, 200), opening(3, 200)], 200), Err(22));
    }

    /// "Each replaces what it mentions, and a life time it gives."
    #[test]
    fn life_times_are_replaced_one_by_one() {
        let base = baseline(1, [100, NONE, 50, 300]);
        let state = State::after(&[&base, &opening(2, 150), &change(3, 160)]);
        assert_eq!(state.life, Span::new(150, 300));
        assert_eq!(state.properties[0], Some(Value::Code(3)));
        assert_eq!(state.properties[1], None);
        let written = state.record(Instant(170));
        assert_eq!(written.properties[1], Some(Value::Nil(Reason::Unknown)));
        assert_eq!(written.head.period, Span::new(170, NONE));
    }

    /// "Cancelled records stay stored and take no further part."
    #[test]
    fn cancelled_records_do_not_count() {
        let mut other = baseline(2, [100, NONE, NONE, NONE]);
        let records = [baseline(1, [100, NONE, NONE, NONE]), other];
        assert_eq!(applied(&records, 100), Err(21));
        other.head.flags = 1;
        assert_eq!(applied(&[records[0], other], 100), Ok(vec![1]));
        let none = lasting(&table(&[other]), Instant(100)).map(|_| ());
        assert_eq!(number_of(none), 20);
    }

    /// "TEMPDELTAs with begin at most t and t before end (none runs on), rising by sequence
    /// number".
    #[test]
    fn passing_records_go_by_sequence() {
        let delta =
            |sequence, begin, end| record(Kind::TempDelta, sequence, [begin, end, NONE, NONE]);
        let table = table(&[delta(3, 90, 100), delta(2, 100, NONE), delta(1, 120, 121)]);
        let at = |instant| -> Vec<u32> {
            let passing = passing(&table, Instant(instant));
            passing.iter().map(|one| one.head.sequence.0).collect()
        };
        assert_eq!(at(89), []);
        assert_eq!(at(99), [3]);
        assert_eq!(at(100), [2]);
        assert_eq!(at(120), [1, 2]);
        assert_eq!(at(121), [2]);
    }
}
