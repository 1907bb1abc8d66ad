//! The two tables of a feature, and the instants that matter in them.

use crate::fixtures::{self, Case};
use crate::layout::bytes_of;
#[cfg(test)]
use crate::layout::{HEAD_BYTES, PROPERTY_BYTES, RECORD_BYTES};
#[cfg(test)]
use crate::question::{property, snapshot};
use crate::record::{Kind, Record, Side, NONE};
use crate::table::{Sides, Table};
use std::collections::BTreeSet;

/// The bytes of a permanent and of a temporary table.
#[derive(Clone, Default, PartialEq)]
pub struct Tables {
    pub permanent: Vec<u8>,
    pub temporary: Vec<u8>,
}

/// A question about two tables at an instant. The permanent state needs only the permanent one, and
/// whether a property is touched only the temporary one.
#[derive(Clone, Copy, Debug, PartialEq)]
pub enum Question {
    State,
    Snapshot,
    Property(u8),
    Touched(u8),
}

/// What a call makes of a permanent table and writes into an output.
#[derive(Clone, Copy, Debug, PartialEq)]
pub enum Product {
    Derived,
    Listing,
}

impl Tables {
    /// Makes two tables of this many bytes without a record.
    pub fn empty(length: usize) -> Tables {
        let table = |side| fixtures::table(side, &[], length, 0);
        Tables {
            permanent: table(Side::Permanent),
            temporary: table(Side::Temporary),
        }
    }

    /// Makes the full tables of some cases; each goes to its side, in order.
    pub fn of(cases: &[Case]) -> Tables {
        let side = |side| {
            let mut records: Vec<Vec<u8>> = cases
                .iter()
                .map(Case::record)
                .filter(|record| Kind::of(record[0]).map(Kind::side) == Some(side))
                .collect();
            records.sort_by_key(|record| (record[0], record[4..8].to_vec()));
            let length = bytes_of(records.len());
            fixtures::table(side, &records, length, 0)
        };
        Tables {
            permanent: side(Side::Permanent),
            temporary: side(Side::Temporary),
        }
    }

    /// Returns the table of a side, for changing it.
    pub fn of_side(&mut self, side: Side) -> &mut Vec<u8> {
        match side {
            Side::Permanent => &mut self.permanent,
            Side::Temporary => &mut self.temporary,
        }
    }

    /// Returns property 0 at an instant, a code or 0 for nil; "-" if nothing mentions it, or "!" and
    /// the number of the refusal. The snapshot must agree with it.
    #[cfg(test)]
    pub fn value_at(&self, instant: u32) -> String {
        let (permanent, temporary) = (&self.permanent, &self.temporary);
        let mut record = [0; RECORD_BYTES];
        let written = snapshot(permanent, temporary, instant, &mut record);
        let part = property(permanent, temporary, instant, 0);
        assert_eq!(written, part.map(|_| ()));
        match part {
            Err(refusal) => format!("!{}", refusal.number()),
            Ok(None) => "-".to_string(),
            Ok(Some(part)) => {
                assert_eq!(record[HEAD_BYTES..HEAD_BYTES + PROPERTY_BYTES], part.bytes);
                u16::from_be_bytes([part.bytes[8], part.bytes[9]]).to_string()
            }
        }
    }

    /// Returns, in ascending order, every time that a record of a sound table gives, and the
    /// instants next to it.
    pub fn instants(&self) -> Vec<u32> {
        let tables = [&self.permanent, &self.temporary];
        let sound = tables
            .into_iter()
            .filter_map(|bytes| Table::read(bytes, Sides::Both).ok());
        let times = sound
            .flat_map(|table| table.records.into_values().flat_map(times))
            .flat_map(|time| [time.saturating_sub(1), time, time + 1]);
        let instants: BTreeSet<u32> = times.filter(|&time| time != NONE).collect();
        instants.into_iter().collect()
    }
}

/// Makes the full permanent table of some cases.
pub fn permanent(cases: &[Case]) -> Vec<u8> {
    Tables::of(cases).permanent
}

/// Returns the times that a record gives.
fn times(record: Record) -> impl Iterator<Item = u32> {
    let (period, life) = (record.head.period, record.head.life);
    [period.begin, period.end, life.begin, life.end]
        .into_iter()
        .flatten()
        .map(|instant| instant.0)
}

#[cfg(test)]
mod tests {
    use super::*;

    /// BASELINE 100 to 200 in a life from 50 to 300, PERMDELTA 150, TEMPDELTA 120 to 140.
    #[test]
    fn instants_are_at_and_beside_each_time() {
        let cases = [Kind::TempDelta, Kind::PermDelta, Kind::Baseline].map(Case::usual);
        let tables = Tables::of(&cases);
        assert_eq!((tables.permanent[7], tables.temporary[7]), (2, 1));
        let times = [50, 100, 120, 140, 150, 200, 300];
        let expected: Vec<u32> = times.iter().flat_map(|&time| time - 1..=time + 1).collect();
        assert_eq!(tables.instants(), expected);
        let edge = Case::usual(Kind::TempDelta).with_times([0, NONE - 1, NONE, NONE]);
        assert_eq!(Tables::of(&[edge]).instants(), [0, 1, NONE - 2, NONE - 1]);
    }
}
