//! Arrivals: a slice is delivered to a table.

use crate::record::Record;
use crate::refusal::{hold, Refusal};
use crate::slice;
use crate::table::{Sides, Table};
use std::collections::btree_map::Entry;
use std::fmt;

/// What an accepted slice does to a table.
#[derive(Clone, Copy, Debug, PartialEq)]
pub enum Arrival {
    Added,
    Replaced,
    Superseded,
    Repeat,
}

impl fmt::Display for Arrival {
    /// Writes the arrival as in an answer line.
    fn fmt(&self, out: &mut fmt::Formatter) -> fmt::Result {
        out.write_str(match self {
            Arrival::Added => "added",
            Arrival::Replaced => "replaced",
            Arrival::Superseded => "superseded",
            Arrival::Repeat => "repeat",
        })
    }
}

/// Delivers a slice to a table; if it is refused, no byte changes.
pub fn arrive(bytes: &mut [u8], slice: &[u8]) -> Result<Arrival, Refusal> {
    let mut table = Table::read(bytes, Sides::Both)?;
    slice::check(slice, &table.feature, table.side.byte())?;
    let record = slice
        .last_chunk()
        .expect("a sound slice ends with a record");
    let arrival = table.file(Record::read(record))?;
    table.write(bytes);
    Ok(arrival)
}

impl Table {
    /// Puts a sound record into the table, or refuses it: 17 if it clashes with one, 18 if there is
    /// no room.
    fn file(&mut self, record: Record) -> Result<Arrival, Refusal> {
        let is_full = self.records.len() == self.room;
        match self.records.entry(record.key()) {
            Entry::Vacant(place) => {
                hold(!is_full, Refusal::Full)?;
                place.insert(record);
                Ok(Arrival::Added)
            }
            Entry::Occupied(mut place) => {
                let arrival = correct(place.get(), &record)?;
                if arrival == Arrival::Replaced {
                    place.insert(record);
                }
                Ok(arrival)
            }
        }
    }
}

/// Returns what a record does to the stored one with the same key, or 17.
fn correct(stored: &Record, record: &Record) -> Result<Arrival, Refusal> {
    let (old, new) = (stored.head.correction, record.head.correction);
    if new > old {
        return Ok(Arrival::Replaced);
    }
    if new < old {
        return Ok(Arrival::Superseded);
    }
    // Compares bytes: as values the two zeros of a double would be equal.
    hold(stored.write() == record.write(), Refusal::Clash)?;
    Ok(Arrival::Repeat)
}

#[cfg(test)]
mod tests {
    use super::*;
    use crate::fixtures::brief::{cancelling, passing};
    use crate::fixtures::{self, length, Case, KIND};
    use crate::layout::bytes_of;
    use crate::record::{Side, NONE};

    /// Makes a TEMPDELTA from 120 on, under a correction.
    fn delta(sequence: u32, correction: u16, code: u16) -> Case {
        passing(sequence, 120, NONE, code).with_correction(correction)
    }

    /// Makes a temporary table of some slices and room for this many records.
    fn table(room: usize, cases: &[Case]) -> Vec<u8> {
        let records: Vec<_> = cases.iter().map(Case::record).collect();
        fixtures::table(Side::Temporary, &records, bytes_of(room), 0xa5)
    }

    /// Makes a table of 5, 7 and 9, all with correction 4, and room for this many records.
    fn three(room: usize) -> Vec<u8> {
        table(room, &[5, 7, 9].map(|sequence| delta(sequence, 4, 1)))
    }

    /// Returns the result of an arrival, and the table after it.
    fn after(bytes: &[u8], case: &Case) -> (Result<Arrival, Refusal>, Vec<u8>) {
        let mut bytes = bytes.to_vec();
        (arrive(&mut bytes, &case.slice), bytes)
    }

    /// "kind and sequence number are new; the record is put in its place".
    #[test]
    fn a_new_key_is_added_in_its_place() {
        for (sequence, place) in [(0, 0), (6, 1), (8, 2), (10, 3), (u32::MAX, 3)] {
            let new = delta(sequence, 0, 2);
            let mut cases = [5, 7, 9].map(|sequence| delta(sequence, 4, 1)).to_vec();
            cases.insert(place, new.clone());
            let expected = table(5, &cases);
            assert_eq!(after(&three(5), &new), (Ok(Arrival::Added), expected));
        }
    }

    /// "the correction number is higher than the stored one; the record takes its room".
    #[test]
    fn a_higher_correction_replaces() {
        for correction in [5, 255, 256, 65_535] {
            let new = delta(7, correction, 2);
            let mut expected = three(3);
            expected[32 + 224..32 + 2 * 224].copy_from_slice(&new.record());
            assert_eq!(after(&three(3), &new), (Ok(Arrival::Replaced), expected));
        }
    }

    /// "it is lower; nothing changes, and its content isn't compared".
    #[test]
    fn a_lower_correction_is_superseded() {
        for (correction, code) in [(3, 1), (0, 2)] {
            let old = delta(7, correction, code);
            assert_eq!(after(&three(3), &old), (Ok(Arrival::Superseded), three(3)));
        }
    }

    /// "equal correction, equal bytes", or else 17.
    #[test]
    fn an_equal_correction_is_a_repeat_or_a_clash() {
        let (same, other) = (delta(7, 4, 1), delta(7, 4, 2));
        assert_eq!(after(&three(3), &same), (Ok(Arrival::Repeat), three(3)));
        assert_eq!(after(&three(3), &other), (Err(Refusal::Clash), three(3)));
    }

    /// Negative zero has different bytes.
    #[test]
    fn the_zeros_clash() {
        let [plus, minus] =
            [0.0f64, -0.0].map(|zero| delta(7, 4, 0).with_part(0, &length(zero.to_bits(), 1)));
        let bytes = table(1, &[plus]);
        assert_eq!(after(&bytes, &minus), (Err(Refusal::Clash), bytes.clone()));
    }

    /// "new kind and sequence, and the count equals the room".
    #[test]
    fn a_full_table_takes_no_new_key() {
        let new = delta(6, 0, 1);
        assert_eq!(after(&three(3), &new), (Err(Refusal::Full), three(3)));
        let bytes = table(0, &[]);
        assert_eq!(after(&bytes, &new), (Err(Refusal::Full), bytes.clone()));
    }

    /// "Arrival: 1-7, 9-18."
    #[test]
    fn the_table_is_checked_before_the_slice() {
        let mut bytes = three(3);
        assert_eq!(arrive(&mut bytes, &[]), Err(Refusal::Length));
        assert_eq!(arrive(&mut bytes[..31], &[]), Err(Refusal::Short));
        let foreign = delta(7, 4, 2).with_byte(0, 8);
        assert_eq!(arrive(&mut bytes, &foreign.slice), Err(Refusal::Feature));
        let baseline = delta(7, 4, 2).with_byte(KIND, 1);
        assert_eq!(arrive(&mut bytes, &baseline.slice), Err(Refusal::Kind));
        bytes[7] = 4;
        assert_eq!(arrive(&mut bytes, &[]), Err(Refusal::Count));
    }

    /// A cancelled record stays, and "a higher correction may bring the change back".
    #[test]
    fn a_cancelled_record_is_stored_as_any_other() {
        let (answer, bytes) = after(&three(3), &cancelling(&delta(7, 4, 1), 5));
        assert_eq!(answer, Ok(Arrival::Replaced));
        assert_eq!(after(&bytes, &delta(7, 4, 1)).0, Ok(Arrival::Superseded));
        assert_eq!(after(&bytes, &delta(7, 6, 1)).0, Ok(Arrival::Replaced));
    }
}
