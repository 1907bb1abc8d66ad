//! Tables: the header, the refusals 1 to 7, and reading and writing a whole table.

use crate::layout::{FEATURE_BYTES, HEADER_BYTES, MOST_RECORDS, RECORD_BYTES};
use crate::record::{Key, Record, Side};
use crate::refusal::{hold, Refusal};
use crate::slice::check_record;
use std::collections::BTreeMap;

/// The bytes of a feature identifier.
pub type Feature = [u8; FEATURE_BYTES];

/// The sides that a call takes.
#[derive(Clone, Copy, Debug, PartialEq)]
pub enum Sides {
    Permanent,
    Temporary,
    Both,
}

/// The header of a table, sound or not.
struct Header {
    letters: [u8; 3],
    side: u8,
    version: u16,
    count: u16,
    feature: Feature,
    spare: [u8; 8],
}

/// A sound table: its side, its feature, how many records it has room for, and its records.
#[derive(Debug)]
pub struct Table {
    pub side: Side,
    pub feature: Feature,
    pub room: usize,
    pub records: BTreeMap<Key, Record>,
}

impl Sides {
    /// Returns whether the side is one of these.
    pub fn take(self, side: Side) -> bool {
        match self {
            Sides::Permanent => side == Side::Permanent,
            Sides::Temporary => side == Side::Temporary,
            Sides::Both => true,
        }
    }
}

impl Header {
    /// Returns the header that the bytes hold.
    fn read(bytes: &[u8; HEADER_BYTES]) -> Header {
        let [t, s, l, side, v0, v1, c0, c1, rest @ ..] = bytes;
        let (feature, spare) = rest.split_at(FEATURE_BYTES);
        Header {
            letters: [*t, *s, *l],
            side: *side,
            version: u16::from_be_bytes([*v0, *v1]),
            count: u16::from_be_bytes([*c0, *c1]),
            feature: feature.try_into().expect("sixteen bytes"),
            spare: spare.try_into().expect("the last eight"),
        }
    }

    /// Returns the header of a sound table.
    fn of(table: &Table) -> Header {
        Header {
            letters: *b"TSL",
            side: table.side.byte(),
            version: 1,
            count: table.records.len() as u16,
            feature: table.feature,
            spare: [0; 8],
        }
    }

    /// Returns the bytes of the header.
    fn write(&self) -> Vec<u8> {
        let mut bytes = self.letters.to_vec();
        bytes.push(self.side);
        bytes.extend(self.version.to_be_bytes());
        bytes.extend(self.count.to_be_bytes());
        bytes.extend(self.feature);
        bytes.extend(self.spare);
        bytes
    }

    /// Returns the side, or the first refusal, 2 to 5.
    fn check(&self, sides: Sides, room: usize) -> Result<Side, Refusal> {
        hold(self.letters == *b"TSL", Refusal::Name)?;
        let side = Side::of(self.side).filter(|side| sides.take(*side));
        let side = side.ok_or(Refusal::Name)?;
        hold(self.version == 1, Refusal::Version)?;
        hold(self.spare == [0; 8], Refusal::Header)?;
        hold(usize::from(self.count) <= room, Refusal::Count)?;
        Ok(side)
    }
}

/// Returns how many records fit into this many bytes after a header.
fn room(bytes: usize) -> usize {
    MOST_RECORDS.min(bytes / RECORD_BYTES)
}

impl Table {
    /// Returns the table that the bytes hold, or the first refusal, 1 to 7.
    pub fn read(bytes: &[u8], sides: Sides) -> Result<Table, Refusal> {
        let (header, rest) = bytes.split_first_chunk().ok_or(Refusal::Short)?;
        let header = Header::read(header);
        let room = room(rest.len());
        let side = header.check(sides, room)?;
        let records = counted(rest, header.count.into());
        let is_sound = |record: &Record| check_record(record, side.byte()).is_ok();
        hold(records.iter().all(is_sound), Refusal::Record)?;
        hold(
            records.is_sorted_by(|one, next| one.key() < next.key()),
            Refusal::Order,
        )?;
        Ok(Table {
            side,
            feature: header.feature,
            room,
            records: records.into_iter().map(|one| (one.key(), one)).collect(),
        })
    }

    /// Writes the header and the records; bytes after the last record stay as they are.
    pub fn write(&self, bytes: &mut [u8]) {
        let mut written = Header::of(self).write();
        for record in self.records.values() {
            written.extend(record.write());
        }
        bytes[..written.len()].copy_from_slice(&written);
    }
}

/// Returns the first records of the bytes after a header, as many as are counted.
fn counted(bytes: &[u8], count: usize) -> Vec<Record> {
    let (records, _) = bytes.as_chunks();
    records.iter().take(count).map(Record::read).collect()
}

/// Makes a new table of a side and a feature; if it is refused, no byte changes.
pub fn create(bytes: &mut [u8], side: u8, feature: &Feature) -> Result<(), Refusal> {
    hold(bytes.len() >= HEADER_BYTES, Refusal::Short)?;
    let side = Side::of(side).ok_or(Refusal::Name)?;
    let table = Table {
        side,
        feature: *feature,
        room: room(bytes.len() - HEADER_BYTES),
        records: BTreeMap::new(),
    };
    table.write(bytes);
    Ok(())
}

/// Returns the first refusal, 1 to 7, of a table, if any.
pub fn check(bytes: &[u8], sides: Sides) -> Result<(), Refusal> {
    Table::read(bytes, sides).map(|_| ())
}

#[cfg(test)]
mod tests {
    use super::*;
    use crate::fixtures::brief::passing;
    use crate::fixtures::{self, FEATURE, KIND};
    use crate::record::NONE;
    use crate::refusal::number_of;

    /// Makes a sound TEMPDELTA.
    fn record(sequence: u32) -> Vec<u8> {
        passing(sequence, 120, NONE, 9).record()
    }

    /// Makes a temporary table of a length with these records.
    fn table(length: usize, records: &[Vec<u8>]) -> Vec<u8> {
        fixtures::table(Side::Temporary, records, length, 0xa5)
    }

    /// Makes three records in ascending order.
    fn three() -> [Vec<u8>; 3] {
        [1, 2, 300].map(record)
    }

    /// Returns the number of a table with a byte set.
    fn changed(offset: usize, value: u8) -> u8 {
        let mut bytes = table(1000, &three());
        bytes[offset] = value;
        number_of(check(&bytes, Sides::Both))
    }

    /// A sound table of each count up to its room.
    #[test]
    fn sound_tables_pass() {
        for count in 0..=3 {
            let bytes = table(32 + 3 * 224, &three()[..count]);
            let read = Table::read(&bytes, Sides::Both).unwrap();
            assert_eq!((read.room, read.records.len()), (3, count));
            assert_eq!((read.side, read.feature), (Side::Temporary, FEATURE));
        }
    }

    /// "table under 32 bytes", before all else.
    #[test]
    fn one_is_for_the_length() {
        assert_eq!(check(&[], Sides::Both), Err(Refusal::Short));
        assert_eq!(check(&[0; 31], Sides::Both), Err(Refusal::Short));
        assert_eq!(check(&[0; 32], Sides::Both), Err(Refusal::Name));
        assert_eq!(check(&table(32, &[]), Sides::Both), Ok(()));
    }

    /// "letters wrong, or a side the call doesn't take".
    #[test]
    fn two_is_for_letters_and_sides() {
        for offset in 0..3 {
            assert_eq!(changed(offset, 0x20), 2);
        }
        assert_eq!(changed(3, 2), 2);
        assert_eq!(changed(3, 255), 2);
        let bytes = table(32, &[]);
        assert_eq!(check(&bytes, Sides::Temporary), Ok(()));
        assert_eq!(check(&bytes, Sides::Permanent), Err(Refusal::Name));
    }

    /// "version not 1", "header bytes 24-31 not zero".
    #[test]
    fn three_and_four_are_for_the_rest_of_the_header() {
        for (offset, value) in [(4, 1), (5, 0), (5, 2), (5, 255)] {
            assert_eq!(changed(offset, value), 3);
        }
        for offset in 24..32 {
            assert_eq!(changed(offset, 1), 4);
        }
        for offset in 8..24 {
            assert_eq!(changed(offset, 1), 0);
        }
    }

    /// "the lesser of 256 and the whole records that fit after the header".
    #[test]
    fn five_is_for_the_count() {
        assert_eq!(room(0), 0);
        assert_eq!(room(223), 0);
        assert_eq!(room(224), 1);
        assert_eq!(room(255 * 224 + 223), 255);
        assert_eq!(room(256 * 224), 256);
        assert_eq!(room(1000 * 224), 256);
        let short = &table(1000, &three())[..32 + 3 * 224 - 1];
        assert_eq!(check(short, Sides::Both), Err(Refusal::Count));
        assert_eq!(changed(6, 1), 5);
        let mut long = vec![0; 32 + 300 * 224];
        long[..32].copy_from_slice(&table(32, &[]));
        long[6..8].copy_from_slice(&257u16.to_be_bytes());
        assert_eq!(check(&long, Sides::Both), Err(Refusal::Count));
        long[6..8].copy_from_slice(&256u16.to_be_bytes());
        assert_eq!(check(&long, Sides::Both), Err(Refusal::Record));
    }

    /// "some record in the table fails 11 to 16", wherever it is.
    #[test]
    fn six_is_for_a_record() {
        for start in [32, 32 + 224, 32 + 2 * 224] {
            assert_eq!(changed(start, 1), 6);
            assert_eq!(changed(start + 1, 1), 6);
            assert_eq!(changed(start + 1, 2), 6);
            assert_eq!(changed(start + 24, 1), 6);
            assert_eq!(changed(start + 16, 0), 6);
            assert_eq!(changed(start + 33, 1), 6);
            assert_eq!(changed(start + 223, 1), 6);
        }
        assert_eq!(changed(32 + 3 * 224, 0), 0);
    }

    /// "records not in strictly rising order", after every record.
    #[test]
    fn seven_is_for_the_order() {
        let [one, two, last] = three();
        for wrong in [[&one, &one], [&two, &one], [&last, &two]] {
            let bytes = table(1000, &wrong.map(Vec::clone));
            assert_eq!(check(&bytes, Sides::Both), Err(Refusal::Order));
        }
        let other = passing(1, 120, NONE, 9).with_correction(1);
        let bytes = table(1000, &[one, other.record()]);
        assert_eq!(check(&bytes, Sides::Both), Err(Refusal::Order));
        let foreign = passing(9, 120, NONE, 0).with_byte(KIND, 1);
        let bytes = table(1000, &[two, record(1), foreign.record()]);
        assert_eq!(check(&bytes, Sides::Both), Err(Refusal::Record));
    }

    /// "a new table writes its header only".
    #[test]
    fn a_new_table_is_a_header() {
        let mut bytes = vec![0xa5; 300];
        assert_eq!(create(&mut bytes, 0, &[9; 16]), Ok(()));
        let head = [b'T', b'S', b'L', 0, 0, 1, 0, 0];
        assert_eq!(bytes[..32], [&head[..], &[9; 16], &[0; 8]].concat());
        assert_eq!(bytes[32..], [0xa5; 268]);
        assert_eq!(create(&mut bytes[..32], 1, &[9; 16]), Ok(()));
        assert_eq!(bytes[3], 1);
    }

    /// "New table: 1, 2."
    #[test]
    fn a_refused_table_changes_nothing() {
        let mut bytes = vec![0xa5; 300];
        for side in [2, 255] {
            assert_eq!(create(&mut bytes, side, &FEATURE).unwrap_err().number(), 2);
        }
        for (length, side) in [(0, 0), (31, 1), (31, 2)] {
            let refused = create(&mut bytes[..length], side, &FEATURE);
            assert_eq!(refused, Err(Refusal::Short));
        }
        assert_eq!(bytes, [0xa5; 300]);
    }

    /// Reading and writing changes no byte, not even after the last record.
    #[test]
    fn a_table_is_written_as_it_was_read() {
        let bytes = table(1000, &three());
        let mut other = vec![0xa5; 1000];
        Table::read(&bytes, Sides::Both).unwrap().write(&mut other);
        assert_eq!(other, bytes);
    }
}
