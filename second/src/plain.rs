//! The calls again, in place on the bytes, as a plain fast program does them. The library is
//! measured against these. The tests compare them with `table`, `arrival`, `question`, `touched`,
//! `derived` and `listing`.

mod derive;
mod listing;
mod part;
mod state;
mod sweep;

pub use derive::{derive, derive_on_heap};
pub use listing::list;
pub use part::{Check, Matched, Words};
pub use state::{permanent_state, property, snapshot, touched};

use crate::arrival::Arrival;
use crate::refusal::Refusal;
use crate::table::Feature;
use std::cmp::Ordering;
use std::ops::RangeInclusive;

const HEADER: usize = 32;
const MOST: usize = 256;
const NONE: u32 = u32::MAX;

/// The bytes of a record, and of one of its properties.
type Record = [u8; 224];
type Part = [u8; 24];

/// Makes a new table.
pub fn new_table(table: &mut [u8], side: u8, feature: &Feature) -> Result<(), Refusal> {
    let header: &mut [u8; HEADER] = table.first_chunk_mut().ok_or(Refusal::Short)?;
    if side > 1 {
        return Err(Refusal::Name);
    }
    header[..8].copy_from_slice(&[b'T', b'S', b'L', side, 0, 1, 0, 0]);
    header[8..24].copy_from_slice(feature);
    header[24..].fill(0);
    Ok(())
}

/// Delivers a slice to a table.
pub fn arrive<C: Check>(table: &mut [u8], slice: &[u8]) -> Result<Arrival, Refusal> {
    let count = check_table::<C>(table, 0..=1)?.len();
    let record = check_slice::<C>(slice, &table[8..24], table[3])?;
    let (records, _) = table[HEADER..].as_chunks_mut::<224>();
    let room = records.len().min(MOST);
    match records[..count].binary_search_by_key(&key(record), key) {
        Ok(index) => correct(&mut records[index], record),
        Err(_) if count == room => Err(Refusal::Full),
        Err(index) => {
            records.copy_within(index..count, index + 1);
            records[index] = *record;
            table[6..8].copy_from_slice(&(count as u16 + 1).to_be_bytes());
            Ok(Arrival::Added)
        }
    }
}

/// Compares a record with the stored one of the same key, which it may replace.
fn correct(stored: &mut Record, record: &Record) -> Result<Arrival, Refusal> {
    match correction(record).cmp(&correction(stored)) {
        Ordering::Greater => {
            *stored = *record;
            Ok(Arrival::Replaced)
        }
        Ordering::Less => Ok(Arrival::Superseded),
        Ordering::Equal if stored == record => Ok(Arrival::Repeat),
        Ordering::Equal => Err(Refusal::Clash),
    }
}

/// Returns the records that a table of one of the sides counts, or the first refusal, 1 to 7.
fn check_table<C: Check>(table: &[u8], sides: RangeInclusive<u8>) -> Result<&[Record], Refusal> {
    let (header, rest) = table.split_first_chunk::<HEADER>().ok_or(Refusal::Short)?;
    let side = header[3];
    if header[..3] != *b"TSL" || !sides.contains(&side) {
        return Err(Refusal::Name);
    }
    if header[4..6] != [0, 1] {
        return Err(Refusal::Version);
    }
    if header[24..] != [0; 8] {
        return Err(Refusal::Header);
    }
    let count = usize::from(u16::from_be_bytes([header[6], header[7]]));
    let (records, _) = rest.as_chunks();
    if count > records.len().min(MOST) {
        return Err(Refusal::Count);
    }
    let records = &records[..count];
    check_records::<C>(records, side)?;
    Ok(records)
}

/// Returns 6 if a record is not sound, or else 7 if their keys do not ascend, in one pass.
fn check_records<C: Check>(records: &[Record], side: u8) -> Result<(), Refusal> {
    let mut is_rising = true;
    let mut last = 0;
    for record in records {
        check_record::<C>(record, side).map_err(|_| Refusal::Record)?;
        // Every key of a sound record is above 0, since every kind is.
        is_rising &= last < key(record);
        last = key(record);
    }
    is_rising.then_some(()).ok_or(Refusal::Order)
}

/// Returns the record of a slice, or the first refusal, 9 to 16.
fn check_slice<'a, C: Check>(
    slice: &'a [u8],
    feature: &[u8],
    side: u8,
) -> Result<&'a Record, Refusal> {
    let slice: &[u8; 240] = slice.try_into().map_err(|_| Refusal::Length)?;
    if slice[..16] != *feature {
        return Err(Refusal::Feature);
    }
    let record = slice.last_chunk().expect("240 bytes end with 224");
    check_record::<C>(record, side)?;
    Ok(record)
}

/// Returns the first refusal, 11 to 16, of a record, if any.
fn check_record<C: Check>(record: &Record, side: u8) -> Result<(), Refusal> {
    let kind = record[0];
    if !matches!((side, kind), (0, 1 | 2) | (1, 3)) {
        return Err(Refusal::Kind);
    }
    if record[1] > 1 || record[24..32] != [0; 8] {
        return Err(Refusal::Spare);
    }
    if record[1] == 1 {
        let is_empty = record[8..24] == [255; 16] && record[32..] == [0; 192];
        return is_empty.then_some(()).ok_or(Refusal::Cancelled);
    }
    let mentions = mentions::<C>(record).ok_or(Refusal::Layout)?;
    let times = [8, 12, 16, 20].map(|at| number(record, at));
    if !times_are_right(kind, times) {
        return Err(Refusal::Times);
    }
    let has_life = times[2] != NONE || times[3] != NONE;
    let is_enough = match kind {
        1 => mentions == 8,
        2 => mentions > 0 || has_life,
        _ => mentions > 0,
    };
    is_enough.then_some(()).ok_or(Refusal::Content)
}

/// Returns how many properties of a record are mentioned, if all of them keep the layout.
fn mentions<C: Check>(record: &Record) -> Option<usize> {
    let (parts, _) = record[32..].as_chunks();
    let mut mentions = 0;
    for part in parts {
        if !C::is_sound(part) {
            return None;
        }
        mentions += usize::from(part[0] != 0);
    }
    Some(mentions)
}

/// Returns whether begin, end, life begin and life end are right for a kind.
fn times_are_right(kind: u8, [begin, end, life_begin, life_end]: [u32; 4]) -> bool {
    let is_given = begin != NONE;
    match kind {
        // "None" is above every time, so an end of none is after the begin.
        1 => {
            is_given
                && end > begin
                && (life_begin == NONE || life_begin <= begin)
                && life_end > begin
                && (end == NONE || end <= life_end)
        }
        2 => {
            is_given
                && end == NONE
                && (life_begin == NONE || life_begin == begin)
                && (life_end == NONE || life_end == begin)
                && (life_begin == NONE || life_end == NONE)
        }
        _ => is_given && end > begin && life_begin == NONE && life_end == NONE,
    }
}

/// Returns the number of four bytes of a record.
fn number(record: &Record, at: usize) -> u32 {
    let bytes = [record[at], record[at + 1], record[at + 2], record[at + 3]];
    u32::from_be_bytes(bytes)
}

/// Returns the correction number of a record.
fn correction(record: &Record) -> u16 {
    u16::from_be_bytes([record[2], record[3]])
}

/// Returns kind and sequence number as one number with the same order.
fn key(record: &Record) -> u64 {
    u64::from(record[0]) << 32 | u64::from(number(record, 4))
}
