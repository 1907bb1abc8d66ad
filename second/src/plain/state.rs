//! The questions about an instant, by one pass over the records of each table.

use super::part::Check;
use super::{check_table, number, Part, Record, HEADER, NONE};
use crate::record::Side;
use crate::refusal::Refusal;
use crate::touched::Touched;

/// The bytes of a property that nothing mentions: nil, unknown.
pub const UNKNOWN: Part = {
    let mut part = [0; 24];
    part[0] = 1;
    part[1] = 4;
    part
};

/// The bytes before the times of a state that is written as a record.
const STATE: [u8; 8] = [4, 0, 0, 0, 0, 0, 0, 0];

/// Where the times are in a record.
pub const BEGIN: usize = 8;
pub const END: usize = 12;
pub const LIFE_BEGIN: usize = 16;
pub const LIFE_END: usize = 20;

/// The table of a property's bytes, and where they begin in it, if anything mentions it.
type Place = Option<(Side, usize)>;

/// A value from the latest record so far, and that record's turn in the order of changes.
#[derive(Clone, Copy)]
struct Latest<T> {
    turn: u64,
    said: T,
}

impl<T> Latest<T> {
    /// Takes a record's value, unless it already has that of a later record.
    fn hear(&mut self, turn: u64, said: T) {
        if turn > self.turn {
            *self = Latest { turn, said };
        }
    }
}

/// The records of the permanent table that are applied at an instant.
struct Line<'a> {
    anchor: &'a Record,
    /// The turn after which changes are applied, and the changes that may be.
    after: u64,
    changes: &'a [Record],
    instant: u32,
}

/// Writes the permanent state at an instant.
pub fn permanent_state<C: Check>(
    permanent: &[u8],
    instant: u32,
    record: &mut [u8],
) -> Result<(), Refusal> {
    let records = check_table::<C>(permanent, 0..=0)?;
    let record = check_asked(instant, record)?;
    let (life, parts) = state_at(by_kind(records), instant)?;
    write(record, STATE, [instant, NONE, life[0], life[1]], &parts);
    Ok(())
}

/// Writes the snapshot at an instant.
pub fn snapshot<C: Check>(
    tables: [&[u8]; 2],
    instant: u32,
    record: &mut [u8],
) -> Result<(), Refusal> {
    let [lasting, passing] = check_tables::<C>(tables)?;
    let record = check_asked(instant, record)?;
    let (life, mut parts) = state_at(by_kind(lasting), instant)?;
    for delta in passing.iter().filter(|delta| holds(delta, instant)) {
        for (latest, part) in parts.iter_mut().zip(parts_of(delta)) {
            if part[0] != 0 {
                *latest = part;
            }
        }
    }
    write(record, STATE, [instant, NONE, life[0], life[1]], &parts);
    Ok(())
}

/// Returns the table whose record mentions a property last, and the offset of its bytes.
pub fn property<C: Check>(tables: [&[u8]; 2], instant: u32, number: u8) -> Result<Place, Refusal> {
    let [lasting, passing] = check_tables::<C>(tables)?;
    let property = check_property(instant, number)?;
    let last = Line::at(by_kind(lasting), instant)?.last_mention(property)?;
    let place = |index: usize| HEADER + 224 * index + 32 + 24 * property;
    if let Some(index) = last_touch(passing, instant, property) {
        return Ok(Some((Side::Temporary, place(index))));
    }
    Ok(last.map(|record| {
        let index = lasting
            .element_offset(record)
            .expect("a record of the table");
        (Side::Permanent, place(index))
    }))
}

/// Returns whether a TEMPDELTA of the instant mentions a property. Goes from the last record
/// downward, and stops at the first one that does.
pub fn touched<C: Check>(temporary: &[u8], instant: u32, number: u8) -> Result<Touched, Refusal> {
    let passing = check_table::<C>(temporary, 1..=1)?;
    let property = check_property(instant, number)?;
    let last = last_touch(passing, instant, property);
    Ok(Touched {
        is_touched: last.is_some(),
        looked: passing.len() - last.unwrap_or(0),
    })
}

/// Returns the index of the last TEMPDELTA of the instant that mentions a property, if one does.
fn last_touch(passing: &[Record], instant: u32, property: usize) -> Option<usize> {
    let touches = |delta: &Record| holds(delta, instant) && parts_of(delta)[property][0] != 0;
    passing.iter().rposition(touches)
}

/// Returns the life times and the properties of the permanent state of sound records, or 21, 20 or
/// 22.
fn state_at(kinds: [&[Record]; 2], instant: u32) -> Result<([u32; 2], [&Part; 8]), Refusal> {
    Line::at(kinds, instant)?.state()
}

/// Returns the BASELINEs and the PERMDELTAs of sound records.
fn by_kind(records: &[Record]) -> [&[Record]; 2] {
    let (baselines, changes) = records.split_at(records.partition_point(|one| one[0] == 1));
    [baselines, changes]
}

/// Returns the records of both tables, or the first refusal, 1 to 8.
fn check_tables<C: Check>([permanent, temporary]: [&[u8]; 2]) -> Result<[&[Record]; 2], Refusal> {
    let lasting = check_table::<C>(permanent, 0..=0)?;
    let passing = check_table::<C>(temporary, 1..=1)?;
    if permanent[8..24] != temporary[8..24] {
        return Err(Refusal::OtherFeature);
    }
    Ok([lasting, passing])
}

/// Returns the record that is to be written, or 19 or 23.
fn check_asked(instant: u32, record: &mut [u8]) -> Result<&mut Record, Refusal> {
    if instant == NONE {
        return Err(Refusal::Asked);
    }
    record.try_into().map_err(|_| Refusal::Buffer)
}

/// Returns the property of a question about an instant, or 19.
fn check_property(instant: u32, number: u8) -> Result<usize, Refusal> {
    if instant == NONE || number > 7 {
        return Err(Refusal::Asked);
    }
    Ok(number.into())
}

/// Returns the eight properties of a record.
pub fn parts_of(record: &Record) -> &[Part; 8] {
    let (parts, _) = record[32..].as_chunks();
    parts.try_into().expect("192 bytes are eight properties")
}

/// Returns the eight properties of a record, for changing them.
pub fn parts_of_mut(record: &mut Record) -> &mut [Part; 8] {
    let (parts, _) = record[32..].as_chunks_mut();
    parts.try_into().expect("192 bytes are eight properties")
}

/// Returns whether a record is counted and its period has the instant. A cancelled record has no
/// begin, and "none" is above every instant.
fn holds(record: &Record, instant: u32) -> bool {
    number(record, BEGIN) <= instant && instant < number(record, END)
}

/// Returns the instant and the sequence number of a change as one number with the same order.
fn turn(record: &Record) -> u64 {
    u64::from(number(record, BEGIN)) << 32 | u64::from(number(record, 4))
}

/// Returns the only BASELINE that holds at an instant, if one does, or 21; in one pass. Without an
/// end, only those of the latest begin by the instant can hold: that begin has closed all others.
fn baseline_at(baselines: &[Record], instant: u32) -> Result<Option<&Record>, Refusal> {
    let (mut fixed, mut open) = (None, None);
    let (mut fixed_count, mut open_count, mut latest) = (0, 0, 0);
    for one in baselines {
        let (begin, end) = (number(one, BEGIN), number(one, END));
        // A cancelled record has no begin, and "none" is above every instant.
        if begin > instant {
            continue;
        }
        if end == NONE {
            if begin >= latest {
                open_count = if begin > latest { 1 } else { open_count + 1 };
                latest = begin;
                open = Some(one);
            }
            continue;
        }
        if begin > latest {
            latest = begin;
            open_count = 0;
        }
        if instant < end {
            fixed_count += 1;
            fixed = Some(one);
        }
    }
    if fixed_count + open_count > 1 {
        return Err(Refusal::TwoAnchors);
    }
    Ok(if open_count == 1 { open } else { fixed })
}

impl<'a> Line<'a> {
    /// Returns what is applied at an instant, or 21 or 20.
    fn at([baselines, changes]: [&'a [Record]; 2], instant: u32) -> Result<Line<'a>, Refusal> {
        let (anchor, after) = if let Some(baseline) = baseline_at(baselines, instant)? {
            (baseline, turn(baseline) | u64::from(u32::MAX))
        } else {
            let opening = Line::opening(changes, instant)?;
            (opening, turn(opening))
        };
        Ok(Line {
            anchor,
            after,
            changes,
            instant,
        })
    }

    /// Returns the only opening by an instant, or 21 or 20.
    fn opening(changes: &'a [Record], instant: u32) -> Result<&'a Record, Refusal> {
        let mut openings = changes
            .iter()
            .filter(|one| number(one, LIFE_BEGIN) != NONE && holds(one, instant));
        let opening = openings.next().ok_or(Refusal::NoState)?;
        match openings.next() {
            Some(_) => Err(Refusal::TwoAnchors),
            None => Ok(opening),
        }
    }

    /// Returns the changes that are applied, with their turns, as they are stored.
    fn changes(&self) -> impl Iterator<Item = (u64, &'a Record)> {
        let (after, instant) = (self.after, self.instant);
        self.changes
            .iter()
            .map(|change| (turn(change), change))
            .filter(move |(turn, change)| *turn > after && holds(change, instant))
    }

    /// Makes a latest value from the anchor.
    fn said<T>(&self, said: T) -> Latest<T> {
        Latest {
            turn: self.after,
            said,
        }
    }

    /// Returns 22 if a life end is given and reached.
    fn check_life(&self, life_end: u32) -> Result<(), Refusal> {
        if life_end <= self.instant {
            return Err(Refusal::Withdrawn);
        }
        Ok(())
    }

    /// Returns the life times and the properties of the permanent state, or 22.
    fn state(&self) -> Result<([u32; 2], [&'a Part; 8]), Refusal> {
        let mut parts = parts_of(self.anchor).each_ref().map(|part| self.said(part));
        let mut life = [LIFE_BEGIN, LIFE_END].map(|at| self.said(number(self.anchor, at)));
        for (turn, change) in self.changes() {
            for (latest, part) in parts.iter_mut().zip(parts_of(change)) {
                if part[0] != 0 {
                    latest.hear(turn, part);
                }
            }
            for (latest, at) in life.iter_mut().zip([LIFE_BEGIN, LIFE_END]) {
                if number(change, at) != NONE {
                    latest.hear(turn, number(change, at));
                }
            }
        }
        let life = life.map(|latest| latest.said);
        self.check_life(life[1])?;
        Ok((life, parts.map(|latest| latest.said)))
    }

    /// Returns the record that mentions a property last, if one does, or 22.
    fn last_mention(&self, property: usize) -> Result<Option<&'a Record>, Refusal> {
        let mut last = self.said(self.anchor);
        let mut life_end = self.said(number(self.anchor, LIFE_END));
        for (turn, change) in self.changes() {
            if parts_of(change)[property][0] != 0 {
                last.hear(turn, change);
            }
            if number(change, LIFE_END) != NONE {
                life_end.hear(turn, number(change, LIFE_END));
            }
        }
        self.check_life(life_end.said)?;
        Ok(Some(last.said).filter(|record| parts_of(record)[property][0] != 0))
    }
}

/// Writes a state as a record: the bytes before the times, the times, and the properties.
fn write(record: &mut Record, key: [u8; 8], times: [u32; 4], parts: &[&Part; 8]) {
    record[..BEGIN].copy_from_slice(&key);
    for (at, time) in [BEGIN, END, LIFE_BEGIN, LIFE_END].into_iter().zip(times) {
        record[at..at + 4].copy_from_slice(&time.to_be_bytes());
    }
    record[24..32].fill(0);
    let (places, _) = record[32..].as_chunks_mut();
    for (place, part) in places.iter_mut().zip(parts) {
        *place = if part[0] == 0 { UNKNOWN } else { **part };
    }
}
