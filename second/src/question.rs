//! The questions about an instant: the permanent state, the snapshot, and one property.

use crate::layout::{bytes_of, HEAD_BYTES, PROPERTIES, PROPERTY_BYTES, RECORD_BYTES};
use crate::record::{Instant, Record, Side};
use crate::refusal::{hold, Refusal};
use crate::state::{lasting, mentions, passing, State};
use crate::table::{Sides, Table};
use std::fmt;

/// A property's bytes, and where they are in the table of a side.
#[derive(Clone, Copy, Debug, PartialEq)]
pub struct Part {
    pub side: Side,
    pub place: usize,
    pub bytes: [u8; PROPERTY_BYTES],
}

/// Returns a permanent and a temporary table of one feature, or the first refusal, 1 to 8.
fn both(permanent: &[u8], temporary: &[u8]) -> Result<(Table, Table), Refusal> {
    let permanent = Table::read(permanent, Sides::Permanent)?;
    let temporary = Table::read(temporary, Sides::Temporary)?;
    hold(
        permanent.feature == temporary.feature,
        Refusal::OtherFeature,
    )?;
    Ok((permanent, temporary))
}

/// Returns the instant of a question, or 19 if it is "none".
pub fn asked(instant: u32) -> Result<Instant, Refusal> {
    Instant::given(instant).ok_or(Refusal::Asked)
}

/// Returns the property that a question names, or 19 if there is none of this number.
pub fn known(property: u8) -> Result<usize, Refusal> {
    let property = usize::from(property);
    hold(property < PROPERTIES, Refusal::Asked)?;
    Ok(property)
}

/// Returns 23 if the buffer is not exactly one record long.
fn fits(record: &[u8]) -> Result<(), Refusal> {
    hold(record.len() == RECORD_BYTES, Refusal::Buffer)
}

/// Writes the state after some records are applied, as the record of an instant.
fn write(applied: &[&Record], instant: Instant, record: &mut [u8]) {
    let state = State::after(applied).record(instant);
    record.copy_from_slice(&state.write());
}

/// Writes the permanent state at an instant; if the question is refused, no byte changes.
pub fn permanent_state(permanent: &[u8], instant: u32, record: &mut [u8]) -> Result<(), Refusal> {
    let table = Table::read(permanent, Sides::Permanent)?;
    let instant = asked(instant)?;
    fits(record)?;
    write(&lasting(&table, instant)?, instant, record);
    Ok(())
}

/// Writes the snapshot at an instant; if the question is refused, no byte changes.
pub fn snapshot(
    permanent: &[u8],
    temporary: &[u8],
    instant: u32,
    record: &mut [u8],
) -> Result<(), Refusal> {
    let (permanent, temporary) = both(permanent, temporary)?;
    let instant = asked(instant)?;
    fits(record)?;
    let mut applied = lasting(&permanent, instant)?;
    applied.extend(passing(&temporary, instant));
    write(&applied, instant, record);
    Ok(())
}

/// Returns the property from the last record that mentions it, if one does.
pub fn property(
    permanent: &[u8],
    temporary: &[u8],
    instant: u32,
    property: u8,
) -> Result<Option<Part>, Refusal> {
    let (permanent, temporary) = both(permanent, temporary)?;
    let instant = asked(instant)?;
    let property = known(property)?;
    let lasting = lasting(&permanent, instant)?.into_iter();
    let passing = passing(&temporary, instant).into_iter();
    let of_permanent = lasting.map(|record| (&permanent, record));
    let of_temporary = passing.map(|record| (&temporary, record));
    let last = of_permanent
        .chain(of_temporary)
        .rfind(|(_, record)| mentions(record, property));
    Ok(last.map(|(table, record)| Part::of(table, record, property)))
}

impl Part {
    /// Returns a property that a record of the table mentions.
    fn of(table: &Table, record: &Record, property: usize) -> Part {
        let index = table.records.keys().position(|key| *key == record.key());
        let index = index.expect("the record is one of the table");
        let value = record.properties[property].expect("a mentioned property has a value");
        Part {
            side: table.side,
            place: bytes_of(index) + HEAD_BYTES + property * PROPERTY_BYTES,
            bytes: value.write(),
        }
    }
}

impl fmt::Display for Side {
    /// Writes the word that the specification has for the side.
    fn fmt(&self, out: &mut fmt::Formatter) -> fmt::Result {
        out.write_str(match self {
            Side::Permanent => "permanent",
            Side::Temporary => "temporary",
        })
    }
}
