//! The sizes of the layout: how many bytes a property, a record, a slice and a table have.

/// The bytes of one property.
pub const PROPERTY_BYTES: usize = 24;

/// The properties of one record.
pub const PROPERTIES: usize = 8;

/// The bytes of a record before its properties.
pub const HEAD_BYTES: usize = 32;

/// The bytes of one record.
pub const RECORD_BYTES: usize = 224;

/// The bytes of a feature identifier.
pub const FEATURE_BYTES: usize = 16;

/// The bytes of a slice in delivery: the feature identifier, then a record.
pub const SLICE_BYTES: usize = FEATURE_BYTES + RECORD_BYTES;

/// The bytes of a table before its records.
pub const HEADER_BYTES: usize = 32;

/// The most records of a table, whatever its bytes.
pub const MOST_RECORDS: usize = 256;

/// Returns how many bytes a table of this many records has, which is where its next record begins.
pub const fn bytes_of(records: usize) -> usize {
    HEADER_BYTES + records * RECORD_BYTES
}
