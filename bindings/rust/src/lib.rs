//! The time slices of one aeronautical feature, by the AIXM Temporality Model 1.0.
//!
//! A feature has two tables, which are buffers of bytes: the permanent table holds its BASELINEs and
//! PERMDELTAs, the temporary table its TEMPDELTAs. [`arrive`] delivers a slice to a table.
//! [`permanent_state`], [`snapshot`], [`property`](property()) and [`touched`] ask about an instant.
//! [`derive`](derive()) and [`listing`] derive baselines. The file `docs/FORMAT.md` of the repository describes
//! the bytes.
//!
//! This crate calls the proved library of the same name. For every table, slice and instant it is proved
//! what a call returns and which bytes it writes. A refused call returns a [`Refusal`] and changes no byte.
//! The calls allocate no memory, except [`listing_string`], and keep no state, so they can run in several
//! threads at once.
//!
//! # Examples
//!
//! ```
//! use timeslices::{arrive, new_table, property, table_bytes};
//! use timeslices::{Arrival, Feature, Instant, Mention, Side, SLICE_BYTES};
//!
//! /// Returns a slice with sequence number 1 that mentions one property: property 0 is a code.
//! fn slice(feature: &Feature, kind: u8, begin: Instant, code: u16) -> [u8; SLICE_BYTES] {
//!     let mut slice = [0; SLICE_BYTES];
//!     slice[..16].copy_from_slice(feature);
//!     slice[16] = kind; // 1 BASELINE, 2 PERMDELTA, 3 TEMPDELTA
//!     slice[23] = 1;
//!     slice[24..28].copy_from_slice(&begin.to_be_bytes());
//!     slice[28..40].fill(255); // no end, no life begin, no life end
//!     slice[48] = 2;
//!     slice[56..58].copy_from_slice(&code.to_be_bytes());
//!     slice
//! }
//!
//! fn main() -> Result<(), Box<dyn std::error::Error>> {
//!     let feature = [7; 16];
//!     let mut permanent = vec![0; table_bytes(20)];
//!     let mut temporary = vec![0; table_bytes(20)];
//!     new_table(&mut permanent, Side::Permanent, &feature)?;
//!     new_table(&mut temporary, Side::Temporary, &feature)?;
//!
//!     // An opening PERMDELTA: the feature's life begins at its instant.
//!     let opened: Instant = "2026-11-15T06:00:00Z".parse()?;
//!     let mut opening = slice(&feature, 2, opened, 1);
//!     opening[32..36].copy_from_slice(&opened.to_be_bytes());
//!     assert_eq!(arrive(&mut permanent, &opening)?, Arrival::Added);
//!
//!     // A TEMPDELTA changes property 0 from the evening on.
//!     let evening: Instant = "2026-11-15T18:00:00Z".parse()?;
//!     assert_eq!(arrive(&mut temporary, &slice(&feature, 3, evening, 2))?, Arrival::Added);
//!
//!     for (instant, table, code) in [(opened, "permanent", 1), (evening, "temporary", 2)] {
//!         let (found, bytes) = match property(&permanent, &temporary, instant, 0)? {
//!             Mention::Permanent(bytes) => ("permanent", bytes),
//!             Mention::Temporary(bytes) => ("temporary", bytes),
//!             Mention::Unmentioned => ("neither", &[][..]),
//!         };
//!         assert_eq!(found, table);
//!         assert_eq!(bytes[8..10], [0, code]);
//!     }
//!     Ok(())
//! }
//! ```

#![deny(missing_docs)]
#![deny(unsafe_op_in_unsafe_fn)]
#![deny(unsafe_code)]

mod answers;
#[allow(unsafe_code)]
mod calls;
mod instant;
#[allow(unsafe_code)]
mod raw;
mod refusal;

pub use answers::{Arrival, ListingNeeds, Mention, Side, Touched};
pub use calls::{
    arrive, derive, listing, listing_string, new_table, permanent_state, property, snapshot,
    touched,
};
pub use instant::{Instant, NoInstant, Utc, NONE};
pub use refusal::{NoRefusal, Refusal};

/// The identifier of a feature: a UUID. Any 16 bytes are accepted.
pub type Feature = [u8; 16];

/// The length of a table's header, in bytes.
pub const HEADER_BYTES: usize = 32;

/// The length of a record, in bytes. States and snapshots are records too.
pub const RECORD_BYTES: usize = 224;

/// The length of a slice in delivery, in bytes: the feature's identifier, then a record.
pub const SLICE_BYTES: usize = 16 + RECORD_BYTES;

/// The length of a property, in bytes.
pub const PROPERTY_BYTES: usize = 24;

/// The largest number of records that a table has room for.
pub const MOST_RECORDS: usize = 256;

/// The length of a table with room for [`MOST_RECORDS`], in bytes. It holds every result of [`derive()`].
pub const LARGEST_TABLE: usize = table_bytes(MOST_RECORDS);

/// A length that holds every listing, in bytes.
pub const LISTING_BYTES: usize = 10_771;

/// Returns the length of a table with room for this many records, but for [`MOST_RECORDS`] at most.
///
/// # Examples
///
/// ```
/// use timeslices::{table_bytes, LARGEST_TABLE};
///
/// assert_eq!(table_bytes(0), 32);
/// assert_eq!(table_bytes(2), 480);
/// assert_eq!(table_bytes(256), LARGEST_TABLE);
/// assert_eq!(table_bytes(257), LARGEST_TABLE);
/// ```
pub const fn table_bytes(records: usize) -> usize {
    let records = if records < MOST_RECORDS {
        records
    } else {
        MOST_RECORDS
    };
    HEADER_BYTES + records * RECORD_BYTES
}
