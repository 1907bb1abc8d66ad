//! A library under test, as a set of calls.

use crate::arrival::Arrival;
use crate::layout::PROPERTY_BYTES;
use crate::plain::{self, Check, Matched, Words};
use crate::record::Side;
use crate::refusal::Refusal;
use crate::table::Feature;
use crate::touched::Touched;

/// A reply as in the C interface. Kind 0 is a refusal and has its number. Whether a property is
/// touched has the number of records looked at there, derived baselines their count, and a listing
/// its length. Only a property has an offset and a size.
#[derive(Clone, Copy, Debug, PartialEq, Eq, PartialOrd, Ord)]
pub struct Reply {
    pub kind: u32,
    pub number: u32,
    pub at: u64,
    pub size: u64,
}

/// The calls of a library.
#[derive(Clone, Copy)]
pub struct Library {
    pub new_table: fn(&mut [u8], u8, &Feature) -> Reply,
    pub arrive: fn(&mut [u8], &[u8]) -> Reply,
    pub permanent_state: fn(&[u8], u32, &mut [u8]) -> Reply,
    pub snapshot: fn(&[u8], &[u8], u32, &mut [u8]) -> Reply,
    pub property: fn(&[u8], &[u8], u32, u8) -> Reply,
    pub touched: fn(&[u8], u32, u8) -> Reply,
    pub derive: fn(&[u8], &mut [u8]) -> Reply,
    pub listing: fn(&[u8], &mut [u8]) -> Reply,
}

/// The plain program, which matches on the form of a property and derives without a heap.
pub const PLAIN: Library = plain::<Matched>();

/// The plain program that derives with a heap.
pub const ON_HEAP: Library = Library {
    derive: |permanent, output| {
        Reply::of_derived(plain::derive_on_heap::<Matched>(permanent, output))
    },
    listing: |permanent, text| {
        let derive = plain::derive_on_heap::<Matched>;
        Reply::of_listing(plain::list(permanent, text, derive))
    },
    ..PLAIN
};

/// The plain programs that check a property by three numbers and a table of the forms. One checks
/// every property, the other skips those that are all zero.
pub const WORDS: Library = plain::<Words<false>>();
pub const WORDS_SKIPPING: Library = plain::<Words<true>>();

/// Returns the plain program that checks properties in one way, and derives without a heap.
const fn plain<C: Check>() -> Library {
    Library {
        new_table: |table, side, feature| Reply::of_writing(plain::new_table(table, side, feature)),
        arrive: |table, slice| Reply::of_arrival(plain::arrive::<C>(table, slice)),
        permanent_state: |permanent, instant, record| {
            Reply::of_writing(plain::permanent_state::<C>(permanent, instant, record))
        },
        snapshot: |permanent, temporary, instant, record| {
            let tables = [permanent, temporary];
            Reply::of_writing(plain::snapshot::<C>(tables, instant, record))
        },
        property: |permanent, temporary, instant, property| {
            let tables = [permanent, temporary];
            Reply::of_part(plain::property::<C>(tables, instant, property))
        },
        touched: |temporary, instant, property| {
            Reply::of_touched(plain::touched::<C>(temporary, instant, property))
        },
        derive: |permanent, output| Reply::of_derived(plain::derive::<C>(permanent, output)),
        listing: |permanent, text| {
            Reply::of_listing(plain::list(permanent, text, plain::derive::<C>))
        },
    }
}

impl Reply {
    /// Returns the reply of a kind, with a number: of a refusal, of records or of bytes.
    pub const fn new(kind: u32, number: u32) -> Reply {
        Reply {
            kind,
            number,
            at: 0,
            size: 0,
        }
    }

    /// Returns the reply of a refusal.
    fn refuse(refusal: Refusal) -> Reply {
        Reply::new(0, refusal.number().into())
    }

    /// Returns the reply of a new table, a permanent state or a snapshot.
    pub fn of_writing(written: Result<(), Refusal>) -> Reply {
        written.map_or_else(Reply::refuse, |()| Reply::new(1, 0))
    }

    /// Returns the reply of an arrival.
    pub fn of_arrival(arrival: Result<Arrival, Refusal>) -> Reply {
        arrival.map_or_else(Reply::refuse, |arrival| {
            let kind = match arrival {
                Arrival::Added => 1,
                Arrival::Replaced => 2,
                Arrival::Superseded => 3,
                Arrival::Repeat => 4,
            };
            Reply::new(kind, 0)
        })
    }

    /// Returns the reply of a property question, by the table of the property and its offset.
    pub fn of_part(part: Result<Option<(Side, usize)>, Refusal>) -> Reply {
        part.map_or_else(Reply::refuse, |part| {
            part.map_or(Reply::new(3, 0), |(side, place)| Reply {
                kind: 1 + u32::from(side.byte()),
                number: 0,
                at: place as u64,
                size: PROPERTY_BYTES as u64,
            })
        })
    }

    /// Returns the reply of whether a property is touched: 1 for yes, 2 for no.
    pub fn of_touched(touched: Result<Touched, Refusal>) -> Reply {
        touched.map_or_else(Reply::refuse, |touched| {
            let kind = if touched.is_touched { 1 } else { 2 };
            Reply::new(kind, touched.looked as u32)
        })
    }

    /// Returns the reply of derived baselines, by their number.
    pub fn of_derived(count: Result<usize, Refusal>) -> Reply {
        count.map_or_else(Reply::refuse, |count| Reply::new(1, count as u32))
    }

    /// Returns the reply of a listing, by its length, which is an error if it does not fit.
    pub fn of_listing(length: Result<usize, usize>) -> Reply {
        match length {
            Ok(length) => Reply::new(1, length as u32),
            Err(needed) => Reply::new(2, needed as u32),
        }
    }
}
