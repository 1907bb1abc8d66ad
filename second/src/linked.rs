//! The library, linked by its C interface.

use crate::library::{Library, Reply};
use crate::table::Feature;

/// The C interface, declared once for all who link it.
#[path = "../../bindings/rust/src/raw.rs"]
mod raw;

/// The linked library.
pub const LINKED: Library = Library {
    new_table,
    arrive,
    permanent_state,
    snapshot,
    property,
    touched,
    derive,
    listing,
};

impl raw::Answer {
    /// Returns the same as a reply.
    fn reply(self) -> Reply {
        Reply::new(self.kind, self.number)
    }
}

/// Calls the library for a new table.
fn new_table(table: &mut [u8], side: u8, feature: &Feature) -> Reply {
    // SAFETY: the pointers and the length are those of live parts that nothing else uses meanwhile;
    // the feature has the 16 bytes that the call reads.
    unsafe { raw::tsl_new_table(table.as_mut_ptr(), table.len(), side, feature) }.reply()
}

/// Calls the library for an arrival.
fn arrive(table: &mut [u8], slice: &[u8]) -> Reply {
    // SAFETY: both pointers and lengths are those of live parts that do not overlap.
    unsafe { raw::tsl_arrive(table.as_mut_ptr(), table.len(), slice.as_ptr(), slice.len()) }.reply()
}

/// Calls the library for a permanent state.
fn permanent_state(permanent: &[u8], instant: u32, record: &mut [u8]) -> Reply {
    // SAFETY: both pointers and lengths are those of live parts that do not overlap.
    unsafe {
        raw::tsl_permanent_state(
            permanent.as_ptr(),
            permanent.len(),
            instant,
            record.as_mut_ptr(),
            record.len(),
        )
    }
    .reply()
}

/// Calls the library for a snapshot.
fn snapshot(permanent: &[u8], temporary: &[u8], instant: u32, record: &mut [u8]) -> Reply {
    // SAFETY: the pointers and lengths are those of live parts; the record overlaps neither table.
    unsafe {
        raw::tsl_snapshot(
            permanent.as_ptr(),
            permanent.len(),
            temporary.as_ptr(),
            temporary.len(),
            instant,
            record.as_mut_ptr(),
            record.len(),
        )
    }
    .reply()
}

/// Calls the library for a property.
fn property(permanent: &[u8], temporary: &[u8], instant: u32, property: u8) -> Reply {
    // SAFETY: both pointers and lengths are those of live parts, which are only read.
    let part = unsafe {
        raw::tsl_property(
            permanent.as_ptr(),
            permanent.len(),
            temporary.as_ptr(),
            temporary.len(),
            instant,
            property,
        )
    };
    Reply {
        kind: part.kind,
        number: part.number,
        at: part.at,
        size: part.size,
    }
}

/// Calls the library for whether a property is touched.
fn touched(temporary: &[u8], instant: u32, property: u8) -> Reply {
    let (length, place) = (temporary.len(), temporary.as_ptr());
    // SAFETY: the pointer and the length are those of a live part, which is only read.
    unsafe { raw::tsl_touched(place, length, instant, property) }.reply()
}

/// Calls the library for derived baselines.
fn derive(permanent: &[u8], output: &mut [u8]) -> Reply {
    let (length, place) = (output.len(), output.as_mut_ptr());
    // SAFETY: both pointers and lengths are those of live parts that do not overlap.
    unsafe { raw::tsl_derive(permanent.as_ptr(), permanent.len(), place, length) }.reply()
}

/// Calls the library for a listing.
fn listing(permanent: &[u8], text: &mut [u8]) -> Reply {
    let (length, place) = (text.len(), text.as_mut_ptr());
    // SAFETY: both pointers and lengths are those of live parts that do not overlap.
    unsafe { raw::tsl_listing(permanent.as_ptr(), permanent.len(), place, length) }.reply()
}
