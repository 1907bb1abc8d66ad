//! Slices and tables for the tests: property 0 is a code, sequence numbers are small, correction 0.

use timeslices::{
    arrive, new_table, table_bytes, Arrival, Feature, Instant, Refusal, Side, NONE, SLICE_BYTES,
};

/// A slice in delivery.
pub type Slice = [u8; SLICE_BYTES];

/// The feature of the tests.
pub const FEATURE: Feature = [0x5e; 16];

/// What the bytes of a buffer are before a call.
pub const FILL: u8 = 0xa5;

/// Where the fields of a record begin in a slice.
pub const FLAGS: usize = 17;
pub const CORRECTION: usize = 18;
pub const TIMES: usize = 24;
pub const LIFE_BEGIN: usize = 32;
pub const LIFE_END: usize = 36;
pub const PARTS: usize = 48;

/// The first bytes of a property: nil, missing.
pub const MISSING: [u8; 2] = [1, 2];

/// Returns an instant.
pub fn at(seconds: u32) -> Instant {
    Instant::new(seconds).expect("not none")
}

/// Returns the slice with some of its bytes set.
pub fn with(mut slice: Slice, place: usize, bytes: &[u8]) -> Slice {
    slice[place..place + bytes.len()].copy_from_slice(bytes);
    slice
}

/// Returns the slice with one of its times set.
pub fn timed(slice: Slice, place: usize, time: u32) -> Slice {
    with(slice, place, &time.to_be_bytes())
}

/// Makes a slice of a kind and a sequence number without times and properties.
pub fn blank(kind: u8, sequence: u8) -> Slice {
    let head = [kind, 0, 0, 0, 0, 0, 0, sequence];
    let slice = with([0; SLICE_BYTES], 0, &[&FEATURE[..], &head].concat());
    with(slice, TIMES, &[255; 16])
}

/// Makes a slice of a period whose property 0 is a code.
fn coded(kind: u8, sequence: u8, begin: u32, end: u32, code: u8) -> Slice {
    let slice = timed(blank(kind, sequence), TIMES, begin);
    with(
        timed(slice, TIMES + 4, end),
        PARTS,
        &[2, 0, 0, 0, 0, 0, 0, 0, 0, code],
    )
}

/// Makes a BASELINE whose life begins with it; the rest of its properties are nil, missing.
pub fn b(sequence: u8, begin: u32, end: u32, code: u8) -> Slice {
    let slice = timed(coded(1, sequence, begin, end, code), LIFE_BEGIN, begin);
    (1..8).fold(slice, |slice, property| {
        with(slice, PARTS + 24 * property, &MISSING)
    })
}

/// Makes a PERMDELTA.
pub fn p(sequence: u8, instant: u32, code: u8) -> Slice {
    coded(2, sequence, instant, NONE, code)
}

/// Makes a TEMPDELTA.
pub fn t(sequence: u8, begin: u32, end: u32, code: u8) -> Slice {
    coded(3, sequence, begin, end, code)
}

/// Makes "B" alone: sequence 1, from 100 without an end, value 1.
pub fn base() -> Slice {
    b(1, 100, NONE, 1)
}

/// Makes the PERMDELTA of sequence 1 that ends the life at an instant, and mentions nothing.
pub fn closing(instant: u32) -> Slice {
    timed(timed(blank(2, 1), TIMES, instant), LIFE_END, instant)
}

/// Returns the slice with a correction number.
pub fn corrected(slice: Slice, correction: u8) -> Slice {
    with(slice, CORRECTION, &[0, correction])
}

/// Makes the cancellation of a kind and a sequence number: correction 1.
pub fn cancelled(kind: u8, sequence: u8) -> Slice {
    corrected(with(blank(kind, sequence), FLAGS, &[1]), 1)
}

/// Makes an empty table with room for this many records.
pub fn empty(side: Side, room: usize) -> Vec<u8> {
    let mut table = vec![FILL; table_bytes(room)];
    new_table(&mut table, side, &FEATURE).expect("a table of this length can be made");
    table
}

/// The two tables of a feature.
#[derive(Clone, PartialEq, Debug)]
pub struct Tables {
    pub permanent: Vec<u8>,
    pub temporary: Vec<u8>,
}

impl Tables {
    /// Makes two tables with room for four records each, and delivers slices, which must all be added.
    pub fn of(slices: &[Slice]) -> Tables {
        let mut tables = Tables {
            permanent: empty(Side::Permanent, 4),
            temporary: empty(Side::Temporary, 4),
        };
        for slice in slices {
            assert_eq!(tables.take(slice), Ok(Arrival::Added));
        }
        tables
    }

    /// Delivers a slice to the table of its kind.
    pub fn take(&mut self, slice: &Slice) -> Result<Arrival, Refusal> {
        let table = match slice[16] {
            3 => &mut self.temporary,
            _ => &mut self.permanent,
        };
        arrive(table, slice)
    }
}
