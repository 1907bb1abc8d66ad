//! The evening of the cancelled runway change, for a load planner.
//!
//! A runway is 3048 M long. A PERMDELTA shortens it to 2100 M at 2020-12-31T00:00:00Z. The evening before,
//! the change is cancelled, and then the change itself arrives once more. The night is planned with 3048 M:
//! the cancelled change does not come back.
//!
//! The program prints night.txt: the answer to each slice, the listing of the derived baselines, and the
//! length of the runway at each planned instant.

use std::error::Error;
use std::fmt::Write;
use timeslices::{
    arrive, listing_string, new_table, property, snapshot, table_bytes, Feature, Instant, Side,
    PROPERTY_BYTES, RECORD_BYTES, SLICE_BYTES,
};

/// The runway's identifier.
const RUNWAY: Feature = *b"runway 09L / 27R";

/// The planned instants: the last one of the old length, the first one of the new length, and a departure.
const PLANNED: [&str; 3] = [
    "2020-12-30T23:59:59Z",
    "2020-12-31T00:00:00Z",
    "2020-12-31T02:30:00Z",
];

/// The two tables of the runway, and the text to print.
struct Desk {
    permanent: Vec<u8>,
    temporary: Vec<u8>,
    text: String,
}

/// Prints the night.
fn main() -> Result<(), Box<dyn Error>> {
    print!("{}", night()?);
    Ok(())
}

/// Returns the text to print.
pub fn night() -> Result<String, Box<dyn Error>> {
    let mut desk = Desk::new()?;
    let shortening = shortening("2020-12-31T00:00:00Z".parse()?);
    desk.take(
        "a runway of 3048 M",
        &runway("2020-01-02T00:00:00Z".parse()?),
    )?;
    desk.take("its shortening to 2100 M", &shortening)?;
    desk.plan()?;
    desk.text.push_str("\nThe evening before:\n");
    desk.take("the cancellation, correction 1", &cancellation())?;
    desk.take("the shortening once more, correction 0", &shortening)?;
    desk.plan()?;
    Ok(desk.text)
}

impl Desk {
    /// Creates two empty tables.
    fn new() -> Result<Desk, Box<dyn Error>> {
        let (mut permanent, mut temporary) = (vec![0; table_bytes(20)], vec![0; table_bytes(20)]);
        new_table(&mut permanent, Side::Permanent, &RUNWAY)?;
        new_table(&mut temporary, Side::Temporary, &RUNWAY)?;
        let text = String::new();
        Ok(Desk {
            permanent,
            temporary,
            text,
        })
    }

    /// Delivers a slice to the permanent table, and adds the answer to the text.
    fn take(&mut self, name: &str, slice: &[u8]) -> Result<(), Box<dyn Error>> {
        let arrival = arrive(&mut self.permanent, slice)?;
        Ok(writeln!(self.text, "{arrival:?}: {name}")?)
    }

    /// Adds the listing to the text, and the runway's length at each planned instant.
    fn plan(&mut self) -> Result<(), Box<dyn Error>> {
        let listing = listing_string(&self.permanent);
        write!(self.text, "\n{listing}\n")?;
        for planned in PLANNED {
            let length = self.length(planned.parse()?)?;
            writeln!(self.text, "{planned} the runway is {length} M long")?;
        }
        Ok(())
    }

    /// Returns the runway's length at an instant, from the snapshot; the property must agree.
    fn length(&self, instant: Instant) -> Result<f64, Box<dyn Error>> {
        let mut record = [0; RECORD_BYTES];
        snapshot(&self.permanent, &self.temporary, instant, &mut record)?;
        let length = &record[32..32 + PROPERTY_BYTES];
        let mention = property(&self.permanent, &self.temporary, instant, 0)?;
        assert_eq!(mention.bytes(), Some(length));
        assert_eq!(length[..2], [4, 1], "a length in M");
        Ok(f64::from_be_bytes(length[8..16].try_into()?))
    }
}

/// Makes a slice of a kind (1 BASELINE, 2 PERMDELTA) with sequence number 1, without times.
fn slice(kind: u8) -> [u8; SLICE_BYTES] {
    let mut slice = [0; SLICE_BYTES];
    slice[..16].copy_from_slice(&RUNWAY);
    slice[16] = kind;
    slice[23] = 1;
    slice[24..40].fill(255);
    slice
}

/// Makes a slice from an instant on, with the length of the runway.
fn measured(kind: u8, begin: Instant, metres: f64) -> [u8; SLICE_BYTES] {
    let mut slice = slice(kind);
    slice[24..28].copy_from_slice(&begin.to_be_bytes());
    slice[48..50].copy_from_slice(&[4, 1]);
    slice[56..64].copy_from_slice(&metres.to_be_bytes());
    slice
}

/// Makes the BASELINE: 3048 M from an instant on, at which its life begins; the rest is nil, unknown.
fn runway(begin: Instant) -> [u8; SLICE_BYTES] {
    let mut slice = measured(1, begin, 3048.0);
    slice[32..36].copy_from_slice(&begin.to_be_bytes());
    for property in slice[48 + PROPERTY_BYTES..].chunks_mut(PROPERTY_BYTES) {
        property[..2].copy_from_slice(&[1, 4]);
    }
    slice
}

/// Makes the PERMDELTA that shortens the runway at an instant.
fn shortening(instant: Instant) -> [u8; SLICE_BYTES] {
    measured(2, instant, 2100.0)
}

/// Makes the cancellation of the PERMDELTA: correction 1, no times, no properties.
fn cancellation() -> [u8; SLICE_BYTES] {
    let mut slice = slice(2);
    slice[17] = 1;
    slice[19] = 1;
    slice
}
