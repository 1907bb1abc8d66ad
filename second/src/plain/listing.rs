//! The listing of a permanent table, without a heap.

use super::state::{parts_of, BEGIN, END};
use super::{number, Record, HEADER, MOST, NONE};
use crate::refusal::Refusal;
use std::io::{self, Write};

/// The bytes that baselines are derived into.
const DERIVED: usize = HEADER + MOST * 224;

/// The most bytes of a line: three numbers, eight digits, three spaces and a line feed.
const LINE: usize = 3 + 10 + 10 + 8 + 4;

/// A program that derives baselines into an output.
type Derive = fn(&[u8], &mut [u8]) -> Result<usize, Refusal>;

/// Writes the listing, with baselines from this program, into the first bytes of the buffer, if it
/// fits; returns its length, as an error if it does not fit.
pub fn list(permanent: &[u8], text: &mut [u8], derive: Derive) -> Result<usize, usize> {
    let mut listing = [0; (MOST + 1) * LINE];
    let mut rest = &mut listing[..];
    write(permanent, &mut rest, derive).expect("there is room for every line");
    let left = rest.len();
    let length = listing.len() - left;
    let place = text.get_mut(..length).ok_or(length)?;
    place.copy_from_slice(&listing[..length]);
    Ok(length)
}

/// Writes the listing.
fn write(permanent: &[u8], text: &mut &mut [u8], derive: Derive) -> io::Result<()> {
    let mut derived = [0; DERIVED];
    match derive(permanent, &mut derived) {
        Err(refusal) => writeln!(text, "refused {}", refusal.number()),
        Ok(count) => {
            writeln!(text, "derived {count}")?;
            let (records, _) = derived[HEADER..].as_chunks();
            records[..count]
                .iter()
                .try_for_each(|one| write_line(one, text))
        }
    }
}

/// Writes the line of a derived record.
fn write_line(record: &Record, text: &mut &mut [u8]) -> io::Result<()> {
    write!(text, "{} {} ", number(record, 4), number(record, BEGIN))?;
    match number(record, END) {
        NONE => write!(text, "- ")?,
        end => write!(text, "{end} ")?,
    }
    let forms = parts_of(record).map(|part| b'0' + part[0]);
    text.write_all(&forms)?;
    writeln!(text)
}
