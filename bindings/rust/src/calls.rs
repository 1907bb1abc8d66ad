//! The calls of the library.

use crate::answers::{Arrival, ListingNeeds, Mention, Side, Touched};
use crate::instant::Instant;
use crate::raw;
use crate::refusal::Refusal;
use crate::{Feature, LISTING_BYTES};

impl raw::Answer {
    /// Returns the number that belongs to kind 1; any other kind is a refusal.
    fn done(self) -> Result<usize, Refusal> {
        match self.kind {
            1 => Ok(self.number as usize),
            _ => Err(Refusal::told(self.number)),
        }
    }
}

/// Creates an empty table of a side and a feature.
///
/// Writes the 32 bytes of the header and nothing else. Checks only the buffer's length; old contents are
/// ignored. [`table_bytes`](crate::table_bytes) returns the length for a number of records.
///
/// # Errors
///
/// Returns [refusal](Refusal) 1 if the table has fewer than 32 bytes.
///
/// # Examples
///
/// ```
/// use timeslices::{new_table, table_bytes, Refusal, Side};
///
/// let mut table = vec![0; table_bytes(4)];
/// new_table(&mut table, Side::Temporary, &[7; 16])?;
/// assert_eq!(table[..8], *b"TSL\x01\x00\x01\x00\x00");
/// assert_eq!(table[8..24], [7; 16]);
/// assert_eq!(new_table(&mut [0; 31], Side::Permanent, &[7; 16]), Err(Refusal::TableTooShort));
/// # Ok::<(), Refusal>(())
/// ```
pub fn new_table(table: &mut [u8], side: Side, feature: &Feature) -> Result<(), Refusal> {
    // SAFETY: the table is borrowed mutably, so nothing overlaps it, and it has as many bytes as its length
    // says. The feature has 16 bytes. The library keeps neither pointer.
    let answer =
        unsafe { raw::tsl_new_table(table.as_mut_ptr(), table.len(), side.byte(), feature) };
    answer.done().map(drop)
}

/// Delivers a slice to a table of either side.
///
/// The table holds the highest correction received of each kind and sequence number, in whatever order the
/// slices arrive. Writes no byte after the last record that the table then counts.
///
/// # Errors
///
/// Returns one of the [refusals](Refusal) 1 to 7 and 9 to 18.
///
/// # Examples
///
/// ```
/// use timeslices::{arrive, new_table, table_bytes, Arrival, Refusal, Side, SLICE_BYTES};
///
/// let mut table = vec![0; table_bytes(4)];
/// new_table(&mut table, Side::Temporary, &[7; 16])?;
///
/// let mut slice = [0; SLICE_BYTES];
/// slice[..16].fill(7); // the feature
/// slice[16] = 3; // a TEMPDELTA
/// slice[23] = 1; // sequence number 1
/// slice[27] = 120; // from 120 on
/// slice[28..40].fill(255); // no end, no life begin, no life end
/// slice[48] = 1; // property 0 is nil
/// slice[49] = 4; // unknown
/// assert_eq!(arrive(&mut table, &slice), Ok(Arrival::Added));
/// assert_eq!(arrive(&mut table, &slice), Ok(Arrival::Repeat));
///
/// let first = slice;
/// slice[19] = 1; // correction 1
/// assert_eq!(arrive(&mut table, &slice), Ok(Arrival::Replaced));
/// assert_eq!(arrive(&mut table, &first), Ok(Arrival::Superseded));
/// slice[49] = 5; // withheld, but correction 1 again
/// assert_eq!(arrive(&mut table, &slice), Err(Refusal::OtherBytes));
/// # Ok::<(), Refusal>(())
/// ```
pub fn arrive(table: &mut [u8], slice: &[u8]) -> Result<Arrival, Refusal> {
    // SAFETY: both have as many bytes as their lengths say. The table is borrowed mutably, so the slice does
    // not overlap it. The library keeps neither pointer.
    let answer =
        unsafe { raw::tsl_arrive(table.as_mut_ptr(), table.len(), slice.as_ptr(), slice.len()) };
    match answer.kind {
        1 => Ok(Arrival::Added),
        2 => Ok(Arrival::Replaced),
        3 => Ok(Arrival::Superseded),
        4 => Ok(Arrival::Repeat),
        _ => Err(Refusal::told(answer.number)),
    }
}

/// Writes the permanent state at an instant into a record of 224 bytes.
///
/// # Errors
///
/// Returns one of the [refusals](Refusal) 1 to 7 and 20 to 23.
///
/// # Examples
///
/// In the sample a PERMDELTA at 300 shortens a runway, property 0, from 3048 M to 2100 M.
///
/// ```
/// use timeslices::{permanent_state, Instant, Refusal, RECORD_BYTES};
///
/// let permanent = std::fs::read("../../samples/runway.tsl")?;
/// let mut record = [0; RECORD_BYTES];
/// let at = |seconds| Instant::new(seconds).expect("an instant");
///
/// permanent_state(&permanent, at(299), &mut record)?;
/// assert_eq!(record[40..48], 3048f64.to_be_bytes());
/// permanent_state(&permanent, at(300), &mut record)?;
/// assert_eq!(record[40..48], 2100f64.to_be_bytes());
/// assert_eq!(permanent_state(&permanent, at(99), &mut record), Err(Refusal::NoState));
/// # Ok::<(), Box<dyn std::error::Error>>(())
/// ```
pub fn permanent_state(
    permanent: &[u8],
    instant: Instant,
    record: &mut [u8],
) -> Result<(), Refusal> {
    let (place, length) = (record.as_mut_ptr(), record.len());
    // SAFETY: both have as many bytes as their lengths say. The record is borrowed mutably, so the table does
    // not overlap it. The library keeps neither pointer.
    let answer = unsafe {
        raw::tsl_permanent_state(
            permanent.as_ptr(),
            permanent.len(),
            instant.seconds(),
            place,
            length,
        )
    };
    answer.done().map(drop)
}

/// Writes the snapshot at an instant into a record of 224 bytes.
///
/// The snapshot is the [permanent state](permanent_state), changed by the TEMPDELTAs that are valid at the
/// instant.
///
/// # Errors
///
/// Returns one of the [refusals](Refusal) 1 to 8, of either table, and 20 to 23.
///
/// # Examples
///
/// ```
/// use timeslices::{new_table, snapshot, Instant, Refusal, Side, HEADER_BYTES, RECORD_BYTES};
///
/// let permanent = std::fs::read("../../samples/runway.tsl")?;
/// let mut temporary = [0; HEADER_BYTES];
/// new_table(&mut temporary, Side::Temporary, permanent[8..24].try_into()?)?;
///
/// let mut record = [0; RECORD_BYTES];
/// snapshot(&permanent, &temporary, Instant::LAST, &mut record)?;
/// assert_eq!(record[0], 4);
/// assert_eq!(Instant::from_be_bytes(record[8..12].try_into()?), Some(Instant::LAST));
/// assert_eq!(record[40..48], 2100f64.to_be_bytes());
///
/// temporary[8] = 0; // now of another feature
/// let refused = snapshot(&permanent, &temporary, Instant::LAST, &mut record);
/// assert_eq!(refused, Err(Refusal::DifferentFeatures));
/// # Ok::<(), Box<dyn std::error::Error>>(())
/// ```
pub fn snapshot(
    permanent: &[u8],
    temporary: &[u8],
    instant: Instant,
    record: &mut [u8],
) -> Result<(), Refusal> {
    // SAFETY: all three have as many bytes as their lengths say. The record is borrowed mutably, so neither
    // table overlaps it. The library keeps none of the pointers.
    let answer = unsafe {
        raw::tsl_snapshot(
            permanent.as_ptr(),
            permanent.len(),
            temporary.as_ptr(),
            temporary.len(),
            instant.seconds(),
            record.as_mut_ptr(),
            record.len(),
        )
    };
    answer.done().map(drop)
}

/// Returns the 24 bytes of a property (0 to 7) at an instant, borrowed from the table whose record mentioned
/// it last.
///
/// They are the bytes that the [`snapshot`] has for the property. If no record mentions it, the result is
/// [`Mention::Unmentioned`], and the snapshot has nil, unknown.
///
/// # Errors
///
/// Returns one of the [refusals](Refusal) 1 to 8, of either table, and 19 to 22.
///
/// # Examples
///
/// The sample mentions properties 0, the length of a runway, and 1, and no others.
///
/// ```
/// use timeslices::{new_table, property, Instant, Mention, Refusal, Side, HEADER_BYTES};
///
/// let permanent = std::fs::read("../../samples/commissioning.tsl")?;
/// let mut temporary = [0; HEADER_BYTES];
/// new_table(&mut temporary, Side::Temporary, permanent[8..24].try_into()?)?;
/// let at_200 = Instant::new(200).expect("an instant");
///
/// let length = property(&permanent, &temporary, at_200, 0)?;
/// assert_eq!(length, Mention::Permanent(&permanent[64..88]));
/// assert_eq!(permanent[72..80], 3048f64.to_be_bytes());
/// assert_eq!(property(&permanent, &temporary, at_200, 2), Ok(Mention::Unmentioned));
/// assert_eq!(property(&permanent, &temporary, at_200, 8), Err(Refusal::InstantOrProperty));
/// # Ok::<(), Box<dyn std::error::Error>>(())
/// ```
pub fn property<'a>(
    permanent: &'a [u8],
    temporary: &'a [u8],
    instant: Instant,
    property: u8,
) -> Result<Mention<'a>, Refusal> {
    // SAFETY: both tables have as many bytes as their lengths say, and are only read. The library keeps
    // neither pointer.
    let part = unsafe {
        raw::tsl_property(
            permanent.as_ptr(),
            permanent.len(),
            temporary.as_ptr(),
            temporary.len(),
            instant.seconds(),
            property,
        )
    };
    let mention = match part.kind {
        1 => part.of(permanent).map(Mention::Permanent),
        2 => part.of(temporary).map(Mention::Temporary),
        3 => Some(Mention::Unmentioned),
        _ => None,
    };
    mention.ok_or_else(|| Refusal::told(part.number))
}

impl raw::Part {
    /// Returns the part of a table. It is proved to be within the table, and checked here all the same.
    fn of<'a>(&self, table: &'a [u8]) -> Option<&'a [u8]> {
        let (at, size) = (
            usize::try_from(self.at).ok()?,
            usize::try_from(self.size).ok()?,
        );
        table.get(at..)?.get(..size)
    }
}

/// Returns whether anything temporary touches a property (0 to 7) at an instant, and how many records were
/// looked at.
///
/// Goes through a temporary table from its last record downward, and stops at the first TEMPDELTA that is not
/// cancelled, is valid at the instant and mentions the property. Nil is a mention. Reads no permanent table:
/// the answer may be [`Touched::Yes`] where no state is known. Where [`property`](property()) is not refused,
/// the answer is yes exactly if the result there is [`Mention::Temporary`].
///
/// # Errors
///
/// Returns one of the [refusals](Refusal) 1 to 7 and 19.
///
/// # Examples
///
/// ```
/// use timeslices::{arrive, new_table, table_bytes, touched};
/// use timeslices::{Instant, Refusal, Side, Touched, SLICE_BYTES};
///
/// let mut temporary = vec![0; table_bytes(4)];
/// new_table(&mut temporary, Side::Temporary, &[7; 16])?;
/// let at = |seconds| Instant::new(seconds).expect("an instant");
/// assert_eq!(touched(&temporary, at(120), 0), Ok(Touched::No(0)));
///
/// let mut slice = [0; SLICE_BYTES];
/// slice[..16].fill(7); // the feature
/// slice[16] = 3; // a TEMPDELTA
/// slice[27] = 120; // from 120 on
/// slice[28..40].fill(255); // no end, no life begin, no life end
/// slice[48] = 1; // property 0 is nil
/// slice[49] = 4; // unknown
/// for sequence in 1..=3 {
///     slice[23] = sequence;
///     arrive(&mut temporary, &slice)?;
///     slice[27] += 10; // the next one begins 10 later
/// }
/// assert_eq!(touched(&temporary, at(119), 0), Ok(Touched::No(3)));
/// assert_eq!(touched(&temporary, at(120), 0), Ok(Touched::Yes(3)));
/// assert_eq!(touched(&temporary, at(140), 0), Ok(Touched::Yes(1)));
/// assert_eq!(touched(&temporary, at(140), 1), Ok(Touched::No(3)));
/// assert_eq!(touched(&temporary, at(140), 8), Err(Refusal::InstantOrProperty));
/// # Ok::<(), Refusal>(())
/// ```
pub fn touched(temporary: &[u8], instant: Instant, property: u8) -> Result<Touched, Refusal> {
    let (place, length) = (temporary.as_ptr(), temporary.len());
    // SAFETY: the table has as many bytes as its length says, and is only read. The library does not keep the
    // pointer.
    let answer = unsafe { raw::tsl_touched(place, length, instant.seconds(), property) };
    match answer.kind {
        1 => Ok(Touched::Yes(answer.number as usize)),
        2 => Ok(Touched::No(answer.number as usize)),
        _ => Err(Refusal::told(answer.number)),
    }
}

/// Derives the baselines of a permanent table into an output, and returns how many there are.
///
/// The output becomes a permanent table of the same feature; its bytes after the last record are kept.
/// [`LARGEST_TABLE`](crate::LARGEST_TABLE) bytes hold every result.
///
/// Uses about 9 kB of stack.
///
/// # Errors
///
/// Returns one of the [refusals](Refusal) 1 to 7, 21 and 23. (24 is in the order of checks, but it is proved
/// that it does not occur.)
///
/// # Examples
///
/// ```
/// use timeslices::{derive, permanent_state, Instant, Refusal, LARGEST_TABLE, RECORD_BYTES};
///
/// let permanent = std::fs::read("../../samples/runway.tsl")?;
/// let mut derived = vec![0; LARGEST_TABLE];
/// assert_eq!(derive(&permanent, &mut derived), Ok(2));
/// assert_eq!(derive(&permanent, &mut derived[..479]), Err(Refusal::PlaceSize));
///
/// // Read back, the derived baselines give the same permanent state.
/// let mut records = [[0; RECORD_BYTES]; 2];
/// permanent_state(&permanent, Instant::LAST, &mut records[0])?;
/// permanent_state(&derived, Instant::LAST, &mut records[1])?;
/// assert_eq!(records[0], records[1]);
/// # Ok::<(), Box<dyn std::error::Error>>(())
/// ```
pub fn derive(permanent: &[u8], output: &mut [u8]) -> Result<usize, Refusal> {
    let (place, length) = (output.as_mut_ptr(), output.len());
    // SAFETY: both have as many bytes as their lengths say. The output is borrowed mutably, so the table does
    // not overlap it. The library keeps neither pointer.
    let answer = unsafe { raw::tsl_derive(permanent.as_ptr(), permanent.len(), place, length) };
    answer.done()
}

/// Writes the listing of a permanent table's derived baselines into a buffer, and returns it as text.
///
/// No table is refused: if [`derive()`] refuses it for an output of [`LARGEST_TABLE`](crate::LARGEST_TABLE)
/// bytes, the text is the line `refused N`. The table may have any length. The bytes after the text are kept.
/// [`LISTING_BYTES`] bytes hold every listing.
///
/// Uses about 77 kB of stack.
///
/// # Errors
///
/// Returns the length that the text needs if the buffer is shorter. No byte is changed then.
///
/// # Examples
///
/// ```
/// use timeslices::{listing, ListingNeeds, LISTING_BYTES};
///
/// let permanent = std::fs::read("../../samples/runway.tsl")?;
/// let mut place = [0; LISTING_BYTES];
/// let text = listing(&permanent, &mut place)?;
/// assert_eq!(text, "derived 2\n1 100 300 42111111\n2 300 - 42111111\n");
/// assert_eq!(listing(&permanent, &mut place[..45]), Err(ListingNeeds(46)));
/// assert_eq!(listing(&permanent[..31], &mut place), Ok("refused 1\n"));
/// # Ok::<(), Box<dyn std::error::Error>>(())
/// ```
pub fn listing<'a>(permanent: &[u8], text: &'a mut [u8]) -> Result<&'a str, ListingNeeds> {
    let (place, length) = (text.as_mut_ptr(), text.len());
    // SAFETY: both have as many bytes as their lengths say. The buffer is borrowed mutably, so the table does
    // not overlap it. The library keeps neither pointer.
    let answer = unsafe { raw::tsl_listing(permanent.as_ptr(), permanent.len(), place, length) };
    let bytes = answer.number as usize;
    let written = text.get(..bytes).filter(|_| answer.kind == 1);
    let written = written.and_then(|text| std::str::from_utf8(text).ok());
    written.ok_or(ListingNeeds(bytes))
}

/// Returns the [`listing`] of a permanent table's derived baselines as a string.
///
/// Uses about 77 kB of stack.
///
/// # Examples
///
/// ```
/// let cancelled = std::fs::read("../../samples/cancelled.tsl")?;
/// assert_eq!(timeslices::listing_string(&cancelled), "derived 1\n1 100 - 42111111\n");
/// # Ok::<(), std::io::Error>(())
/// ```
pub fn listing_string(permanent: &[u8]) -> String {
    let mut text = vec![0; LISTING_BYTES];
    // no listing needs more, so there is always a text
    listing(permanent, &mut text).unwrap_or_default().to_owned()
}
