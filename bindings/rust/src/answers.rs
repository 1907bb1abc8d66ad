//! What calls take and return besides bytes and refusals.

use std::error::Error;
use std::fmt;

/// The side of a table.
#[derive(Clone, Copy, Debug, PartialEq, Eq, Hash)]
pub enum Side {
    /// The permanent table. It holds BASELINEs and PERMDELTAs.
    Permanent,
    /// The temporary table. It holds TEMPDELTAs.
    Temporary,
}

/// What an accepted slice did to the table.
#[derive(Clone, Copy, Debug, PartialEq, Eq, Hash)]
pub enum Arrival {
    /// Kind and sequence number are new; the record was put in its place.
    Added,
    /// The correction number is higher than the stored one; the record replaced the stored one.
    Replaced,
    /// The correction number is lower than the stored one; nothing changed.
    Superseded,
    /// Correction number and bytes are equal to the stored ones; nothing changed.
    Repeat,
}

/// The record that mentioned a property last: its table, and the property's bytes.
#[derive(Clone, Copy, Debug, PartialEq, Eq, Hash)]
pub enum Mention<'a> {
    /// A record of the permanent table mentioned it last. The bytes are borrowed from that table.
    Permanent(&'a [u8]),
    /// A record of the temporary table mentioned it last. The bytes are borrowed from that table.
    Temporary(&'a [u8]),
    /// A state is known, but no record mentions the property.
    Unmentioned,
}

/// Whether anything temporary touches a property. Each case has the number of records looked at, from the
/// last one of the table downward.
#[derive(Clone, Copy, Debug, PartialEq, Eq, Hash)]
pub enum Touched {
    /// A valid TEMPDELTA mentions the property. The last one that does was looked at, and all records after
    /// it.
    Yes(usize),
    /// No valid TEMPDELTA mentions the property. All records were looked at.
    No(usize),
}

/// The error of a listing that does not fit its buffer.
#[derive(Clone, Copy, Debug, PartialEq, Eq, Hash)]
pub struct ListingNeeds(
    /// The number of bytes that the listing needs.
    pub usize,
);

impl Side {
    /// Returns the byte of a table's header that gives its side.
    ///
    /// # Examples
    ///
    /// ```
    /// use timeslices::Side;
    ///
    /// assert_eq!([Side::Permanent.byte(), Side::Temporary.byte()], [0, 1]);
    /// ```
    pub const fn byte(self) -> u8 {
        match self {
            Side::Permanent => 0,
            Side::Temporary => 1,
        }
    }
}

impl<'a> Mention<'a> {
    /// Returns the property's bytes from either table, or `None` if it is unmentioned.
    ///
    /// # Examples
    ///
    /// ```
    /// use timeslices::Mention;
    ///
    /// assert_eq!(Mention::Temporary(&[1, 4]).bytes(), Some(&[1, 4][..]));
    /// assert_eq!(Mention::Unmentioned.bytes(), None);
    /// ```
    pub const fn bytes(self) -> Option<&'a [u8]> {
        match self {
            Mention::Permanent(bytes) | Mention::Temporary(bytes) => Some(bytes),
            Mention::Unmentioned => None,
        }
    }
}

impl Touched {
    /// Returns whether the property is touched.
    ///
    /// # Examples
    ///
    /// ```
    /// use timeslices::Touched;
    ///
    /// assert!(Touched::Yes(1).is_yes());
    /// assert!(!Touched::No(256).is_yes());
    /// ```
    pub const fn is_yes(self) -> bool {
        matches!(self, Touched::Yes(_))
    }

    /// Returns how many records were looked at.
    ///
    /// # Examples
    ///
    /// ```
    /// use timeslices::Touched;
    ///
    /// assert_eq!(Touched::Yes(1).looked(), 1);
    /// assert_eq!(Touched::No(256).looked(), 256);
    /// ```
    pub const fn looked(self) -> usize {
        match self {
            Touched::Yes(looked) | Touched::No(looked) => looked,
        }
    }
}

impl fmt::Display for ListingNeeds {
    /// Writes the error as a sentence.
    fn fmt(&self, f: &mut fmt::Formatter<'_>) -> fmt::Result {
        write!(
            f,
            "the listing needs {} bytes, more than its buffer has",
            self.0
        )
    }
}

impl Error for ListingNeeds {}
