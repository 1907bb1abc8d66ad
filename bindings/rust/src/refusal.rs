//! Why a call was refused.

use std::error::Error;
use std::fmt;

/// Defines the refusals from a list: number, case and sentence of each.
macro_rules! refusals {
    ($($number:literal $case:ident $sentence:literal)*) => {
        /// Why a call was refused: one case for each refusal number.
        ///
        /// A refused call has changed no byte. If several refusals apply, the call returns the first one in
        /// its order. The file `docs/REFUSALS.md` of the repository gives the order of each call, and says
        /// what to do about each number.
        ///
        /// It is proved that the library returns no number but 1 to 24, so [`Unlisted`](Refusal::Unlisted)
        /// does not occur. It is there because a program may be linked with another archive of the same
        /// name: an unknown number does not panic. Later versions may add cases.
        ///
        /// # Examples
        ///
        /// ```
        /// use timeslices::Refusal;
        ///
        /// let refusal = Refusal::Withdrawn;
        /// assert_eq!(refusal.number(), 22);
        /// assert_eq!(refusal.to_string(), "the feature is withdrawn at the instant");
        /// assert_eq!(Refusal::try_from(22), Ok(refusal));
        /// assert!(Refusal::try_from(25).is_err());
        /// ```
        #[derive(Clone, Copy, Debug, PartialEq, Eq, Hash)]
        #[non_exhaustive]
        pub enum Refusal {
            $(
                #[doc = concat!(stringify!($number), ": ", $sentence, ".")]
                $case,
            )*
            /// Any other number: the linked archive is not the proved one.
            Unlisted(u32),
        }

        impl Refusal {
            /// Returns the refusal number.
            ///
            /// # Examples
            ///
            /// ```
            /// assert_eq!(timeslices::Refusal::TableFull.number(), 18);
            /// ```
            pub const fn number(self) -> u32 {
                match self {
                    $(Refusal::$case => $number,)*
                    Refusal::Unlisted(number) => number,
                }
            }

            /// Returns the refusal as a sentence.
            const fn sentence(self) -> &'static str {
                match self {
                    $(Refusal::$case => $sentence,)*
                    Refusal::Unlisted(_) => "the linked archive returned an unknown refusal number",
                }
            }
        }

        impl TryFrom<u32> for Refusal {
            type Error = NoRefusal;

            /// Returns the refusal with a number from 1 to 24.
            ///
            /// # Errors
            ///
            /// [`NoRefusal`] for any other number.
            fn try_from(number: u32) -> Result<Refusal, NoRefusal> {
                match number {
                    $($number => Ok(Refusal::$case),)*
                    _ => Err(NoRefusal(number)),
                }
            }
        }
    };
}

refusals! {
    1 TableTooShort "the table has fewer than 32 bytes"
    2 LettersOrSide "the letters of the table are not TSL, or its side is not one that the call takes"
    3 Version "the version of the table is not 1"
    4 HeaderNotZero "bytes 24 to 31 of the table's header are not zero"
    5 CountOverRoom "the record count of the table is larger than its room"
    6 RecordInTable "a record in the table fails one of the checks 11 to 16"
    7 RecordOrder "the records are not in strictly rising order of kind, then sequence number"
    8 DifferentFeatures "the two tables are of different features"
    9 SliceLength "the slice is not 240 bytes long"
    10 OtherFeature "the slice is of another feature than the table"
    11 Kind "the kind of the record is unknown, or belongs to the other side"
    12 RecordNotZero "flag bits 1 to 7 or bytes 24 to 31 of the record are not zero"
    13 CancelledNotBlank "the record is cancelled, but it gives a time or a property"
    14 PropertyLayout "a property of the record breaks the layout"
    15 Times "the times of the record break the rules of its kind"
    16 Content "the content of the record breaks the rules of its kind"
    17 OtherBytes "kind, sequence number and correction number are stored already, with other bytes"
    18 TableFull "the kind and sequence number are new, and the table is full"
    19 InstantOrProperty "the instant is none, or the property number is over 7"
    20 NoState "no state is known at the instant"
    21 TwoAnchors "two BASELINEs hold at an instant, or none does and two PERMDELTAs have opened the life"
    22 Withdrawn "the feature is withdrawn at the instant"
    23 PlaceSize "the record buffer is not 224 bytes long, or the output cannot hold the derived baselines"
    24 DerivedRecord "a derived record fails the slice check"
}

/// The error of a number that is not a refusal number, 1 to 24.
#[derive(Clone, Copy, Debug, PartialEq, Eq, Hash)]
pub struct NoRefusal(
    /// The number.
    pub u32,
);

impl Refusal {
    /// Returns the refusal with any number.
    pub(crate) fn told(number: u32) -> Refusal {
        Refusal::try_from(number).unwrap_or(Refusal::Unlisted(number))
    }
}

impl fmt::Display for Refusal {
    /// Writes the refusal as a sentence.
    fn fmt(&self, f: &mut fmt::Formatter<'_>) -> fmt::Result {
        f.pad(self.sentence())
    }
}

impl Error for Refusal {}

impl fmt::Display for NoRefusal {
    /// Writes the error as a sentence.
    fn fmt(&self, f: &mut fmt::Formatter<'_>) -> fmt::Result {
        write!(f, "{} is not a refusal number, 1 to 24", self.0)
    }
}

impl Error for NoRefusal {}

#[cfg(test)]
mod tests {
    use super::*;

    /// Every number is kept, listed or not.
    #[test]
    fn numbers_are_handed_on() {
        for number in (0..100).chain([u32::MAX]) {
            let listed = (1..=24).contains(&number);
            let refusal = Refusal::told(number);
            assert_eq!(refusal.number(), number);
            assert_eq!(refusal != Refusal::Unlisted(number), listed);
            assert_eq!(Refusal::try_from(number).is_ok(), listed);
        }
    }

    /// Every refusal has its own sentence.
    #[test]
    fn sentences_differ() {
        let said: std::collections::HashSet<_> =
            (1..=25).map(|n| Refusal::told(n).to_string()).collect();
        assert_eq!(said.len(), 25);
    }
}
