//! The reasons for which a call is refused.

/// A refusal, with its number in the specification.
#[derive(Clone, Copy, Debug, PartialEq)]
pub enum Refusal {
    Short = 1,
    Name = 2,
    Version = 3,
    Header = 4,
    Count = 5,
    Record = 6,
    Order = 7,
    OtherFeature = 8,
    Length = 9,
    Feature = 10,
    Kind = 11,
    Spare = 12,
    Cancelled = 13,
    Layout = 14,
    Times = 15,
    Content = 16,
    Clash = 17,
    Full = 18,
    Asked = 19,
    NoState = 20,
    TwoAnchors = 21,
    Withdrawn = 22,
    Buffer = 23,
    Derived = 24,
}

impl Refusal {
    /// Returns its number in the specification.
    pub fn number(self) -> u8 {
        self as u8
    }
}

/// Returns the refusal if its rule does not hold.
pub fn hold(rule: bool, refusal: Refusal) -> Result<(), Refusal> {
    if rule {
        Ok(())
    } else {
        Err(refusal)
    }
}

/// Returns the number of a check, 0 if nothing is refused.
pub fn number_of(check: Result<(), Refusal>) -> u8 {
    check.map_or_else(Refusal::number, |()| 0)
}
