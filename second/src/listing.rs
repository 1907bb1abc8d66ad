//! The listing of a permanent table: the text of its derived baselines, a line each.

use crate::derived::derive;
use crate::layout::{bytes_of, MOST_RECORDS};
use crate::property::Value;
use crate::record::Record;
use crate::refusal::Refusal;
use crate::table::{Sides, Table};

/// The most bytes that the listing program reads, and the size of its derived table.
pub const MOST_BYTES: usize = bytes_of(MOST_RECORDS);

/// Returns what the listing program prints for its whole input.
pub fn program(input: &[u8]) -> String {
    if input.len() > MOST_BYTES {
        return "too long\n".to_string();
    }
    listing(input)
}

/// Returns the listing of a table: its derived baselines, or the number of the refusal.
pub fn listing(permanent: &[u8]) -> String {
    let mut output = vec![0; MOST_BYTES];
    match derive(permanent, &mut output) {
        Ok(count) => format!("derived {count}\n{}", lines(&output)),
        Err(refusal) => refused(refusal),
    }
}

/// Writes the listing into the first bytes of the buffer, if it fits; returns its length, as an
/// error if it does not fit.
pub fn list(permanent: &[u8], text: &mut [u8]) -> Result<usize, usize> {
    let listing = listing(permanent);
    let first = text.get_mut(..listing.len()).ok_or(listing.len())?;
    first.copy_from_slice(listing.as_bytes());
    Ok(listing.len())
}

/// Returns the line of a refusal.
fn refused(refusal: Refusal) -> String {
    format!("refused {}\n", refusal.number())
}

/// Returns the lines of the records in a derived table.
fn lines(derived: &[u8]) -> String {
    let table = Table::read(derived, Sides::Permanent).expect("a derived table is sound");
    table.records.values().map(line).collect()
}

/// Returns the line of a derived record: its sequence number, begin and end, and the forms.
fn line(record: &Record) -> String {
    let period = record.head.period;
    let begin = period.begin.expect("a derived record has a begin").0;
    let end = period
        .end
        .map_or("-".to_string(), |instant| instant.0.to_string());
    let forms: String = record.properties.iter().map(form).collect();
    format!("{} {begin} {end} {forms}\n", record.head.sequence.0)
}

/// Returns the digit of a property's form.
fn form(property: &Option<Value>) -> char {
    match property.expect("a derived record is sound") {
        Value::Unmentioned => '0',
        Value::Nil(_) => '1',
        Value::Code(_) => '2',
        Value::Number(_) => '3',
        Value::Length(..) => '4',
        Value::Point(_) => '5',
    }
}

#[cfg(test)]
mod tests {
    use super::*;
    use crate::fixtures::brief::{base, baseline, change, closing, opening};
    use crate::fixtures::{mentions, nil, Case};
    use crate::record::{Kind, NONE};
    use crate::tables::{permanent, Tables};

    /// Returns the text for the permanent table of some cases.
    fn text(cases: &[Case]) -> String {
        program(&permanent(cases))
    }

    /// "For BASELINE sequence 1 from 100, life begin 100, no end, all nil, and PERMDELTA sequence 1
    /// at 300, property 0 a code, it prints exactly".
    #[test]
    fn the_example_prints_as_the_paper_says() {
        let cases = [base().with_part(0, &nil(4)), change(1, 300, 7)];
        assert_eq!(
            text(&cases),
            "derived 2\n1 100 300 11111111\n2 300 - 21111111\n"
        );
    }

    /// Code, nil, number, length, point, nil, length and number; then nothing, then an opening.
    #[test]
    fn every_form_has_its_digit() {
        let ended = baseline(9, [5, 4_294_967_294, NONE, NONE], 0).with_parts(&mentions());
        assert_eq!(text(&[ended]), "derived 1\n1 5 4294967294 21345143\n");
        assert_eq!(text(&[]), "derived 0\n");
        let cases = [opening(3, 0, 1), closing(4, 10)];
        assert_eq!(text(&cases), "derived 1\n1 0 10 21111111\n");
    }

    /// The number of the first refusal; the length of the input is checked before all of them.
    #[test]
    fn refusals_are_told_by_number() {
        assert_eq!(program(&[]), "refused 1\n");
        assert_eq!(program(&[0; 32]), "refused 2\n");
        assert_eq!(text(&[base(), base().with_sequence(2)]), "refused 21\n");
        let temporary = Tables::of(&[Case::usual(Kind::TempDelta)]).temporary;
        assert_eq!(program(&temporary), "refused 2\n");
        assert_eq!(program(&[0; 57_376]), "refused 2\n");
        assert_eq!(program(&[0; 57_377]), "too long\n");
        let mut table = permanent(&[]);
        table.resize(57_376, 9);
        assert_eq!(program(&table), "derived 0\n");
        table.push(9);
        assert_eq!(program(&table), "too long\n");
        assert_eq!(listing(&table), "derived 0\n");
    }

    /// A text that fits is written from the first byte on; one that does not fit is not written.
    #[test]
    fn a_listing_goes_into_its_place() {
        let table = permanent(&[]);
        let mut text = [7; 12];
        assert_eq!(list(&table, &mut text), Ok(10));
        assert_eq!(text, *b"derived 0\n\x07\x07");
        assert_eq!(list(&[], &mut text[..10]), Ok(10));
        assert_eq!(text, *b"refused 1\n\x07\x07");
        assert_eq!(list(&table, &mut text[..9]), Err(10));
        assert_eq!(text, *b"refused 1\n\x07\x07");
    }
}
