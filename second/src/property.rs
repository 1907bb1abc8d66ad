//! Properties: what the 24 bytes of a property mean, and the rule over the eight of a record.

use crate::layout::{PROPERTIES, PROPERTY_BYTES};
use std::fmt;

/// Why a value is nil.
#[derive(Clone, Copy, Debug, PartialEq)]
pub enum Reason {
    Inapplicable,
    Missing,
    Template,
    Unknown,
    Withheld,
}

/// The unit of a length.
#[derive(Clone, Copy, Debug, PartialEq)]
pub enum Unit {
    M,
    Ft,
    Km,
    Nm,
}

/// A position on the earth, in degrees.
#[derive(Clone, Copy, Debug, PartialEq)]
pub struct Point {
    pub latitude: f64,
    pub longitude: f64,
}

/// The value of a property.
#[derive(Clone, Copy, Debug, PartialEq)]
pub enum Value {
    Unmentioned,
    Nil(Reason),
    Code(u16),
    Number(i32),
    Length(f64, Unit),
    Point(Point),
}

/// What the property rule finds in the property bytes of a record.
#[derive(Clone, Copy, Debug, PartialEq)]
pub enum Finding {
    /// The first property that breaks the layout.
    Bad(usize),
    /// No property breaks it; this many are mentioned.
    Sound(usize),
}

impl Value {
    /// Returns whether the property is mentioned; nil is a mention.
    pub fn is_mention(&self) -> bool {
        *self != Value::Unmentioned
    }

    /// Returns the bytes of this value; decoding them gives it back.
    pub fn write(self) -> [u8; PROPERTY_BYTES] {
        match self {
            Value::Unmentioned => encode(0, 0, &[]),
            Value::Nil(reason) => encode(1, 1 + reason as u8, &[]),
            Value::Code(code) => encode(2, 0, &code.to_be_bytes()),
            Value::Number(number) => encode(3, 0, &number.to_be_bytes()),
            Value::Length(length, unit) => encode(4, 1 + unit as u8, &length.to_be_bytes()),
            Value::Point(place) => {
                let (first, second) = (place.latitude.to_bits(), place.longitude.to_bits());
                encode(5, 0, &[first.to_be_bytes(), second.to_be_bytes()].concat())
            }
        }
    }
}

/// Returns a part with a form, a detail and the first bytes of the content; the rest is zero.
fn encode(form: u8, detail: u8, content: &[u8]) -> [u8; PROPERTY_BYTES] {
    let mut part = [0; PROPERTY_BYTES];
    part[..2].copy_from_slice(&[form, detail]);
    part[8..8 + content.len()].copy_from_slice(content);
    part
}

/// Returns the value of a property part, or nothing if the part breaks the layout.
pub fn decode(part: &[u8]) -> Option<Value> {
    let part: &[u8; PROPERTY_BYTES] = part.try_into().ok()?;
    let [form, detail, 0, 0, 0, 0, 0, 0, content @ ..] = *part else {
        return None;
    };
    match form {
        0 => unmentioned(detail, content),
        1 => nil(detail, content),
        2 => code(detail, content),
        3 => number(detail, content),
        4 => length(detail, content),
        5 => point(detail, content),
        _ => None,
    }
}

/// Returns "not mentioned" if the detail and the content are zero.
fn unmentioned(detail: u8, content: [u8; 16]) -> Option<Value> {
    (detail == 0 && content == [0; 16]).then_some(Value::Unmentioned)
}

/// Returns the nil whose reason is the detail, if the content is zero.
fn nil(detail: u8, content: [u8; 16]) -> Option<Value> {
    let reason = match detail {
        1 => Reason::Inapplicable,
        2 => Reason::Missing,
        3 => Reason::Template,
        4 => Reason::Unknown,
        5 => Reason::Withheld,
        _ => return None,
    };
    (content == [0; 16]).then_some(Value::Nil(reason))
}

/// Returns the code in the first two bytes of the content, if the rest is zero.
fn code(detail: u8, content: [u8; 16]) -> Option<Value> {
    let [a, b, rest @ ..] = content;
    let value = u16::from_be_bytes([a, b]);
    (detail == 0 && rest == [0; 14]).then_some(Value::Code(value))
}

/// Returns the whole number in the first four bytes of the content, if the rest is zero.
fn number(detail: u8, content: [u8; 16]) -> Option<Value> {
    let [a, b, c, d, rest @ ..] = content;
    let value = i32::from_be_bytes([a, b, c, d]);
    (detail == 0 && rest == [0; 12]).then_some(Value::Number(value))
}

/// Returns the finite length in the first half of the content; the detail gives its unit.
fn length(detail: u8, content: [u8; 16]) -> Option<Value> {
    let unit = match detail {
        1 => Unit::M,
        2 => Unit::Ft,
        3 => Unit::Km,
        4 => Unit::Nm,
        _ => return None,
    };
    let (value, rest) = halves(content);
    let length = f64::from_bits(value);
    (length.is_finite() && rest == 0).then_some(Value::Length(length, unit))
}

/// Returns the point whose latitude and longitude fill the content, if both are in range.
fn point(detail: u8, content: [u8; 16]) -> Option<Value> {
    let (first, second) = halves(content);
    let latitude = f64::from_bits(first);
    let longitude = f64::from_bits(second);
    let in_range = (-90.0..=90.0).contains(&latitude) && (-180.0..=180.0).contains(&longitude);
    (detail == 0 && in_range).then_some(Value::Point(Point {
        latitude,
        longitude,
    }))
}

/// Returns the two halves of the content as 64-bit numbers.
fn halves(content: [u8; 16]) -> (u64, u64) {
    let whole = u128::from_be_bytes(content);
    ((whole >> 64) as u64, whole as u64)
}

/// Returns the values of the eight properties; a broken or missing one has none.
pub fn properties(bytes: &[u8]) -> [Option<Value>; PROPERTIES] {
    std::array::from_fn(|index| {
        let start = index * PROPERTY_BYTES;
        bytes.get(start..start + PROPERTY_BYTES).and_then(decode)
    })
}

/// Returns the first of eight properties that breaks the layout, or else the number of mentions.
pub fn find(properties: &[Option<Value>; PROPERTIES]) -> Finding {
    match properties.iter().position(Option::is_none) {
        Some(index) => Finding::Bad(index),
        None => Finding::Sound(mentions(properties)),
    }
}

/// Returns how many of the properties are mentioned.
fn mentions(properties: &[Option<Value>; PROPERTIES]) -> usize {
    properties
        .iter()
        .flatten()
        .filter(|value| value.is_mention())
        .count()
}

impl fmt::Display for Reason {
    /// Writes the word that the specification has for the reason.
    fn fmt(&self, out: &mut fmt::Formatter) -> fmt::Result {
        out.write_str(match self {
            Reason::Inapplicable => "inapplicable",
            Reason::Missing => "missing",
            Reason::Template => "template",
            Reason::Unknown => "unknown",
            Reason::Withheld => "withheld",
        })
    }
}

impl fmt::Display for Unit {
    /// Writes the letters of the unit.
    fn fmt(&self, out: &mut fmt::Formatter) -> fmt::Result {
        out.write_str(match self {
            Unit::M => "M",
            Unit::Ft => "FT",
            Unit::Km => "KM",
            Unit::Nm => "NM",
        })
    }
}

impl fmt::Display for Value {
    /// Writes the value as in an answer line; doubles are written as their 64 bits.
    fn fmt(&self, out: &mut fmt::Formatter) -> fmt::Result {
        match self {
            Value::Unmentioned => out.write_str("unmentioned"),
            Value::Nil(reason) => write!(out, "{reason}"),
            Value::Code(code) => write!(out, "code {code}"),
            Value::Number(number) => write!(out, "number {number}"),
            Value::Length(length, unit) => write!(out, "length {:016x} {unit}", length.to_bits()),
            Value::Point(Point {
                latitude,
                longitude,
            }) => {
                write!(
                    out,
                    "point {:016x} {:016x}",
                    latitude.to_bits(),
                    longitude.to_bits()
                )
            }
        }
    }
}

impl fmt::Display for Finding {
    /// Writes the finding as in an answer line.
    fn fmt(&self, out: &mut fmt::Formatter) -> fmt::Result {
        match self {
            Finding::Bad(index) => write!(out, "bad {index}"),
            Finding::Sound(mentions) => write!(out, "sound {mentions}"),
        }
    }
}

#[cfg(test)]
mod tests {
    use super::*;

    /// Makes a part of a form, a detail and the first bytes of the content.
    fn part(form: u8, detail: u8, content: &[u8]) -> [u8; 24] {
        let mut part = [0; 24];
        part[0] = form;
        part[1] = detail;
        part[8..8 + content.len()].copy_from_slice(content);
        part
    }

    /// Writing undoes decoding, to the last bit of a double.
    #[test]
    fn a_value_is_written_as_it_was_decoded() {
        let mut parts = vec![[0; 24], part(2, 0, &[1, 2]), part(3, 0, &[128, 0, 0, 7])];
        parts.extend((1..=5).map(|detail| part(1, detail, &[])));
        parts.extend((1..=4).map(|unit| part(4, unit, &(-0.0f64).to_be_bytes())));
        parts.extend([point_part(-0.0, 0.0), point_part(-90.0, 179.5)]);
        for part in parts {
            assert_eq!(decode(&part).unwrap().write(), part);
        }
    }

    /// Makes a point part of two doubles.
    fn point_part(latitude: f64, longitude: f64) -> [u8; 24] {
        part(
            5,
            0,
            &[latitude.to_be_bytes(), longitude.to_be_bytes()].concat(),
        )
    }

    /// Makes a length part in feet.
    fn length_part(length: f64) -> [u8; 24] {
        part(4, 2, &length.to_be_bytes())
    }

    /// One part of each form, its bytes set by the layout.
    #[test]
    fn each_form_is_decoded() {
        assert_eq!(decode(&[0; 24]), Some(Value::Unmentioned));
        assert_eq!(decode(&part(2, 0, &[1, 2])), Some(Value::Code(258)));
        assert_eq!(decode(&part(2, 0, &[255, 255])), Some(Value::Code(65_535)));
        assert_eq!(
            decode(&part(3, 0, &[255, 255, 255, 254])),
            Some(Value::Number(-2))
        );
        assert_eq!(
            decode(&part(3, 0, &[128])),
            Some(Value::Number(-2_147_483_648))
        );
        assert_eq!(
            decode(&part(3, 0, &[127, 255, 255, 255])),
            Some(Value::Number(2_147_483_647))
        );
        assert_eq!(
            decode(&length_part(1.5)),
            Some(Value::Length(1.5, Unit::Ft))
        );
        let place = Point {
            latitude: -12.5,
            longitude: 120.25,
        };
        assert_eq!(
            decode(&point_part(-12.5, 120.25)),
            Some(Value::Point(place))
        );
    }

    /// "1 nil, detail 1 inapplicable, 2 missing, 3 template, 4 unknown, 5 withheld".
    #[test]
    fn nil_takes_details_one_to_five() {
        let words = ["inapplicable", "missing", "template", "unknown", "withheld"];
        for (detail, word) in (1..).zip(words) {
            assert_eq!(decode(&part(1, detail, &[])).unwrap().to_string(), word);
        }
        assert_eq!(decode(&part(1, 0, &[])), None);
        assert_eq!(decode(&part(1, 6, &[])), None);
    }

    /// "its unit in the detail (1 M, 2 FT, 3 KM, 4 NM)".
    #[test]
    fn length_takes_details_one_to_four() {
        let one = 1.0f64.to_be_bytes();
        for (detail, unit) in (1..).zip(["M", "FT", "KM", "NM"]) {
            let expected = format!("length 3ff0000000000000 {unit}");
            assert_eq!(
                decode(&part(4, detail, &one)).unwrap().to_string(),
                expected
            );
        }
        assert_eq!(decode(&part(4, 0, &one)), None);
        assert_eq!(decode(&part(4, 5, &one)), None);
    }

    /// "Unused detail and content bytes are zero": here the detail; and no form is above 5.
    #[test]
    fn the_other_forms_take_no_detail() {
        for form in [0, 2, 3, 5] {
            assert!(decode(&part(form, 0, &[])).is_some());
            assert_eq!(decode(&part(form, 1, &[])), None);
        }
        assert_eq!(decode(&part(6, 0, &[])), None);
        assert_eq!(decode(&part(255, 0, &[])), None);
    }

    /// "2-7 zero" and "Unused detail and content bytes are zero".
    #[test]
    fn unused_bytes_are_zero() {
        // The first byte after the content of each form, by the layout table.
        for (form, detail, unused) in [
            (0, 0, 8),
            (1, 4, 8),
            (2, 0, 10),
            (3, 0, 12),
            (4, 1, 16),
            (5, 0, 24),
        ] {
            for offset in (2..8).chain(unused..24) {
                let mut part = part(form, detail, &[]);
                assert!(decode(&part).is_some());
                part[offset] = 1;
                assert_eq!(decode(&part), None, "form {form}, byte {offset}");
            }
        }
    }

    /// "finite"; "Negative zero is a valid double".
    #[test]
    fn lengths_are_finite() {
        for bad in [f64::INFINITY, f64::NEG_INFINITY, f64::NAN] {
            assert_eq!(decode(&length_part(bad)), None);
        }
        assert!(decode(&length_part(f64::MAX)).is_some());
        assert!(decode(&length_part(f64::from_bits(1))).is_some());
        let zero = decode(&length_part(-0.0)).unwrap().to_string();
        assert_eq!(zero, "length 8000000000000000 FT");
    }

    /// "within -90..90 and -180..180, ends allowed".
    #[test]
    fn points_are_in_range_ends_allowed() {
        for (latitude, longitude) in [(90.0, 180.0), (-90.0, -180.0), (-0.0, 0.0), (0.0, 90.5)] {
            assert!(decode(&point_part(latitude, longitude)).is_some());
        }
        for (latitude, longitude) in [
            (90.0f64.next_up(), 0.0),
            ((-90.0f64).next_down(), 0.0),
            (f64::NAN, 0.0),
        ] {
            assert_eq!(decode(&point_part(latitude, longitude)), None);
        }
        for longitude in [
            180.0f64.next_up(),
            (-180.0f64).next_down(),
            f64::NAN,
            f64::INFINITY,
        ] {
            assert_eq!(decode(&point_part(0.0, longitude)), None);
        }
    }

    /// "24 bytes each".
    #[test]
    fn a_part_has_24_bytes() {
        for length in (0..24).chain(25..40) {
            assert_eq!(decode(&vec![0; length]), None);
        }
    }

    /// The words of an answer line.
    #[test]
    fn answers_are_written_plainly() {
        assert_eq!(Value::Number(-7).to_string(), "number -7");
        assert_eq!(Value::Code(9).to_string(), "code 9");
        let place = Point {
            latitude: 1.0,
            longitude: -2.0,
        };
        assert_eq!(
            Value::Point(place).to_string(),
            "point 3ff0000000000000 c000000000000000"
        );
    }

    /// Properties 3 and 6 begin at 72 and 144; the first is reported.
    #[test]
    fn the_rule_names_the_first_bad_property() {
        let mut bytes = vec![0; 192];
        bytes[72] = 9;
        bytes[144] = 9;
        assert_eq!(find(&properties(&bytes)), Finding::Bad(3));
    }

    /// Nil and the code 0 are mentions.
    #[test]
    fn the_rule_counts_mentions() {
        assert_eq!(find(&properties(&[0; 192])), Finding::Sound(0));
        let mut bytes = vec![0; 192];
        bytes[0..24].copy_from_slice(&part(1, 4, &[]));
        bytes[168..192].copy_from_slice(&part(2, 0, &[0, 0]));
        assert_eq!(find(&properties(&bytes)), Finding::Sound(2));
    }

    /// A property that is cut off is bad; byte 192 belongs to no property.
    #[test]
    fn the_rule_wants_eight_whole_properties_and_looks_no_further() {
        for (length, index) in [(0, 0), (23, 0), (24, 1), (47, 1), (168, 7), (191, 7)] {
            assert_eq!(find(&properties(&vec![0; length])), Finding::Bad(index));
        }
        let mut long = vec![0; 200];
        long[192] = 9;
        assert_eq!(find(&properties(&long)), Finding::Sound(0));
    }
}
