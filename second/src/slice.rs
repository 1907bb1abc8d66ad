//! The slice check: the refusals 9 to 16 on a slice in delivery.

use crate::layout::{FEATURE_BYTES, PROPERTIES, SLICE_BYTES};
use crate::property::{find, Finding, Value};
use crate::record::{Head, Instant, Kind, Record, Side, Span};
use crate::refusal::{hold, Refusal};

/// Returns the first refusal, 9 to 16, of a slice that is delivered to a side of a feature, if any.
pub fn check(slice: &[u8], feature: &[u8], side: u8) -> Result<(), Refusal> {
    let slice: &[u8; SLICE_BYTES] = slice.try_into().map_err(|_| Refusal::Length)?;
    let record = slice.last_chunk().expect("a slice ends with a record");
    hold(slice[..FEATURE_BYTES] == *feature, Refusal::Feature)?;
    check_record(&Record::read(record), side)
}

/// Returns the first refusal, 11 to 16, of a record that is delivered to a side, if any.
pub fn check_record(record: &Record, side: u8) -> Result<(), Refusal> {
    let Record { head, properties } = record;
    let kind = kind_of_side(head.kind, side).ok_or(Refusal::Kind)?;
    hold(spare_is_zero(head), Refusal::Spare)?;
    if head.is_cancelled() {
        return hold(is_empty(record), Refusal::Cancelled);
    }
    let Finding::Sound(mentions) = find(properties) else {
        return Err(Refusal::Layout);
    };
    hold(
        times_are_right(kind, head.period, head.life),
        Refusal::Times,
    )?;
    hold(
        content_is_right(kind, mentions, head.life),
        Refusal::Content,
    )
}

/// Returns the kind that a byte names, if that kind belongs to the side.
fn kind_of_side(kind: u8, side: u8) -> Option<Kind> {
    Kind::of(kind).filter(|kind| Side::of(side) == Some(kind.side()))
}

/// Returns whether the flag bits 1 to 7 and the spare bytes are zero.
fn spare_is_zero(head: &Head) -> bool {
    head.flags <= 1 && head.spare == [0; 8]
}

/// Returns whether a record has no time (all 255) and no property (all zero).
fn is_empty(record: &Record) -> bool {
    record.head.period == Span::NEITHER
        && record.head.life == Span::NEITHER
        && record
            .properties
            .iter()
            .all(|property| *property == Some(Value::Unmentioned))
}

/// Returns whether the times of a record of the kind are right.
fn times_are_right(kind: Kind, period: Span, life: Span) -> bool {
    let Some(begin) = period.begin else {
        return false;
    };
    match kind {
        Kind::Baseline => baseline_times(begin, period.end, life),
        Kind::PermDelta => permdelta_times(begin, period.end, life),
        Kind::TempDelta => tempdelta_times(begin, period.end, life),
    }
}

/// Returns whether a BASELINE's end and life fit its begin and each other.
fn baseline_times(begin: Instant, end: Option<Instant>, life: Span) -> bool {
    end.is_none_or(|end| end > begin)
        && life.begin.is_none_or(|life_begin| life_begin <= begin)
        && life.end.is_none_or(|life_end| life_end > begin)
        && end
            .zip(life.end)
            .is_none_or(|(end, life_end)| end <= life_end)
}

/// Returns whether a PERMDELTA has no end, and at most one life time, its own instant.
fn permdelta_times(instant: Instant, end: Option<Instant>, life: Span) -> bool {
    let life_is_right = match (life.begin, life.end) {
        (None, None) => true,
        (Some(time), None) | (None, Some(time)) => time == instant,
        (Some(_), Some(_)) => false,
    };
    end.is_none() && life_is_right
}

/// Returns whether a TEMPDELTA's end comes after its begin, and it has no life.
fn tempdelta_times(begin: Instant, end: Option<Instant>, life: Span) -> bool {
    end.is_none_or(|end| end > begin) && life == Span::NEITHER
}

/// Returns whether a record of the kind mentions enough.
fn content_is_right(kind: Kind, mentions: usize, life: Span) -> bool {
    match kind {
        Kind::Baseline => mentions == PROPERTIES,
        Kind::PermDelta => mentions > 0 || life != Span::NEITHER,
        Kind::TempDelta => mentions > 0,
    }
}

#[cfg(test)]
mod tests {
    use super::*;
    use crate::fixtures::brief::{base, cancelling, change, closing, opening, passing};
    use crate::fixtures::{cancelled_cases, sound_cases, Case};
    use crate::refusal::number_of;

    const FEATURE: [u8; 16] = [7; 16];
    const NONE: u32 = 4_294_967_295;

    /// Makes a slice of a kind, its four times, and nil, unknown in its first properties.
    fn slice(kind: u8, times: [u32; 4], mentions: usize) -> Vec<u8> {
        let mut slice = vec![0; 240];
        slice[..16].copy_from_slice(&FEATURE);
        slice[16] = kind;
        for (place, time) in slice[24..40].chunks_mut(4).zip(times) {
            place.copy_from_slice(&time.to_be_bytes());
        }
        for property in slice[48..].chunks_mut(24).take(mentions) {
            property[..2].copy_from_slice(&[1, 4]);
        }
        slice
    }

    /// Makes a sound slice of each kind, with its side.
    fn sound() -> [(Vec<u8>, u8); 3] {
        [
            (slice(1, [100, NONE, 100, NONE], 8), 0),
            (slice(2, [150, NONE, NONE, NONE], 1), 0),
            (slice(3, [120, 140, NONE, NONE], 1), 1),
        ]
    }

    /// Makes a cancelled slice of each kind, with its side.
    fn cancelled() -> [(Vec<u8>, u8); 3] {
        sound().map(|(slice, side)| {
            let mut cancelled = self::slice(slice[16], [NONE; 4], 0);
            cancelled[17] = 1;
            (cancelled, side)
        })
    }

    /// Returns the number of the check, 0 if the slice is sound.
    fn number(slice: &[u8], side: u8) -> u8 {
        number_of(check(slice, &FEATURE, side))
    }

    /// Returns the number for a slice of a kind, its times and its mentions, on its own side.
    fn times(kind: u8, times: [u32; 4], mentions: usize) -> u8 {
        number(&slice(kind, times, mentions), u8::from(kind == 3))
    }

    /// Returns the number for a slice with one byte changed.
    fn changed(slice: &[u8], side: u8, offset: usize, value: u8) -> u8 {
        let mut slice = slice.to_vec();
        slice[offset] = value;
        number(&slice, side)
    }

    /// A sound and a cancelled slice of each kind.
    #[test]
    fn sound_and_cancelled_slices_pass() {
        for (slice, side) in sound().into_iter().chain(cancelled()) {
            assert_eq!(number(&slice, side), 0);
        }
    }

    /// "slice not 240 bytes", before all else.
    #[test]
    fn nine_is_for_the_length() {
        let (slice, side) = &sound()[0];
        assert_eq!(number(&[], *side), 9);
        assert_eq!(number(&slice[..239], *side), 9);
        assert_eq!(number(&[&slice[..], &[0]].concat(), *side), 9);
        assert_eq!(check(&[], &[], 9), Err(Refusal::Length));
    }

    /// "slice of another feature", or a feature that is not 16 bytes.
    #[test]
    fn ten_is_for_the_feature() {
        let (slice, side) = &sound()[0];
        assert_eq!(changed(slice, *side, 0, 8), 10);
        assert_eq!(changed(slice, *side, 15, 8), 10);
        for feature in [&slice[..0], &slice[..15], &slice[..17], &[8; 16]] {
            assert_eq!(check(slice, feature, *side), Err(Refusal::Feature));
        }
    }

    /// "kind unknown or of the other side".
    #[test]
    fn eleven_is_for_the_kind() {
        for (slice, side) in sound().into_iter().chain(cancelled()) {
            for kind in [0, 4, 255] {
                assert_eq!(changed(&slice, side, 16, kind), 11);
            }
            for other in [1 - side, 2, 255] {
                assert_eq!(number(&slice, other), 11);
            }
        }
    }

    /// "record flag bits 1-7 or bytes 24-31 not zero".
    #[test]
    fn twelve_is_for_flag_bits_and_spare_bytes() {
        for (slice, side) in sound().into_iter().chain(cancelled()) {
            for bit in 1..8 {
                assert_eq!(changed(&slice, side, 17, slice[17] | 1 << bit), 12);
            }
            for offset in 40..48 {
                assert_eq!(changed(&slice, side, offset, 1), 12);
            }
        }
    }

    /// "cancelled, and bytes 8-23 not all 255 or 32-223 not all zero".
    #[test]
    fn thirteen_is_for_a_cancelled_record_that_says_something() {
        for (slice, side) in cancelled() {
            for offset in 24..40 {
                assert_eq!(changed(&slice, side, offset, 254), 13);
            }
            for offset in 48..240 {
                assert_eq!(changed(&slice, side, offset, 1), 13);
            }
        }
        for (slice, side) in sound() {
            assert_eq!(changed(&slice, side, 17, 1), 13);
        }
    }

    /// "a property breaks the layout": a form 6, or a last byte that is not zero.
    #[test]
    fn fourteen_is_for_the_layout() {
        for (slice, side) in sound() {
            for property in 0..8 {
                assert_eq!(changed(&slice, side, 48 + 24 * property, 6), 14);
                assert_eq!(changed(&slice, side, 48 + 24 * property + 23, 1), 14);
            }
        }
    }

    /// Checks that some times are right for a kind with this many mentions, and that others are
    /// not.
    fn hold_times(kind: u8, mentions: usize, right: &[[u32; 4]], wrong: &[[u32; 4]]) {
        for (some, number) in [(right, 0), (wrong, 15)] {
            for &one in some {
                assert_eq!(times(kind, one, mentions), number, "{one:?}");
            }
        }
    }

    /// Each clause of a BASELINE's times, kept and broken.
    #[test]
    fn fifteen_is_for_a_baselines_times() {
        let right = [
            [100, NONE, NONE, NONE],
            [100, 101, 100, 101],
            [100, 200, 0, 200],
            [0, 1, 0, NONE],
        ];
        let wrong = [
            [NONE, NONE, NONE, NONE],
            [100, 100, NONE, NONE],
            [100, 99, NONE, NONE],
            [100, NONE, 101, NONE],
            [100, NONE, NONE, 100],
            [100, NONE, NONE, 99],
            [100, 201, NONE, 200],
        ];
        hold_times(1, 8, &right, &wrong);
        // An end of none is not "at most" anything: it is not given.
        assert_eq!(times(1, [100, NONE, 100, 200], 8), 0);
    }

    /// Each clause of a PERMDELTA's times, kept and broken.
    #[test]
    fn fifteen_is_for_a_permdeltas_times() {
        let right = [
            [150, NONE, NONE, NONE],
            [150, NONE, 150, NONE],
            [150, NONE, NONE, 150],
        ];
        let wrong = [
            [NONE, NONE, NONE, NONE],
            [150, 151, NONE, NONE],
            [150, NONE, 149, NONE],
            [150, NONE, NONE, 151],
            [150, NONE, 150, 150],
        ];
        hold_times(2, 1, &right, &wrong);
    }

    /// Each clause of a TEMPDELTA's times, kept and broken.
    #[test]
    fn fifteen_is_for_a_tempdeltas_times() {
        let right = [
            [120, NONE, NONE, NONE],
            [120, 121, NONE, NONE],
            [0, 4_294_967_294, NONE, NONE],
        ];
        let wrong = [
            [NONE, NONE, NONE, NONE],
            [120, 120, NONE, NONE],
            [120, 119, NONE, NONE],
            [120, NONE, 120, NONE],
            [120, NONE, NONE, 120],
        ];
        hold_times(3, 1, &right, &wrong);
    }

    /// Every property, one or more, one or more or a life time.
    #[test]
    fn sixteen_is_for_the_content() {
        assert_eq!(times(1, [100, NONE, 100, NONE], 7), 16);
        assert_eq!(times(1, [100, NONE, 100, NONE], 0), 16);
        assert_eq!(times(2, [150, NONE, NONE, NONE], 0), 16);
        assert_eq!(times(3, [120, NONE, NONE, NONE], 0), 16);
        assert_eq!(times(2, [150, NONE, 150, NONE], 0), 0);
        assert_eq!(times(2, [150, NONE, NONE, 150], 0), 0);
    }

    /// Every fixture that is called sound is.
    #[test]
    fn sound_fixtures_pass() {
        let brief = [
            base(),
            change(2, 150, 2),
            opening(3, 100, 3),
            closing(4, 300),
            passing(5, 120, 140, 5),
            passing(5, 120, NONE, 5),
            cancelling(&change(2, 150, 2), 1),
        ];
        let cases = sound_cases()
            .into_iter()
            .chain(cancelled_cases())
            .chain(Kind::ALL.map(Case::any))
            .chain(brief);
        for case in cases {
            assert_eq!(check(&case.slice, &case.feature, case.side), Ok(()));
        }
    }
}
