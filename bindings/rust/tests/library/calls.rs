//! What the calls write and return when nothing is refused.

use crate::slices::*;
use std::thread;
use timeslices::{
    arrive, derive, listing, listing_string, new_table, permanent_state, property, snapshot,
    table_bytes, Arrival, Instant, ListingNeeds, Mention, Refusal, Side, HEADER_BYTES,
    LARGEST_TABLE, LISTING_BYTES, MOST_RECORDS, NONE, PROPERTY_BYTES, RECORD_BYTES, SLICE_BYTES,
};

/// The sizes are those of the specification.
#[test]
fn sizes() {
    assert_eq!(
        [HEADER_BYTES, RECORD_BYTES, SLICE_BYTES, PROPERTY_BYTES],
        [32, 224, 240, 24]
    );
    assert_eq!(
        [MOST_RECORDS, LARGEST_TABLE, LISTING_BYTES],
        [256, 57_376, 10_771]
    );
    assert_eq!(
        [0, 1, 256, 257, usize::MAX].map(table_bytes),
        [32, 256, 57_376, 57_376, 57_376]
    );
}

/// Creating a table writes its header; the bytes after it are kept.
#[test]
fn a_new_table() {
    for (side, byte) in [(Side::Permanent, 0), (Side::Temporary, 1)] {
        let mut table = [FILL; 300];
        assert_eq!(new_table(&mut table, side, &FEATURE), Ok(()));
        let header = [&[b'T', b'S', b'L', byte, 0, 1, 0, 0][..], &FEATURE, &[0; 8]].concat();
        assert_eq!(table[..32], header);
        assert_eq!(table[32..], [FILL; 268]);
    }
}

/// Records are sorted by kind, then sequence number, in whatever order they arrive; the bytes after them
/// are kept.
#[test]
fn arrivals() {
    let slices = [p(2, 150, 2), base(), p(1, 150, 3)];
    let table = Tables::of(&slices).permanent;
    let records = [base(), p(1, 150, 3), p(2, 150, 2)].map(|slice| slice[16..].to_vec());
    assert_eq!(table[6..8], [0, 3]);
    assert_eq!(table[32..704], records.concat());
    assert_eq!(table[704..], [FILL; 224]);
}

/// A cancelled record stays: a lower correction does not bring the change back, but a higher one does.
#[test]
fn corrections() {
    let mut table = Tables::of(&[p(1, 150, 2)]).permanent;
    let came = [
        (cancelled(2, 1), Ok(Arrival::Replaced)),
        (p(1, 150, 2), Ok(Arrival::Superseded)),
        (p(1, 999, 7), Ok(Arrival::Superseded)),
        (cancelled(2, 1), Ok(Arrival::Repeat)),
        (corrected(p(1, 150, 2), 1), Err(Refusal::OtherBytes)),
        (corrected(p(1, 150, 2), 2), Ok(Arrival::Replaced)),
    ];
    let mut stored = table.clone();
    for (slice, answer) in came {
        assert_eq!(arrive(&mut table, &slice), answer);
        if answer == Ok(Arrival::Replaced) {
            stored[32..256].copy_from_slice(&slice[16..]);
        }
        assert_eq!(table, stored);
    }
}

/// Every byte of a state and of a snapshot, worked out from the layout.
#[test]
fn written_records() {
    let tables = Tables::of(&[base(), p(2, 110, 2), t(1, 120, 140, 5)]);
    let mut expected = vec![4, 0, 0, 0, 0, 0, 0, 0, 0, 0, 0, 130];
    expected.extend([
        255, 255, 255, 255, 0, 0, 0, 100, 255, 255, 255, 255, 0, 0, 0, 0, 0, 0, 0, 0,
    ]);
    expected.extend([2, 0, 0, 0, 0, 0, 0, 0, 0, 5]);
    expected.extend([0; 14]);
    for _ in 1..8 {
        expected.extend(MISSING);
        expected.extend([0; 22]);
    }
    let mut record = [FILL; RECORD_BYTES];
    assert_eq!(
        snapshot(&tables.permanent, &tables.temporary, at(130), &mut record),
        Ok(())
    );
    assert_eq!(record[..], expected);
    expected[41] = 2;
    assert_eq!(
        permanent_state(&tables.permanent, at(130), &mut record),
        Ok(())
    );
    assert_eq!(record[..], expected);
}

/// There is a state up to the last instant.
#[test]
fn the_last_instant() {
    let tables = Tables::of(&[base(), p(2, NONE - 1, 2)]);
    let codes = [Instant::LAST, at(NONE - 2)].map(|instant| {
        let mention = property(&tables.permanent, &tables.temporary, instant, 0);
        mention.ok().and_then(Mention::bytes).map(|bytes| bytes[9])
    });
    assert_eq!(codes, [Some(2), Some(1)]);
}

/// The bytes of a property are borrowed from the record that mentioned it last: they are not a copy.
#[test]
fn a_property_is_a_part_of_its_table() {
    let tables = Tables::of(&[base(), p(1, 110, 2), t(1, 120, 140, 5), t(2, 130, 160, 6)]);
    let asked =
        |instant, number| property(&tables.permanent, &tables.temporary, at(instant), number);
    // where property 0 of the second record begins
    let second = 32 + 224 + 32;
    let places = [
        (100, 0, 64),
        (110, 0, second),
        (119, 7, 64 + 7 * 24),
        (135, 7, 64 + 7 * 24),
    ];
    for (instant, number, place) in places {
        let Ok(Mention::Permanent(bytes)) = asked(instant, number) else {
            panic!("{number} at {instant} is in the permanent table");
        };
        assert!(std::ptr::eq(bytes, &tables.permanent[place..place + 24]));
    }
    for (instant, place) in [(120, 64), (129, 64), (130, second), (159, second)] {
        let Ok(Mention::Temporary(bytes)) = asked(instant, 0) else {
            panic!("0 at {instant} is in the temporary table");
        };
        assert!(std::ptr::eq(bytes, &tables.temporary[place..place + 24]));
    }
}

/// The listing of the specification, every byte of its derived table, and the bytes after them.
#[test]
fn derived_baselines() {
    let nil = (0..8).fold(base(), |slice, part| {
        with(slice, PARTS + 24 * part, &[1, 4, 0, 0, 0, 0, 0, 0, 0, 0])
    });
    let table = Tables::of(&[nil, p(1, 300, 2)]).permanent;
    let mut output = vec![FILL; 500];
    assert_eq!(derive(&table, &mut output), Ok(2));
    let first = timed(nil, TIMES + 4, 300);
    let second = with(
        timed(nil, TIMES, 300),
        PARTS,
        &p(1, 300, 2)[PARTS..PARTS + 24],
    );
    let second = with(second, 20, &[0, 0, 0, 2]);
    let expected = [&table[..32], &first[16..], &second[16..], &[FILL; 20]].concat();
    assert_eq!(output, expected);

    let text = "derived 2\n1 100 300 11111111\n2 300 - 21111111\n";
    assert_eq!(listing_string(&table), text);
    let mut place = [FILL; 60];
    assert_eq!(listing(&table, &mut place), Ok(text));
    assert_eq!(place[text.len()..], [FILL; 60][text.len()..]);
    assert_eq!(listing(&table, &mut place[..text.len()]), Ok(text));
}

/// A listing that does not fit returns the length that it needs, and writes nothing.
#[test]
fn a_listing_that_does_not_fit() {
    let table = Tables::of(&[]).permanent;
    for length in 0..10 {
        let mut place = vec![FILL; length];
        assert_eq!(listing(&table, &mut place), Err(ListingNeeds(10)));
        assert_eq!(place, vec![FILL; length]);
    }
    assert_eq!(listing(&table, &mut [0; 10]), Ok("derived 0\n"));
}

/// A table of any length is listed; the bytes after its last record are ignored.
#[test]
fn a_listing_of_a_long_table() {
    let mut table = vec![FILL; LARGEST_TABLE + 1000];
    assert_eq!(new_table(&mut table, Side::Permanent, &FEATURE), Ok(()));
    assert_eq!(arrive(&mut table, &base()), Ok(Arrival::Added));
    let text = "derived 1\n1 100 - 21111111\n";
    for length in [LARGEST_TABLE, LARGEST_TABLE + 1, LARGEST_TABLE + 1000] {
        assert_eq!(listing_string(&table[..length]), text);
    }
}

/// A long listing: 256 records, and times of ten digits.
#[test]
fn the_longest_listing() {
    let mut table = empty(Side::Permanent, MOST_RECORDS);
    let first = 4_000_000_000;
    assert_eq!(
        arrive(&mut table, &b(1, first, NONE - 1, 1)),
        Ok(Arrival::Added)
    );
    for change in 1..=255 {
        assert_eq!(
            arrive(&mut table, &p(change, first + u32::from(change), 2)),
            Ok(Arrival::Added)
        );
    }
    let mut expected = String::from("derived 256\n");
    for sequence in 1..=256 {
        let (begin, end) = (first + sequence - 1, first + sequence);
        let end = if sequence == 256 { NONE - 1 } else { end };
        expected += &format!("{sequence} {begin} {end} 21111111\n");
    }
    assert!(expected.len() <= LISTING_BYTES);
    assert_eq!(listing_string(&table), expected);
}

/// The listings of the samples.
#[test]
fn samples() {
    let samples = [
        (
            "runway",
            "derived 2\n1 100 300 42111111\n2 300 - 42111111\n",
        ),
        (
            "commissioning",
            "derived 2\n1 100 300 42111111\n2 300 - 42111111\n",
        ),
        ("cancelled", "derived 1\n1 100 - 42111111\n"),
        ("decommissioning", "derived 1\n1 100 500 42111111\n"),
    ];
    for (name, text) in samples {
        let path = format!("{}/../../samples/{name}.tsl", env!("CARGO_MANIFEST_DIR"));
        let table = std::fs::read(&path).expect("the sample is there");
        assert_eq!(listing_string(&table), text, "{name}");
    }
}

/// Many threads read the same tables and write to their own, with little more stack than documented.
#[test]
fn threads() {
    let tables = &Tables::of(&[base(), p(1, 150, 2), t(1, 120, 140, 5)]);
    let work = move || {
        for _ in 0..200 {
            let mut own = Tables::of(&[base(), p(1, 150, 2)]);
            assert_eq!(own.take(&cancelled(2, 1)), Ok(Arrival::Replaced));
            assert_eq!(
                listing_string(&own.permanent),
                "derived 1\n1 100 - 21111111\n"
            );
            let expected = "derived 2\n1 100 150 21111111\n2 150 - 21111111\n";
            assert_eq!(listing_string(&tables.permanent), expected);
            let mention = property(&tables.permanent, &tables.temporary, at(125), 0);
            assert_eq!(mention, Ok(Mention::Temporary(&tables.temporary[64..88])));
        }
    };
    thread::scope(|scope| {
        for _ in 0..8 {
            let thread = thread::Builder::new().stack_size(256 * 1024);
            thread.spawn_scoped(scope, work).expect("a thread starts");
        }
    });
}
