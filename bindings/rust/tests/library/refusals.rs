//! Every refusal that can occur, through each call that gives it; none changes a byte.

use crate::slices::*;
use timeslices::{
    arrive, derive, listing, listing_string, new_table, permanent_state, property, snapshot,
    touched, ListingNeeds, Refusal, Side, LARGEST_TABLE, NONE, RECORD_BYTES,
};

/// Returns the number of a refusal, or 0 if nothing is refused.
fn number<T>(answer: Result<T, Refusal>) -> u32 {
    answer.err().map_or(0, Refusal::number)
}

/// Makes a call with a buffer, which must stay the same if the call is refused, and returns the number.
fn unchanged<T>(bytes: &[u8], call: impl FnOnce(&mut [u8]) -> Result<T, Refusal>) -> u32 {
    let mut after = bytes.to_vec();
    let number = number(call(&mut after));
    assert!(number == 0 || after == bytes, "{number} changed a byte");
    number
}

/// Returns the number of an arrival.
fn arrival(table: &[u8], slice: &[u8]) -> u32 {
    unchanged(table, |table| arrive(table, slice))
}

/// Returns the numbers of the permanent state, the snapshot and a property at an instant, with a record of
/// a length.
fn asked(tables: &Tables, instant: u32, length: usize, asked: u8) -> [u32; 3] {
    let (permanent, temporary, instant) = (&tables.permanent, &tables.temporary, at(instant));
    let record = vec![FILL; length];
    [
        unchanged(&record, |record| {
            permanent_state(permanent, instant, record)
        }),
        unchanged(&record, |record| {
            snapshot(permanent, temporary, instant, record)
        }),
        number(property(permanent, temporary, instant, asked)),
    ]
}

/// Returns the number of the question whether a property is touched.
fn touch(temporary: &[u8], instant: u32, asked: u8) -> u32 {
    number(touched(temporary, at(instant), asked))
}

/// Returns the number of a derivation into an output of a length.
fn derived(permanent: &[u8], length: usize) -> u32 {
    unchanged(&vec![FILL; length], |output| derive(permanent, output))
}

/// Makes tables that hold some records of each side.
fn filled() -> Tables {
    Tables::of(&[base(), p(1, 150, 2), t(1, 120, 140, 5), t(2, 130, 160, 6)])
}

/// Returns faulty copies of a sound table, each with the number that it is refused with.
fn faults(sound: &[u8]) -> Vec<(u32, Vec<u8>)> {
    let set = |place: usize, bytes: &[u8]| {
        let mut table = sound.to_vec();
        table[place..place + bytes.len()].copy_from_slice(bytes);
        table
    };
    let (first, second) = (&sound[32..256], &sound[256..480]);
    let mut faults = vec![(1, vec![]), (1, sound[..31].to_vec())];
    faults.extend([0, 1, 2].map(|place| (2, set(place, b"x"))));
    faults.extend([2, 255].map(|side| (2, set(3, &[side]))));
    faults.extend([[0, 0], [0, 2], [1, 1]].map(|version| (3, set(4, &version))));
    faults.extend((24..32).map(|place| (4, set(place, &[1]))));
    faults.extend([[0, 5], [1, 0], [255, 255]].map(|count| (5, set(6, &count))));
    faults.extend([(5, sound[..479].to_vec()), (5, sound[..32].to_vec())]);
    faults.extend([32, 33, 63, 64, 256, 257, 287, 288].map(|place| (6, set(place, &[9]))));
    faults.extend([[second, first], [first, first]].map(|two| (7, set(32, &two.concat()))));
    faults
}

/// 1 to 7 of the permanent table, by every call that reads one, whatever else is wrong.
#[test]
fn a_wrong_permanent_table() {
    let Tables {
        permanent,
        temporary,
    } = filled();
    for (number, permanent) in faults(&permanent) {
        assert_eq!(arrival(&permanent, &[]), number);
        assert_eq!(derived(&permanent, 0), number);
        assert_eq!(listing_string(&permanent), format!("refused {number}\n"));
        let tables = Tables {
            permanent,
            temporary: vec![],
        };
        assert_eq!(asked(&tables, 125, 0, 8), [number; 3]);
    }
    assert_eq!(derived(&temporary, 0), 2);
    let exchanged = Tables {
        permanent: temporary,
        temporary: permanent,
    };
    assert_eq!(asked(&exchanged, 125, 0, 8), [2; 3]);
}

/// 1 to 7 of the temporary table, whatever else is wrong with the question.
#[test]
fn a_wrong_temporary_table() {
    let Tables {
        permanent,
        temporary,
    } = filled();
    for (number, mut temporary) in faults(&temporary) {
        assert_eq!(arrival(&temporary, &[]), number);
        if let Some(feature) = temporary.get_mut(8) {
            *feature = 0;
        }
        let tables = Tables {
            permanent: permanent.clone(),
            temporary,
        };
        assert_eq!(asked(&tables, 125, RECORD_BYTES, 8), [0, number, number]);
        assert_eq!(asked(&tables, 125, 0, 8), [23, number, number]);
        assert_eq!(touch(&tables.temporary, 125, 0), number);
        assert_eq!(touch(&tables.temporary, 125, 8), number);
    }
    assert_eq!(touch(&permanent, 125, 0), 2);
    assert_eq!(touch(&permanent, 125, 8), 2);
    let twice = Tables {
        temporary: permanent.clone(),
        permanent,
    };
    assert_eq!(asked(&twice, 125, RECORD_BYTES, 0), [0, 2, 2]);
}

/// 1 of a new table; the type allows no wrong side.
#[test]
fn no_place_for_a_new_table() {
    for side in [Side::Permanent, Side::Temporary] {
        for length in [0, 1, 31] {
            assert_eq!(
                unchanged(&vec![FILL; length], |table| new_table(
                    table, side, &FEATURE
                )),
                1
            );
        }
        assert_eq!(
            unchanged(&[FILL; 32], |table| new_table(table, side, &FEATURE)),
            0
        );
    }
}

/// 9 to 14: slices that are wrong whatever their kind.
#[test]
fn a_wrong_slice() {
    let Tables {
        permanent,
        temporary,
    } = filled();
    let spare = |place| with(t(3, 120, 140, 5), place, &[1]);
    let blank = cancelled(3, 1);
    let mut wrong = vec![(10, with(t(3, 120, 140, 5), 0, &[1])), (10, spare(15))];
    wrong.extend([0, 1, 2, 4, 255].map(|kind| (11, with(t(3, 120, 140, 5), 16, &[kind]))));
    wrong.extend([2, 3, 128, 255].map(|flags| (12, with(blank, FLAGS, &[flags]))));
    wrong.extend((40..48).map(|place| (12, spare(place))));
    wrong.extend((24..40).map(|place| (13, with(blank, place, &[254]))));
    wrong.extend((48..240).map(|place| (13, with(blank, place, &[1]))));
    wrong.extend(broken_properties().map(|slice| (14, slice)));
    for (number, slice) in wrong {
        assert_eq!(arrival(&temporary, &slice), number);
    }
    for length in [0, 1, 16, 239] {
        assert_eq!(arrival(&temporary, &t(3, 120, 140, 5)[..length]), 9);
    }
    assert_eq!(arrival(&temporary, &[0; 241]), 9);
    assert_eq!(arrival(&permanent, &t(3, 120, 140, 5)), 11);
    assert_eq!(arrival(&temporary, &blank), 0);
}

/// The first bytes of properties that break the layout; the rest is zero.
const BROKEN: [&[u8]; 13] = [
    &[6],
    &[255],
    &[0, 1],
    &[0, 0, 0, 0, 0, 0, 0, 1],
    &[1, 0],
    &[1, 6],
    &[1, 1, 0, 0, 0, 0, 0, 0, 1],
    &[2, 1],
    &[2, 0, 0, 0, 0, 0, 0, 0, 0, 0, 1],
    &[3, 0, 0, 0, 0, 0, 0, 0, 0, 0, 0, 0, 1],
    &[4, 0],
    &[4, 5],
    &[5, 1],
];

/// Forms and details of properties, with two doubles that break the layout.
const WRONG_DOUBLES: [([u8; 2], [f64; 2]); 8] = [
    ([4, 1], [f64::NAN, 0.0]),
    ([4, 2], [f64::INFINITY, 0.0]),
    ([4, 3], [1.0, 1.0]),
    ([5, 0], [90.01, 0.0]),
    ([5, 0], [-90.01, 0.0]),
    ([5, 0], [0.0, 180.01]),
    ([5, 0], [0.0, -180.01]),
    ([5, 0], [0.0, f64::NAN]),
];

/// Makes slices with a property that breaks the layout, the times wrong as well.
fn broken_properties() -> impl Iterator<Item = Slice> {
    let doubles = WRONG_DOUBLES.map(|(form, [one, other])| {
        let numbers = [one.to_be_bytes(), other.to_be_bytes()].concat();
        [&form[..], &[0; 6], &numbers].concat()
    });
    let parts = BROKEN.map(<[u8]>::to_vec).into_iter().chain(doubles);
    let places = (0..8).cycle().map(|property| PARTS + 24 * property);
    parts
        .zip(places)
        .map(|(part, place)| with(blank(3, 9), place, &part))
}

/// Begin, end, life begin and life end of slices, by their kind; one is wrong in each.
const WRONG_TIMES: [(u8, [u32; 4]); 15] = [
    (1, [NONE, NONE, NONE, NONE]),
    (1, [100, 100, NONE, NONE]),
    (1, [100, 99, NONE, NONE]),
    (1, [100, NONE, 101, NONE]),
    (1, [100, NONE, NONE, 100]),
    (1, [100, 301, NONE, 300]),
    (2, [NONE, NONE, NONE, NONE]),
    (2, [100, 200, NONE, NONE]),
    (2, [100, NONE, 99, NONE]),
    (2, [100, NONE, NONE, 101]),
    (2, [100, NONE, 100, 100]),
    (3, [NONE, 100, NONE, NONE]),
    (3, [100, 100, NONE, NONE]),
    (3, [100, 200, 100, NONE]),
    (3, [100, 200, NONE, 200]),
];

/// 15: the times of each kind, the content wrong as well.
#[test]
fn wrong_times() {
    let tables = filled();
    for (kind, times) in WRONG_TIMES {
        let bytes = times.map(u32::to_be_bytes).concat();
        let slice = with(blank(kind, 9), TIMES, &bytes);
        let table = match kind {
            3 => &tables.temporary,
            _ => &tables.permanent,
        };
        assert_eq!(arrival(table, &slice), 15, "{kind} {times:?}");
    }
}

/// 16 to 18: the content, other bytes of what is stored, and a full table.
#[test]
fn slices_that_the_table_does_not_take() {
    let Tables {
        permanent,
        temporary,
    } = filled();
    for property in 0..8 {
        let missing = with(b(9, 100, NONE, 1), PARTS + 24 * property, &[0; 10]);
        assert_eq!(arrival(&permanent, &missing), 16);
    }
    for (table, kind) in [(&permanent, 2), (&temporary, 3)] {
        assert_eq!(arrival(table, &timed(blank(kind, 9), TIMES, 100)), 16);
    }
    assert_eq!(arrival(&permanent, &p(1, 150, 3)), 17);
    assert_eq!(arrival(&temporary, &with(blank(3, 1), FLAGS, &[1])), 17);
    let full = Tables::of(&[base(), p(1, 150, 2), p(2, 150, 2), p(3, 150, 2)]).permanent;
    assert_eq!(arrival(&full, &p(4, 150, 2)), 18);
    assert_eq!(arrival(&full, &b(2, 100, NONE, 1)), 18);
    assert_eq!(arrival(&full, &p(3, 150, 3)), 17);
    assert_eq!(arrival(&full, &cancelled(2, 3)), 0);
}

/// 8 and 19 to 23 of the questions, in their order.
#[test]
fn questions_that_have_no_answer() {
    let mut tables = Tables::of(&[b(1, 100, 300, 1), b(2, 200, NONE, 2)]);
    assert_eq!(asked(&tables, 199, RECORD_BYTES, 7), [0; 3]);
    assert_eq!(asked(&tables, 99, RECORD_BYTES, 7), [20; 3]);
    assert_eq!(asked(&tables, 200, RECORD_BYTES, 7), [21; 3]);
    assert_eq!(asked(&tables, 99, 223, 8), [23, 23, 19]);
    assert_eq!(asked(&tables, 200, 225, 255), [23, 23, 19]);
    assert_eq!(asked(&tables, 150, 0, 8), [23, 23, 19]);
    tables.temporary[23] ^= 1;
    assert_eq!(asked(&tables, 200, 0, 8), [23, 8, 8]);
    let closed = Tables::of(&[base(), closing(300)]);
    assert_eq!(asked(&closed, 300, RECORD_BYTES, 0), [22; 3]);
    assert_eq!(asked(&closed, 300, 0, 8), [23, 23, 19]);
}

/// An open BASELINE closes where the next one begins, for good.
#[test]
fn an_open_baseline_that_is_closed() {
    let tables = Tables::of(&[base(), b(2, 150, 160, 2)]);
    for (instant, refused) in [
        (99, 20),
        (149, 0),
        (150, 0),
        (159, 0),
        (160, 20),
        (NONE - 1, 20),
    ] {
        assert_eq!(asked(&tables, instant, RECORD_BYTES, 0), [refused; 3]);
    }
    assert_eq!(derived(&tables.permanent, LARGEST_TABLE), 0);
}

/// 19 of what touches a property; nothing of the permanent table is asked for, and no state.
#[test]
fn a_property_that_there_is_not() {
    let mut temporary = filled().temporary;
    for instant in [0, 125, NONE - 1] {
        for number in 0..=255 {
            let expected = if number < 8 { 0 } else { 19 };
            assert_eq!(touch(&temporary, instant, number), expected);
        }
    }
    temporary[8..24].fill(0);
    assert_eq!(touch(&temporary, 125, 7), 0);
}

/// 21 and 23 of derived baselines.
#[test]
fn baselines_that_cannot_be_derived() {
    let two = Tables::of(&[base(), b(2, 100, NONE, 2)]).permanent;
    assert_eq!(derived(&two, LARGEST_TABLE), 21);
    assert_eq!(derived(&two, 0), 21);
    assert_eq!(listing_string(&two), "refused 21\n");
    let one = filled().permanent;
    for length in [0, 31, 32, 479] {
        assert_eq!(derived(&one, length), 23);
    }
    assert_eq!(derived(&one, 480), 0);
}

/// 23 if there are too many: an opening PERMDELTA at 10, and BASELINEs with gaps between them, each of which
/// changes the state at its begin and at its end.
#[test]
fn more_baselines_than_a_table_holds() {
    let mut table = empty(Side::Permanent, 256);
    assert_eq!(
        number(arrive(&mut table, &timed(p(1, 10, 1), LIFE_BEGIN, 10))),
        0
    );
    for sequence in 0..128 {
        let begin = 100 + 20 * u32::from(sequence);
        assert_eq!(derived(&table, LARGEST_TABLE), 0);
        assert_eq!(
            number(arrive(&mut table, &b(sequence, begin, begin + 10, 1))),
            0
        );
    }
    assert_eq!(derived(&table, LARGEST_TABLE), 23);
    assert_eq!(derived(&table, LARGEST_TABLE + 1000), 23);
    assert_eq!(listing_string(&table), "refused 23\n");
}

/// Empty buffers are refused by their length, like any other.
#[test]
fn empty_buffers() {
    let tables = filled();
    assert_eq!(number(new_table(&mut [], Side::Permanent, &FEATURE)), 1);
    assert_eq!(number(arrive(&mut [], &[])), 1);
    assert_eq!(arrival(&tables.permanent, &[]), 9);
    let none = Tables {
        permanent: vec![],
        temporary: vec![],
    };
    assert_eq!(asked(&none, 125, 0, 0), [1; 3]);
    assert_eq!(touch(&[], 125, 8), 1);
    assert_eq!(asked(&tables, 125, 0, 0), [23, 23, 0]);
    assert_eq!(number(derive(&[], &mut [])), 1);
    assert_eq!(number(derive(&tables.permanent, &mut [])), 23);
    assert_eq!(listing(&[], &mut []), Err(ListingNeeds(10)));
    assert_eq!(listing_string(&[]), "refused 1\n");
}

/// Returns a new table that the records of another one are delivered to, with the number of each arrival.
fn rebuilt(table: &[u8], records: usize) -> (Vec<u8>, Vec<u32>) {
    let mut new = empty(Side::Permanent, 4);
    let delivered = table[32..].chunks(RECORD_BYTES).take(records);
    let numbers = delivered.map(|record| number(arrive(&mut new, &[&FEATURE, record].concat())));
    let numbers = numbers.collect();
    (new, numbers)
}

/// A table that is refused with 7 is rebuilt by delivering its records to a new one. Of two corrections the
/// higher one stays; two records that claim to be the same one give 17, and the first stays.
#[test]
fn a_table_that_is_rebuilt() {
    let sound = Tables::of(&[base(), p(1, 150, 2)]).permanent;
    let of = |records: &[Slice]| {
        let records: Vec<u8> = records
            .iter()
            .flat_map(|slice| slice[16..].to_vec())
            .collect();
        let mut table = sound.clone();
        table[7] = (records.len() / RECORD_BYTES) as u8;
        table[32..32 + records.len()].copy_from_slice(&records);
        assert_eq!(derived(&table, LARGEST_TABLE), 7);
        table
    };
    let swapped = of(&[p(1, 150, 2), base()]);
    assert_eq!(rebuilt(&swapped, 2), (sound.clone(), vec![0, 0]));

    let higher = corrected(p(1, 160, 3), 1);
    for records in [
        [base(), p(1, 150, 2), higher],
        [base(), higher, p(1, 150, 2)],
    ] {
        let expected = Tables::of(&[base(), higher]).permanent;
        assert_eq!(rebuilt(&of(&records), 3), (expected, vec![0, 0, 0]));
    }

    let twice = of(&[base(), p(1, 150, 2), p(1, 160, 3)]);
    assert_eq!(rebuilt(&twice, 3), (sound, vec![0, 0, 17]));
}

/// 20 and 22 after the end of a life: 22 needs an anchor that holds at the instant.
#[test]
fn after_the_end_of_a_life() {
    let ends = |slices: &[Slice], said: &[(u32, u32)]| {
        let tables = Tables::of(slices);
        for &(instant, number) in said {
            let answer = asked(&tables, instant, RECORD_BYTES, 0);
            assert_eq!(answer, [number; 3], "{instant}");
        }
    };
    let ended = |end, life_end| timed(b(1, 100, end, 1), LIFE_END, life_end);
    let opening = timed(p(2, 50, 3), LIFE_BEGIN, 50);
    ends(&[ended(200, 200)], &[(199, 0), (200, 20), (900, 20)]);
    ends(&[ended(200, 250)], &[(199, 0), (200, 20), (250, 20)]);
    ends(&[ended(NONE, 200)], &[(199, 0), (200, 22), (900, 22)]);
    let closed = [b(1, 100, 500, 1), closing(300)];
    ends(&closed, &[(299, 0), (300, 22), (499, 22), (500, 20)]);
    ends(&[opening, closing(300)], &[(299, 0), (300, 22), (900, 22)]);
    ends(&[ended(200, 200), opening], &[(199, 0), (200, 0), (900, 0)]);
    ends(&[base(), closing(100)], &[(100, 0), (900, 0)]);
}
