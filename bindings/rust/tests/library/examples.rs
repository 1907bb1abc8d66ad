//! The fourteen examples of the specification.

use crate::slices::*;
use timeslices::{property, snapshot, Arrival, Mention, Refusal, NONE, RECORD_BYTES};

/// What an example expects of a property at an instant.
#[derive(Clone, Copy, Debug, PartialEq)]
enum Said {
    Code(u8),
    NilUnknown,
    Unmentioned,
    Refused(Refusal),
}

use Said::{Code, NilUnknown, Refused, Unmentioned};

/// An example: the slices in the order of arrival; the answer to the last one, or `None` if all are accepted;
/// and instants and properties with what is expected of them.
struct Example {
    slices: Vec<Slice>,
    last: Option<Result<Arrival, Refusal>>,
    said: Vec<(u32, u8, Said)>,
}

/// Makes an example about property 0.
fn says(slices: &[Slice], said: &[(u32, Said)]) -> Example {
    Example {
        slices: slices.to_vec(),
        last: None,
        said: said
            .iter()
            .map(|&(instant, said)| (instant, 0, said))
            .collect(),
    }
}

/// Makes an example about the answer to its last slice.
fn becomes(slices: &[Slice], last: Result<Arrival, Refusal>) -> Example {
    Example {
        last: Some(last),
        ..says(slices, &[])
    }
}

/// Returns examples 1 to 7.
fn first_seven() -> Vec<Example> {
    let none = Refused(Refusal::NoState);
    let six = [base(), t(1, 120, 140, 5), t(2, 130, 160, 6)];
    let moved = corrected(t(1, 200, 210, 5), 1);
    vec![
        says(&[], &[(100, none)]),
        says(
            &[b(1, 100, 200, 1)],
            &[(99, none), (100, Code(1)), (199, Code(1)), (200, none)],
        ),
        says(&[base(), p(1, 150, 2)], &[(149, Code(1)), (150, Code(2))]),
        says(&[base(), p(1, 100, 2)], &[(100, Code(1))]),
        says(&[base(), p(1, 150, 2), cancelled(2, 1)], &[(150, Code(1))]),
        says(
            &six,
            &[
                (125, Code(5)),
                (135, Code(6)),
                (159, Code(6)),
                (160, Code(1)),
            ],
        ),
        says(
            &[&six[..], &[moved]].concat(),
            &[(125, Code(1)), (205, Code(5))],
        ),
    ]
}

/// Returns examples 8 to 14; example 9 is two of them.
fn last_seven() -> Vec<Example> {
    let (passing, other) = (t(1, 120, 140, 5), t(1, 120, 140, 9));
    let opening = timed(p(1, 100, 3), LIFE_BEGIN, 100);
    let unknown = with(t(1, 120, NONE, 0), PARTS, &[1, 4]);
    let mut thirteen = says(&[opening], &[(100, Code(3))]);
    thirteen.said.push((100, 1, Unmentioned));
    vec![
        becomes(&[corrected(passing, 1), passing], Ok(Arrival::Superseded)),
        becomes(&[passing, passing], Ok(Arrival::Repeat)),
        becomes(&[passing, passing, other], Err(Refusal::OtherBytes)),
        says(&[base(), p(4, 150, 8), p(3, 150, 9)], &[(150, Code(8))]),
        says(
            &[base(), b(2, 200, NONE, 2)],
            &[(199, Code(1)), (200, Code(2))],
        ),
        says(
            &[base(), closing(300)],
            &[(299, Code(1)), (300, Refused(Refusal::Withdrawn))],
        ),
        thirteen,
        says(&[base(), unknown], &[(120, NilUnknown)]),
    ]
}

/// Returns what the library says of a property at an instant; the snapshot must agree.
fn asked(tables: &Tables, instant: u32, number: u8) -> Said {
    let mut record = [FILL; RECORD_BYTES];
    let written = snapshot(
        &tables.permanent,
        &tables.temporary,
        at(instant),
        &mut record,
    );
    let mention = property(&tables.permanent, &tables.temporary, at(instant), number);
    assert_eq!(written.err(), mention.err());
    let mention = match mention {
        Ok(mention) => mention,
        Err(refusal) => return Refused(refusal),
    };
    let part = &record[32 + 24 * usize::from(number)..][..24];
    let Some(bytes) = mention.bytes() else {
        assert_eq!((mention, &part[..2]), (Mention::Unmentioned, &[1, 4][..]));
        return Unmentioned;
    };
    assert_eq!(bytes, part);
    match (bytes[0], bytes[1]) {
        (2, 0) => Code(bytes[9]),
        (1, 4) => NilUnknown,
        other => panic!("no example has {other:?}"),
    }
}

/// The library gives what each example expects.
#[test]
fn the_fourteen_examples() {
    let examples: Vec<Example> = first_seven().into_iter().chain(last_seven()).collect();
    assert_eq!(examples.len(), 15);
    for (place, example) in examples.iter().enumerate() {
        let mut tables = Tables::of(&[]);
        let arrivals = example.slices.iter().map(|slice| tables.take(slice));
        let arrivals: Vec<_> = arrivals.collect();
        match example.last {
            Some(last) => assert_eq!(arrivals.last(), Some(&last), "example at {place}"),
            None => assert!(arrivals.iter().all(Result::is_ok), "example at {place}"),
        }
        for &(instant, number, said) in &example.said {
            assert_eq!(
                asked(&tables, instant, number),
                said,
                "example at {place}, {instant}"
            );
        }
    }
}
