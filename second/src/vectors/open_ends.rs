//! BASELINEs without end: what closes them, what comes after the close, and what is derived from
//! them. Every history is asked about, derived, and asked about again as it was derived.

use super::Script;
use crate::derived::derive;
use crate::fixtures::brief::{baseline, cancelling, change, closing, from_to, mention_only};
use crate::fixtures::brief::{opening, passing, ORDERS, SEQUENCES};
use crate::fixtures::Case;
use crate::layout::bytes_of;
use crate::record::NONE;
use crate::tables::{Product, Question, Tables};

/// The last instant.
const LAST: u32 = NONE - 1;

/// The output of most derived baselines: room for 16 records.
const LENGTH: usize = bytes_of(16);

/// A title for people, the properties that are asked for, and histories.
type Group = (&'static str, &'static [u8], Vec<Vec<Case>>);

/// Adds every history about open ends.
pub fn add(script: &mut Script) {
    for (title, properties, histories) in groups() {
        script.title(title);
        for cases in histories {
            ask_whole(script, &Tables::of(&cases), properties);
        }
    }
    for (title, properties, deliveries) in feeds() {
        script.title(title);
        for slices in deliveries {
            deliver(script, &slices, properties);
        }
    }
    full(script);
}

/// Returns the histories that are asked about as they are.
fn groups() -> [Group; 9] {
    [
        ("open ends: two, three and many", &[0], rows()),
        ("open ends: beside fixed ends", &[0], beside_fixed()),
        ("open ends: equal begins", &[0], equal_begins()),
        ("open ends: cancelled ones close nothing", &[0], cancelled()),
        ("open ends: the first and the last instant", &[0], edges()),
        ("open ends: openings after a close", &[0, 1], openings()),
        ("open ends: changes about a close", &[0, 1], changes()),
        ("open ends: lives across a close", &[0], lives()),
        ("open ends: TEMPDELTAs over a close", &[0, 3], overlaid()),
    ]
}

/// Returns the slices that are delivered one by one.
fn feeds() -> [Group; 2] {
    [
        ("open ends: every order of arrival", &[0], orders()),
        ("open ends: corrections", &[0], corrected()),
    ]
}

/// Asks for the permanent state, the snapshot and some properties of two tables at instants.
fn ask_at(script: &mut Script, tables: &Tables, instants: &[u32], properties: &[u8]) {
    for &instant in instants {
        script.ask_at(tables, &[instant], &[]);
        for &number in properties {
            script.ask_question(tables, instant, Question::Property(number), &[]);
        }
    }
}

/// Asks about two tables at and next to each of their times, for the derived baselines, and about
/// these at the same instants.
fn ask_whole(script: &mut Script, tables: &Tables, properties: &[u8]) {
    let instants = tables.instants();
    ask_at(script, tables, &instants, properties);
    script.ask_next(Product::Derived, &tables.permanent, LENGTH);
    if let Some(derived) = read_back(tables, LENGTH) {
        ask_at(script, &derived, &instants, properties);
    }
}

/// Returns the tables with the derived baselines as the permanent one, if they are not refused.
fn read_back(tables: &Tables, length: usize) -> Option<Tables> {
    let mut permanent = vec![0; length];
    let count = derive(&tables.permanent, &mut permanent).ok()?;
    permanent.truncate(bytes_of(count));
    Some(Tables {
        permanent,
        temporary: tables.temporary.clone(),
    })
}

/// Asks for the arrival of slices one by one, and about the tables after each.
fn deliver(script: &mut Script, slices: &[Case], properties: &[u8]) {
    let mut tables = Tables::empty(bytes_of(5));
    for slice in slices {
        script.bring(&mut tables, slice);
        ask_whole(script, &tables, properties);
    }
}

/// Makes a BASELINE without end, whose value is its sequence number.
fn open(sequence: u32, begin: u32) -> Case {
    from_to(sequence, begin, NONE)
}

/// Makes two BASELINEs without end, near and far, three in every order, and twelve.
fn rows() -> Vec<Vec<Case>> {
    let mut histories = vec![];
    for (begin, next) in [
        (100, 150),
        (100, 101),
        (255, 256),
        (65_535, 65_536),
        (0x00ff_ffff, 0x0100_0000),
        (0x7fff_ffff, 0x8000_0000),
    ] {
        histories.push(vec![open(1, begin), open(2, next)]);
        histories.push(vec![open(2, begin), open(1, next)]);
    }
    for [low, high] in SEQUENCES {
        histories.push(vec![open(high, 100), open(low, 150)]);
    }
    for [one, two, three] in ORDERS {
        histories.push(vec![open(one, 100), open(two, 150), open(three, 200)]);
    }
    for step in [1, 5, 12] {
        let many = (1..=12).map(|index| open(step * index % 13, 100 + 3 * index));
        histories.push(many.collect());
    }
    histories
}

/// Makes an open BASELINE before, in and after a fixed one; fixed ones in an open one, alone and
/// with a third BASELINE.
fn beside_fixed() -> Vec<Vec<Case>> {
    let mut histories = vec![];
    for begin in [50, 99, 101, 150, 199, 200, 201] {
        histories.push(vec![from_to(1, 100, 200), open(2, begin)]);
        histories.push(vec![from_to(1, 100, 200), open(2, begin), open(3, 180)]);
    }
    for (begin, end) in [(101, 102), (150, 160), (150, LAST)] {
        let both = [open(1, 100), from_to(2, begin, end)];
        histories.push(both.to_vec());
        for third in [155, 160, 170] {
            histories.push([&both[..], &[open(3, third)]].concat());
            histories.push([&both[..], &[from_to(3, third, 180)]].concat());
        }
    }
    histories.push(vec![
        from_to(1, 100, 120),
        open(2, 120),
        from_to(3, 140, 150),
        open(4, 150),
    ]);
    histories
}

/// Makes two BASELINEs that begin together, open or fixed, alone and with a third that begins
/// before or after them.
fn equal_begins() -> Vec<Vec<Case>> {
    let mut histories = vec![];
    for [one, other] in [
        [NONE, NONE],
        [NONE, 160],
        [160, NONE],
        [160, 160],
        [160, 170],
    ] {
        let both = [from_to(1, 100, one), from_to(2, 100, other)];
        histories.push(both.to_vec());
        for third in [
            open(3, 50),
            from_to(3, 50, 101),
            open(3, 100),
            open(3, 150),
            from_to(3, 150, 155),
            open(3, 160),
            open(3, 170),
        ] {
            histories.push([&both[..], &[third]].concat());
        }
    }
    histories
}

/// Makes cancelled BASELINEs next to counted ones: what would close, be closed or clash.
fn cancelled() -> Vec<Vec<Case>> {
    let gone = |case: Case| cancelling(&case, 1);
    vec![
        vec![open(1, 100), gone(open(2, 150))],
        vec![open(1, 100), gone(from_to(2, 150, 160))],
        vec![gone(open(1, 100)), open(2, 150)],
        vec![open(1, 100), gone(open(2, 100))],
        vec![open(1, 100), gone(open(2, 150)), open(3, 200)],
        vec![gone(open(1, 100)), open(2, 150), open(3, 200)],
        vec![open(1, 100), open(2, 150), gone(open(3, 200))],
        vec![open(3, 100), gone(open(1, 150)), from_to(2, 150, 151)],
    ]
}

/// Makes BASELINEs that begin at the first and at the last instant, and next to them.
fn edges() -> Vec<Vec<Case>> {
    vec![
        vec![open(1, 0), open(2, LAST)],
        vec![open(2, 0), open(1, LAST)],
        vec![open(1, 0), open(2, 1)],
        vec![open(1, LAST - 1), open(2, LAST)],
        vec![open(1, 0), open(2, 1), open(3, LAST - 1), open(4, LAST)],
        vec![open(1, 0), open(2, 0)],
        vec![open(1, 0), open(2, 0), open(3, LAST)],
        vec![open(1, LAST), open(2, LAST)],
        vec![open(1, LAST), open(2, LAST), open(3, 0)],
        vec![from_to(1, 0, 1), open(2, 0), open(3, 1)],
        vec![from_to(1, 0, LAST), open(2, LAST)],
        vec![open(1, 0), from_to(2, LAST - 1, LAST)],
        vec![open(1, 0), opening(1, 0, 8), from_to(2, 1, LAST)],
        vec![open(1, 0), change(1, LAST, 8), open(2, LAST)],
    ]
}

/// Makes openings before, in and after an open BASELINE and a fixed one that closes it, which
/// leaves a gap; one opening and two, and a third BASELINE that ends the gap.
fn openings() -> Vec<Vec<Case>> {
    let both = [open(1, 100), from_to(2, 150, 160)];
    let mut histories = vec![];
    for instant in [90, 100, 120, 150, 159, 160, 170] {
        let one = opening(5, instant, 50);
        histories.push([&both[..], std::slice::from_ref(&one)].concat());
        let more = [one.clone(), open(3, 180), change(6, 165, 60)];
        histories.push([&both[..], &more].concat());
        let later = [one, opening(4, 165, 40)];
        histories.push([&both[..], &later].concat());
    }
    histories.push(vec![open(1, 100), open(2, 150), opening(5, 90, 50)]);
    histories.push(vec![open(1, 100), opening(5, 150, 50), open(2, 150)]);
    histories
}

/// Makes a change before, at and after each begin, close and end, and all of these.
fn changes() -> Vec<Vec<Case>> {
    let row = [open(1, 100), open(2, 150), from_to(3, 200, 210)];
    let instants = [99, 100, 101, 149, 150, 151, 199, 200, 201, 209, 210, 211];
    let changes = (1..).zip(instants).map(|(sequence, instant)| {
        let value = 10 * sequence as u16;
        mention_only(change(sequence, instant, 0), sequence as usize % 2, value)
    });
    let changes: Vec<Case> = changes.collect();
    let alone = changes.iter().map(std::slice::from_ref);
    let mut histories: Vec<Vec<Case>> = alone.map(|one| [&row[..], one].concat()).collect();
    histories.push([&row[..], &changes].concat());
    let opened = [opening(20, 95, 5)];
    histories.push([&row[..], &changes[..9], &opened].concat());
    histories
}

/// Makes lives that end before, at and after the close of an open BASELINE, given by it, by what
/// closes it and by PERMDELTAs.
fn lives() -> Vec<Vec<Case>> {
    let mut histories = vec![];
    for life_end in [120, 149, 150, 151, 170, LAST] {
        let first = baseline(1, [100, NONE, 50, life_end], 1);
        histories.push(vec![first.clone(), open(2, 150)]);
        histories.push(vec![first.clone(), from_to(2, 150, 160)]);
        histories.push(vec![first, from_to(2, 150, 160), opening(5, 90, 50)]);
    }
    for life_end in [151, 170] {
        let next = baseline(2, [150, NONE, NONE, life_end], 2);
        histories.push(vec![open(1, 100), next.clone()]);
        histories.push(vec![open(1, 100), next, open(3, 160)]);
    }
    for instant in [99, 120, 150, 151, 160, 170] {
        let both = [open(1, 100), open(2, 150), closing(7, instant)];
        histories.push(both.to_vec());
        let gap = [open(1, 100), from_to(2, 150, 160), opening(5, 90, 50)];
        histories.push([&gap[..], &[closing(7, instant)]].concat());
    }
    histories
}

/// Makes TEMPDELTAs that begin, end and last where a BASELINE is closed and where there is none.
fn overlaid() -> Vec<Vec<Case>> {
    let rows = [
        vec![open(1, 100), open(2, 150)],
        vec![open(1, 100), from_to(2, 150, 160)],
        vec![open(1, 100), open(2, 100), open(3, 150)],
        vec![open(1, 100), from_to(2, 150, 160), opening(5, 90, 50)],
    ];
    let deltas = [
        vec![passing(1, 149, 150, 77)],
        vec![passing(1, 150, 151, 77)],
        vec![passing(1, 140, 170, 77), passing(2, 155, NONE, 88)],
        vec![mention_only(passing(1, 120, NONE, 0), 3, 77)],
    ];
    let with = |row: &Vec<Case>| deltas.clone().map(|deltas| [&row[..], &deltas].concat());
    rows.iter().flat_map(with).collect()
}

/// Makes deliveries of two and three BASELINEs and an opening, what closes before what is closed
/// and after it.
fn orders() -> Vec<Vec<Case>> {
    let mut deliveries = vec![];
    for three in [
        [open(1, 100), open(2, 150), open(3, 200)],
        [open(1, 100), from_to(2, 150, 160), opening(1, 90, 50)],
        [open(1, 100), open(2, 100), open(3, 150)],
    ] {
        let one = |number: u32| three[number as usize - 1].clone();
        deliveries.extend(ORDERS.map(|order| order.map(one).to_vec()));
    }
    deliveries
}

/// Numbers corrections of one BASELINE, from 1 on.
fn numbered<const N: usize>(cases: [Case; N]) -> impl Iterator<Item = Case> {
    let numbers = 1..=N as u16;
    let cases = cases.into_iter().zip(numbers);
    cases.map(|(case, number)| case.with_correction(number))
}

/// Makes deliveries in which the closing BASELINE is cancelled, comes back and moves, in which the
/// closed one does, and in which the nearest of two that close is cancelled.
fn corrected() -> Vec<Vec<Case>> {
    let (first, next, last) = (open(1, 100), open(2, 150), open(3, 200));
    let gone = |case: &Case| cancelling(case, 0);
    let of_next = numbered([
        gone(&next),
        next.clone(),
        open(2, 170),
        open(2, 100),
        open(2, 50),
        from_to(2, 150, 160),
        gone(&next),
        from_to(2, 100, 160),
        open(2, 101),
    ]);
    let late = [cancelling(&next, 65_534), next.clone()];
    let start = [first.clone(), next.clone()];
    let closing = start.iter().cloned().chain(of_next).chain(late);
    let of_first = numbered([
        from_to(1, 100, 200),
        from_to(1, 100, 150),
        open(1, 120),
        gone(&first),
        open(1, 150),
        open(1, 160),
        first.clone(),
    ]);
    let closed = start.iter().cloned().chain(of_first);
    let nearest = [
        first,
        last.clone(),
        next.clone(),
        cancelling(&next, 1),
        cancelling(&last, 1),
        next.with_correction(2),
        last.with_correction(2),
    ];
    vec![closing.collect(), closed.collect(), nearest.to_vec()]
}

/// Adds a full table of BASELINEs without end, the later ones with the lower sequence numbers, and
/// the same with one fixed end in the middle.
fn full(script: &mut Script) {
    script.title("open ends: full tables");
    let row = (1..=256).map(|index| open(300 - index, 10 * index));
    let mut cases: Vec<Case> = row.collect();
    let instants = [9, 10, 19, 20, 1279, 1280, 1281, 1290, 2559, 2560, LAST];
    let (tables, length) = (Tables::of(&cases), bytes_of(256));
    ask_at(script, &tables, &instants, &[0]);
    script.ask_product(Product::Derived, &tables.permanent, &vec![0; length]);
    cases[127] = from_to(300 - 128, 1280, 1281);
    let other = Tables::of(&cases);
    ask_at(script, &other, &instants, &[0]);
    script.ask_next(Product::Derived, &other.permanent, length);
    let derived = read_back(&tables, length).expect("no two of them hold");
    ask_at(script, &derived, &instants, &[0]);
}

#[cfg(test)]
mod tests {
    use super::*;
    use crate::layout::RECORD_BYTES;
    use crate::listing::listing;
    use crate::question::permanent_state;
    use crate::refusal::Refusal;

    /// Checks what property 0 is at some instants: "100 1, 150 !21" is a code and a refusal.
    fn hold(cases: &[Case], answers: &str) {
        let tables = Tables::of(cases);
        for line in answers.split(", ") {
            let (instant, answer) = line.split_once(' ').unwrap();
            assert_eq!(tables.value_at(instant.parse().unwrap()), answer, "{line}");
        }
    }

    /// "close at the least begin, strictly after its own, of any other counted BASELINE", worked out
    /// by hand.
    #[test]
    fn closes_are_where_the_paper_says() {
        let three = [open(2, 150), open(3, 100), open(1, 200)];
        hold(
            &three,
            "99 !20, 100 3, 149 3, 150 2, 199 2, 200 1, 4294967294 1",
        );
        hold(
            &[open(1, 0), open(2, LAST)],
            "0 1, 4294967293 1, 4294967294 2",
        );
        let inside = [open(1, 100), from_to(2, 150, 160)];
        hold(&inside, "149 1, 150 2, 159 2, 160 !20, 4294967294 !20");
        let again = [&inside[..], &[open(3, 170)]].concat();
        hold(&again, "149 1, 159 2, 160 !20, 169 !20, 170 3");
        let before = [from_to(1, 100, 200), open(2, 150)];
        hold(&before, "149 1, 150 !21, 199 !21, 200 2");
        let between = [from_to(1, 100, 200), open(2, 150), open(3, 180)];
        hold(&between, "150 !21, 180 !21, 199 !21, 200 3");
    }

    /// "equal begins still clash": until the next later begin, or until a fixed end.
    #[test]
    fn equal_begins_clash_as_the_paper_says() {
        let both = [open(1, 100), open(2, 100)];
        hold(&both, "99 !20, 100 !21, 4294967294 !21");
        let later = [&both[..], &[open(3, 150)]].concat();
        hold(&later, "100 !21, 149 !21, 150 3");
        let short = [&both[..], &[from_to(3, 150, 155)]].concat();
        hold(&short, "149 !21, 150 3, 154 3, 155 !20");
        let fixed = [open(1, 100), from_to(2, 100, 160)];
        hold(&fixed, "100 !21, 159 !21, 160 1");
        let closed = [&fixed[..], &[open(3, 150)]].concat();
        hold(&closed, "149 !21, 150 !21, 160 3");
        let earlier = [&fixed[..], &[open(3, 50)]].concat();
        hold(&earlier, "50 3, 99 3, 100 !21, 160 1");
    }

    /// What follows a close: changes, openings, life ends and TEMPDELTAs.
    #[test]
    fn what_follows_a_close_is_as_the_paper_says() {
        let gap = [open(1, 100), from_to(2, 150, 160), change(1, 140, 7)];
        hold(&gap, "139 1, 140 7, 149 7, 150 2, 159 2, 160 !20");
        let opened = [&gap[..], &[opening(5, 90, 50)]].concat();
        hold(&opened, "99 50, 100 1, 140 7, 150 2, 160 7");
        let twice = [&opened[..], &[opening(6, 155, 60)]].concat();
        hold(&twice, "154 2, 155 60, 159 60, 160 !21");
        let ended = [baseline(1, [100, NONE, 50, 120], 1), open(2, 150)];
        hold(&ended, "119 1, 120 !22, 149 !22, 150 2");
        let withdrawn = [open(1, 100), open(2, 150), closing(7, 120)];
        hold(&withdrawn, "119 1, 120 !22, 149 !22, 150 2");
        let overlaid = [open(1, 100), from_to(2, 150, 160), passing(1, 149, 170, 77)];
        hold(&overlaid, "148 1, 149 77, 159 77, 160 !20, 169 !20");
    }

    /// A closing BASELINE that arrives first, is cancelled, comes back and moves.
    #[test]
    fn corrections_close_as_the_paper_says() {
        let mut script = Script::default();
        let mut tables = Tables::empty(bytes_of(2));
        let next = open(2, 150);
        for (slice, answers) in [
            (next.clone(), ["!20", "2", "2"]),
            (open(1, 100), ["1", "2", "2"]),
            (cancelling(&next, 1), ["1", "1", "1"]),
            (next.clone(), ["1", "1", "1"]),
            (next.with_correction(2), ["1", "2", "2"]),
            (open(2, 200).with_correction(3), ["1", "1", "2"]),
            (open(2, 100).with_correction(4), ["!21", "!21", "!21"]),
            (open(2, 50).with_correction(5), ["1", "1", "1"]),
        ] {
            script.bring(&mut tables, &slice);
            assert_eq!(
                [149, 150, 200].map(|instant| tables.value_at(instant)),
                answers
            );
        }
    }

    /// The listings of some, worked out by hand.
    #[test]
    fn derived_baselines_end_where_the_next_begins() {
        let listed = |cases: &[Case]| listing(&Tables::of(cases).permanent);
        let three = [open(2, 150), open(3, 100), open(1, 200)];
        assert_eq!(
            listed(&three),
            "derived 3\n1 100 150 21111111\n2 150 200 21111111\n3 200 - 21111111\n"
        );
        let gap = [open(1, 100), from_to(2, 150, 160), change(1, 140, 7)];
        assert_eq!(
            listed(&gap),
            "derived 3\n1 100 140 21111111\n2 140 150 21111111\n3 150 160 21111111\n"
        );
        let ended = [baseline(1, [100, NONE, 50, 120], 1), open(2, 150)];
        assert_eq!(
            listed(&ended),
            "derived 2\n1 100 120 21111111\n2 150 - 21111111\n"
        );
        assert_eq!(
            listed(&[open(1, 100), open(2, 100), open(3, 150)]),
            "refused 21\n"
        );
    }

    /// Returns the record of the permanent state at an instant, or the refusal.
    fn state_at(tables: &Tables, instant: u32) -> Result<[u8; RECORD_BYTES], Refusal> {
        let mut record = [0; RECORD_BYTES];
        permanent_state(&tables.permanent, instant, &mut record).map(|()| record)
    }

    /// Where there are two anchors, nothing is derived; everything else reads back: the same record,
    /// or 20 for none.
    #[test]
    fn what_is_derived_reads_back() {
        let histories = groups().into_iter().flat_map(|(.., histories)| histories);
        let (mut refused, mut derived) = (0, 0);
        for tables in histories.map(|cases| Tables::of(&cases)) {
            let is_double = |instant| state_at(&tables, instant) == Err(Refusal::TwoAnchors);
            let Some(back) = read_back(&tables, LENGTH) else {
                assert!(tables.instants().into_iter().any(is_double));
                refused += 1;
                continue;
            };
            derived += 1;
            for instant in tables.instants() {
                let state = state_at(&tables, instant).map_err(|_| Refusal::NoState);
                assert_eq!(state_at(&back, instant), state, "{instant}");
            }
        }
        assert!(refused > 60 && derived > 100, "{refused} {derived}");
    }
}
