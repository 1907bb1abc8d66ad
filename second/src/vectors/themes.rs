//! Permanent histories by theme, to derive baselines from.

use crate::fixtures::brief::{base, baseline, cancelling, change, closing, from_to};
use crate::fixtures::brief::{mention_only, opening, SEQUENCES};
use crate::fixtures::rows::opened_twice;
use crate::fixtures::{code, mentions, nil, sound_parts, unmentioned, Case, Time};
use crate::record::NONE;
use crate::tables::permanent;

/// The last instant.
const LAST: u32 = NONE - 1;

/// A word, a title for people, and histories.
pub struct Theme {
    pub word: &'static str,
    pub title: &'static str,
    pub histories: Vec<Vec<Case>>,
}

impl Theme {
    /// Returns the permanent tables of the histories, each without a byte after its records.
    pub fn tables(&self) -> impl Iterator<Item = Vec<u8>> + '_ {
        self.histories.iter().map(|cases| permanent(cases))
    }
}

/// Makes a theme.
fn theme(word: &'static str, title: &'static str, histories: Vec<Vec<Case>>) -> Theme {
    Theme {
        word,
        title,
        histories,
    }
}

/// Returns every theme.
pub fn themes() -> Vec<Theme> {
    vec![
        theme("paper", "the paper's example", vec![paper()]),
        theme("nothing", "no state at any change instant", nothing()),
        theme("periods", "BASELINEs of every period", periods()),
        theme("open", "BASELINEs without end", open_ends()),
        theme("changes", "PERMDELTAs about a begin", changes()),
        theme("equal", "equal neighbours", equal()),
        theme("lives", "life ends given by BASELINEs", lives()),
        theme("withdrawn", "withdrawn stretches", withdrawn()),
        theme("beyond", "life ends after the end of a BASELINE", beyond()),
        theme("openings", "opening PERMDELTAs", openings()),
        theme("hidden", "openings that a BASELINE hides", hidden()),
        theme("cancelled", "cancelled records", cancelled()),
        theme("last", "the first and the last instant", edges()),
        theme("forms", "properties of every form", forms()),
        theme("turns", "equal instants, by sequence number", turns()),
        theme(
            "meeting",
            "begins, ends and changes of one instant",
            meeting(),
        ),
        theme("anchors", "two anchors", anchors()),
    ]
}

/// Makes the specification's example: all nil, and a code from 300 on.
pub fn paper() -> Vec<Case> {
    vec![base().with_part(0, &nil(4)), change(1, 300, 7)]
}

/// Makes histories without a state: without records, all cancelled, without an anchor.
fn nothing() -> Vec<Vec<Case>> {
    vec![
        vec![],
        vec![cancelling(&base(), 1)],
        vec![cancelling(&base(), 0), cancelling(&change(1, 300, 7), 3)],
        vec![change(1, 300, 7)],
        vec![change(1, 300, 7), closing(2, 400), change(3, 0, 1)],
        vec![opening(1, 100, 1), closing(2, 100)],
    ]
}

/// Makes one BASELINE, two that touch or lie apart, and three with a change in each.
fn periods() -> Vec<Vec<Case>> {
    let mut histories = vec![vec![base()], vec![from_to(1, 100, 200)]];
    for begin in [200, 201, 250] {
        for end in [300, NONE] {
            histories.push(vec![from_to(1, 100, 200), from_to(2, begin, end)]);
            histories.push(vec![from_to(2, 100, 200), from_to(1, begin, end)]);
        }
    }
    let three = [(3, 100, 200), (1, 200, 300), (2, 300, NONE)];
    let three = three.map(|(sequence, begin, end)| from_to(sequence, begin, end));
    histories.push(three.to_vec());
    let inside = [change(1, 250, 11), change(2, 150, 12), change(3, 350, 13)];
    histories.push([&three[..], &inside].concat());
    histories.push([&three[..], &inside, &[change(4, 250, 14)]].concat());
    histories
}

/// Makes BASELINEs without end that another closes: one without end too, or one that leaves a gap;
/// with changes, an opening, a life end and cancelled ones.
fn open_ends() -> Vec<Vec<Case>> {
    let (first, short, next) = (base(), from_to(2, 150, 160), from_to(3, 200, NONE));
    let ended = baseline(1, [100, NONE, 100, 180], 1);
    let both = [first.clone(), next.clone()];
    let all = [first.clone(), short.clone(), next.clone()];
    vec![
        both.to_vec(),
        vec![first.clone(), short.clone()],
        all.to_vec(),
        [&all[..], &[opening(5, 90, 50)]].concat(),
        [&all[..], &[change(1, 120, 7), change(2, 155, 8)]].concat(),
        [&both[..], &[change(1, 199, 7), change(2, 200, 8)]].concat(),
        [&both[..], &[closing(1, 150)]].concat(),
        vec![ended.clone(), next.clone()],
        vec![ended, short.clone(), opening(5, 90, 50)],
        vec![first, cancelling(&short, 1), next.clone()],
        vec![from_to(1, 100, 200), next, from_to(2, 250, NONE)],
        vec![from_to(2, 0, NONE), from_to(1, LAST, NONE)],
    ]
}

/// Makes changes before, at and after the begin and the end of a BASELINE, and at the next begin.
fn changes() -> Vec<Vec<Case>> {
    let mut histories = vec![];
    for instant in [0, 99, 100, 101, 150, 199, 200, 201] {
        histories.push(vec![base(), change(1, instant, 2)]);
        histories.push(vec![from_to(1, 100, 200), change(1, instant, 2)]);
        let pair = [from_to(7, 100, 200), from_to(3, 200, NONE)];
        let two = [change(1, instant, 2), change(9, instant, 4)];
        histories.push([&pair[..], &two].concat());
    }
    histories
}

/// Makes changes that change nothing, BASELINEs of the same state, and a life begin given once
/// more.
fn equal() -> Vec<Vec<Case>> {
    let same = |sequence, begin, end| baseline(sequence, [begin, end, 100, NONE], 1);
    vec![
        vec![base(), change(1, 150, 1)],
        vec![base(), change(1, 150, 1), change(2, 200, 1)],
        vec![same(1, 100, 200), same(2, 200, 300), same(3, 300, NONE)],
        vec![same(1, 100, 200), same(2, 200, NONE), change(1, 250, 1)],
        vec![base(), change(1, 150, 2), change(2, 200, 1)],
        vec![base(), change(1, 150, 2), change(2, 150, 1)],
        vec![opening(1, 100, 1), change(2, 150, 1)],
    ]
}

/// Makes BASELINEs whose life ends at their end, after it or in it, with a change here and there.
fn lives() -> Vec<Vec<Case>> {
    let mut histories = vec![];
    for (end, life_end) in [
        (200, 200),
        (200, 201),
        (200, 300),
        (NONE, 101),
        (NONE, 200),
        (NONE, 300),
    ] {
        let anchor = baseline(1, [100, end, 50, life_end], 1);
        histories.push(vec![anchor.clone()]);
        for instant in [150, 200, 250, 300, 350] {
            histories.push(vec![anchor.clone(), change(1, instant, 2)]);
        }
        let next = baseline(2, [400, NONE, NONE, 500], 3);
        histories.push(vec![anchor.clone(), next.clone()]);
        histories.push(vec![anchor, next, opening(1, 120, 4), change(2, 450, 5)]);
    }
    histories
}

/// Makes stretches that a PERMDELTA withdraws: at the start, in the middle, at the end, and none.
fn withdrawn() -> Vec<Vec<Case>> {
    let mut histories = vec![];
    let (first, next) = (from_to(1, 100, 200), from_to(2, 250, NONE));
    for instant in [99, 100, 101, 150, 199, 200, 225, 250, 251, 300] {
        let closed = closing(1, instant);
        histories.push(vec![first.clone(), closed.clone()]);
        histories.push(vec![first.clone(), next.clone(), closed.clone()]);
        histories.push(vec![base(), change(2, 150, 2), change(3, 200, 3), closed]);
    }
    let opened = [opening(1, 100, 1), closing(2, 100)];
    histories.push([&opened[..], &[from_to(1, 200, NONE)]].concat());
    histories.push([&opened[..], &[change(3, 150, 3), from_to(1, 200, 300)]].concat());
    histories.push(vec![base(), closing(1, 150), opening(2, 200, 4)]);
    histories.push(vec![base(), closing(1, 150).with_part(0, &code(9))]);
    let whole = [
        from_to(1, 100, 200),
        from_to(2, 200, 300),
        from_to(3, 300, 400),
    ];
    let ends = [closing(1, 150), closing(2, 200), closing(3, 301)];
    histories.push([&whole[..], &ends].concat());
    histories
}

/// Makes BASELINEs that end, or are closed, before their life ends: where another holds, where an
/// opening is the anchor, or where there is no state. The life end of a cancelled one is no change
/// instant.
fn beyond() -> Vec<Vec<Case>> {
    let mut histories = vec![];
    for life_end in [205, 210, 250, 300, 350] {
        for end in [200, NONE] {
            let first = baseline(1, [100, end, 100, life_end], 1);
            let next = [from_to(2, 210, 300), opening(5, 150, 50)];
            histories.push(vec![first.clone(), next[0].clone()]);
            histories.push([&[first.clone()], &next[..]].concat());
            histories.push([&[first], &next[..], &[change(6, life_end, 60)]].concat());
        }
    }
    let ended = |sequence, begin| baseline(sequence, [begin, NONE, NONE, 300], 1);
    histories.push(vec![ended(1, 100), ended(2, 150), ended(3, 200)]);
    histories.push(vec![ended(1, 100), from_to(2, 150, NONE), ended(3, 250)]);
    histories.push(vec![cancelling(&ended(1, 100), 1), from_to(2, 150, NONE)]);
    histories
}

/// Makes openings alone, with changes about them, before, in and after BASELINEs.
fn openings() -> Vec<Vec<Case>> {
    let opened = opening(5, 100, 1);
    let late = change(8, 180, 0)
        .with_part(0, &unmentioned())
        .with_part(7, &code(8));
    let mut histories = vec![vec![opened.clone()]];
    for (sequence, instant) in [(4, 100), (6, 100), (4, 99), (1, 150)] {
        histories.push(vec![opened.clone(), change(sequence, instant, 2)]);
        histories.push(vec![
            opened.clone(),
            change(sequence, instant, 2),
            late.clone(),
        ]);
    }
    let nameless = opened.clone().with_part(0, &unmentioned());
    histories.push(vec![nameless.clone()]);
    histories.push(vec![nameless, late.clone()]);
    for (begin, end) in [(50, 100), (50, 150), (100, 200), (150, 200), (150, NONE)] {
        let anchor = from_to(1, begin, end);
        histories.push(vec![opened.clone(), anchor.clone()]);
        histories.push(vec![opened.clone(), anchor.clone(), late.clone()]);
        histories.push(vec![opened.clone(), anchor, late.clone(), closing(7, 190)]);
    }
    histories.push(vec![
        opened,
        opening(6, 160, 2),
        from_to(1, 150, NONE),
        late,
    ]);
    histories
}

/// Makes an opening before, at the begin of or in a BASELINE, with changes of both lines; and a
/// second one that no gap shows.
fn hidden() -> Vec<Vec<Case>> {
    let (short, long) = (from_to(1, 100, 200), from_to(1, 100, NONE));
    let ended = baseline(1, [100, NONE, 100, 180], 1);
    let (second, late) = (opening(6, 160, 60), mention_only(change(8, 190, 0), 7, 8));
    let mut histories = vec![];
    for instant in [50, 100, 150] {
        let opened = opening(5, instant, 50);
        let two = [opened.clone(), second.clone()];
        let changes = [change(7, 160, 7), late.clone()];
        histories.push(vec![short.clone(), opened.clone()]);
        histories.push([&[short.clone(), opened.clone()], &changes[..]].concat());
        histories.push(vec![short.clone(), opened, closing(9, 170), late.clone()]);
        histories.push([&[long.clone()], &two[..], &changes].concat());
        histories.push([&[long.clone(), from_to(2, 180, NONE)], &two[..]].concat());
        histories.push([&[short.clone(), from_to(2, 200, NONE)], &two[..]].concat());
        histories.push([&[ended.clone()], &two[..], &[late.clone()]].concat());
    }
    histories
}

/// Makes a history with each of its records cancelled, and with all of them.
fn cancelled() -> Vec<Vec<Case>> {
    let whole = [
        from_to(1, 100, 200),
        from_to(2, 200, NONE),
        change(1, 150, 3),
        opening(2, 50, 4),
        closing(3, 300),
    ];
    let without = |gone: usize| {
        let case = |(index, case): (usize, &Case)| match index == gone {
            true => cancelling(case, 1),
            false => case.clone(),
        };
        whole.iter().enumerate().map(case).collect()
    };
    let mut histories: Vec<Vec<Case>> = (0..=whole.len()).map(without).collect();
    histories.push(whole.iter().map(|case| cancelling(case, 65_535)).collect());
    let other = cancelling(&from_to(9, 120, 130), 1);
    histories.push(vec![base(), other, change(1, 150, 3)]);
    histories
}

/// Makes records at the first and the last instants, as begins, ends, life ends and changes.
fn edges() -> Vec<Vec<Case>> {
    let first = |end| from_to(1, 0, end);
    vec![
        vec![first(NONE)],
        vec![first(1), change(1, 0, 2)],
        vec![first(1), from_to(2, 1, NONE), change(1, 1, 2)],
        vec![first(LAST)],
        vec![first(LAST), from_to(2, LAST, NONE)],
        vec![first(NONE), change(1, LAST, 2)],
        vec![first(NONE), change(1, LAST - 1, 2), change(2, LAST, 3)],
        vec![first(NONE), closing(1, LAST)],
        vec![baseline(1, [LAST - 1, LAST, 0, LAST], 1)],
        vec![baseline(1, [LAST - 1, NONE, 0, LAST], 1)],
        vec![from_to(1, LAST, NONE)],
        vec![from_to(1, LAST, NONE), change(1, LAST, 2)],
        vec![opening(1, 0, 1), change(2, LAST, 2)],
        vec![opening(1, LAST, 1)],
        vec![opening(1, LAST, 1), closing(2, LAST)],
    ]
}

/// Makes a BASELINE of all forms, and each sound part in turn from a change on and in an opening.
fn forms() -> Vec<Vec<Case>> {
    let whole = base().with_parts(&mentions());
    let mut histories = vec![vec![whole.clone()]];
    for (index, part) in sound_parts().iter().enumerate().skip(1) {
        let property = index % 8;
        let changed = change(1, 150, 1).with_part(property, part);
        histories.push(vec![whole.clone(), changed.clone()]);
        histories.push(vec![changed.with_time(Time::LifeBegin, 150)]);
    }
    histories
}

/// Makes two changes of one instant, and a change at an opening's instant.
fn turns() -> Vec<Vec<Case>> {
    let mut histories = vec![];
    for [low, high] in SEQUENCES {
        let (one, other) = (change(low, 150, 2), change(high, 150, 3));
        histories.push(vec![base(), one.clone(), other.clone()]);
        histories.push(vec![one, opening(high, 150, 4)]);
        histories.push(vec![other, opening(low, 150, 4)]);
    }
    histories
}

/// Makes changes at the begin and at the end of a BASELINE, of every sort, where its life may end
/// too and another one may begin; with an earlier opening and without.
fn meeting() -> Vec<Vec<Case>> {
    let ends = [[200, 200], [200, NONE], [NONE, 200], [NONE, NONE]];
    let firsts = ends.map(|[end, life_end]| baseline(1, [100, end, 100, life_end], 1));
    let (next, opened) = (from_to(2, 200, NONE), opening(1, 50, 5));
    let others = [
        vec![],
        vec![next.clone()],
        vec![opened.clone()],
        vec![next, opened],
    ];
    let mut histories = vec![];
    for (first, instant) in firsts.iter().flat_map(|first| [(first, 100), (first, 200)]) {
        let part = mention_only(change(3, instant, 0), 7, 3);
        for other in &others {
            let history = [&[first.clone()], &other[..]].concat();
            for one in [change(4, instant, 4), closing(4, instant)] {
                histories.push([&history[..], &[one.clone()]].concat());
                histories.push([&history[..], &[one, part.clone()]].concat());
            }
        }
        for other in &others[..2] {
            let changes = [opening(4, instant, 4), change(5, instant, 6), part.clone()];
            histories.push([&[first.clone()], &other[..], &changes].concat());
        }
    }
    histories
}

/// Makes two anchors for long, for a second, at the end alone, and two openings: at once, late, and
/// hidden by a BASELINE until it ends.
fn anchors() -> Vec<Vec<Case>> {
    let (one, opened) = (from_to(1, 100, 200), opening(5, 100, 1));
    vec![
        vec![base(), from_to(2, 100, NONE)],
        vec![base(), from_to(2, 100, NONE), from_to(3, 150, NONE)],
        vec![one.clone(), from_to(2, 150, NONE)],
        vec![one.clone(), from_to(2, 199, 300)],
        vec![one.clone(), from_to(2, 100, 200)],
        vec![from_to(1, LAST, NONE), from_to(2, LAST, NONE)],
        vec![base(), from_to(2, 0, 101)],
        vec![opened.clone(), opening(6, 100, 2)],
        vec![opened.clone(), opening(4, LAST, 2)],
        vec![opened.clone(), opening(6, 150, 2), one.clone()],
        vec![opened.clone(), opening(6, 150, 2), closing(7, 150)],
        opened_twice(8),
        vec![one.clone(), opening(5, 120, 1), opening(6, 150, 2)],
        vec![one.clone(), opening(5, 50, 1), opening(6, 150, 2)],
        vec![one.clone(), opening(5, 50, 1), opening(6, 200, 2)],
        [&two_in(&one)[..], &[from_to(2, 250, NONE)]].concat(),
        [&two_in(&base())[..], &[from_to(2, 150, 160)]].concat(),
        vec![one.clone(), from_to(2, 150, 151), closing(7, 120)],
        vec![one, from_to(2, 200, 302), from_to(3, 300, 301), opened],
    ]
}

/// Makes a BASELINE with two openings in it.
fn two_in(baseline: &Case) -> [Case; 3] {
    [baseline.clone(), opening(5, 120, 1), opening(6, 130, 2)]
}

#[cfg(test)]
mod tests {
    use super::*;
    use crate::listing::listing;
    use crate::table::{check, Sides};

    /// Returns the first lines of the listings of a theme, by its word.
    fn answers(word: &str) -> Vec<String> {
        let theme = themes().into_iter().find(|theme| theme.word == word);
        let first = |table: Vec<u8>| listing(&table).lines().next().unwrap().to_string();
        theme.unwrap().tables().map(first).collect()
    }

    /// Every table is sound.
    #[test]
    fn themes_are_sound() {
        for theme in themes() {
            for table in theme.tables() {
                assert_eq!(check(&table, Sides::Permanent), Ok(()), "{}", theme.title);
            }
        }
    }

    /// Two anchors are refused, and nothing is derived where there is no state.
    #[test]
    fn themes_are_what_they_are_called() {
        assert!(answers("anchors").iter().all(|line| line == "refused 21"));
        assert!(answers("nothing").iter().all(|line| line == "derived 0"));
        let others = themes().into_iter().map(|theme| theme.word);
        for word in others.filter(|word| !["anchors", "nothing"].contains(word)) {
            let lines = answers(word);
            assert!(
                lines.iter().all(|line| line.starts_with("derived")),
                "{word}: {lines:?}"
            );
        }
    }
}
