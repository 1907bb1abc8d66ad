//! Random small histories, each slightly different from the last.

use crate::fixtures::{self, code, nil, sound_parts, unmentioned, Area, Case, FLAGS, KIND};
use crate::layout::bytes_of;
use crate::random::Random;
use crate::record::{Kind, Side, NONE};
use crate::slice;
use crate::supply::EDGES;
use crate::tables::Tables;
use std::collections::BTreeMap;

/// How many records a table of a history has room for.
const ROOM: usize = 6;

/// How many instants the times of a history come from, and where these instants begin.
const INSTANTS: usize = 8;
const BEGINS: [u32; 8] = [
    0,
    1,
    100,
    252,
    65_532,
    0x00ff_fffc,
    0x7fff_fffc,
    NONE - INSTANTS as u32,
];

/// A history that keeps changing: its records by kind and sequence number, and its tables, in which
/// bytes of earlier records remain after the counted ones.
pub struct History {
    begin: u32,
    records: BTreeMap<(u8, u32), Case>,
    tables: Tables,
}

/// Makes the tables of a history of a few records.
#[cfg(any(test, feature = "linked"))]
pub fn some_tables(random: &mut Random) -> Tables {
    let mut history = History::new(random);
    history.change(random);
    history.tables
}

impl History {
    /// Makes a history of some records.
    pub fn new(random: &mut Random) -> History {
        let length = bytes_of(ROOM) + random.below(3);
        let mut history = History {
            begin: random.pick(&BEGINS),
            records: BTreeMap::new(),
            tables: Tables::empty(length),
        };
        for _ in 0..random.below(8) {
            history.put(random);
        }
        history
    }

    /// Returns the two tables as they are now.
    pub fn tables(&self) -> &Tables {
        &self.tables
    }

    /// Changes the history in one or two places.
    pub fn change(&mut self, random: &mut Random) {
        for _ in 0..=random.below(2) {
            match random.below(8) {
                0..=2 => self.put(random),
                _ if !self.is_based() => self.put(random),
                3 => self.change_times(random),
                4 => self.change_parts(random),
                5 | 6 => self.turn_over(random),
                _ => self.remove(random),
            }
        }
        self.write();
    }

    /// Changes the history; one time in this many, a new one takes its place first.
    pub fn go_on(&mut self, random: &mut Random, often: usize) {
        if random.below(often) == 0 {
            *self = History::new(random);
        }
        self.change(random);
    }

    /// Adds a record or replaces one; removes one instead if its table is full.
    fn put(&mut self, random: &mut Random) {
        let kind = self.kind(random);
        let sequence = match random.below(6) {
            0 => random.pick(&EDGES),
            _ => 1 + random.below(5) as u32,
        };
        let is_new = !self.records.contains_key(&(kind.byte(), sequence));
        if is_new && self.of(kind.side()).count() == ROOM {
            return self.remove(random);
        }
        let case = if random.below(8) == 0 {
            Case::cancelled(kind)
        } else {
            self.counted(random, kind)
        };
        let correction = random.pick(&[0, 0, 1, 65_535]);
        let case = case.with_sequence(sequence).with_correction(correction);
        self.records.insert((kind.byte(), sequence), case);
    }

    /// Makes a slice of a kind that is not cancelled.
    fn counted(&self, random: &mut Random, kind: Kind) -> Case {
        let parts = self.parts(random, kind);
        Case::any(kind)
            .with_parts(&parts)
            .with_times(self.times(random, kind))
    }

    /// Cancels a record, mostly a BASELINE, or brings a cancelled one back; under the next
    /// correction.
    fn turn_over(&mut self, random: &mut Random) {
        let baselines = self.records.range(..(Kind::PermDelta.byte(), 0)).count();
        let count = match random.below(4) {
            0 => self.records.len(),
            _ => baselines,
        };
        let Some((&key, case)) = self.records.iter().nth(random.below(count.max(1))) else {
            return;
        };
        let head = case.head();
        let kind = Kind::of(head.kind).expect("keys are of kinds");
        let turned = match head.is_cancelled() {
            true => self.counted(random, kind),
            false => Case::cancelled(kind),
        };
        let correction = head.correction.0.saturating_add(1);
        let turned = turned.with_sequence(key.1).with_correction(correction);
        self.records.insert(key, turned);
    }

    /// Returns whether a BASELINE is counted.
    fn is_based(&self) -> bool {
        let is_counted = |case: &Case| case.slice[KIND..=FLAGS] == [Kind::Baseline.byte(), 0];
        self.records.values().any(is_counted)
    }

    /// Returns a kind, which is less often a BASELINE if one is counted already.
    fn kind(&self, random: &mut Random) -> Kind {
        match random.below(12) {
            0..=2 => Kind::Baseline,
            3..=5 if !self.is_based() => Kind::Baseline,
            3..=7 => Kind::PermDelta,
            _ => Kind::TempDelta,
        }
    }

    /// Returns the cases of a side in the order of their keys.
    fn of(&self, side: Side) -> impl Iterator<Item = &Case> {
        let is_of_side = move |case: &&Case| case.side == side.byte();
        self.records.values().filter(is_of_side)
    }

    /// Returns the key of some record, if there is one.
    fn some_key(&self, random: &mut Random) -> Option<(u8, u32)> {
        let index = random.below(self.records.len().max(1));
        self.records.keys().nth(index).copied()
    }

    /// Removes a record.
    fn remove(&mut self, random: &mut Random) {
        if let Some(key) = self.some_key(random) {
            self.records.remove(&key);
        }
    }

    /// Gives a record other times; a cancelled one stays as it is.
    fn change_times(&mut self, random: &mut Random) {
        let Some(key) = self.some_key(random) else {
            return;
        };
        let kind = Kind::of(key.0).expect("keys are of kinds");
        let times = self.times(random, kind);
        // A PERMDELTA that mentions nothing needs its life time.
        self.replace(key, self.records[&key].clone().with_times(times));
    }

    /// Gives a record other properties; a cancelled one stays as it is.
    fn change_parts(&mut self, random: &mut Random) {
        let Some(key) = self.some_key(random) else {
            return;
        };
        let kind = Kind::of(key.0).expect("keys are of kinds");
        let parts = self.parts(random, kind);
        self.replace(key, self.records[&key].clone().with_parts(&parts));
    }

    /// Replaces a record by a changed one, if that is sound.
    fn replace(&mut self, key: (u8, u32), changed: Case) {
        if slice::check(&changed.slice, &changed.feature, changed.side).is_ok() {
            self.records.insert(key, changed);
        }
    }

    /// Returns an instant of the history, not before the given one of its instants.
    fn instant(&self, random: &mut Random, from: usize) -> u32 {
        self.begin + (from + random.below(INSTANTS - from)) as u32
    }

    /// Returns times that are right for a kind.
    fn times(&self, random: &mut Random, kind: Kind) -> [u32; 4] {
        let mut from = random.below(INSTANTS);
        if kind == Kind::Baseline {
            // Mostly an early begin, and often one that another BASELINE has.
            from = random.below(1 + from);
        }
        let begin = self.begin + from as u32;
        let end = match random.below(4) {
            0 | 1 => NONE,
            2 if kind == Kind::Baseline => NONE,
            _ if from + 1 == INSTANTS => NONE,
            _ => self.instant(random, from + 1),
        };
        match kind {
            Kind::Baseline => self.baseline_times(random, begin, end),
            Kind::TempDelta => [begin, end, NONE, NONE],
            Kind::PermDelta => match random.below(10) {
                0 => [begin, NONE, NONE, begin],
                1 | 2 => [begin, NONE, begin, NONE],
                3..=6 if !self.is_based() => [begin, NONE, begin, NONE],
                _ => [begin, NONE, NONE, NONE],
            },
        }
    }

    /// Returns the times of a BASELINE of a period.
    fn baseline_times(&self, random: &mut Random, begin: u32, end: u32) -> [u32; 4] {
        let life_begin = random.pick(&[NONE, begin, self.begin, 0]);
        let least = if end == NONE { begin + 1 } else { end };
        let last = self.begin + INSTANTS as u32;
        let life_end = match random.below(6) {
            0 if least < last => least + random.below((last - least) as usize) as u32,
            _ => NONE,
        };
        [begin, end, life_begin, life_end]
    }

    /// Makes eight parts: all mentioned for a BASELINE, one to three for a delta.
    fn parts(&self, random: &mut Random, kind: Kind) -> Area {
        let mut area = match kind {
            Kind::Baseline => [nil(4); 8],
            _ => [unmentioned(); 8],
        };
        let sound = sound_parts();
        for _ in 0..=random.below(3) {
            area[random.below(8)] = match random.below(3) {
                0 => random.pick(&sound[1..]),
                _ => code(random.below(1000) as u16),
            };
        }
        area
    }

    /// Writes the records into the tables.
    fn write(&mut self) {
        for side in [Side::Permanent, Side::Temporary] {
            let records: Vec<Vec<u8>> = self.of(side).map(Case::record).collect();
            let length = bytes_of(records.len());
            let written = fixtures::table(side, &records, length, 0);
            self.tables.of_side(side)[..length].copy_from_slice(&written);
        }
    }
}

#[cfg(test)]
mod tests {
    use super::*;
    use crate::question::property;
    use crate::record::{Head, Sequence};
    use crate::table::{check, Sides};
    use std::collections::BTreeSet;

    /// Every history is sound, and each answer occurs often.
    #[test]
    fn histories_are_sound_and_of_every_sort() {
        let mut random = Random::new(5);
        let mut history = History::new(&mut random);
        let mut counts = BTreeMap::new();
        for _ in 0..1000 {
            history.go_on(&mut random, 20);
            let tables = history.tables();
            assert_eq!(check(&tables.permanent, Sides::Permanent), Ok(()));
            assert_eq!(check(&tables.temporary, Sides::Temporary), Ok(()));
            for instant in tables.instants() {
                let part = property(&tables.permanent, &tables.temporary, instant, 0);
                let answer = part.map(|part| part.map(|part| part.side.byte()));
                let word = format!("{answer:?}");
                *counts.entry(word).or_insert(0) += 1;
            }
        }
        assert_eq!(counts.len(), 6, "{counts:?}");
        assert!(counts.values().all(|&count| count > 100), "{counts:?}");
    }

    /// Returns the heads of a history's BASELINEs: those that count, and those that are cancelled.
    fn baselines(history: &History) -> (Vec<Head>, Vec<Head>) {
        let heads = history.records.values().map(Case::head);
        let baselines = heads.filter(|head| head.kind == Kind::Baseline.byte());
        baselines.partition(|head| !head.is_cancelled())
    }

    /// Returns the sequence numbers of the counted BASELINEs that close one without end.
    fn closers(counted: &[Head]) -> BTreeSet<Sequence> {
        let begins = || counted.iter().map(|one| one.period.begin);
        let open = counted.iter().filter(|one| one.period.end.is_none());
        let close = |one: &Head| begins().filter(|begin| *begin > one.period.begin).min();
        let closes: Vec<_> = open.filter_map(close).collect();
        let closing = counted
            .iter()
            .filter(|one| closes.contains(&one.period.begin));
        closing.map(|one| one.sequence).collect()
    }

    /// BASELINEs are closed and begin together; what closes them is cancelled and comes back.
    #[test]
    fn open_ends_come_up_often() {
        let mut random = Random::new(6);
        let mut history = History::new(&mut random);
        let (mut closing, mut gone) = (BTreeSet::new(), BTreeSet::new());
        let mut counts = [0; 4];
        for round in 0..2000 {
            if round % 20 == 0 {
                history = History::new(&mut random);
                (closing, gone) = Default::default();
            }
            history.change(&mut random);
            let (counted, cancelled) = baselines(&history);
            let begins: BTreeSet<_> = counted.iter().map(|one| one.period.begin).collect();
            let (before, gone_before) = (closing, gone);
            closing = closers(&counted);
            gone = cancelled.iter().map(|one| one.sequence).collect();
            let found = [
                !closing.is_empty(),
                begins.len() < counted.len(),
                !before.is_disjoint(&gone),
                !gone_before.is_disjoint(&closing),
            ];
            for (count, found) in counts.iter_mut().zip(found) {
                *count += usize::from(found);
            }
        }
        let least = [400, 150, 40, 40];
        assert!(
            counts
                .iter()
                .zip(least)
                .all(|(count, least)| *count > least),
            "{counts:?}"
        );
    }
}
