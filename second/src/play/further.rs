//! Further calls of a round, for a linked library. Feeds are compared with the table of their set.
//! Tables with each byte damaged and records with changed fields go through every call. Resulting
//! tables are fed back.

use super::{Asked, Player, Round};
use crate::fixtures::{self, FEATURE, KIND, RECORD, TIMES};
use crate::histories::some_tables;
use crate::layout::{bytes_of, RECORD_BYTES};
use crate::random::Random;
use crate::record::Side;
use crate::slice;
use crate::supply;
use crate::tables::{Product, Question, Tables};
use std::collections::BTreeMap;

/// A player that also compares tables.
pub trait Judge: Player {
    /// Compares a resulting table with the expected one. A fault ends the round.
    fn hold(&mut self, table: &[u8], right: &[u8]) -> Result<(), Self::Fault>;
}

/// How many records of a round drift, and how many small histories have their baselines fed back.
const DRIFTING: usize = 300;
const FED_BACK: usize = 20;

/// Plays the further calls of a round, on tables of at most this many records.
pub fn further<P: Judge>(player: &mut P, seed: u64, most: usize) -> Result<(), P::Fault> {
    let mut round = Round::new(player, !seed, most);
    round.feed()?;
    round.damaged_tables()?;
    round.drifting_records()?;
    round.fed_back_histories()
}

/// A set of slices, and a feed with each of them at least once and with bad slices.
struct Feed {
    side: Side,
    set: Vec<Vec<u8>>,
    slices: Vec<Vec<u8>>,
}

impl Feed {
    /// Makes a feed of this many keys, up to three corrections each.
    fn new(random: &mut Random, side: Side, keys: usize) -> Feed {
        let set = supply::corrections(random, side, keys);
        let mut slices = supply::mingled(random, set.clone());
        let is_bad = |slice: &[u8]| slice::check(slice, &FEATURE, side.byte()).is_err();
        slices.retain(|slice| is_bad(slice) || set.contains(slice));
        Feed { side, set, slices }
    }

    /// Builds the table of the set from scratch: the highest correction of each key, in key order.
    fn table(&self, length: usize, fill: u8) -> Vec<u8> {
        let mut records: BTreeMap<_, &Vec<u8>> = BTreeMap::new();
        for slice in &self.set {
            let correction = |slice: &[u8]| [slice[RECORD + 2], slice[RECORD + 3]];
            let highest = records
                .entry((slice[KIND], &slice[RECORD + 4..TIMES]))
                .or_insert(slice);
            if correction(slice) > correction(highest) {
                *highest = slice;
            }
        }
        let records: Vec<_> = records.values().map(|one| one[RECORD..].to_vec()).collect();
        fixtures::table(self.side, &records, length, fill)
    }
}

/// Returns the header and the counted records of a table, as far as the table reaches.
fn counted(table: &[u8]) -> &[u8] {
    let count = u16::from_be_bytes([table[6], table[7]]);
    &table[..bytes_of(count.into()).min(table.len())]
}

impl<P: Judge> Round<'_, P> {
    /// Plays a feed in two orders, compares each table with the set's, and plays uses of that.
    fn feed(&mut self) -> Result<(), P::Fault> {
        let (side, most) = (self.side(), self.most);
        let size = self.random.pick(&[4, 16, 64, most]);
        let keys = 1 + self.random.below(size);
        let mut feed = Feed::new(&mut self.random, side, keys);
        let (length, fill) = (bytes_of(keys) + self.random.below(500), self.random.byte());
        let right = feed.table(length, fill);
        for _ in 0..2 {
            let mut table = vec![fill; length];
            self.create(&mut table, side.byte(), &FEATURE)?;
            for slice in &feed.slices {
                self.arrive(&mut table, slice)?;
            }
            self.player.hold(&table, &right)?;
            supply::shuffle(&mut self.random, &mut feed.slices);
        }
        let mut tables = some_tables(&mut self.random);
        *tables.of_side(side) = right;
        self.fed_back(tables)
    }

    /// Plays every call on the tables of a small history with each byte of one of them damaged.
    fn damaged_tables(&mut self) -> Result<(), P::Fault> {
        let mut tables = some_tables(&mut self.random);
        let (side, instant) = (self.side(), self.some_instant(&tables));
        let table = tables.of_side(side).clone();
        for offset in 0..table.len().min(counted(&table).len() + RECORD_BYTES) {
            for bits in [1, 0x80, self.random.byte()] {
                let mut damaged = table.clone();
                damaged[offset] ^= bits;
                tables.of_side(side).clone_from(&damaged);
                self.some_uses(&tables, instant)?;
                let slice = supply::slice_for(&mut self.random, counted(&table));
                self.arrive(&mut damaged, &slice)?;
            }
        }
        Ok(())
    }

    /// Plays records that are mostly sound, with a field or two changed and with doubles at their
    /// ends: as slices that arrive, and as tables of one record that are used.
    fn drifting_records(&mut self) -> Result<(), P::Fault> {
        let starts = [fixtures::sound_cases(), fixtures::cancelled_cases()].concat();
        for _ in 0..DRIFTING {
            let mut case = starts[self.random.below(starts.len())].clone();
            let side = Side::of(case.side).expect("a sound case is of a side");
            for _ in 0..=self.random.below(2) {
                case = match self.random.below(3) {
                    0 => {
                        let part = supply::edge_part(&mut self.random);
                        case.with_part(self.random.below(8), &part)
                    }
                    _ => supply::drift(case, &mut self.random),
                };
            }
            let mut tables = Tables::of(&[]);
            tables.of_side(side).resize(bytes_of(2), 0);
            self.arrive(tables.of_side(side), &case.slice)?;
            *tables.of_side(side) = fixtures::table(side, &[case.record()], bytes_of(1), 0);
            let instant = self.random.pick(&[100, 120, 150, 200]);
            self.some_uses(&tables, instant)?;
        }
        Ok(())
    }

    /// Plays every question about two tables at an instant, of one property, and what is made of
    /// them.
    fn some_uses(&mut self, tables: &Tables, instant: u32) -> Result<(), P::Fault> {
        if self.record.len() != RECORD_BYTES {
            self.record = vec![self.random.byte(); RECORD_BYTES];
        }
        let asked = Asked { tables, instant };
        self.ask(&asked, Question::State)?;
        self.ask(&asked, Question::Snapshot)?;
        let property = self.random.below(8) as u8;
        self.ask(&asked, Question::Property(property))?;
        self.ask(&asked, Question::Touched(property))?;
        self.products(&tables.permanent, &[bytes_of(18)])
    }

    /// Plays small histories, and the tables that are derived from them.
    fn fed_back_histories(&mut self) -> Result<(), P::Fault> {
        for _ in 0..FED_BACK {
            let tables = some_tables(&mut self.random);
            self.fed_back(tables)?;
        }
        Ok(())
    }

    /// Plays uses of two tables, and of the baselines of the permanent one, before and after
    /// arrivals; checks that the baselines of the baselines are the same.
    fn fed_back(&mut self, mut tables: Tables) -> Result<(), P::Fault> {
        let instant = self.some_instant(&tables);
        self.some_uses(&tables, instant)?;
        let records = counted(&tables.permanent).len() / RECORD_BYTES;
        let (room, fill) = (bytes_of(self.most.min(3 * records + 3)), self.random.byte());
        self.output = vec![fill; room];
        self.make(&tables.permanent, Product::Derived)?;
        tables.permanent = std::mem::replace(&mut self.output, vec![fill; room]);
        self.make(&tables.permanent, Product::Derived)?;
        self.player.hold(&self.output, &tables.permanent)?;
        for _ in 0..3 {
            let instant = self.some_instant(&tables);
            self.some_uses(&tables, instant)?;
            let slice = supply::slice_for(&mut self.random, counted(&tables.permanent));
            self.arrive(&mut tables.permanent, &slice)?;
        }
        Ok(())
    }
}

#[cfg(test)]
mod tests {
    use super::*;
    use crate::table::{Sides, Table};

    /// The feed has each slice of the set, some more than once, and bad ones; the table has every
    /// key once, with its highest correction.
    #[test]
    fn feeds_are_what_they_are_called() {
        let feed = Feed::new(&mut Random::new(1), Side::Permanent, 40);
        assert!(feed.set.iter().all(|slice| feed.slices.contains(slice)));
        let is_bad = |slice: &&Vec<u8>| !feed.set.contains(slice);
        let bad = feed.slices.iter().filter(is_bad).count();
        assert!(bad > 5 && feed.slices.len() - bad > feed.set.len() + 5);
        let bytes = feed.table(bytes_of(40), 0);
        let records = Table::read(&bytes, Sides::Permanent).unwrap().records;
        assert_eq!(records.len(), 40);
        for slice in &feed.set {
            let is_of_key =
                |one: &Vec<u8>| one[0] == slice[KIND] && one[4..8] == slice[RECORD + 4..TIMES];
            let mut stored = records.values().map(|record| record.write());
            let stored = stored.find(is_of_key).unwrap();
            assert!(stored[2..4] >= slice[RECORD + 2..RECORD + 4]);
        }
    }
}
