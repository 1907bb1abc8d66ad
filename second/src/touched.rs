//! Whether anything temporary touches a property at an instant.

use crate::question::{asked, known};
use crate::refusal::Refusal;
use crate::state::{mentions, passing};
use crate::table::{Sides, Table};

/// The answer, and how many records of the table it takes, counted from the last one downward.
#[derive(Clone, Copy, Debug, PartialEq)]
pub struct Touched {
    pub is_touched: bool,
    pub looked: usize,
}

/// Returns whether a TEMPDELTA of the instant mentions the property. The records looked at are the
/// last such TEMPDELTA and all after it, or all records.
pub fn touched(temporary: &[u8], instant: u32, property: u8) -> Result<Touched, Refusal> {
    let table = Table::read(temporary, Sides::Temporary)?;
    let instant = asked(instant)?;
    let property = known(property)?;
    let mut passing = passing(&table, instant).into_iter();
    let last = passing.rfind(|record| mentions(record, property));
    let looked = match last {
        Some(record) => table.records.range(record.key()..).count(),
        None => table.records.len(),
    };
    Ok(Touched {
        is_touched: last.is_some(),
        looked,
    })
}

#[cfg(test)]
mod tests {
    use super::*;
    use crate::fixtures::brief::{cancelling, mention_only, passing};
    use crate::fixtures::{nil, table, Case};
    use crate::layout::bytes_of;
    use crate::record::{Side, NONE};

    /// Makes a temporary table of some slices, in their order, with room for one more.
    fn temporary(cases: &[Case]) -> Vec<u8> {
        let records: Vec<_> = cases.iter().map(Case::record).collect();
        table(Side::Temporary, &records, bytes_of(records.len() + 1), 0)
    }

    /// Returns a yes.
    fn yes(looked: usize) -> Result<Touched, Refusal> {
        Ok(Touched {
            is_touched: true,
            looked,
        })
    }

    /// Returns a no.
    fn no(looked: usize) -> Result<Touched, Refusal> {
        Ok(Touched {
            is_touched: false,
            looked,
        })
    }

    /// "the found record and all after it".
    #[test]
    fn the_last_one_that_touches_ends_the_count() {
        let cases = [
            passing(1, 100, 200, 1),
            mention_only(passing(2, 100, 200, 0), 7, 2),
            passing(3, 150, 160, 3),
            cancelling(&passing(4, 100, 200, 4), 1),
        ];
        let table = temporary(&cases);
        assert_eq!(touched(&table, 149, 0), yes(4));
        assert_eq!(touched(&table, 150, 0), yes(2));
        assert_eq!(touched(&table, 160, 0), yes(4));
        assert_eq!(touched(&table, 150, 7), yes(3));
        assert_eq!(touched(&table[..bytes_of(4)], 150, 7), yes(3));
    }

    /// "or all of them": none counts, none is valid, none mentions the property, or there is none.
    #[test]
    fn a_no_looks_at_every_record() {
        assert_eq!(touched(&temporary(&[]), 100, 0), no(0));
        let cases = [passing(1, 100, 200, 1), passing(2, 300, NONE, 2)];
        assert_eq!(touched(&temporary(&cases), 99, 0), no(2));
        assert_eq!(touched(&temporary(&cases), 200, 0), no(2));
        assert_eq!(touched(&temporary(&cases), 100, 1), no(2));
        let cancelled = cases.each_ref().map(|case| cancelling(case, 0));
        assert_eq!(touched(&temporary(&cancelled), 100, 0), no(2));
    }

    /// A record after the counted ones means nothing.
    #[test]
    fn only_counted_records_are_looked_at() {
        let mut table = temporary(&[passing(1, 100, 200, 1), passing(2, 100, 200, 2)]);
        table[7] = 1;
        assert_eq!(touched(&table, 100, 0), yes(1));
        table[7] = 0;
        assert_eq!(touched(&table, 100, 0), no(0));
    }

    /// "Periods include their begin and exclude their end"; none runs on.
    #[test]
    fn a_period_has_its_begin_and_not_its_end() {
        let at = |table: &[u8], instant| touched(table, instant, 0);
        let table = temporary(&[passing(1, 100, 200, 1)]);
        let instants = [99, 100, 199, 200, NONE - 1];
        let answers = instants.map(|instant| at(&table, instant));
        assert_eq!(answers, [no(1), yes(1), yes(1), no(1), no(1)]);
        let table = temporary(&[passing(1, 100, NONE, 1)]);
        let answers = instants.map(|instant| at(&table, instant));
        assert_eq!(answers, [no(1), yes(1), yes(1), yes(1), yes(1)]);
    }

    /// "nil is a mention".
    #[test]
    fn nil_touches() {
        for reason in 1..=5 {
            let case = passing(1, 100, 200, 1).with_part(3, &nil(reason));
            assert_eq!(touched(&temporary(&[case]), 100, 3), yes(1));
        }
    }

    /// "Refusals: temporary table 1-7, then 19."
    #[test]
    fn refusals_come_in_their_order() {
        let table = temporary(&[passing(1, 100, 200, 1)]);
        for (instant, property) in [(NONE, 0), (100, 8), (100, 255), (NONE, 8)] {
            assert_eq!(touched(&table, instant, property), Err(Refusal::Asked));
            let short = touched(&table[..31], instant, property);
            assert_eq!(short, Err(Refusal::Short));
        }
        let mut permanent = table.clone();
        permanent[3] = 0;
        assert_eq!(touched(&permanent, NONE, 8), Err(Refusal::Name));
        assert_eq!(touched(&permanent, 100, 0), Err(Refusal::Name));
    }
}
