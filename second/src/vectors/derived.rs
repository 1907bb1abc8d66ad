//! Asks for derived baselines: by theme, with faults, and into outputs of every length that
//! matters.

use super::rules::{self, at, set};
use super::themes::paper;
use super::Script;
use crate::fixtures::brief::{base, baseline, change, closing, opening};
use crate::fixtures::rows::{apart, opened_twice, thrice, touching, unended};
use crate::layout::{bytes_of, RECORD_BYTES};
use crate::random::Random;
use crate::record::{Side, NONE};
use crate::supply;
use crate::tables::{permanent, Product};

/// The output of most asks: room for eight records, and a few bytes after them.
const LENGTH: usize = bytes_of(8) + 5;

/// How many random histories are asked about.
const HISTORIES: usize = 400;

/// Adds every ask for derived baselines.
pub fn add(script: &mut Script) {
    script.ask_themes(Product::Derived, LENGTH);
    faults(script);
    faults_and_anchors(script);
    lengths(script);
    tables_with_a_rest(script);
    many(script);
    too_many(script);
    three_instants_each(script);
    late_openings(script);
    script.title("derived: random histories");
    let lengths = [18, 18, 18, 18, 3].map(bytes_of);
    script.ask_histories(Product::Derived, 21, HISTORIES, &lengths);
    any_tables(script);
}

/// Asks for the derived baselines of a table, into the last output.
fn ask(script: &mut Script, table: &[u8]) {
    script.ask_next(Product::Derived, table, LENGTH);
}

/// Asks for the derived baselines of a table, into a new output of a value.
fn ask_into(script: &mut Script, table: &[u8], length: usize, value: u8) {
    script.ask_product(Product::Derived, table, &vec![value; length]);
}

/// Makes a table of the permanent side of three records, with room for four.
fn sound() -> Vec<u8> {
    rules::bases()[0].clone()
}

/// Adds every fault of a table alone, in pairs and in chains, into an output that is long enough,
/// and into one that is not; the other side's table too.
fn faults(script: &mut Script) {
    script.title("derived: faults of a table alone, in pairs, and all from a number on");
    let [lasting, passing] = rules::bases();
    for (table, _) in rules::spoiled(&lasting) {
        ask_into(script, &table, LENGTH, 0x5c);
    }
    for table in [lasting, passing] {
        for fault in rules::FAULTS {
            ask_into(script, &(fault.spoil)(table.clone()), 31, 0x5c);
        }
        ask_into(script, &table, LENGTH, 0x5c);
    }
}

/// Adds two anchors, with each fault of a table, and into outputs of every length.
fn faults_and_anchors(script: &mut Script) {
    script.title("derived: two anchors and another fault");
    let anchors = rules::with_two_anchors(sound());
    for fault in rules::FAULTS {
        let spoiled = (fault.spoil)(anchors.clone());
        ask_into(script, &spoiled, LENGTH, 0);
        ask_into(script, &spoiled, 0, 0);
    }
    for length in [0, 1, 31, 32, 255, 256, bytes_of(3), bytes_of(256), 65_536] {
        ask_into(script, &anchors, length, 0x77);
    }
}

/// Makes a table that gives this many derived records: a BASELINE and changes after it.
fn row(count: u32) -> Vec<u8> {
    let changes = (1..count).map(|index| change(index, 100 + 10 * index, index as u16));
    let anchor = (count > 0).then(base);
    permanent(&changes.chain(anchor).collect::<Vec<_>>())
}

/// Adds outputs too short, exact and longer, of some values, for 0 to 4 derived records.
fn lengths(script: &mut Script) {
    script.title("derived: outputs too short, exact and longer");
    for count in 0..=4 {
        let (table, exact) = (row(count), bytes_of(count as usize));
        for length in [0, 1, 8, 31, 32, 33, 255, 256, 257] {
            ask_into(script, &table, length.min(exact - 1), 0xa5);
        }
        for value in [0, 0xff, 0x5a] {
            for length in [exact - 1, exact, exact + 1, exact + 223, exact + 224] {
                ask_into(script, &table, length, value);
            }
        }
    }
    let (table, long) = (row(1), bytes_of(257) + 300);
    ask_into(script, &table, long, 0x33);
    ask_into(script, &table, 65_536, 0x34);
    withdrawn_lengths(script);
}

/// Adds outputs about the length of results that have fewer records than there are change instants.
fn withdrawn_lengths(script: &mut Script) {
    let histories = [
        vec![base(), closing(1, 300)],
        vec![baseline(1, [100, 200, NONE, 300], 1), change(1, 250, 2)],
        vec![opening(1, 100, 1), closing(2, 150), change(3, 200, 4)],
    ];
    for cases in histories {
        let table = permanent(&cases);
        for length in [bytes_of(1) - 1, bytes_of(1), bytes_of(2)] {
            ask_into(script, &table, length, 0xee);
        }
    }
}

/// Adds tables with bytes after their records, which mean nothing, and with records not counted.
fn tables_with_a_rest(script: &mut Script) {
    script.title("derived: bytes behind the records of a table");
    let table = permanent(&paper());
    for rest in [1, 31, 223, 224, 225, 1000] {
        for fill in [0, 1, 0xff] {
            let longer = [&table[..], &vec![fill; rest]].concat();
            ask(script, &longer);
        }
    }
    for count in [0, 1] {
        ask(script, &set(table.clone(), 7, &[count]));
    }
    for place in 8..24 {
        ask(script, &set(table.clone(), place, &[0x80 ^ place as u8]));
    }
}

/// Adds 255, 256 and 257 derived records, into outputs too short, exact and longer.
fn many(script: &mut Script) {
    script.title("derived: 255, 256 and 257 records");
    for (count, length) in [
        (257, bytes_of(257)),
        (257, 65_536),
        (257, bytes_of(256)),
        (257, 0),
        (256, bytes_of(256) - 1),
        (256, bytes_of(256)),
        (255, bytes_of(255) - 1),
        (255, bytes_of(255)),
        (258, 65_536),
    ] {
        ask_into(script, &permanent(&apart(count)), length, 0xc3);
    }
    for cases in [touching(256), unended(256)] {
        let table = permanent(&cases);
        ask_into(script, &table, bytes_of(256) - 1, 0);
        ask_into(script, &table, bytes_of(256) + 10, 0);
    }
    let mut ended = row(256);
    ask_into(script, &ended, bytes_of(255), 1);
    ask_into(script, &ended, bytes_of(256), 1);
    ended[at(0) + 12..at(0) + 16].copy_from_slice(&2_640u32.to_be_bytes());
    ask_into(script, &ended, bytes_of(254), 1);
    ask_into(script, &set(ended, at(255) + 31, &[1]), bytes_of(256), 1);
}

/// Adds too many records: with an end that the next BASELINE gives, with two anchors near the end,
/// with a table too short for its count, and as many as there can be.
fn too_many(script: &mut Script) {
    script.title("derived: too many records and another fault");
    let table = permanent(&apart(401));
    let end = table.len() - 3 * RECORD_BYTES + 12;
    let ended = |time: u32| set(table.clone(), end, &time.to_be_bytes());
    let mut over = table.clone();
    over.resize(65_536, 0);
    for table in [
        table.clone(),
        ended(NONE),
        ended(2_001),
        set(over, 6, &[1, 1]),
        set(table.clone(), 31, &[1]),
        permanent(&apart(511)),
    ] {
        for length in [0, bytes_of(256), 65_536] {
            ask_into(script, &table, length, 0x18);
        }
    }
}

/// Adds BASELINEs with three change instants each, in order and in any order: a few, as many as give
/// one record too many, and as many as give 768 change instants.
fn three_instants_each(script: &mut Script) {
    script.title("derived: three change instants of each BASELINE");
    for (count, length) in [(4, LENGTH), (129, 65_536), (256, 65_536)] {
        for is_rising in [true, false] {
            let table = permanent(&thrice(count, is_rising));
            ask_into(script, &table, length, 0x3c);
            ask_into(script, &table, bytes_of(7) - 1, 0x3c);
        }
    }
}

/// Adds a second opening as the last of many changes.
fn late_openings(script: &mut Script) {
    script.title("derived: a late second opening");
    for count in [2, 3, 60] {
        let table = permanent(&opened_twice(count));
        ask_into(script, &table, 65_536, 0x3d);
        ask_into(script, &table, 0, 0x3d);
    }
}

/// Adds random tables of either side, and spoiled ones.
fn any_tables(script: &mut Script) {
    script.title("derived: random tables, sound and spoiled");
    let mut random = Random::new(22);
    for _ in 0..60 {
        let side = random.pick(&[Side::Permanent, Side::Permanent, Side::Temporary]);
        let (count, rest) = (random.below(5), random.below(300));
        let mut table = supply::table(&mut random, side, count, rest);
        ask(script, &table);
        supply::spoil(&mut random, &mut table);
        ask(script, &table);
    }
}

#[cfg(test)]
mod tests {
    use super::*;
    use crate::derived::{change_instants, derive};
    use crate::refusal::{number_of, Refusal};
    use crate::table::{Sides, Table};

    /// As many records as their names say.
    #[test]
    fn long_results_are_as_long_as_they_are_called() {
        let mut output = vec![0; bytes_of(256)];
        for count in [2, 255, 256] {
            assert_eq!(
                derive(&permanent(&apart(count)), &mut output),
                Ok(count as usize)
            );
        }
        for count in [257, 258] {
            assert_eq!(
                derive(&permanent(&apart(count)), &mut output),
                Err(Refusal::Buffer)
            );
        }
        for cases in [touching(256), unended(256)] {
            assert_eq!(derive(&permanent(&cases), &mut output), Ok(256));
        }
        for count in [0, 1, 4, 256] {
            assert_eq!(derive(&row(count), &mut output), Ok(count as usize));
        }
    }

    /// Of two faults the answer is the earlier; two anchors come before the output.
    #[test]
    fn the_earlier_fault_wins() {
        let number = |table: &[u8], length| {
            let answer = derive(table, &mut vec![0; length]).map(|_| ());
            number_of(answer)
        };
        for (table, expected) in rules::spoiled(&sound()) {
            assert_eq!(number(&table, LENGTH), expected);
        }
        let anchors = rules::with_two_anchors(sound());
        assert_eq!([number(&anchors, 0), number(&anchors, LENGTH)], [21; 2]);
        for fault in rules::FAULTS {
            assert_eq!(number(&(fault.spoil)(sound()), 0), fault.number);
        }
        assert_eq!(number(&sound(), bytes_of(2) - 1), 23);
    }

    /// Returns the first words of the answers of a group.
    fn answers(group: fn(&mut Script)) -> Vec<String> {
        let mut script = Script::default();
        group(&mut script);
        let answers = script.answers();
        let word = |line: &str| line.split(' ').next().unwrap_or_default().to_string();
        answers.lines().map(word).collect()
    }

    /// Two anchors come before too many records.
    #[test]
    fn anchors_come_before_too_many() {
        let expected = ["23", "23", "21", "5", "4", "23"].map(|number| [number; 3]);
        assert_eq!(answers(too_many), expected.concat());
        assert_eq!(answers(late_openings), ["21"; 6]);
    }

    /// Two records for each BASELINE but one, of three change instants.
    #[test]
    fn three_instants_give_two_records() {
        let few = ["derived", "23", "derived", "23"];
        let expected = [&few[..], &["23"; 8]].concat();
        assert_eq!(answers(three_instants_each), expected);
        for is_rising in [true, false] {
            let bytes = permanent(&thrice(256, is_rising));
            let table = Table::read(&bytes, Sides::Permanent).unwrap();
            assert_eq!(change_instants(&table).len(), 768);
            let begins = table.records.values().map(|one| one.head.period.begin);
            assert_eq!(begins.is_sorted(), is_rising);
            let output = &mut [0; bytes_of(7)];
            assert_eq!(derive(&permanent(&thrice(4, is_rising)), output), Ok(7));
        }
    }
}
