//! Measures a library against plain programs, on the same bytes in one run, and prints one table.

mod derived;
mod questions;
mod scenes;
mod touches;

use crate::fixtures::FEATURE;
use crate::layout::RECORD_BYTES;
use crate::library::{Library, Reply, ON_HEAP, PLAIN, WORDS, WORDS_SKIPPING};
use crate::listing::MOST_BYTES;
use std::fmt;
use std::hint::black_box;
use std::time::{Duration, Instant};

/// The numbers of records that are measured.
const COUNTS: [usize; 3] = [16, 64, 256];

/// How many records all tables of a scene have together, and how long a measurement takes. The
/// number is the same for each count, so that caches and branch prediction do not favour small
/// tables.
const RECORDS: usize = 2048;
const TIME: Duration = Duration::from_micros(1500);

/// The bytes that hold every listing.
const TEXT: usize = 10_771;

/// A plain program, with the text that its lines add to the name of a scene.
type Plain = (&'static str, &'static Library);

/// The plain programs of derived baselines: the one that the library is compared with, and the one
/// that derives with a heap.
const DERIVING: [Plain; 2] = [("", &PLAIN), ("; plain on the heap", &ON_HEAP)];

/// The plain programs of the calls that are mostly the check of properties: the one that the library
/// is compared with, and those that check by three numbers and a table.
const CHECKING: [Plain; 3] = [
    ("", &PLAIN),
    ("; plain words", &WORDS),
    ("; plain words, zeros skipped", &WORDS_SKIPPING),
];

/// The head of the table.
const HEAD: &str = "\
| call                                                                  | records |   ours ns |  plain ns | ours/plain | ours ns a record | ours/pass |
|-----------------------------------------------------------------------|--------:|----------:|----------:|-----------:|-----------------:|----------:|";

/// The call to measure.
#[derive(Clone)]
enum Call {
    NewTable,
    Arrive(Vec<u8>),
    /// The permanent state at an instant.
    State(u32),
    /// The snapshot with a temporary table at an instant.
    Snapshot(Vec<u8>, u32),
    /// One property, with a temporary table at an instant.
    Property(Vec<u8>, u32, u8),
    /// All eight properties, one after the other, with a temporary table at an instant.
    Properties(Vec<u8>, u32),
    /// Whether a property is touched at an instant; the table is a temporary one.
    Touched(u32, u8),
    Derive,
    Listing,
}

/// A table, a call on it, and the expected reply.
#[derive(Clone)]
struct Use {
    table: Vec<u8>,
    call: Call,
    right: Reply,
}

/// One thing to measure, and how often its calls can be made before the tables must be copied
/// again.
struct Scene {
    name: String,
    records: usize,
    repeats: usize,
    uses: Vec<Use>,
}

/// A line of the table: nanoseconds per call, for the library, a plain program and one pass over
/// the tables that the call reads, and the number of these tables.
struct Row {
    call: String,
    records: usize,
    tables: usize,
    ours: f64,
    plain: f64,
    pass: f64,
}

/// Measures every scene whose name has these letters, this many times, and prints the medians;
/// returns whether every reply was as expected.
pub fn run(library: &Library, rounds: usize, letters: &str) -> bool {
    println!("Medians of {rounds} rounds, the library and the plain programs by turns.\n\n{HEAD}");
    let mut sets = COUNTS.map(scenes::all);
    for set in &mut sets {
        set.retain(|scene| scene.name.contains(letters));
    }
    for index in 0..sets[0].len() {
        let scenes = sets.each_ref().map(|set| &set[index]);
        if let Some(scene) = scenes.iter().find(|scene| !scene.is_right_for_all(library)) {
            println!("{}: another answer than expected", scene.name);
            return false;
        }
        let rows = scenes.map(|scene| scene.measure(library, rounds));
        for plain in 0..rows[0].len() {
            rows.iter().for_each(|rows| println!("{}", rows[plain]));
        }
    }
    true
}

impl Use {
    /// Makes the call once, with a buffer for what it writes.
    fn call(&self, library: &Library, table: &mut [u8], output: &mut [u8]) -> Reply {
        let record = &mut output[..RECORD_BYTES];
        match &self.call {
            Call::NewTable => (library.new_table)(table, 0, black_box(&FEATURE)),
            Call::Arrive(slice) => (library.arrive)(table, black_box(slice)),
            Call::State(instant) => (library.permanent_state)(table, *instant, record),
            Call::Snapshot(temporary, instant) => {
                (library.snapshot)(table, black_box(temporary), *instant, record)
            }
            Call::Property(temporary, instant, property) => {
                (library.property)(table, black_box(temporary), *instant, *property)
            }
            Call::Properties(temporary, instant) => {
                let ask = |property| {
                    (library.property)(black_box(table), black_box(temporary), *instant, property)
                };
                let refused = (0..8).filter(|&property| black_box(ask(property)).kind == 0);
                Reply::new(u32::from(refused.count() == 0), 0)
            }
            Call::Touched(instant, property) => (library.touched)(table, *instant, *property),
            Call::Derive => (library.derive)(table, output),
            Call::Listing => (library.listing)(table, &mut output[..TEXT]),
        }
    }

    /// Returns the sum of all bytes of the tables that the call reads, once for each time it reads
    /// them.
    fn pass(&self, table: &[u8]) -> u64 {
        match &self.call {
            Call::Snapshot(temporary, _) | Call::Property(temporary, ..) => {
                sum(table) + sum(black_box(temporary))
            }
            Call::Properties(temporary, _) => (0..8)
                .map(|_| sum(black_box(table)) + sum(black_box(temporary)))
                .sum(),
            _ => sum(table),
        }
    }

    /// Returns how many tables the call reads; a table that is read again counts again.
    fn tables(&self) -> usize {
        match &self.call {
            Call::NewTable => 0,
            Call::Arrive(_) | Call::State(_) | Call::Touched(..) => 1,
            Call::Derive | Call::Listing => 1,
            Call::Snapshot(..) | Call::Property(..) => 2,
            Call::Properties(..) => 16,
        }
    }
}

impl Scene {
    /// Returns the plain programs that the library is measured against.
    fn plains(&self) -> &'static [Plain] {
        match self.uses[0].call {
            Call::NewTable => &CHECKING[..1],
            Call::Derive | Call::Listing => &DERIVING,
            _ => &CHECKING,
        }
    }

    /// Returns whether a library and the plain programs reply as expected.
    fn is_right_for_all(&self, library: &Library) -> bool {
        let mut plains = self.plains().iter();
        self.is_right(library) && plains.all(|(_, plain)| self.is_right(plain))
    }

    /// Returns whether a library replies as expected.
    fn is_right(&self, library: &Library) -> bool {
        let mut output = vec![0; MOST_BYTES];
        let mut reply = |one: &Use| one.call(library, &mut one.table.clone(), &mut output);
        self.uses.iter().all(|one| reply(one) == one.right)
    }

    /// Returns the nanoseconds that one use of a table takes, without the copying of tables.
    fn time(&self, tables: &mut [Vec<u8>], mut used: impl FnMut(&Use, &mut [u8])) -> f64 {
        let (mut spent, mut calls) = (Duration::ZERO, 0);
        while spent < TIME {
            for (table, one) in tables.iter_mut().zip(&self.uses) {
                table.copy_from_slice(&one.table);
            }
            let start = Instant::now();
            for _ in 0..self.repeats {
                for (table, one) in tables.iter_mut().zip(&self.uses) {
                    used(one, black_box(table));
                }
            }
            spent += start.elapsed();
            calls += self.repeats * tables.len();
        }
        spent.as_nanos() as f64 / calls as f64
    }

    /// Measures the library, the plain programs and the pass by turns; returns a line with the
    /// medians for each plain program.
    fn measure(&self, library: &Library, rounds: usize) -> Vec<Row> {
        let mut tables: Vec<Vec<u8>> = self.uses.iter().map(|one| one.table.clone()).collect();
        let (mut output, plains) = (vec![0; MOST_BYTES], self.plains());
        let libraries: Vec<_> = [library]
            .into_iter()
            .chain(plains.iter().map(|(_, plain)| *plain))
            .collect();
        let (mut times, mut passes) = (vec![vec![]; libraries.len()], vec![]);
        for _ in 0..rounds {
            for (times, library) in times.iter_mut().zip(&libraries) {
                times.push(self.time(&mut tables, |one, table| {
                    black_box(one.call(library, table, black_box(&mut output)));
                }));
            }
            passes.push(self.time(&mut tables, |one, table| {
                black_box(one.pass(table));
            }));
        }
        let (times, pass) = (times.into_iter().map(median), median(passes));
        self.rows(&times.collect::<Vec<_>>(), pass)
    }

    /// Returns the lines for the times of the library and the plain programs, and of a pass.
    fn rows(&self, times: &[f64], pass: f64) -> Vec<Row> {
        let row = |(&(other, _), &plain): (&(&str, _), &f64)| Row {
            call: format!("{}{other}", self.name),
            records: self.records,
            tables: self.uses[0].tables(),
            ours: times[0],
            plain,
            pass,
        };
        self.plains().iter().zip(&times[1..]).map(row).collect()
    }
}

impl fmt::Display for Row {
    /// Writes the line.
    fn fmt(&self, out: &mut fmt::Formatter) -> fmt::Result {
        let (ours, plain) = (self.ours, self.plain);
        let (call, records, ratio) = (&self.call, self.records, ours / plain);
        write!(
            out,
            "| {call:69} | {records:7} | {ours:9.1} | {plain:9.1} | {ratio:10.2} | "
        )?;
        match self.tables * records {
            0 => write!(out, "{:>16} | {:>9} |", "-", "-"),
            count => {
                let (each, passes) = (ours / count as f64, ours / self.pass);
                write!(out, "{each:16.1} | {passes:9.2} |")
            }
        }
    }
}

/// Returns the sum of all bytes.
fn sum(bytes: &[u8]) -> u64 {
    bytes.iter().map(|&byte| u64::from(byte)).sum()
}

/// Returns the middle one of some times.
fn median(mut times: Vec<f64>) -> f64 {
    times.sort_by(f64::total_cmp);
    times[times.len() / 2]
}

#[cfg(test)]
mod tests {
    use super::*;

    /// The plain program measured against itself, once; a wrong reply is reported, but not where
    /// it is not measured.
    #[test]
    fn everything_is_measured() {
        assert!(run(&PLAIN, 1, ""));
        let wrong = Library {
            arrive: |_, _| Reply::new(0, 1),
            ..PLAIN
        };
        assert!(!run(&wrong, 1, ""));
        assert!(run(&wrong, 1, "tsl_touched"));
        let wrong = Library {
            listing: |_, _| Reply::new(1, 1),
            ..PLAIN
        };
        assert!(!run(&wrong, 1, "listing"));
    }

    /// The middle one.
    #[test]
    fn the_median_is_in_the_middle() {
        assert_eq!(median(vec![9.0, 1.0, 2.0]), 2.0);
    }

    /// A line for each plain program, as wide as the head; nothing a record where no table is read.
    #[test]
    fn lines_are_those_of_one_table() {
        let scenes = scenes::all(16);
        let rows = scenes[0].rows(&[8.0, 4.0], 2.0);
        assert_eq!(rows.len(), 1);
        assert!(rows[0]
            .to_string()
            .ends_with("|       8.0 |       4.0 |       2.00 |                - |         - |"));
        let times = [64.0, 1.0, 8.0, 4.0];
        assert_eq!(scenes[1].rows(&times, 2.0).len(), 3);
        let rows = scenes.last().unwrap().rows(&times, 2.0);
        assert_eq!(rows.len(), 2);
        assert!(rows[1]
            .to_string()
            .ends_with("|      64.0 |       8.0 |       8.00 |              4.0 |     32.00 |"));
        let width = HEAD.lines().next().unwrap().len();
        let mut rows = scenes.iter().flat_map(|scene| scene.rows(&times, 2.0));
        assert!(rows.all(|row| row.to_string().len() == width));
    }
}
