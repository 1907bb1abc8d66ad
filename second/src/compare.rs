//! Makes calls to a library and to this program, and compares the replies and every byte of the
//! buffers.

use crate::arrival;
use crate::derived;
use crate::layout::{bytes_of, MOST_RECORDS};
use crate::library::{Library, Reply};
use crate::listing;
use crate::play::further::{further, Judge};
use crate::play::{round, Call, Player};
use crate::question;
use crate::table::{self, Sides};
use crate::tables::{Product, Question, Tables};
use crate::tally::{Answer, Tally};
use crate::touched;
use crate::vectors::format::{fill_lines, instant_line, line, output_line, record_line, EXCHANGE};
use std::fmt;
use std::time::{Duration, Instant};

/// The guard bytes on each side of a buffer, which no call may touch.
const GUARD: usize = 64;
const GUARD_BYTE: u8 = 0x5a;

/// When to stop.
#[derive(Clone, Copy, Debug, PartialEq)]
pub enum Limit {
    Rounds(u64),
    Seconds(u64),
}

/// A buffer for a call, with guard bytes on both sides.
struct Guarded {
    whole: Vec<u8>,
    start: usize,
    length: usize,
}

/// A call after which the library's reply or bytes differ from this program's: the first wrong byte
/// of the buffer that the call may change, and of each buffer that it only reads; and the library's
/// reply about a property, if its reply about what touches the property does not agree with that.
pub struct Difference {
    lines: Vec<String>,
    right: Reply,
    reply: Reply,
    buffer: Option<isize>,
    handed: Vec<Option<isize>>,
    property: Option<Reply>,
}

/// A library, and the count of its answers so far.
pub struct Comparison<'a> {
    library: &'a Library,
    tally: &'a mut Tally,
    calls: usize,
}

impl Limit {
    /// Returns the limit that a word names: a number of rounds, or of seconds followed by `s`.
    pub fn of(word: &str) -> Option<Limit> {
        match word.strip_suffix('s') {
            Some(seconds) => seconds.parse().ok().map(Limit::Seconds),
            None => word.parse().ok().map(Limit::Rounds),
        }
    }

    /// Returns whether this many rounds, in this time, are enough.
    fn is_reached(self, rounds: u64, time: Duration) -> bool {
        match self {
            Limit::Rounds(limit) => rounds >= limit,
            Limit::Seconds(limit) => time.as_secs() >= limit,
        }
    }
}

/// Plays rounds and prints the progress; returns whether there was no difference.
pub fn run(library: &Library, limit: Limit, seed: u64) -> bool {
    println!("seed {seed}");
    let (start, mut told) = (Instant::now(), 0);
    let (mut tally, mut round) = (Tally::default(), 0);
    while !limit.is_reached(round, start.elapsed()) {
        let seed = seed.wrapping_add(round);
        if let Err(difference) = play(library, seed, &mut tally) {
            println!("a difference; it comes again with: second compare 1 {seed}\n{difference}");
            return false;
        }
        round += 1;
        if start.elapsed().as_secs() >= told + 10 {
            told = start.elapsed().as_secs();
            println!("{told} s: {round} rounds, {} calls so far", tally.calls());
        }
    }
    print!("{tally}");
    let calls = tally.calls();
    println!("{round} rounds, {calls} calls, no difference");
    true
}

/// Plays one round with a library and with this program; returns the first difference.
fn play(library: &Library, seed: u64, tally: &mut Tally) -> Result<(), Box<Difference>> {
    let mut comparison = Comparison::new(library, tally);
    round(&mut comparison, seed, MOST_RECORDS)?;
    further(&mut comparison, seed, MOST_RECORDS)
}

impl<'a> Comparison<'a> {
    /// Returns the comparison of a library, whose answers are counted.
    pub fn new(library: &'a Library, tally: &'a mut Tally) -> Comparison<'a> {
        Comparison {
            library,
            tally,
            calls: 0,
        }
    }
}

impl Player for Comparison<'_> {
    type Fault = Box<Difference>;

    /// Makes a call to the library and to this program, and leaves the buffer as this program left
    /// it.
    fn call(&mut self, buffer: &mut Vec<u8>, call: &Call) -> Result<(), Box<Difference>> {
        let before = buffer.clone();
        let right = call.answer(buffer);
        self.calls += 1;
        let mut guarded = Guarded::new(&before, GUARD + self.calls % 8);
        let shifts = [self.calls / 8 % 8, self.calls / 64 % 8];
        let handed: Vec<Guarded> = call
            .handed()
            .iter()
            .zip(shifts)
            .map(|(bytes, shift)| Guarded::new(bytes, GUARD + shift))
            .collect();
        let reply = call.put(self.library, guarded.bytes_mut(), &handed);
        self.tally.count(call.counted(right, buffer));
        let handed = handed.iter().zip(call.handed());
        let difference = Difference {
            lines: vec![],
            right,
            reply,
            buffer: guarded.first_other(buffer),
            handed: handed
                .map(|(guarded, bytes)| guarded.first_other(bytes))
                .collect(),
            property: call.other_property(self.library, reply),
        };
        if difference.is_none() {
            return Ok(());
        }
        let lines = call.lines(&before);
        Err(Box::new(Difference {
            lines,
            ..difference
        }))
    }
}

impl Judge for Comparison<'_> {
    /// Compares a table, on which the library and this program agree, with the expected one.
    fn hold(&mut self, table: &[u8], right: &[u8]) -> Result<(), Box<Difference>> {
        let buffer = Guarded::new(table, GUARD).first_other(right);
        if buffer.is_none() {
            return Ok(());
        }
        let (came, should) = ("came out:".to_string(), "should be:".to_string());
        Err(Box::new(Difference {
            lines: [
                vec![came],
                fill_lines(table, 0),
                vec![should],
                fill_lines(right, 0),
            ]
            .concat(),
            right: Reply::new(1, 0),
            reply: Reply::new(1, 0),
            buffer,
            handed: vec![],
            property: None,
        }))
    }
}

impl Call<'_> {
    /// Returns the answer that a reply counts as, from the buffer after the call.
    fn counted(&self, reply: Reply, buffer: &[u8]) -> Answer {
        let is_sound = |tables: &Tables| table::check(&tables.permanent, Sides::Permanent).is_ok();
        let is_temporary = match self {
            Call::Ask {
                question: Question::Touched(_),
                ..
            } => false,
            Call::Ask { tables, .. } => matches!(reply.number, 1..=7) && is_sound(tables),
            _ => false,
        };
        let reply = match buffer.strip_prefix(b"refused ") {
            Some(rest) if self.letter() == 'y' && reply.kind == 1 => {
                let digits = &rest[..reply.number as usize - "refused \n".len()];
                let number = digits
                    .iter()
                    .fold(0, |number, digit| 10 * number + u32::from(digit - b'0'));
                Reply::new(0, number)
            }
            _ => reply,
        };
        Answer::of(self.letter(), reply, is_temporary)
    }

    /// Returns the letter that asks this in the vectors.
    fn letter(&self) -> char {
        match self {
            Call::Create { .. } => 'm',
            Call::Arrive { .. } => 'a',
            Call::Ask { question, .. } => match question {
                Question::State => 'g',
                Question::Snapshot => 'n',
                Question::Property(_) => 'v',
                Question::Touched(_) => 'u',
            },
            Call::Make { product, .. } => product.letter(),
        }
    }

    /// Returns the bytes that the call only reads.
    fn handed(&self) -> Vec<&[u8]> {
        match self {
            Call::Create { feature, .. } => vec![&feature[..]],
            Call::Arrive { slice } => vec![slice],
            Call::Ask {
                tables, question, ..
            } => match question {
                Question::State => vec![&tables.permanent],
                Question::Touched(_) => vec![&tables.temporary],
                _ => vec![&tables.permanent, &tables.temporary],
            },
            Call::Make { permanent, .. } => vec![permanent],
        }
    }

    /// Returns the lines that ask this in the vectors, with the buffer as it was before the call.
    fn lines(&self, buffer: &[u8]) -> Vec<String> {
        let table = fill_lines(buffer, 0);
        match self {
            Call::Create { side, feature } => {
                [table, vec![line('f', &feature[..]), line('m', &[*side])]].concat()
            }
            Call::Arrive { slice } => [table, vec![line('b', slice), line('a', &[])]].concat(),
            Call::Ask {
                tables,
                instant,
                question,
            } => {
                let property: &[u8] = match question {
                    Question::Property(number) | Question::Touched(number) => &[*number],
                    _ => &[],
                };
                let value = buffer.first().copied().unwrap_or(0);
                let asking = vec![
                    instant_line(*instant),
                    record_line(buffer.len(), value),
                    line(self.letter(), property),
                ];
                [tables.lines(), asking].concat()
            }
            Call::Make { permanent, .. } => {
                let value = buffer.first().copied().unwrap_or(0);
                let output = output_line(buffer.len(), value);
                let asking = vec![output, line(self.letter(), &[])];
                [fill_lines(permanent, 0), asking].concat()
            }
        }
    }

    /// Makes the call by this program's own rules.
    fn answer(&self, buffer: &mut [u8]) -> Reply {
        match self {
            Call::Create { side, feature } => {
                Reply::of_writing(table::create(buffer, *side, feature))
            }
            Call::Arrive { slice } => Reply::of_arrival(arrival::arrive(buffer, slice)),
            Call::Ask {
                tables,
                instant,
                question,
            } => tables.answer(*instant, *question, buffer),
            Call::Make { permanent, product } => product.answer(permanent, buffer),
        }
    }

    /// Makes the call to a library, with guarded copies of the bytes that it only reads.
    fn put(&self, library: &Library, buffer: &mut [u8], handed: &[Guarded]) -> Reply {
        let handed: Vec<&[u8]> = handed.iter().map(Guarded::bytes).collect();
        match self {
            Call::Create { side, .. } => {
                let feature = handed[0].try_into().expect("a feature is handed");
                (library.new_table)(buffer, *side, feature)
            }
            Call::Arrive { .. } => (library.arrive)(buffer, handed[0]),
            Call::Ask {
                instant, question, ..
            } => match *question {
                Question::State => (library.permanent_state)(handed[0], *instant, buffer),
                Question::Snapshot => (library.snapshot)(handed[0], handed[1], *instant, buffer),
                Question::Property(number) => {
                    (library.property)(handed[0], handed[1], *instant, number)
                }
                Question::Touched(number) => (library.touched)(handed[0], *instant, number),
            },
            Call::Make { product, .. } => match product {
                Product::Derived => (library.derive)(handed[0], buffer),
                Product::Listing => (library.listing)(handed[0], buffer),
            },
        }
    }

    /// Returns what a library replies about a property, if that does not agree with its reply about
    /// whether the property is touched.
    fn other_property(&self, library: &Library, touched: Reply) -> Option<Reply> {
        match self {
            Call::Ask {
                tables:
                    Tables {
                        permanent,
                        temporary,
                    },
                instant,
                question: Question::Touched(number),
            } => {
                let part = (library.property)(permanent, temporary, *instant, *number);
                Some(part).filter(|part| !agree(touched, *part, temporary))
            }
            _ => None,
        }
    }
}

/// Returns whether a reply about what touches a property agrees with one about the property. Where
/// a property is found or unmentioned, it is touched exactly if it is in the temporary table, and
/// then in the last record looked at.
fn agree(touched: Reply, part: Reply, temporary: &[u8]) -> bool {
    match part.kind {
        0 => true,
        2 => {
            let count = temporary.get(6..8).unwrap_or(&[0, 0]);
            let count = 256 * usize::from(count[0]) + usize::from(count[1]);
            let record = count.checked_sub(touched.number as usize);
            let is_in =
                |index| (bytes_of(index)..bytes_of(index + 1)).contains(&(part.at as usize));
            touched.kind == 1 && record.is_some_and(is_in)
        }
        _ => touched.kind == 2,
    }
}

impl Product {
    /// Makes it by this program's own rules.
    fn answer(self, permanent: &[u8], output: &mut [u8]) -> Reply {
        match self {
            Product::Derived => Reply::of_derived(derived::derive(permanent, output)),
            Product::Listing => Reply::of_listing(listing::list(permanent, output)),
        }
    }
}

impl Tables {
    /// Returns the lines that set the two tables in the vectors.
    fn lines(&self) -> Vec<String> {
        let exchange = vec![EXCHANGE.to_string()];
        let (table, other) = (
            fill_lines(&self.permanent, 0),
            fill_lines(&self.temporary, 0),
        );
        [other, exchange, table].concat()
    }

    /// Answers a question by this program's own rules.
    fn answer(&self, instant: u32, asked: Question, record: &mut [u8]) -> Reply {
        let (permanent, temporary) = (&self.permanent[..], &self.temporary[..]);
        match asked {
            Question::State => {
                Reply::of_writing(question::permanent_state(permanent, instant, record))
            }
            Question::Snapshot => {
                Reply::of_writing(question::snapshot(permanent, temporary, instant, record))
            }
            Question::Property(number) => {
                let part = question::property(permanent, temporary, instant, number);
                Reply::of_part(part.map(|part| part.map(|part| (part.side, part.place))))
            }
            Question::Touched(number) => {
                Reply::of_touched(touched::touched(temporary, instant, number))
            }
        }
    }
}

impl Guarded {
    /// Makes a buffer with a copy of some bytes, and this many guard bytes before them.
    fn new(bytes: &[u8], start: usize) -> Guarded {
        let mut whole = vec![GUARD_BYTE; start + bytes.len() + GUARD];
        whole[start..start + bytes.len()].copy_from_slice(bytes);
        let length = bytes.len();
        Guarded {
            whole,
            start,
            length,
        }
    }

    /// Returns the bytes of the buffer.
    fn bytes(&self) -> &[u8] {
        &self.whole[self.start..self.start + self.length]
    }

    /// Returns the bytes of the buffer, for changing them.
    fn bytes_mut(&mut self) -> &mut [u8] {
        &mut self.whole[self.start..self.start + self.length]
    }

    /// Returns the offset, in the buffer or its guards, of the first byte that is not as expected.
    fn first_other(&self, bytes: &[u8]) -> Option<isize> {
        let right = Guarded::new(bytes, self.start);
        if self.whole == right.whole {
            return None;
        }
        let mut offsets = 0..self.whole.len();
        let other = offsets.find(|&offset| self.whole[offset] != right.whole[offset]);
        other.map(|offset| offset as isize - self.start as isize)
    }
}

impl Difference {
    /// Returns whether there is none.
    fn is_none(&self) -> bool {
        let is_right = self.reply == self.right && self.property.is_none();
        is_right && self.buffer.is_none() && self.handed.iter().all(Option::is_none)
    }
}

impl fmt::Display for Difference {
    /// Writes the call as lines of the vectors, both answers, and where the bytes differ.
    fn fmt(&self, out: &mut fmt::Formatter) -> fmt::Result {
        writeln!(out, "{}", self.lines.join("\n"))?;
        writeln!(out, "expected {:?}, got {:?}", self.right, self.reply)?;
        if let Some(byte) = self.buffer {
            writeln!(
                out,
                "table, record or output: byte {byte} is not as expected"
            )?;
        }
        for (index, byte) in self.handed.iter().enumerate() {
            if let Some(byte) = byte {
                writeln!(out, "handed part {index}: byte {byte} is not as expected")?;
            }
        }
        if let Some(property) = self.property {
            writeln!(out, "but about the property itself: {property:?}")?;
        }
        Ok(())
    }
}

#[cfg(test)]
mod tests {
    use super::*;
    use crate::library::{ON_HEAP, PLAIN, WORDS, WORDS_SKIPPING};
    use crate::record::{self, Head, Span, NONE};
    use crate::table::Table;

    /// Returns whether some rounds with a library show no difference.
    fn is_same(library: &Library) -> bool {
        let mut tally = Tally::default();
        (0..6).all(|seed| play(library, seed, &mut tally).is_ok())
    }

    /// Plays some rounds with a library without a difference; returns the count of its answers.
    fn same(library: &Library) -> Tally {
        let mut tally = Tally::default();
        for seed in 100..110 {
            if let Err(difference) = play(library, seed, &mut tally) {
                panic!("{difference}");
            }
        }
        tally
    }

    /// The plain programs give the same replies as the decoded one, and every answer occurs.
    #[test]
    fn the_plain_programs_are_the_same() {
        let tally = same(&PLAIN);
        for other in [ON_HEAP, WORDS, WORDS_SKIPPING] {
            assert_eq!(same(&other), tally);
        }
        assert_eq!(tally.unseen(), []);
    }

    /// A table that is not the expected one is reported, with the first byte that differs.
    #[test]
    fn other_tables_are_found() {
        let mut tally = Tally::default();
        let mut comparison = Comparison::new(&PLAIN, &mut tally);
        assert!(comparison.hold(&[1, 2, 3], &[1, 2, 3]).is_ok());
        let difference = comparison.hold(&[1, 2, 3], &[1, 2, 4]).unwrap_err();
        assert_eq!(difference.buffer, Some(2));
    }

    /// A missing change, a wrong number and a byte too many are each found.
    #[test]
    fn wrong_libraries_are_found() {
        let forgetful = Library {
            arrive: |table, slice| match (PLAIN.arrive)(&mut table.to_vec(), slice) {
                reply @ Reply { kind: 2, .. } => reply,
                _ => (PLAIN.arrive)(table, slice),
            },
            ..PLAIN
        };
        let miscounting = Library {
            arrive: |table, slice| match (PLAIN.arrive)(table, slice) {
                Reply { number: 17, .. } => Reply::new(0, 18),
                reply => reply,
            },
            ..PLAIN
        };
        let untidy = Library {
            new_table: |table, side, feature| {
                table.iter_mut().skip(32).take(1).for_each(|byte| *byte = 0);
                (PLAIN.new_table)(table, side, feature)
            },
            ..PLAIN
        };
        assert!(is_same(&PLAIN) && run(&PLAIN, Limit::Rounds(1), 1));
        assert!(!run(&miscounting, Limit::Seconds(5), 1));
        assert!(![forgetful, miscounting, untidy].iter().any(is_same));
    }

    /// A snapshot of another instant, a part of the other table and a record that is touched are
    /// found.
    #[test]
    fn wrong_answers_about_an_instant_are_found() {
        let untimely = Library {
            snapshot: |permanent, temporary, instant, record| {
                (PLAIN.snapshot)(permanent, temporary, instant.saturating_add(1), record)
            },
            ..PLAIN
        };
        let misplacing = Library {
            property: |permanent, temporary, instant, property| match (PLAIN.property)(
                permanent, temporary, instant, property,
            ) {
                reply @ Reply { kind: 2, .. } => Reply { kind: 1, ..reply },
                reply => reply,
            },
            ..PLAIN
        };
        let meddling = Library {
            permanent_state: |permanent, instant, record| {
                record.iter_mut().skip(224).for_each(|byte| *byte = 0);
                (PLAIN.permanent_state)(permanent, instant, record)
            },
            ..PLAIN
        };
        assert!(![untimely, misplacing, meddling].iter().any(is_same));
    }

    /// The last instant.
    const LAST: record::Instant = record::Instant(NONE - 1);

    /// Returns a table with another end for each BASELINE that counts, by its head and the next
    /// begin of another.
    fn with_ends(table: &[u8], end: fn(&Head, Option<record::Instant>) -> Span) -> Vec<u8> {
        let mut changed = table.to_vec();
        let Ok(mut table) = Table::read(table, Sides::Permanent) else {
            return changed;
        };
        let is_based = |head: &Head| head.kind == 1 && !head.is_cancelled();
        let heads = table.records.values().map(|one| one.head);
        let based: Vec<Head> = heads.filter(is_based).collect();
        let records = table.records.values_mut();
        for head in records
            .map(|one| &mut one.head)
            .filter(|head| is_based(head))
        {
            let begins = based.iter().map(|other| other.period.begin);
            let next = begins.filter(|begin| *begin > head.period.begin).min();
            head.period = end(head, next.flatten());
        }
        table.write(&mut changed);
        changed
    }

    /// An end of none that nothing closes, and a fixed end that something does, are found.
    #[test]
    fn wrong_closes_are_found() {
        let unclosing = Library {
            permanent_state: |permanent, instant, record| {
                let lasting = with_ends(permanent, |head, _| match (head.period, head.life.end) {
                    (Span { begin, end: None }, None) if begin < Some(LAST) => Span {
                        begin,
                        end: Some(LAST),
                    },
                    (period, _) => period,
                });
                let is_last = instant >= LAST.0;
                let table = if is_last { permanent } else { &lasting };
                (PLAIN.permanent_state)(table, instant, record)
            },
            ..PLAIN
        };
        let overclosing = Library {
            permanent_state: |permanent, instant, record| {
                let closed = with_ends(permanent, |head, next| {
                    let Span { begin, end } = head.period;
                    let is_before = next.is_some() && end > next;
                    let end = if is_before { next } else { end };
                    Span { begin, end }
                });
                (PLAIN.permanent_state)(&closed, instant, record)
            },
            ..PLAIN
        };
        let unchanging = Library {
            permanent_state: |permanent, instant, record| {
                let same = with_ends(permanent, |head, _| head.period);
                (PLAIN.permanent_state)(&same, instant, record)
            },
            ..PLAIN
        };
        assert!(is_same(&unchanging));
        assert!(![unclosing, overclosing].iter().any(is_same));
    }

    /// A record too few, a walk that does not stop, an end that is included and a permanent table
    /// that is taken are found.
    #[test]
    fn wrong_answers_about_what_touches_are_found() {
        let short = Library {
            touched: |temporary, instant, property| {
                let reply = (PLAIN.touched)(temporary, instant, property);
                Reply::new(reply.kind, reply.number.saturating_sub(1))
            },
            ..PLAIN
        };
        let tireless = Library {
            touched: |temporary, instant, property| {
                let reply = (PLAIN.touched)(temporary, instant, property);
                match reply.kind {
                    1 => Reply::new(1, temporary[7].into()),
                    _ => reply,
                }
            },
            ..PLAIN
        };
        let lingering = Library {
            touched: |temporary, instant, property| {
                (PLAIN.touched)(temporary, instant.saturating_sub(1), property)
            },
            ..PLAIN
        };
        let lenient = Library {
            touched: |table, instant, property| {
                let mut table = table.to_vec();
                table.iter_mut().skip(3).take(1).for_each(|side| *side = 1);
                (PLAIN.touched)(&table, instant, property)
            },
            ..PLAIN
        };
        assert!(![short, tireless, lingering, lenient].iter().any(is_same));
    }

    /// Where the property is found or unmentioned, yes goes with the temporary table alone, and with
    /// the record of its bytes.
    #[test]
    fn what_touches_agrees_with_the_property() {
        let temporary = [0, 0, 0, 0, 0, 0, 1, 0];
        let part = |kind, at| Reply {
            at,
            size: 24,
            ..Reply::new(kind, 0)
        };
        let holds = |touched, part| agree(touched, part, &temporary);
        let (last, first) = (32 + 255 * 224 + 32, 32 + 32 + 7 * 24);
        assert!(holds(Reply::new(1, 1), part(2, last)));
        assert!(holds(Reply::new(1, 256), part(2, first)));
        assert!(!holds(Reply::new(1, 2), part(2, last)));
        assert!(!holds(Reply::new(1, 257), part(2, first)));
        assert!(!holds(Reply::new(1, 255), part(2, first)));
        assert!(!holds(Reply::new(2, 256), part(2, first)));
        for other in [part(1, last), Reply::new(3, 0)] {
            assert!(holds(Reply::new(2, 256), other));
            assert!(!holds(Reply::new(1, 256), other));
        }
        for number in [8, 20, 21, 22] {
            assert!(holds(Reply::new(1, 256), Reply::new(0, number)));
        }
    }

    /// A record too few, and outputs that are touched where they should not be, are found.
    #[test]
    fn wrong_products_are_found() {
        let miscounting = Library {
            derive: |permanent, output| match (PLAIN.derive)(permanent, output) {
                Reply {
                    kind: 1, number, ..
                } => Reply::new(1, number.saturating_sub(1)),
                reply => reply,
            },
            ..PLAIN
        };
        let hasty = Library {
            derive: |permanent, output| {
                output.iter_mut().take(3).for_each(|byte| *byte = b'T');
                (PLAIN.derive)(permanent, output)
            },
            ..PLAIN
        };
        let careless = Library {
            listing: |permanent, text| {
                let whole = (PLAIN.listing)(permanent, text);
                text.iter_mut().take(1).for_each(|byte| *byte = b'd');
                whole
            },
            ..PLAIN
        };
        assert!(![miscounting, hasty, careless].iter().any(is_same));
    }

    /// A change to a guard byte is found.
    #[test]
    fn guard_bytes_are_held() {
        let mut guarded = Guarded::new(&[1, 2, 3], GUARD);
        assert_eq!(guarded.first_other(&[1, 2, 3]), None);
        guarded.bytes_mut()[1] = 9;
        assert_eq!(guarded.first_other(&[1, 2, 3]), Some(1));
        let mut beside = Guarded::new(&[1, 2, 3], GUARD);
        beside.whole[GUARD + 3] = 0;
        assert_eq!(beside.first_other(&[1, 2, 3]), Some(3));
    }

    /// "ROUNDS|SECONDSs".
    #[test]
    fn limits_are_read() {
        assert_eq!(Limit::of("20"), Some(Limit::Rounds(20)));
        assert_eq!(Limit::of("20s"), Some(Limit::Seconds(20)));
        assert_eq!(Limit::of("s"), None);
        assert_eq!(Limit::of("many"), None);
    }
}
