//! The asks about an instant.

use super::format::{changes, digits, instant_line, line, record_line, table_lines, value_line};
use super::format::{EXCHANGE, RECORD_BYTES, TABLE_BYTES};
use super::{refused, Script};
use crate::fixtures::Case;
use crate::layout::RECORD_BYTES as WHOLE;
use crate::question::{permanent_state, property, snapshot, Part};
use crate::record::Side;
use crate::refusal::Refusal;
use crate::tables::{Question, Tables};
use crate::touched::{touched, Touched};

/// Returns the word of a written record, or the number of the refusal.
pub fn written(written: Result<(), Refusal>) -> String {
    written.map_or_else(refused, |()| "written".to_string())
}

/// Returns the words of a property question: which table, where, and the bytes.
pub fn found(part: Result<Option<Part>, Refusal>) -> String {
    let place = |part: Part| format!("{} {} {}", part.side, part.place, digits(&part.bytes));
    part.map_or_else(refused, |part| {
        part.map_or("unmentioned".to_string(), place)
    })
}

/// Returns the words of whether a property is touched: yes or no, and how many records were looked
/// at.
pub fn told(touched: Result<Touched, Refusal>) -> String {
    touched.map_or_else(refused, |touched| {
        let word = if touched.is_touched { "yes" } else { "no" };
        format!("{word} {}", touched.looked)
    })
}

impl Script {
    /// Asks a question about two tables at an instant; a state or snapshot goes into the record.
    pub fn ask_question(
        &mut self,
        tables: &Tables,
        instant: u32,
        question: Question,
        record: &[u8],
    ) {
        let mut lines = self.set_tables(&tables.permanent, &tables.temporary);
        lines.extend(self.set_instant(instant));
        let (table, other) = (&self.made.table, &self.made.other);
        let mut after = record.to_vec();
        let (letter, answer) = match question {
            Question::State => ('g', permanent_state(table, instant, &mut after)),
            Question::Snapshot => ('n', snapshot(table, other, instant, &mut after)),
            Question::Property(number) => {
                let answer = found(property(table, other, instant, number));
                return self.ask(lines, line('v', &[number]), answer);
            }
            Question::Touched(number) => {
                let answer = told(touched(other, instant, number));
                return self.ask(lines, line('u', &[number]), answer);
            }
        };
        let answer = written(answer) + &changes(record, &after);
        lines.extend(value_line(
            &self.made.record,
            record,
            RECORD_BYTES,
            record_line,
        ));
        self.made.record = after;
        self.ask(lines, line(letter, &[]), answer);
    }

    /// Asks for the permanent state, the snapshot and some properties at instants, and whether these
    /// are touched; into the last record, or after a title into a new one.
    pub fn ask_at(&mut self, tables: &Tables, instants: &[u32], properties: &[u8]) {
        for &instant in instants {
            for question in [Question::State, Question::Snapshot] {
                let record = self.next_record();
                self.ask_question(tables, instant, question, &record);
            }
            self.ask_properties(tables, instant, properties);
        }
    }

    /// Returns the record that the next state goes into.
    pub fn next_record(&mut self) -> Vec<u8> {
        let is_new = std::mem::take(&mut self.is_begun) || self.made.record.len() != WHOLE;
        match is_new {
            true => vec![0xa5; WHOLE],
            false => self.made.record.clone(),
        }
    }

    /// Asks about the tables of some slices at and next to each of their times.
    pub fn ask_history(&mut self, cases: &[Case], properties: &[u8]) {
        let tables = Tables::of(cases);
        self.ask_at(&tables, &tables.instants(), properties);
    }

    /// Asks for the arrival of a slice at the table of its side, with the other table kept.
    pub fn bring(&mut self, tables: &mut Tables, case: &Case) {
        let Tables {
            permanent,
            temporary,
        } = tables;
        let (own, other) = match Side::of(case.side) {
            Some(Side::Temporary) => (temporary, permanent),
            _ => (permanent, temporary),
        };
        let lines = self.set_tables(own, other);
        self.ask_arrival_after(lines, &case.slice);
        own.clone_from(&self.made.table);
    }

    /// Asks for some properties at an instant, and whether they are touched.
    pub fn ask_properties(&mut self, tables: &Tables, instant: u32, properties: &[u8]) {
        for &number in properties {
            self.ask_question(tables, instant, Question::Property(number), &[]);
            self.ask_question(tables, instant, Question::Touched(number), &[]);
        }
    }

    /// Changes the table and the other one; returns the lines that do so.
    fn set_tables(&mut self, table: &[u8], other: &[u8]) -> Vec<String> {
        assert!(table.len() <= TABLE_BYTES);
        let mut lines = vec![];
        if self.made.other != other {
            lines = self.set_table(other);
            lines.push(EXCHANGE.to_string());
            std::mem::swap(&mut self.made.table, &mut self.made.other);
        }
        lines.extend(table_lines(&self.made.table, &self.made.before, table));
        self.made.table = table.to_vec();
        lines
    }

    /// Changes the instant; returns the line that does so, if one is needed.
    fn set_instant(&mut self, instant: u32) -> Option<String> {
        let line = (self.made.instant != instant).then(|| instant_line(instant));
        self.made.instant = instant;
        line
    }
}
