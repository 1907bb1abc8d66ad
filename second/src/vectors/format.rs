//! The lines of the input stream, and the changed bytes of an answer.

use std::ops::Range;

/// The longest buffer the format allows.
pub const BUFFER_BYTES: usize = 512;

/// The longest feature the format allows.
pub const FEATURE_BYTES: usize = 64;

/// The longest table the format allows.
pub const TABLE_BYTES: usize = 65_536;

/// The longest record the format allows.
pub const RECORD_BYTES: usize = 512;

/// The longest output the format allows.
pub const OUTPUT_BYTES: usize = 65_536;

/// The line that exchanges the table with the other one.
pub const EXCHANGE: &str = "x";

/// Returns the pairs of hex digits of some bytes.
pub fn digits(bytes: &[u8]) -> String {
    bytes.iter().map(|byte| format!("{byte:02x}")).collect()
}

/// Returns the line with a command letter and its bytes.
pub fn line(letter: char, bytes: &[u8]) -> String {
    format!("{letter}{}", digits(bytes))
}

/// Returns the shortest line that turns one buffer into another, if they differ.
pub fn buffer_line(old: &[u8], new: &[u8]) -> Option<String> {
    if old == new {
        return None;
    }
    let whole = line('b', new);
    let patch = patch_line(old, new).filter(|patch| patch.len() < whole.len());
    Some(patch.unwrap_or(whole))
}

/// Returns the line that sets each byte in which two buffers differ, if the format allows it.
fn patch_line(old: &[u8], new: &[u8]) -> Option<String> {
    if old.len() != new.len() {
        return None;
    }
    let pairs = (0..new.len())
        .filter(|&offset| old[offset] != new[offset])
        .map(|offset| {
            let offset_byte = u8::try_from(offset).ok()?;
            Some([offset_byte, new[offset]])
        });
    Some(line('p', &pairs.collect::<Option<Vec<_>>>()?.concat()))
}

/// Returns the runs in which two buffers of one length differ, joined over this many equal bytes.
fn runs(old: &[u8], new: &[u8], joined: usize) -> Vec<Range<usize>> {
    let mut runs: Vec<Range<usize>> = vec![];
    for offset in (0..new.len()).filter(|&offset| old[offset] != new[offset]) {
        match runs.last_mut() {
            Some(run) if offset <= run.end + joined => run.end = offset + 1,
            _ => runs.push(offset..offset + 1),
        }
    }
    runs
}

/// Returns what a call changed: each run of changed bytes, with its offset.
pub fn changes(old: &[u8], new: &[u8]) -> String {
    runs(old, new, 0)
        .into_iter()
        .map(|run| format!(" {}:{}", run.start, digits(&new[run.clone()])))
        .collect()
}

/// Returns a number below 2^24 as three bytes.
fn three(number: usize) -> [u8; 3] {
    let [.., a, b, c] = number.to_be_bytes();
    [a, b, c]
}

/// Returns the lines that turn one table into another of the same length.
fn write_lines(old: &[u8], new: &[u8]) -> Vec<String> {
    runs(old, new, 3)
        .into_iter()
        .map(|run| line('w', &[&three(run.start), &new[run]].concat()))
        .collect()
}

/// Returns the lines that make a table from nothing, filled with a byte first.
pub fn fill_lines(new: &[u8], fill: u8) -> Vec<String> {
    let [a, b, c] = three(new.len());
    let filled = vec![fill; new.len()];
    [vec![line('t', &[a, b, c, fill])], write_lines(&filled, new)].concat()
}

/// Returns the line that makes a record of one value.
pub fn record_line(length: usize, value: u8) -> String {
    let [_, a, b] = three(length);
    line('l', &[a, b, value])
}

/// Returns the line that makes an output of one value.
pub fn output_line(length: usize, value: u8) -> String {
    let [a, b, c] = three(length);
    line('o', &[a, b, c, value])
}

/// Returns the line that turns bytes into others of one value, if they differ; there must be at
/// most this many.
pub fn value_line(
    old: &[u8],
    new: &[u8],
    most: usize,
    line: fn(usize, u8) -> String,
) -> Option<String> {
    if old == new {
        return None;
    }
    let value = new.first().copied().unwrap_or(0);
    assert!(new.len() <= most && new.iter().all(|byte| *byte == value));
    Some(line(new.len(), value))
}

/// Returns the line that names an instant.
pub fn instant_line(instant: u32) -> String {
    line('i', &instant.to_be_bytes())
}

/// Returns how many bytes some lines have.
fn size(lines: &[String]) -> usize {
    lines.iter().map(|line| line.len() + 1).sum()
}

/// Returns the shortest lines that turn a table into another; they may use the table before the
/// last ask.
pub fn table_lines(table: &[u8], before: &[u8], new: &[u8]) -> Vec<String> {
    let mut ways = vec![];
    if table.len() == new.len() {
        ways.push(write_lines(table, new));
    }
    if before.len() == new.len() {
        ways.push([vec!["z".to_string()], write_lines(before, new)].concat());
    }
    if ways.iter().all(|way| size(way) > 40) {
        let last = new.last().copied().unwrap_or(0);
        ways.extend([0, last].map(|fill| fill_lines(new, fill)));
    }
    ways.into_iter()
        .min_by_key(|way| size(way))
        .expect("there is always a way")
}

/// Returns the shortest lines that turn a table into another; they may also exchange it with the
/// other one.
pub fn either_lines(table: &[u8], other: &[u8], before: &[u8], new: &[u8]) -> Vec<String> {
    let stay = table_lines(table, before, new);
    if other.is_empty() || other.len() != new.len() {
        return stay;
    }
    let exchange = [vec![EXCHANGE.to_string()], write_lines(other, new)].concat();
    if size(&exchange) < size(&stay) {
        exchange
    } else {
        stay
    }
}

#[cfg(test)]
mod tests {
    use super::*;

    /// The shorter of the two lines, or none if nothing changed.
    #[test]
    fn lines_are_written_as_the_format_says() {
        assert_eq!(buffer_line(&[1, 2], &[1, 2]), None);
        assert_eq!(buffer_line(&[], &[1, 171]).unwrap(), "b01ab");
        assert_eq!(buffer_line(&[1], &[]).unwrap(), "b");
        assert_eq!(buffer_line(&[0; 4], &[0, 0, 9, 0]).unwrap(), "p0209");
        assert_eq!(buffer_line(&[0; 2], &[9, 0]).unwrap(), "b0900");
        let mut far = [0; 300];
        far[256] = 1;
        assert!(buffer_line(&[0; 300], &far).unwrap().starts_with('b'));
    }

    /// Nothing if nothing changed; a part, the table before, or a new one.
    #[test]
    fn tables_are_changed_by_the_shortest_lines() {
        let nothing: [&str; 0] = [];
        assert_eq!(table_lines(&[1; 4], &[], &[1; 4]), nothing);
        assert_eq!(table_lines(&[0; 300], &[], &[5; 300]), ["t00012c05"]);
        let mut table = [0; 300];
        table[256..259].copy_from_slice(&[1, 0, 2]);
        assert_eq!(table_lines(&[0; 300], &[], &table), ["w000100010002"]);
        assert_eq!(table_lines(&table, &[0; 300], &[0; 300]), ["z"]);
        assert_eq!(
            table_lines(&[7; 300], &[0; 300], &table),
            ["z", "w000100010002"]
        );
        assert_eq!(table_lines(&[7; 9], &[1], &[]), ["t00000000"]);
    }

    /// The other table is used if that is shorter, and there is one.
    #[test]
    fn tables_are_exchanged_where_that_is_shorter() {
        let (zeros, mut new) = ([0; 300], [7; 300]);
        new[5] = 1;
        assert_eq!(
            either_lines(&zeros, &[7; 300], &[], &new),
            ["x", "w00000501"]
        );
        assert_eq!(
            either_lines(&new, &[7; 300], &[], &new),
            table_lines(&new, &[], &new)
        );
        assert_eq!(either_lines(&zeros, &[], &[1], &[]), ["t00000000"]);
    }

    /// Two bytes and a value; three bytes and a value; four bytes.
    #[test]
    fn records_outputs_and_instants_are_written_as_the_format_says() {
        assert_eq!(record_line(224, 165), "l00e0a5");
        assert_eq!(record_line(512, 0), "l020000");
        assert_eq!(output_line(65_536, 165), "o010000a5");
        assert_eq!(instant_line(258), "i00000102");
    }

    /// A run ends where a byte did not change.
    #[test]
    fn changes_are_told_run_by_run() {
        assert_eq!(changes(&[1, 2, 3], &[1, 2, 3]), "");
        assert_eq!(changes(&[0; 5], &[9, 10, 0, 0, 255]), " 0:090a 4:ff");
    }
}
