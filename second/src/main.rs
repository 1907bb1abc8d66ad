//! The second program: the property layout, the property rule, the slice check, tables, arrivals,
//! the questions about an instant, derived baselines and their listing, and the vectors that go
//! with them. If the library is linked, this program compares it with its own answers and measures
//! it.
//!
//! It shares no code with the library and uses another method: decoded values, maps, sorting, and
//! states made afresh at each instant. It was written from the specification and, where the
//! specification is silent, from the same decisions (docs/DECISIONS.md). There the two agree by
//! choice, and comparing them does not find a fault in a decision.

mod arrival;
#[cfg(any(test, feature = "linked"))]
mod bench;
#[cfg(any(test, feature = "linked"))]
mod compare;
mod derived;
#[cfg(test)]
mod examples;
mod files;
mod fixtures;
#[cfg(any(test, feature = "fuzz"))]
mod fuzz;
mod histories;
mod layout;
#[cfg(any(test, feature = "linked"))]
mod library;
#[cfg(feature = "linked")]
mod linked;
mod listing;
mod listings;
#[cfg(any(test, feature = "linked"))]
mod plain;
mod play;
mod property;
mod question;
mod random;
mod record;
mod refusal;
mod samples;
mod slice;
mod state;
mod supply;
mod table;
mod tables;
#[cfg(any(test, feature = "linked"))]
mod tally;
mod touched;
mod vectors;

use std::io::Write;
use std::process::ExitCode;

/// The exit code for an unknown command line.
const UNKNOWN: u8 = 2;

/// Returns the text a command line asks for, if it asks for one.
fn text(words: &[&str]) -> Option<String> {
    match words {
        ["vectors"] => Some(vectors::all().listing()),
        ["vectors", "input"] => Some(vectors::all().input()),
        ["vectors", "answers"] => Some(vectors::all().answers()),
        ["vectors", "input", seed] => Some(vectors::random(seed.parse().ok()?).input()),
        ["vectors", "answers", seed] => Some(vectors::random(seed.parse().ok()?).answers()),
        _ => None,
    }
}

/// Writes the files that a command line asks for; returns whether it worked, or nothing for other
/// command lines.
fn files(words: &[&str]) -> Option<bool> {
    let (folder, files) = match words {
        ["listings", folder] => (folder, listings::files()),
        ["samples", folder] => (folder, samples::files()),
        _ => return None,
    };
    let written = files::write(folder, &files);
    if let Err(error) = &written {
        eprintln!("{folder}: {error}");
    }
    Some(written.is_ok())
}

/// Compares or measures the library; returns whether all went well, or nothing for other command
/// lines.
#[cfg(feature = "linked")]
fn with_library(words: &[&str]) -> Option<bool> {
    use compare::Limit;
    let (limit, seed) = match words {
        #[cfg(feature = "fuzz")]
        ["fuzz", words @ ..] => return Some(fuzz::driver::run(words)),
        ["bench"] => return Some(bench::run(&linked::LINKED, 21, "")),
        ["bench", rounds] => return Some(bench::run(&linked::LINKED, rounds.parse().ok()?, "")),
        ["bench", rounds, letters] => {
            return Some(bench::run(&linked::LINKED, rounds.parse().ok()?, letters))
        }
        ["compare"] => (Limit::Rounds(200), 1),
        ["compare", limit] => (Limit::of(limit)?, 1),
        ["compare", limit, seed] => (Limit::of(limit)?, seed.parse().ok()?),
        _ => return None,
    };
    Some(compare::run(&linked::LINKED, limit, seed))
}

/// Says that a command needs the library, which is not linked; returns nothing for other command
/// lines.
#[cfg(not(feature = "linked"))]
fn with_library(words: &[&str]) -> Option<bool> {
    let name = words
        .first()
        .filter(|name| ["compare", "bench"].contains(name))?;
    eprintln!("second {name} needs the library: build with --features linked");
    Some(false)
}

/// Runs the command line; returns 0 for success, 1 for a failure, 2 for an unknown command line.
fn main() -> ExitCode {
    let arguments: Vec<String> = std::env::args().skip(1).collect();
    let words: Vec<&str> = arguments.iter().map(String::as_str).collect();
    let done = match text(&words) {
        Some(text) => Some(std::io::stdout().write_all(text.as_bytes()).is_ok()),
        None => files(&words).or_else(|| with_library(&words)),
    };
    match done {
        Some(true) => ExitCode::SUCCESS,
        Some(false) => ExitCode::FAILURE,
        None => {
            eprintln!(
                "usage: second vectors [input|answers [SEED]] | listings FOLDER | samples FOLDER | compare [ROUNDS|SECONDSs] [SEED] | bench [ROUNDS [LETTERS]]"
            );
            ExitCode::from(UNKNOWN)
        }
    }
}
