//! Full tables of 256 records.

use super::Script;
use crate::fixtures::brief::{baseline, cancelling, change, mention_only, passing};
use crate::fixtures::Case;
use crate::layout::RECORD_BYTES;
use crate::record::NONE;
use crate::tables::Tables;

/// Adds every full table.
pub fn add(script: &mut Script) {
    lasting_changes(script);
    rows_of_baselines(script);
    cancelled_and_one(script);
}

/// Returns a delta that mentions one property alone, with its sequence number as the value.
fn spread(case: Case, sequence: u32) -> Case {
    mention_only(case, sequence as usize % 8, sequence as u16)
}

/// Makes 256 TEMPDELTAs, each around the next.
fn nested() -> Vec<Case> {
    (1..=256)
        .map(|sequence| {
            let (begin, end) = (1000 + 2 * sequence, 3000 - 3 * sequence);
            spread(passing(sequence, begin, end, 0), sequence)
        })
        .collect()
}

/// Adds a BASELINE and 255 PERMDELTAs, the later ones with the lower sequence numbers.
fn lasting_changes(script: &mut Script) {
    script.title("full tables: one BASELINE and 255 PERMDELTAs, 256 TEMPDELTAs");
    let changes =
        (1..=255).map(|sequence| spread(change(sequence, 2000 - 3 * sequence, 0), sequence));
    let anchor = baseline(1, [1000, NONE, 1000, NONE], 1);
    let cases: Vec<Case> = changes.chain([anchor]).chain(nested()).collect();
    let tables = Tables::of(&cases);
    let early = [999, 1000, 1001, 1234, 1235, 1236, 1237, 1500];
    let late = [1512, 1997, 2231, 2232, 2233, 2997, NONE - 1];
    script.ask_at(&tables, &early, &[0, 1, 2, 3, 4, 5, 6, 7]);
    script.ask_at(&tables, &late, &[0, 1, 2, 3, 4, 5, 6, 7]);
    last_records_broken(script, &tables);
    fewer_passing(script, &tables);
}

/// Adds the same tables with other counts of TEMPDELTAs, where only the first is valid, where all
/// are, and where none is.
fn fewer_passing(script: &mut Script, tables: &Tables) {
    for count in [1u16, 254, 255, 256, 257] {
        let mut tables = tables.clone();
        tables.temporary[6..8].copy_from_slice(&count.to_be_bytes());
        for instant in [1001, 1002, 1512, 2996, 2997] {
            script.ask_properties(&tables, instant, &[0, 1, 7]);
        }
    }
}

/// Adds full tables with the last record of either broken, or of another time.
fn last_records_broken(script: &mut Script, tables: &Tables) {
    for bits in [1, 0x80] {
        for offset in [RECORD_BYTES - 11, RECORD_BYTES - 193] {
            let mut broken = tables.clone();
            let place = broken.permanent.len() - offset;
            broken.permanent[place] ^= bits;
            script.ask_at(&broken, &[1500], &[0]);
            let mut broken = tables.clone();
            broken.temporary[place] ^= bits;
            script.ask_at(&broken, &[1500], &[0]);
        }
    }
}

/// Adds 256 BASELINEs, each up to the next, and one made longer.
fn rows_of_baselines(script: &mut Script) {
    script.title("full tables: 256 BASELINEs in a row");
    let row = |sequence: u32| (10 * sequence, 10 * sequence + 10);
    let mut cases: Vec<Case> = (1..=256)
        .map(|sequence| {
            let (begin, end) = row(sequence);
            baseline(sequence, [begin, end, NONE, NONE], sequence as u16)
        })
        .collect();
    cases.extend(nested());
    let instants = [9, 10, 19, 20, 1289, 1290, 2560, 2569, 2570];
    script.ask_at(&Tables::of(&cases), &instants, &[0, 1]);
    cases[127] = baseline(128, [1280, 1291, NONE, NONE], 128);
    script.ask_at(&Tables::of(&cases), &[1289, 1290, 1291], &[0]);
    cases[255] = baseline(256, [2560, NONE, NONE, 2600], 256);
    script.ask_at(&Tables::of(&cases), &[2569, 2599, 2600], &[0]);
}

/// Adds 255 cancelled records in each table and one that counts: the first, one in the middle, the
/// last.
fn cancelled_and_one(script: &mut Script) {
    script.title("full tables: one counted record among cancelled ones");
    for counted in [1, 128, 256] {
        let mut cases = vec![];
        for sequence in 1..=256 {
            let anchor = baseline(sequence, [100, NONE, NONE, NONE], 1);
            let delta = passing(sequence, 100, 200, 2);
            if sequence == counted {
                cases.extend([anchor, delta]);
            } else {
                cases.extend([cancelling(&anchor, 0), cancelling(&delta, 0)]);
            }
        }
        script.ask_at(&Tables::of(&cases), &[99, 100, 200], &[0, 7]);
    }
}
