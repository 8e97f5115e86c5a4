//! What the inputs reach: every refusal with its reasons, and every tag.
use super::rewritten::Tables;
use beside::artifact::{Answer, WIDTHS};
use beside::refusals::*;
use std::collections::{BTreeMap, BTreeSet};

/// The tables whose rows begin with a tag, and the tags; the tail's stands further behind.
const TAGS: [(usize, usize, &[u64]); 4] = [
    (2, 0, &[0x00, 0x01, 0x02, 0x03, 0x04, 0x05, 0x06, 0x07, 0x08, 0x09, 0x0a, 0x0b, 0x0d]),
    (5, 0, &[1, 2, 3, 4]),
    (5, 7, &[1, 2, 3]),
    (6, 0, &[1, 2, 3]),
];

/// The refusals that have reasons, and how many.
const REASONS: [(u64, u64); 3] = [(UNKNOWN_TAG, 5), (NAMES, 3), (POSITIONS, 4)];

const PLAIN: [u64; 9] =
    [TRUNCATED, BAD_MAGIC, UNSUPPORTED_VERSION, ABI, MALFORMED, BAD_UTF8, CONSTANT_TOO_DEEP, BAD_INDEX, TRAILING_BYTES];

#[derive(Default)]
pub struct Met {
    pub inputs: u64,
    pub accepted: u64,
    refused: BTreeMap<(u64, u64), u64>,
    tags: [BTreeSet<u64>; 4],
    pub tables: Tables,
}

impl Met {
    pub fn add(&mut self, answer: &Answer) {
        self.inputs += 1;
        let [number, first, _] = answer.row();
        if number > 0 {
            let reason = if REASONS.iter().any(|&(n, _)| n == number) { first } else { 0 };
            *self.refused.entry((number, reason)).or_default() += 1;
            return;
        }
        self.accepted += 1;
        for (tags, (table, word, _)) in self.tags.iter_mut().zip(TAGS) {
            let rows = answer.tables[table - 1].chunks(WIDTHS[table - 1]);
            tags.extend(rows.map(|row| row[word]));
        }
    }

    /// Whatever is not reached is said, and ends the run.
    pub fn must_reach_all(&self) {
        let reasons = REASONS.iter().flat_map(|&(number, most)| (1..=most).map(move |reason| (number, reason)));
        for refusal in PLAIN.iter().map(|&number| (number, 0)).chain(reasons) {
            if !self.refused.contains_key(&refusal) {
                println!("the artifacts do not reach refusal {refusal:?}");
                std::process::exit(1);
            }
        }
        for (met, (table, _, tags)) in self.tags.iter().zip(TAGS) {
            if !met.iter().eq(tags) {
                println!("the artifacts reach tags {met:x?} of table {table}");
                std::process::exit(1);
            }
        }
    }

    /// The inputs since there were so many, and so many accepted.
    pub fn report(&self, what: &str, (inputs, accepted): (u64, u64)) {
        println!("{what}: {} inputs agree, {} of them accepted", self.inputs - inputs, self.accepted - accepted);
    }

    /// How often each refusal was met.
    pub fn report_refusals(&self) {
        let all: Vec<String> = self
            .refused
            .iter()
            .map(|((number, reason), n)| if *reason > 0 { format!("{number}.{reason}: {n}") } else { format!("{number}: {n}") })
            .collect();
        println!("    refusals by number and reason: {}", all.join(", "));
        self.tables.report();
    }
}
