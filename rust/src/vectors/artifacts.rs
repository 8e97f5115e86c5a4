//! The artifacts, read by the proved reader, and its answers in the words of answers.txt.
use super::{bytes, fail};
use crate::ours::artifact as ours;
use beside::inputs::case::Case;
use std::fmt::Write;

pub fn all(cases: &str, answers: &str) {
    let answers: Vec<&str> = answers.split("# ").skip(1).collect();
    let cases = named(cases);
    assert_eq!(cases.len(), answers.len(), "as many cases as answers");
    for ((name, case), answer) in cases.iter().zip(&answers) {
        let ours = format!("{name}\n{}", answered(case));
        if ours != *answer {
            fail(name, answer, &ours);
        }
    }
    println!("{} artifacts of vectors/cases.txt: the proved reader answers each as vectors/answers.txt has it", cases.len());
}

/// The names of the cases, and their bytes.
pub fn named(cases: &str) -> Vec<(&str, Vec<u8>)> {
    let named = |(name, digits): (_, &str)| (name, bytes(digits.trim_end()));
    cases.split("# ").skip(1).map(|case| named(case.split_once('\n').unwrap())).collect()
}

/// The words, and a line for each table, which holds something else before.
fn answered(bytes: &[u8]) -> String {
    let case = Case::of(bytes).unwrap();
    let mut tables = case.lengths.map(|length| vec![0xa5a5_a5a5; length]);
    let words = ours::read(case.artifact, case.mask, tables.each_mut().map(|table| &mut table[..]));
    let (told, zeros) = words.split_at(if words[0] == 0 { 31 } else { 3 });
    assert!(zeros.iter().all(|&word| word == 0), "the words that are not told are zero");
    let told: Vec<String> = told.iter().map(u64::to_string).collect();
    let lines: String = tables.iter().map(|table| shown(table)).collect();
    told.join(" ") + "\n" + &lines
}

/// A table's words, with a run of zeros as 0*n.
fn shown(table: &[u64]) -> String {
    let mut line = String::from("|");
    for run in table.chunk_by(|a, b| *a == 0 && *b == 0) {
        match run {
            [0, ..] => write!(line, " 0*{}", run.len()).unwrap(),
            [word, ..] => write!(line, " {word}").unwrap(),
            [] => unreachable!("a run has a word"),
        }
    }
    line + "\n"
}
