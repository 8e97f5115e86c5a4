//! The cases and answers of `vectors/`; `vectors/artifacts.py` says how they are written.
use std::path::Path;
use std::{fs, str};

pub struct Case {
    pub name: String,
    pub mask: u8,
    pub lengths: Vec<usize>,
    pub artifact: Vec<u8>,
    pub answer: Vec<u64>,
    pub tables: Vec<Vec<u64>>,
}

/// The lines of an answer: its name, its words, and one for each table.
const ANSWER_LINES: usize = 15;

pub fn cases() -> Vec<Case> {
    let (given, answered) = (lines("cases.txt"), lines("answers.txt"));
    assert_eq!(given.len() / 2, answered.len() / ANSWER_LINES);
    given.chunks(2).zip(answered.chunks(ANSWER_LINES)).map(|(given, answered)| case(given, answered)).collect()
}

fn lines(file: &str) -> Vec<String> {
    let path = Path::new(env!("CARGO_MANIFEST_DIR")).join("../../vectors").join(file);
    let text = fs::read_to_string(&path).unwrap_or_else(|why| panic!("{}: {why}", path.display()));
    text.lines().map(str::to_string).collect()
}

fn case(given: &[String], answered: &[String]) -> Case {
    assert_eq!(given[0], answered[0], "a case and its answer have one name");
    let bytes = from_hex(&given[1]);
    let (head, artifact) = bytes.split_at(27);
    Case {
        name: given[0].trim_start_matches("# ").to_string(),
        mask: head[0],
        lengths: head[1..].chunks(2).map(|two| usize::from(two[0]) + 256 * usize::from(two[1])).collect(),
        artifact: artifact.to_vec(),
        answer: words(&answered[1]),
        tables: answered[2..].iter().map(|line| words(line.trim_start_matches('|'))).collect(),
    }
}

pub fn from_hex(line: &str) -> Vec<u8> {
    let digits = line.as_bytes().chunks(2).map(|two| str::from_utf8(two).unwrap());
    digits.map(|two| u8::from_str_radix(two, 16).unwrap()).collect()
}

/// Words, with `0*n` for a run of zeros.
fn words(line: &str) -> Vec<u64> {
    let mut words = Vec::new();
    for word in line.split_whitespace() {
        match word.strip_prefix("0*") {
            Some(count) => words.resize(words.len() + count.parse::<usize>().unwrap(), 0),
            None => words.push(word.parse().unwrap()),
        }
    }
    words
}
