//! Tables that no file gives: answer, both values, and the whole output.
use super::recipe::{cases, Case};
use super::{digest, fail, hex};
use crate::ours::written::write;
use beside::lent::{Model, Way};

/// Longer bytes are told by their digest.
const SHOWN: usize = 400;

/// What the output holds before.
const BEFORE: u8 = 0xa5;

pub fn all(tables: &str, written: &str) {
    let answers: Vec<&str> = written.split("# ").skip(1).collect();
    let mut shown = Vec::new();
    let (mut count, mut ways) = (0, 0);
    for case in cases(tables) {
        let ours = answered(&case, &mut shown);
        let theirs = answers.get(count).copied().unwrap_or("nothing more");
        if ours != theirs {
            fail(case.name, theirs, &ours);
        }
        count += 1;
        ways += case.ways.len();
    }
    assert_eq!(count, answers.len(), "as many cases as answers");
    println!("{count} cases of vectors/tables.txt in {ways} ways: the proved writer answers each as vectors/written.txt has it");
}

fn answered(case: &Case, shown: &mut Vec<Vec<u8>>) -> String {
    let before = case.model.clone();
    let lines: Vec<String> = case.ways.iter().map(|&(way, room)| line(&case.model, way, room, shown)).collect();
    assert!(before == case.model, "what is lent to read stays as it was");
    format!("{}\n{}\n", case.name, lines.join("\n"))
}

/// What is behind the written bytes, and all of the output on a refusal, must be as it was.
fn line(model: &Model, way: Way, room: usize, shown: &mut Vec<Vec<u8>>) -> String {
    let mut out = vec![BEFORE; room];
    let [number, first, second] = write(model.lent(), way, &mut out);
    let told = format!("{number} {first} {second}");
    let (bytes, behind) = out.split_at(if number == 0 { first as usize } else { 0 });
    if !behind.iter().all(|&b| b == BEFORE) {
        return format!("{told}, and bytes are touched that must stay");
    }
    if number > 0 {
        return told;
    }
    if bytes.len() > SHOWN {
        return format!("{told} @{}", digest(bytes));
    }
    if let Some(k) = shown.iter().position(|earlier| earlier == bytes) {
        return format!("{told} ={}", k + 1);
    }
    shown.push(bytes.to_vec());
    format!("{told} {}", hex(bytes))
}
