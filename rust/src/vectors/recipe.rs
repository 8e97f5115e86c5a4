//! The lines of tables.txt, which make what is lent; vectors/tables.py says what each does.
use super::bytes;
use beside::lent::{Model, Way};

pub struct Case<'a> {
    pub name: &'a str,
    pub model: Model,
    pub ways: Vec<(Way, usize)>,
}

/// The cases, in order. A base is a case too, which is written in no way.
pub fn cases(text: &str) -> impl Iterator<Item = Case<'_>> {
    let blocks = text.split_inclusive('\n').fold(Vec::<Vec<&str>>::new(), |mut blocks, line| {
        match line.starts_with(['#', '=']) {
            true => blocks.push(vec![line]),
            false => blocks.last_mut().unwrap().push(line),
        }
        blocks
    });
    let mut bases: Vec<(&str, Model)> = Vec::new();
    blocks.into_iter().filter_map(move |block| {
        let case = made(&block, &bases);
        if block[0].starts_with('=') {
            bases.push((case.name, case.model));
            return None;
        }
        Some(case)
    })
}

fn made<'a>(block: &[&'a str], bases: &[(&str, Model)]) -> Case<'a> {
    let mut case = Case { name: block[0][2..].trim_end(), model: Model::empty(), ways: Vec::new() };
    for line in &block[1..] {
        match line.trim_end().split_once(' ').unwrap() {
            ("from", name) => case.model = bases.iter().find(|base| base.0 == name).unwrap().1.clone(),
            ("x", digits) => case.model.text.extend(bytes(digits)),
            (verb, numbers) => {
                let numbers: Vec<u64> = numbers.split(' ').map(|number| number.parse().unwrap()).collect();
                edit(&mut case, verb, &numbers);
            }
        }
    }
    case
}

fn edit(case: &mut Case, verb: &str, numbers: &[u64]) {
    let Model { heading, tables, text } = &mut case.model;
    let [first, second] = [0, 1].map(|k| numbers.get(k).map_or(0, |&number| number as usize));
    match verb {
        "h" => heading[first] = numbers[1],
        "t" => tables[first - 1][second] = numbers[2],
        "n" => tables[first - 1].resize(second, 0),
        "r" => tables[first - 1].extend(numbers[2..].repeat(second)),
        "f" => text.resize(text.len() + first, second as u8),
        "c" => text.truncate(first),
        "w" => case.ways.push((Way { mask: first as u8, strip: second as u8 }, numbers[2] as usize)),
        other => panic!("tables.txt has no line {other}"),
    }
}
