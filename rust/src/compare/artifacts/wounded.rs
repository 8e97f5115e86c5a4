//! Tables damaged at random, which only a plain reading of document 01 can judge: the original has no such tables.
use super::{same, MASK};
use crate::ours::written as ours;
use beside::inputs::artifacts::artifact;
use beside::inputs::models::wound;
use beside::inputs::Random;
use beside::lent::{Model, Way, CODE};
use beside::original::artifact::read;
use beside::reference;
use beside::refusals::{Row, BAD_MODEL, LONGEST, NO_ROOM};

/// How often each rule was the lowest broken one; the first is none.
#[derive(Default)]
struct Reached([u64; 12]);

impl Reached {
    fn add(&mut self, [number, first, _]: Row) {
        self.0[if number == BAD_MODEL { first as usize } else { 0 }] += 1;
    }
}

pub fn all() {
    let mut random = Random::new(23);
    let (count, mut reached) = (200_000, Reached::default());
    for seed in 0..count {
        let bytes = artifact(seed % 20_000, None).0;
        let mut model = Model::of(&read(&bytes, MASK), &bytes);
        (0..seed % 4).for_each(|_| wound(&mut model, &mut random));
        let mask = [MASK, MASK, 0xff, random.next() as u8][random.below(4) as usize];
        reached.add(tried(&model, Way { mask, strip: [0, 0, 1, 0xff][random.below(4) as usize] }));
    }
    limits(&mut reached);
    let inputs: u64 = reached.0.iter().sum();
    println!("tables damaged up to three times, or about as long as may be, beside a plain reading: {inputs} inputs agree in all rooms");
    println!("    {} of them written; by the lowest broken rule: {:?}", reached.0[0], &reached.0[1..]);
    if reached.0.contains(&0) {
        println!("the tables do not reach every rule");
        std::process::exit(1);
    }
}

/// In ample room; and where it is written, in exact room, one byte short and none.
fn tried(model: &Model, way: Way) -> Row {
    let row = in_room(model, way, model.text.len() + 1_000);
    let size = row[1] as usize;
    if row[0] == 0 || row[0] == NO_ROOM {
        for room in [size, size - 1, 0] {
            in_room(model, way, room);
        }
    }
    row
}

/// The answer, and every byte of the output, which holds something else before.
pub fn in_room(model: &Model, way: Way, room: usize) -> Row {
    let before: Vec<u8> = (0..room).map(|k| (k as u8).wrapping_mul(0x65) ^ 0xa5).collect();
    let mut outs = [before.clone(), before];
    let expected = reference::write(model.lent(), way, &mut outs[0]);
    let row = ours::write(model.lent(), way, &mut outs[1]);
    same("the answer to tables", (model, way, room), expected, row);
    same("the output of tables", (model, way, room), &outs[0], &outs[1]);
    row
}

/// Filled up with code until the length, in the way asked, is about the longest.
fn limits(reached: &mut Reached) {
    for seed in 0..20 {
        let bytes = artifact(seed, None).0;
        let model = Model::of(&read(&bytes, MASK), &bytes);
        for strip in [0, 1] {
            let way = Way { mask: MASK, strip };
            let around = in_room(&model, way, bytes.len())[1] - model.heading[CODE + 1] - 1;
            for length in [LONGEST - 1, LONGEST, LONGEST + 1] {
                reached.add(tried(&filled(&model, length - around as usize - 3), way));
            }
        }
    }
}

/// With so much code, whose length takes three bytes.
fn filled(model: &Model, code: usize) -> Model {
    let mut model = model.clone();
    model.heading[CODE] = model.text.len() as u64;
    model.heading[CODE + 1] = code as u64;
    model.text.resize(model.text.len() + code, 0x47);
    model
}
