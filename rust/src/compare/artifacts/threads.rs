//! Reads and writes from several threads at once, each with tables of its own: they must answer as one alone.
use super::wounded::in_room;
use super::{ample, in_places, MASK};
use beside::inputs::artifacts::artifact;
use beside::inputs::bytes::damage;
use beside::inputs::Random;
use beside::lent::{Model, Way};
use beside::reference;
use std::sync::Barrier;
use std::thread;

const THREADS: usize = 4;
const FILES: u64 = 5_000;

/// All read the same bytes, in another order each.
pub fn all() {
    let mut random = Random::new(21);
    let files: Vec<Vec<u8>> = (0..FILES)
        .map(|seed| {
            let mut bytes = artifact(seed, None).0;
            (0..seed % 3).for_each(|_| damage(&mut bytes, &mut random));
            bytes
        })
        .collect();
    let start = Barrier::new(THREADS);
    thread::scope(|scope| {
        for k in 0..THREADS {
            let (files, start) = (&files, &start);
            scope.spawn(move || one(files, k * files.len() / THREADS, start));
        }
    });
    println!("artifacts read, and written again, by {THREADS} threads at once: {} inputs agree", THREADS * files.len());
}

fn one(files: &[Vec<u8>], first: usize, start: &Barrier) {
    start.wait();
    for bytes in files[first..].iter().chain(&files[..first]) {
        let places = ample(bytes);
        let expected = reference::read(bytes, MASK, places);
        in_places(bytes, MASK, places, &expected);
        if expected.words[0] == 0 {
            in_room(&Model::of(&expected, bytes), Way { mask: MASK, strip: 0 }, bytes.len());
        }
    }
}
