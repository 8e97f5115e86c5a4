//! What is accepted, written again by both from what each of them read: kept and stripped.
use super::{same, MASK};
use crate::ours::written as ours;
use beside::artifact::Answer;
use beside::inputs::artifacts::limits::CODE;
use beside::inputs::artifacts::{artifact, least_with};
use beside::inputs::bytes::put_padded;
use beside::inputs::Random;
use beside::lent::{self, Model, Way};
use beside::original;
use beside::original::artifact::{read, rewritten};

/// How the original's kept table compares with ours, which stands as it stood in the file.
#[derive(Default)]
pub struct Tables {
    alike: u64,
    /// The file has none, for which the original writes one of no entries.
    none: u64,
    /// It is encoded anew, and entries that no position can hold are dropped.
    anew: u64,
    /// The original does not take it for this program's, and has none to write.
    foreign: u64,
}

impl Tables {
    fn count(&mut self, table: &[u8], theirs: &[u8], has_table: bool) {
        let count = match () {
            _ if table == theirs => &mut self.alike,
            _ if table.is_empty() => &mut self.none,
            _ if has_table => &mut self.anew,
            _ => &mut self.foreign,
        };
        *count += 1;
    }

    pub fn report(&self) {
        let Tables { alike, none, anew, foreign } = self;
        println!("    each that is accepted is written again, kept and stripped: the bytes agree but for the kept position table,");
        println!("    which is alike in {alike}, in {none} absent here and empty there, in {anew} encoded anew there, in {foreign} not its own there");
    }
}

/// Both are written in the room that the file takes, since no number grows.
pub fn tried(bytes: &[u8], mask: u8, answer: &Answer, tables: &mut Tables) {
    let model = Model::of(answer, bytes);
    let written = |strip| {
        let mut out = vec![0xa5; bytes.len()];
        let [number, size, second] = ours::write(model.lent(), Way { mask, strip }, &mut out);
        same("that it is written again", (bytes, mask), [0, 0], [number, second]);
        out.truncate(size as usize);
        out
    };
    let theirs = rewritten(bytes, mask);
    same("the artifact written again, stripped", (bytes, mask), theirs.stripped, written(1));
    let table = model.lent().part(model.lent().span(lent::POSITIONS));
    let expected = if theirs.has_table { anew(&model, table) } else { NO_ENTRIES.to_vec() };
    // All in front of the table is the same, and each has its own table behind.
    let mut ours = written(0);
    let front = ours.len() - counted(table).len();
    same("the table that is kept", (bytes, mask), counted(table), ours.split_off(front));
    ours.extend(counted(&expected));
    same("the artifact written again, kept", (bytes, mask), theirs.kept, ours);
    tables.count(table, &expected, theirs.has_table);
}

/// What the original writes where it has no positions.
const NO_ENTRIES: &[u8] = b"\0";

/// A table of what the original finds at the addresses of the code, where line and column have 16 bits.
fn anew(model: &Model, table: &[u8]) -> Vec<u8> {
    let code = model.heading[lent::CODE + 1] as u32;
    let sites = (0..code).filter_map(|at| original::resolve(table, at).map(|[line, column]| [at, line as u32, column as u32]));
    let held: Vec<[u32; 3]> = sites.filter(|site| site[1] <= 0xffff && site[2] <= 0xffff).collect();
    original::encode(&held).unwrap()
}

pub fn counted(bytes: &[u8]) -> Vec<u8> {
    let mut out = Vec::new();
    put_padded(&mut out, bytes.len() as u64, 0);
    out.extend(bytes);
    out
}

/// Files whose position table is the program's own, with numbers of any form and of any width.
pub fn all() {
    let (count, mut random, mut tables) = (20_000, Random::new(22), Tables::default());
    for seed in 0..count {
        let bytes = with_own_table(seed, &mut random);
        let answer = read(&bytes, MASK);
        same("that it is accepted", &bytes, 0, answer.words[0]);
        tried(&bytes, MASK, &answer, &mut tables);
    }
    println!("artifacts with a position table of their own, written again: {count} inputs agree");
    tables.report();
    if tables.alike == 0 || tables.anew == 0 || tables.foreign > 0 {
        println!("the artifacts do not reach every kind of table");
        std::process::exit(1);
    }
}

/// One in two is the least artifact otherwise.
fn with_own_table(seed: u64, random: &mut Random) -> Vec<u8> {
    let code = 1 + random.below(9) as usize;
    let section = counted(&vec![0x02; code]);
    let table = own_table(code, random);
    if seed % 2 == 0 {
        let mut file = least_with(CODE, &section);
        file.pop();
        return [file, counted(&table)].concat();
    }
    let file = artifact(seed, None).0;
    let at = read(&file, MASK).words[lent::CODE] as usize - 1;
    [&file[..at], &section, &counted(&table)].concat()
}

/// An entry for some of the instructions, which have a byte each.
fn own_table(code: usize, random: &mut Random) -> Vec<u8> {
    let addresses: Vec<u64> = (0..code as u64).filter(|_| random.below(2) == 0).collect();
    let pads = random.below(2) * 3;
    let put = |out: &mut Vec<u8>, value, random: &mut Random| put_padded(out, value, (random.below(4) * pads / 6) as usize);
    let (mut out, mut before) = (Vec::new(), 0);
    put(&mut out, addresses.len() as u64, random);
    for address in addresses {
        put(&mut out, address - before, random);
        before = address;
        let most = if random.below(8) == 0 { 18 } else { 16 };
        let (line, column) = (random.width(most).max(1), random.width(most));
        put(&mut out, line, random);
        put(&mut out, column, random);
    }
    out
}
