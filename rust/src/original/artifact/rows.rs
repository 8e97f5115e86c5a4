//! The rows of the tables, and the words outside them.
use super::constants::Walk;
use crate::original::number;
use rhai_grain::grain::bytecode::{AssignOp, Chain, Chunk, CustomSyntaxSite, Root, Step, Switch, Tail};
use rhai_grain::grain::program::Function;
use rhai_grain::{FnAccess, ImmutableString, Position, Program};

/// Where things stand in the file.
#[derive(Clone, Copy)]
pub struct Spans<'a> {
    pub bytes: &'a [u8],
}

impl Spans<'_> {
    fn place(self, address: usize, size: usize) -> [u64; 2] {
        [(address - self.bytes.as_ptr() as usize) as u64, size as u64]
    }

    pub fn of(self, text: &ImmutableString) -> [u64; 2] {
        self.place(text.address(), text.len())
    }

    fn of_bytes(self, part: &[u8]) -> [u64; 2] {
        self.place(part.as_ptr() as usize, part.len())
    }

    /// What a length at a place says of the bytes behind it.
    fn counted(self, at: u64) -> [u64; 2] {
        let (size, start) = number(self.bytes, at as usize).unwrap();
        [start as u64, size]
    }
}

/// The place of the source name's length, behind the header.
const SOURCE: u64 = 28;

/// The original keeps no position table as it stood, and no empty source name: both are found by their lengths.
pub fn outside(bytes: &[u8], program: &Program) -> [u64; 15] {
    let spans = Spans { bytes };
    let id = program.debug_id();
    let source = program.source().map_or_else(|| spans.counted(SOURCE), |text| spans.of(text));
    let blob = spans.of_bytes(program.names().blob());
    let code = spans.of_bytes(program.code());
    let table = spans.counted(code[0] + code[1]);
    let [entry, end, slots] = chunk(program.main());
    let tops = program.consts().len() as u64;
    [
        u64::from(program.caps().bits()), id as u64, (id >> 64) as u64, source[0], source[1], blob[0], blob[1], code[0],
        code[1], table[0], table[1], entry, end, slots, tops,
    ]
}

pub fn tables(bytes: &[u8], program: &Program) -> [Vec<u64>; 13] {
    let spans = Spans { bytes };
    let names = program.names();
    let [start, size] = spans.of_bytes(names.blob());
    let mut walk = Walk { spans, at: (start + size) as usize, rows: Vec::new() };
    walk.list(program.consts());
    let (chains, switches, sites) = (program.chains(), program.switches(), program.custom_syntax());
    let functions = program.functions();
    [
        names.starts()[1..].iter().map(|&end| u64::from(end)).collect(),
        walk.rows,
        program.tokens().iter().flat_map(|token| spans.of(token.text())).collect(),
        program.assign_ops().iter().flat_map(|op| assign(spans, op)).collect(),
        chains.iter().flat_map(chain).collect(),
        chains.iter().flat_map(|chain| &chain.steps).flat_map(step).collect(),
        switches.iter().flat_map(switch).collect(),
        switches.iter().flat_map(|s| s.cases.iter()).flat_map(|c| c.values()).flat_map(|&(b, k)| [b.into(), k.into()]).collect(),
        switches.iter().flat_map(ranges).collect(),
        sites.iter().flat_map(site).collect(),
        sites.iter().flat_map(|site| &site.inputs).flat_map(input).collect(),
        functions.iter().flat_map(function).collect(),
        functions.iter().flat_map(|f| &f.params).map(|&name| u64::from(name)).collect(),
    ]
}

fn chunk(chunk: &Chunk) -> [u64; 3] {
    [chunk.entry().into(), chunk.end().into(), chunk.max_stack().into()]
}

fn position(at: Position) -> [u64; 2] {
    [at.line().unwrap_or(0) as u64, at.position().unwrap_or(0) as u64]
}

fn assign(spans: Spans, op: &AssignOp) -> [u64; 6] {
    let [a, b] = spans.of(op.op_assign.text());
    let [c, d] = spans.of(op.op.text());
    [a, b, op.op_assign_name.into(), c, d, op.op_name.into()]
}

fn chain(chain: &Chain) -> [u64; 9] {
    let [tag, slot, name, line, column] = match chain.root {
        Root::Local { slot, name } => [1, slot.into(), name.into(), 0, 0],
        Root::Temporary => [2, 0, 0, 0, 0],
        Root::Named { name, pos } => {
            let [line, column] = position(pos);
            [3, 0, name.into(), line, column]
        }
        Root::This { pos } => {
            let [line, column] = position(pos);
            [4, 0, 0, line, column]
        }
    };
    let [tail, op] = match chain.tail {
        Tail::Read => [1, 0],
        Tail::Assign { op: None } => [2, 0],
        Tail::Assign { op: Some(op) } => [3, op.into()],
    };
    [tag, slot, name, line, column, chain.operands.into(), chain.steps.len() as u64, tail, op]
}

fn step(step: &Step) -> [u64; 11] {
    match *step {
        Step::Index { operand, flags, pos, bracket } => {
            let ([line, column], [l, c]) = (position(pos), position(bracket));
            [1, flags.bits().into(), operand.into(), 0, 0, 0, 0, line, column, l, c]
        }
        Step::Property { name, getter, setter, flags, pos } => {
            let [line, column] = position(pos);
            [2, flags.bits().into(), 0, name.into(), getter.into(), setter.into(), 0, line, column, 0, 0]
        }
        Step::Method { name, argc, operand, flags, pos } => {
            let [line, column] = position(pos);
            [3, flags.bits().into(), operand.into(), name.into(), 0, 0, argc.into(), line, column, 0, 0]
        }
    }
}

fn switch(switch: &Switch) -> [u64; 3] {
    let cases = switch.cases.as_ref().map_or(0, |cases| cases.len());
    [cases as u64, switch.ranges.len() as u64, switch.default.into()]
}

fn ranges(switch: &Switch) -> impl Iterator<Item = u64> + '_ {
    switch.ranges.iter().flat_map(|r| [r.from as u64, r.to as u64, r.inclusive.into(), r.target.into()])
}

fn site(site: &CustomSyntaxSite) -> [u64; 3] {
    [site.key.into(), site.state.into(), site.inputs.len() as u64]
}

fn input((at, literal): &(Chunk, Option<u32>)) -> [u64; 5] {
    let [entry, end, slots] = chunk(at);
    [entry, end, slots, literal.is_some().into(), literal.unwrap_or(0).into()]
}

fn function(function: &Function) -> [u64; 7] {
    let access = match function.access {
        FnAccess::Public => 0,
        FnAccess::Private => 1,
    };
    let this_type = function.this_type.map_or(0, |index| u64::from(index) + 1);
    let [entry, end, slots] = chunk(&function.chunk);
    [function.name.into(), access, this_type, function.params.len() as u64, entry, end, slots]
}
