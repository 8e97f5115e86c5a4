//! The records from their rows.
//!
//! Numbers of a row are narrowed to the width that the format gives them, which the reader has tested; and where a tag is
//! told apart the last arm has no test, since the reader has refused every other tag.

use super::{
    Access, Assign, Case, Chain, Chunk, ConstantIndex, Function, Input, NameIndex, OperatorIndex, Position, Range,
    Root, Site, Step, Switch, Tail,
};
use crate::rows::{text, words, Row, Source};
use crate::StepFlags;

impl Chunk {
    pub(crate) fn of(entry: u64, end: u64, slots: u64) -> Chunk {
        Chunk { entry: entry as u32, end: end as u32, slots: slots as u16 }
    }
}

fn name(word: u64) -> NameIndex {
    NameIndex(word as u32)
}

/// Line 0 means that there is none.
fn placed(line: u64, column: u64) -> Option<Position> {
    (line != 0).then_some(Position { line: line as u16, column: column as u16 })
}

impl<'a> Row<'a> for NameIndex {
    const WORDS: usize = 1;

    fn of(row: &[u64], _: &mut Source<'a>) -> Self {
        let [index] = words(row);
        name(index)
    }
}

impl<'a> Row<'a> for &'a str {
    const WORDS: usize = 2;

    fn of(row: &[u64], source: &mut Source<'a>) -> Self {
        let [start, length] = words(row);
        text(source.bytes, start, length)
    }
}

impl<'a> Row<'a> for Assign<'a> {
    const WORDS: usize = 6;

    fn of(row: &[u64], source: &mut Source<'a>) -> Self {
        let [start, length, op_assign_name, op_start, op_length, op_name] = words(row);
        Assign {
            op_assign: text(source.bytes, start, length),
            op_assign_name: name(op_assign_name),
            op: text(source.bytes, op_start, op_length),
            op_name: name(op_name),
        }
    }
}

impl<'a> Row<'a> for Chain<'a> {
    const WORDS: usize = 9;

    fn of(row: &[u64], source: &mut Source<'a>) -> Self {
        let [root, slot, named, line, column, operands, steps, tail, op] = words(row);
        let root = match root {
            1 => Root::Local { slot: slot as u16, name: name(named) },
            2 => Root::Temporary,
            3 => Root::Named { name: name(named), position: placed(line, column) },
            _ => Root::This { position: placed(line, column) },
        };
        let tail = match tail {
            1 => Tail::Read,
            2 => Tail::Assign,
            _ => Tail::AssignOp { op: OperatorIndex(op as u32) },
        };
        Chain { root, operands: operands as u16, steps: source.share(0, steps), tail }
    }
}

impl<'a> Row<'a> for Step {
    const WORDS: usize = 11;

    fn of(row: &[u64], _: &mut Source<'a>) -> Self {
        let [tag, flags, operand, named, getter, setter, argc, line, column, bracket_line, bracket_column] = words(row);
        let flags = StepFlags(flags as u8);
        let operand = operand as u16;
        let position = placed(line, column);
        match tag {
            1 => Step::Index { flags, operand, position, bracket: placed(bracket_line, bracket_column) },
            2 => Step::Property { flags, name: name(named), getter: name(getter), setter: name(setter), position },
            _ => Step::Method { flags, name: name(named), argc: argc as u8, operand, position },
        }
    }
}

impl<'a> Row<'a> for Switch<'a> {
    const WORDS: usize = 3;

    fn of(row: &[u64], source: &mut Source<'a>) -> Self {
        let [cases, ranges, default] = words(row);
        Switch { cases: source.share(0, cases), ranges: source.share(1, ranges), default: default as u32 }
    }
}

impl<'a> Row<'a> for Case {
    const WORDS: usize = 2;

    fn of(row: &[u64], _: &mut Source<'a>) -> Self {
        let [blocks, constant] = words(row);
        Case { blocks: blocks as u32, constant: ConstantIndex(constant as u32) }
    }
}

impl<'a> Row<'a> for Range {
    const WORDS: usize = 4;

    fn of(row: &[u64], _: &mut Source<'a>) -> Self {
        let [from, to, inclusive, target] = words(row);
        Range { from: from as i64, to: to as i64, inclusive: inclusive != 0, target: target as u32 }
    }
}

impl<'a> Row<'a> for Site<'a> {
    const WORDS: usize = 3;

    fn of(row: &[u64], source: &mut Source<'a>) -> Self {
        let [key, state, inputs] = words(row);
        Site { key: name(key), state: ConstantIndex(state as u32), inputs: source.share(0, inputs) }
    }
}

impl<'a> Row<'a> for Input {
    const WORDS: usize = 5;

    fn of(row: &[u64], _: &mut Source<'a>) -> Self {
        let [entry, end, slots, present, literal] = words(row);
        let literal = (present != 0).then_some(ConstantIndex(literal as u32));
        Input { chunk: Chunk::of(entry, end, slots), literal }
    }
}

impl<'a> Row<'a> for Function<'a> {
    const WORDS: usize = 7;

    fn of(row: &[u64], source: &mut Source<'a>) -> Self {
        let [named, access, this_type, parameters, entry, end, slots] = words(row);
        Function {
            name: name(named),
            access: if access == 0 { Access::Public } else { Access::Private },
            // One higher than the index, and 0 means none.
            this_type: this_type.checked_sub(1).map(name),
            parameters: source.share(0, parameters),
            chunk: Chunk::of(entry, end, slots),
        }
    }
}
