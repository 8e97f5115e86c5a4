//! The records of an artifact. Names and fields follow the Rust original; where that has a `Vec`, a record has an iterator
//! over rows of another table.
//!
//! Indices are kept as they stand in the file, and only a case's constant has been held to its table: look the others up
//! with [`Artifact::name`](crate::Artifact::name), [`constant`](crate::Artifact::constant) and
//! [`assign`](crate::Artifact::assign), which answer `None` where there is none.

mod rows;

use crate::rows::Rows;
use crate::StepFlags;

/// An index into the names.
#[derive(Clone, Copy, Debug, PartialEq, Eq)]
pub struct NameIndex(
    /// The index.
    pub u32,
);

/// An index into the top constants.
#[derive(Clone, Copy, Debug, PartialEq, Eq)]
pub struct ConstantIndex(
    /// The index.
    pub u32,
);

/// An index into the operators that assign.
#[derive(Clone, Copy, Debug, PartialEq, Eq)]
pub struct OperatorIndex(
    /// The index.
    pub u32,
);

/// A place in the source.
#[derive(Clone, Copy, Debug, PartialEq, Eq)]
pub struct Position {
    /// The line, from 1.
    pub line: u16,
    /// The column, from 1; 0 is the start of the line.
    pub column: u16,
}

/// A run of code, and the slots that it needs.
#[derive(Clone, Copy, Debug, Default, PartialEq, Eq)]
pub struct Chunk {
    /// The address of its first instruction.
    pub entry: u32,
    /// The address behind its last one.
    pub end: u32,
    /// The slots.
    pub slots: u16,
}

/// An operator that assigns, such as `+=`, with the operator that it applies.
#[derive(Clone, Copy, Debug, PartialEq, Eq)]
pub struct Assign<'a> {
    /// Its token.
    pub op_assign: &'a str,
    /// Its name.
    pub op_assign_name: NameIndex,
    /// The token of the operator that it applies.
    pub op: &'a str,
    /// That one's name.
    pub op_name: NameIndex,
}

/// Where a chain starts.
#[derive(Clone, Copy, Debug, PartialEq, Eq)]
pub enum Root {
    /// A local variable.
    Local {
        /// Its slot.
        slot: u16,
        /// Its name.
        name: NameIndex,
    },
    /// A value from the operand stack.
    Temporary,
    /// A variable that is looked up by its name.
    Named {
        /// The name.
        name: NameIndex,
        /// Where it stands in the source.
        position: Option<Position>,
    },
    /// The receiver.
    This {
        /// Where it stands in the source.
        position: Option<Position>,
    },
}

/// A step of a chain.
#[derive(Clone, Copy, Debug, PartialEq, Eq)]
pub enum Step {
    /// `[i]`
    Index {
        /// Its flags.
        flags: StepFlags,
        /// Where the index is on the operand stack.
        operand: u16,
        /// Where the index stands in the source.
        position: Option<Position>,
        /// Where the `[` stands in the source.
        bracket: Option<Position>,
    },
    /// `.name`
    Property {
        /// Its flags.
        flags: StepFlags,
        /// Its name.
        name: NameIndex,
        /// The name of what reads it.
        getter: NameIndex,
        /// The name of what writes it.
        setter: NameIndex,
        /// Where it stands in the source.
        position: Option<Position>,
    },
    /// `.name(..)`
    Method {
        /// Its flags.
        flags: StepFlags,
        /// Its name.
        name: NameIndex,
        /// How many arguments it has.
        argc: u8,
        /// Where the first one is on the operand stack.
        operand: u16,
        /// Where it stands in the source.
        position: Option<Position>,
    },
}

/// What a chain does at its end.
#[derive(Clone, Copy, Debug, PartialEq, Eq)]
pub enum Tail {
    /// Reads the value.
    Read,
    /// Assigns to it.
    Assign,
    /// Assigns to it through an operator.
    AssignOp {
        /// The operator.
        op: OperatorIndex,
    },
}

/// A chain such as `a.b[i].c()`.
#[derive(Clone, Debug)]
pub struct Chain<'a> {
    /// Where it starts.
    pub root: Root,
    /// The operands that its steps take from the stack.
    pub operands: u16,
    /// Its steps.
    pub steps: Rows<'a, Step>,
    /// What it does at its end.
    pub tail: Tail,
}

/// A case of a switch: one value.
#[derive(Clone, Copy, Debug, PartialEq, Eq)]
pub struct Case {
    /// Where it goes.
    pub blocks: u32,
    /// The value; there is such a constant.
    pub constant: ConstantIndex,
}

/// A range of a switch.
#[derive(Clone, Copy, Debug, PartialEq, Eq)]
pub struct Range {
    /// The first number.
    pub from: i64,
    /// The last number, or the one behind it.
    pub to: i64,
    /// Whether `to` is the last number.
    pub inclusive: bool,
    /// Where it goes.
    pub target: u32,
}

/// A switch.
#[derive(Clone, Debug)]
pub struct Switch<'a> {
    /// Its cases.
    pub cases: Rows<'a, Case>,
    /// Its ranges.
    pub ranges: Rows<'a, Range>,
    /// Where it goes otherwise.
    pub default: u32,
}

/// An input of custom syntax.
#[derive(Clone, Copy, Debug, PartialEq, Eq)]
pub struct Input {
    /// Its code.
    pub chunk: Chunk,
    /// Its value, where that is a literal.
    pub literal: Option<ConstantIndex>,
}

/// A site of custom syntax.
#[derive(Clone, Debug)]
pub struct Site<'a> {
    /// The name of the syntax.
    pub key: NameIndex,
    /// Its state.
    pub state: ConstantIndex,
    /// Its inputs.
    pub inputs: Rows<'a, Input>,
}

/// Who may call a function.
#[derive(Clone, Copy, Debug, PartialEq, Eq)]
pub enum Access {
    /// Everyone.
    Public,
    /// The script itself.
    Private,
}

/// A function.
#[derive(Clone, Debug)]
pub struct Function<'a> {
    /// Its name.
    pub name: NameIndex,
    /// Who may call it.
    pub access: Access,
    /// The type of its receiver, where it has a typed one.
    pub this_type: Option<NameIndex>,
    /// The names of its parameters.
    pub parameters: Rows<'a, NameIndex>,
    /// Its code.
    pub chunk: Chunk,
}

impl Step {
    /// Its flags.
    pub fn flags(&self) -> StepFlags {
        match *self {
            Step::Index { flags, .. } | Step::Property { flags, .. } | Step::Method { flags, .. } => flags,
        }
    }
}
