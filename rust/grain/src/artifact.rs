//! An artifact that was accepted: what stands outside of the tables, and the tables' rows as records.

use crate::records::{Assign, Chain, Chunk, ConstantIndex, Function, NameIndex, OperatorIndex, Site, Switch};
use crate::rows::{Row, Rows, Source};
use crate::{Constant, Constants, Heading, Model, StepFlags, Table};

/// An artifact that was accepted. It borrows the bytes, and the tables that were lent to read them.
#[derive(Clone, Copy, Debug)]
pub struct Artifact<'a> {
    bytes: &'a [u8],
    mask: StepFlags,
    heading: Heading,
    tables: [&'a [u64]; 13],
}

impl<'a> Artifact<'a> {
    /// What the reader answered where it accepted. The tables are cut to the rows that are used.
    pub(crate) fn new(bytes: &'a [u8], mask: StepFlags, heading: Heading, lent: [&'a [u64]; 13]) -> Self {
        let mut tables = lent;
        for table in Table::ALL {
            let used = heading.rows[table.at()] * table.words();
            tables[table.at()] = lent[table.at()].get(..used).unwrap_or_default();
        }
        Artifact { bytes, mask, heading, tables }
    }

    /// All of it as the words that it is kept in, to be changed and written.
    pub fn model(&self) -> Model<'a> {
        Model { heading: self.heading, tables: self.tables, text: self.bytes, mask: self.mask }
    }

    /// The bytes that were read.
    pub fn bytes(&self) -> &'a [u8] {
        self.bytes
    }

    /// The rows of a table as they are kept, in words.
    pub fn table(&self, table: Table) -> &'a [u64] {
        self.tables[table.at()]
    }

    /// The capabilities that the script asks for, as bits.
    pub fn caps(&self) -> u32 {
        self.heading.caps
    }

    /// What names the diagnostics that were compiled with it.
    pub fn debug_id(&self) -> u128 {
        self.heading.debug_id
    }

    /// The name of the source, where it has one.
    pub fn source(&self) -> Option<&'a str> {
        let name = self.heading.source.text(self.bytes);
        (!name.is_empty()).then_some(name)
    }

    /// The text of all names.
    pub fn blob(&self) -> &'a str {
        self.heading.blob.text(self.bytes)
    }

    /// The names, in their order.
    pub fn names(&self) -> Names<'a> {
        Names { artifact: *self, next: 0 }
    }

    /// A name. It is bytes: the format wants the text of all names to be UTF-8, and an end may cut a letter.
    pub fn name(&self, index: NameIndex) -> Option<&'a [u8]> {
        let ends = self.table(Table::Names);
        let end = *ends.get(index.0 as usize)?;
        let start = match index.0 {
            0 => 0,
            after => *ends.get(after as usize - 1)?,
        };
        // Not by way of `blob`, which tests all of the text.
        self.heading.blob.bytes(self.bytes).get(start as usize..end as usize)
    }

    /// The top constants.
    pub fn constants(&self) -> Constants<'a> {
        Constants::new(self.bytes, self.table(Table::Constants), self.heading.top_constants as u64)
    }

    /// A top constant. It walks those before it: where many are looked up, collect [`Artifact::constants`].
    pub fn constant(&self, index: ConstantIndex) -> Option<Constant<'a>> {
        self.constants().nth(index.0 as usize)
    }

    /// The operator tokens.
    pub fn tokens(&self) -> Rows<'a, &'a str> {
        self.rows(Table::Tokens, [&[], &[]])
    }

    /// The operators that assign.
    pub fn assigns(&self) -> Rows<'a, Assign<'a>> {
        self.rows(Table::Assigns, [&[], &[]])
    }

    /// An operator that assigns.
    pub fn assign(&self, index: OperatorIndex) -> Option<Assign<'a>> {
        let row = self.table(Table::Assigns).chunks_exact(Assign::WORDS).nth(index.0 as usize)?;
        Some(Assign::of(row, &mut Source { bytes: self.bytes, items: [&[], &[]] }))
    }

    /// The chains.
    pub fn chains(&self) -> Rows<'a, Chain<'a>> {
        self.rows(Table::Chains, [self.table(Table::Steps), &[]])
    }

    /// The switches.
    pub fn switches(&self) -> Rows<'a, Switch<'a>> {
        self.rows(Table::Switches, [self.table(Table::Cases), self.table(Table::Ranges)])
    }

    /// The sites of custom syntax.
    pub fn customs(&self) -> Rows<'a, Site<'a>> {
        self.rows(Table::Customs, [self.table(Table::Inputs), &[]])
    }

    /// The chunk that runs first.
    pub fn main(&self) -> Chunk {
        self.heading.main
    }

    /// The functions.
    pub fn functions(&self) -> Rows<'a, Function<'a>> {
        self.rows(Table::Functions, [self.table(Table::Parameters), &[]])
    }

    /// The code. The reader takes it as it stands.
    pub fn code(&self) -> &'a [u8] {
        self.heading.code.bytes(self.bytes)
    }

    /// The position table, for [`pos`](crate::pos); empty where the artifact was stripped.
    pub fn positions(&self) -> &'a [u8] {
        self.heading.positions.bytes(self.bytes)
    }

    fn rows<R: Row<'a>>(&self, table: Table, items: [&'a [u64]; 2]) -> Rows<'a, R> {
        Rows::new(self.table(table), Source { bytes: self.bytes, items })
    }
}

/// The names of an artifact.
#[derive(Clone, Debug)]
pub struct Names<'a> {
    artifact: Artifact<'a>,
    next: u32,
}

impl<'a> Iterator for Names<'a> {
    type Item = &'a [u8];

    fn next(&mut self) -> Option<&'a [u8]> {
        let name = self.artifact.name(NameIndex(self.next))?;
        self.next += 1;
        Some(name)
    }

    fn size_hint(&self) -> (usize, Option<usize>) {
        let left = self.artifact.table(Table::Names).len() - self.next as usize;
        (left, Some(left))
    }
}

impl ExactSizeIterator for Names<'_> {}
