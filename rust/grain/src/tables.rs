//! What the caller lends: thirteen tables of words, and the step flags that he knows.

/// One of the thirteen tables, by document 01's numbers.
#[derive(Clone, Copy, Debug, PartialEq, Eq)]
pub enum Table {
    /// 1: where each name ends.
    Names = 1,
    /// 2: each constant of each tree, a parent just before its items.
    Constants,
    /// 3: operator tokens.
    Tokens,
    /// 4: operators that assign.
    Assigns,
    /// 5: chains.
    Chains,
    /// 6: the steps of all chains.
    Steps,
    /// 7: switches.
    Switches,
    /// 8: the cases of all switches.
    Cases,
    /// 9: the ranges of all switches.
    Ranges,
    /// 10: sites of custom syntax.
    Customs,
    /// 11: the inputs of all sites.
    Inputs,
    /// 12: functions.
    Functions,
    /// 13: the parameters of all functions.
    Parameters,
}

impl Table {
    /// All thirteen, in their order.
    pub const ALL: [Table; 13] = [
        Table::Names,
        Table::Constants,
        Table::Tokens,
        Table::Assigns,
        Table::Chains,
        Table::Steps,
        Table::Switches,
        Table::Cases,
        Table::Ranges,
        Table::Customs,
        Table::Inputs,
        Table::Functions,
        Table::Parameters,
    ];

    /// The words of one row.
    pub const fn words(self) -> usize {
        match self {
            Table::Names | Table::Parameters => 1,
            Table::Tokens | Table::Cases => 2,
            Table::Switches | Table::Customs => 3,
            Table::Ranges => 4,
            Table::Inputs => 5,
            Table::Assigns => 6,
            Table::Functions => 7,
            Table::Constants => 8,
            Table::Chains => 9,
            Table::Steps => 11,
        }
    }

    /// Its number in document 01: 1 to 13.
    pub const fn number(self) -> u8 {
        self as u8
    }

    /// What its rows are, in a word.
    pub const fn name(self) -> &'static str {
        match self {
            Table::Names => "names",
            Table::Constants => "constants",
            Table::Tokens => "tokens",
            Table::Assigns => "assigns",
            Table::Chains => "chains",
            Table::Steps => "steps",
            Table::Switches => "switches",
            Table::Cases => "cases",
            Table::Ranges => "ranges",
            Table::Customs => "custom sites",
            Table::Inputs => "inputs",
            Table::Functions => "functions",
            Table::Parameters => "parameters",
        }
    }

    /// Its place in an array of all thirteen.
    pub(crate) const fn at(self) -> usize {
        self as usize - 1
    }

    /// The table of a number. The reader names only tables that there are.
    pub(crate) fn numbered(number: u64) -> Table {
        let at = (number as usize).saturating_sub(1);
        *Table::ALL.get(at).unwrap_or(&Table::Parameters)
    }
}

/// The words that are lent to a read. A table has as many places as whole rows fit ([`Table::words`]).
///
/// [`Tables::default`] lends nothing; a table that is too small is told by [`Refusal::Full`](crate::Refusal::Full).
///
/// ```
/// use grain::{read, Refusal, StepFlags, Table, Tables};
///
/// // The least artifact, with one constant in it: true.
/// let mut bytes = [0; 44];
/// bytes[..8].copy_from_slice(b"RGRN\x0b\x00\x08\x08");
/// bytes[31..33].copy_from_slice(&[1, 2]);
///
/// let mut tables = Tables::default();
/// let refused = read(&bytes, StepFlags::SKIP_IF_UNIT, &mut tables).unwrap_err();
/// assert_eq!(refused, Refusal::Full { table: Table::Constants });
///
/// let mut constants = [0; 4 * Table::Constants.words()];
/// tables.constants = &mut constants;
/// assert!(read(&bytes, StepFlags::SKIP_IF_UNIT, &mut tables).is_ok());
/// ```
#[derive(Debug, Default)]
pub struct Tables<'a> {
    /// Table 1, 1 word a row.
    pub names: &'a mut [u64],
    /// Table 2, 8 words a row.
    pub constants: &'a mut [u64],
    /// Table 3, 2 words a row.
    pub tokens: &'a mut [u64],
    /// Table 4, 6 words a row.
    pub assigns: &'a mut [u64],
    /// Table 5, 9 words a row.
    pub chains: &'a mut [u64],
    /// Table 6, 11 words a row.
    pub steps: &'a mut [u64],
    /// Table 7, 3 words a row.
    pub switches: &'a mut [u64],
    /// Table 8, 2 words a row.
    pub cases: &'a mut [u64],
    /// Table 9, 4 words a row.
    pub ranges: &'a mut [u64],
    /// Table 10, 3 words a row.
    pub customs: &'a mut [u64],
    /// Table 11, 5 words a row.
    pub inputs: &'a mut [u64],
    /// Table 12, 7 words a row.
    pub functions: &'a mut [u64],
    /// Table 13, 1 word a row.
    pub parameters: &'a mut [u64],
}

impl Tables<'_> {
    /// The words of all thirteen, in their order, to be read.
    pub(crate) fn shared(&self) -> [&[u64]; 13] {
        [
            self.names,
            self.constants,
            self.tokens,
            self.assigns,
            self.chains,
            self.steps,
            self.switches,
            self.cases,
            self.ranges,
            self.customs,
            self.inputs,
            self.functions,
            self.parameters,
        ]
    }
}

/// The flags of a chain's step; also the mask of those that the caller knows.
#[derive(Clone, Copy, Debug, Default, PartialEq, Eq)]
pub struct StepFlags(
    /// The eight bits.
    pub u8,
);

impl StepFlags {
    /// The step is left out where its receiver is `()`. The only flag that version 11 has, and so the usual mask.
    pub const SKIP_IF_UNIT: StepFlags = StepFlags(1);

    /// Whether all of these flags are set.
    ///
    /// ```
    /// use grain::StepFlags;
    /// assert!(StepFlags(3).contains(StepFlags::SKIP_IF_UNIT));
    /// assert!(!StepFlags(2).contains(StepFlags::SKIP_IF_UNIT));
    /// ```
    pub const fn contains(self, flags: StepFlags) -> bool {
        self.0 & flags.0 == flags.0
    }
}
