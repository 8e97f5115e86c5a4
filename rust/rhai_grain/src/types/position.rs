//! A line and a column of 16 bits; 0 and 0 is none.

#[derive(Debug, Clone, Copy, PartialEq, Eq)]
pub struct Position {
    line: u16,
    column: u16,
}

impl Position {
    pub const NONE: Self = Self { line: 0, column: 0 };

    pub fn new(line: u16, column: u16) -> Self {
        assert!(line != 0, "line cannot be zero");
        Self { line, column }
    }

    pub fn is_none(self) -> bool {
        self == Self::NONE
    }

    pub fn line(self) -> Option<usize> {
        (self.line != 0).then_some(self.line.into())
    }

    pub fn position(self) -> Option<usize> {
        (self.column != 0).then_some(self.column.into())
    }
}

impl core::fmt::Display for Position {
    fn fmt(&self, f: &mut core::fmt::Formatter<'_>) -> core::fmt::Result {
        write!(f, "{}:{}", self.line, self.column)
    }
}
