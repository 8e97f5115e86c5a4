//! Strings that remember where they stood, so that what was read can be found in the file again.
use core::ops::Deref;

/// The string, and the address of its first byte.
#[derive(Debug, Clone)]
pub struct ImmutableString {
    address: usize,
    text: String,
}

impl ImmutableString {
    pub fn as_str(&self) -> &str {
        &self.text
    }

    pub fn address(&self) -> usize {
        self.address
    }
}

impl From<&str> for ImmutableString {
    fn from(text: &str) -> Self {
        Self { address: text.as_ptr() as usize, text: text.into() }
    }
}

impl Deref for ImmutableString {
    type Target = str;

    fn deref(&self) -> &str {
        &self.text
    }
}

/// Shares nothing.
pub struct StringsInterner;

impl StringsInterner {
    pub fn new(_most: usize) -> Self {
        Self
    }

    pub fn get(&mut self, text: &str) -> ImmutableString {
        text.into()
    }
}

/// An operator. Every string is one, where the original has a list of them.
#[derive(Debug, Clone)]
pub struct Token(ImmutableString);

impl Token {
    pub fn lookup_symbol_from_syntax(syntax: &str) -> Option<Self> {
        Some(Self(syntax.into()))
    }

    pub fn is_literal(&self) -> bool {
        true
    }

    pub fn literal_syntax(&self) -> &str {
        &self.0
    }

    pub fn text(&self) -> &ImmutableString {
        &self.0
    }
}

impl PartialEq for Token {
    fn eq(&self, other: &Self) -> bool {
        self.literal_syntax() == other.literal_syntax()
    }
}
