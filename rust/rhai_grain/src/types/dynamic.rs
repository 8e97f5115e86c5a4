//! Values that a file can hold.
use super::fn_ptr::FnPtrType;
use super::text::ImmutableString;
use core::any::Any;
use core::ops::{Range, RangeInclusive};

pub type INT = i64;
pub type FLOAT = f64;
pub type Array = Vec<Dynamic>;
pub type Blob = Vec<u8>;

/// Keeps every entry, in file order, where the original keeps the last of those that have the same key.
#[derive(Debug, Clone, Default)]
pub struct Map(Vec<(ImmutableString, Dynamic)>);

impl Map {
    pub fn new() -> Self {
        Self::default()
    }

    pub fn insert(&mut self, key: ImmutableString, value: Dynamic) {
        self.0.push((key, value));
    }

    pub fn len(&self) -> usize {
        self.0.len()
    }

    pub fn iter(&self) -> core::slice::Iter<'_, (ImmutableString, Dynamic)> {
        self.0.iter()
    }
}

/// A closure's environment: no artifact holds one.
#[derive(Debug, Clone)]
pub enum Environment {}

#[derive(Debug, Clone)]
pub struct FnPtr {
    pub name: ImmutableString,
    pub curry: Vec<Dynamic>,
    pub env: Option<Environment>,
    pub typ: FnPtrType,
}

impl FnPtr {
    pub fn fn_name(&self) -> &str {
        &self.name
    }

    pub fn curry(&self) -> &[Dynamic] {
        &self.curry
    }

    pub fn iter_curry(&self) -> core::slice::Iter<'_, Dynamic> {
        self.curry.iter()
    }
}

#[derive(Debug, Clone)]
pub enum Dynamic {
    Unit,
    Bool(bool),
    Int(INT),
    Float(FLOAT),
    Char(char),
    Str(ImmutableString),
    Array(Array),
    Map(Map),
    Blob(Blob),
    Range(Range<INT>),
    RangeInclusive(RangeInclusive<INT>),
    FnPtr(FnPtr),
}

impl Dynamic {
    pub const UNIT: Self = Self::Unit;

    pub fn from_int(value: INT) -> Self {
        Self::Int(value)
    }

    pub fn from_float(value: FLOAT) -> Self {
        Self::Float(value)
    }

    fn held(&self) -> &dyn Any {
        match self {
            Self::Unit => &(),
            Self::Bool(x) => x,
            Self::Int(x) => x,
            Self::Float(x) => x,
            Self::Char(x) => x,
            Self::Str(x) => x,
            Self::Array(x) => x,
            Self::Map(x) => x,
            Self::Blob(x) => x,
            Self::Range(x) => x,
            Self::RangeInclusive(x) => x,
            Self::FnPtr(x) => x,
        }
    }

    pub fn read_lock<T: 'static>(&self) -> Option<&T> {
        self.held().downcast_ref()
    }

    fn copied<T: Copy + 'static>(&self) -> Result<T, &'static str> {
        self.read_lock().copied().ok_or(self.type_name())
    }

    pub fn as_bool(&self) -> Result<bool, &'static str> {
        self.copied()
    }

    pub fn as_int(&self) -> Result<INT, &'static str> {
        self.copied()
    }

    pub fn as_float(&self) -> Result<FLOAT, &'static str> {
        self.copied()
    }

    pub fn as_char(&self) -> Result<char, &'static str> {
        self.copied()
    }

    pub fn is_unit(&self) -> bool {
        matches!(self, Self::Unit)
    }

    pub fn is_string(&self) -> bool {
        matches!(self, Self::Str(_))
    }

    pub fn is_array(&self) -> bool {
        matches!(self, Self::Array(_))
    }

    pub fn is_map(&self) -> bool {
        matches!(self, Self::Map(_))
    }

    pub fn is_blob(&self) -> bool {
        matches!(self, Self::Blob(_))
    }

    pub fn type_name(&self) -> &'static str {
        "a value of the stand-in"
    }
}

macro_rules! holds {
    ($($T:ty: $Kind:ident,)*) => {
        $(impl From<$T> for Dynamic {
            fn from(value: $T) -> Self {
                Self::$Kind(value)
            }
        })*
    };
}

holds! {
    bool: Bool,
    char: Char,
    ImmutableString: Str,
    Array: Array,
    Map: Map,
    Blob: Blob,
    Range<INT>: Range,
    RangeInclusive<INT>: RangeInclusive,
    FnPtr: FnPtr,
}
