//! An artifact with its indices looked up.
use crate::shown;
use grain::records::{Assign, ConstantIndex, NameIndex, OperatorIndex};
use grain::{Artifact, Constant};

pub struct View<'a> {
    pub artifact: Artifact<'a>,
    /// Looked up once: doing it anew would take too long where many records name one.
    constants: Vec<Constant<'a>>,
    assigns: Vec<Assign<'a>>,
}

impl<'a> View<'a> {
    pub fn new(artifact: Artifact<'a>) -> View<'a> {
        View { artifact, constants: artifact.constants().collect(), assigns: artifact.assigns().collect() }
    }

    pub fn name(&self, index: NameIndex) -> String {
        self.artifact.name(index).map_or_else(|| format!("name {} (not there)", index.0), shown::short)
    }

    /// The token of an operator that assigns.
    pub fn token(&self, index: OperatorIndex) -> Option<&'a str> {
        self.assigns.get(index.0 as usize).map(|assign| assign.op_assign)
    }

    pub fn operator(&self, index: OperatorIndex) -> String {
        let token = self.token(index);
        token.map_or_else(|| format!("operator {} (not there)", index.0), |token| shown::short(token.as_bytes()))
    }

    pub fn constant(&self, index: ConstantIndex) -> String {
        match self.constants.get(index.0 as usize) {
            Some(constant) => format!("constant {}, {}", index.0, brief(constant)),
            None => format!("constant {} (not there)", index.0),
        }
    }
}

/// A constant in a few words, without its items.
pub fn brief(constant: &Constant<'_>) -> String {
    match constant {
        Constant::String(text) => shown::short(text.as_bytes()),
        Constant::Blob(bytes) => format!("blob of {} bytes", bytes.len()),
        Constant::FnPtr { name, .. } => format!("function pointer {}", shown::short(name.as_bytes())),
        other => whole(other),
    }
}

/// A constant in words, without its items.
pub fn whole(constant: &Constant<'_>) -> String {
    match constant {
        Constant::Unit => "()".to_string(),
        Constant::Bool(value) => value.to_string(),
        Constant::Int(value) => value.to_string(),
        Constant::Float(value) => format!("float {value:?}"),
        Constant::Char(letter) => format!("{letter:?}"),
        Constant::String(text) => format!("{text:?}"),
        Constant::Array(items) => format!("array of {}", items.len()),
        Constant::Map(entries) => format!("map of {}", entries.len()),
        Constant::Blob(bytes) => format!("blob {}", shown::hex(bytes)),
        Constant::Range { from, to } => format!("range {from}..{to}"),
        Constant::RangeInclusive { from, to } => format!("range {from}..={to}"),
        Constant::FnPtr { name, curried, kind } => {
            let parameters = match kind {
                grain::FnPtrKind::Normal => String::new(),
                grain::FnPtrKind::Script { parameters } => format!(" of the script, parameters {parameters}"),
            };
            format!("function pointer {name:?}{parameters}, curried {}", curried.len())
        }
    }
}
