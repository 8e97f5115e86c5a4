//! Constants as JSON: an object each, with its kind.
use crate::json::Json;
use crate::shown;
use grain::{Constant, Constants, FnPtrKind};
use std::io;

pub fn items(constants: Constants<'_>, json: &mut Json<'_>) -> io::Result<()> {
    json.array(|json| {
        for item in constants {
            constant(item, json)?;
        }
        Ok(())
    })
}

fn constant(constant: Constant<'_>, json: &mut Json<'_>) -> io::Result<()> {
    json.object(|json| {
        json.key("kind")?.string(kind(&constant))?;
        match constant {
            Constant::Unit => Ok(()),
            Constant::Bool(value) => json.key("value")?.plain(value),
            Constant::Int(value) => json.key("value")?.plain(value),
            Constant::Float(value) => float(value, json),
            Constant::Char(letter) => json.key("value")?.string(letter.encode_utf8(&mut [0; 4])),
            Constant::String(text) => json.key("value")?.string(text),
            Constant::Array(of) => items(of, json.key("items")?),
            Constant::Map(of) => entries(of, json.key("entries")?),
            Constant::Blob(bytes) => json.key("hex")?.string(&shown::hex(bytes)),
            Constant::Range { from, to } | Constant::RangeInclusive { from, to } => {
                json.key("from")?.plain(from)?;
                json.key("to")?.plain(to)
            }
            Constant::FnPtr { name, curried, kind } => {
                json.key("name")?.string(name)?;
                parameters(kind, json.key("parameters")?)?;
                items(curried, json.key("curried")?)
            }
        }
    })
}

fn kind(constant: &Constant<'_>) -> &'static str {
    match constant {
        Constant::Unit => "unit",
        Constant::Bool(_) => "bool",
        Constant::Int(_) => "int",
        Constant::Float(_) => "float",
        Constant::Char(_) => "char",
        Constant::String(_) => "string",
        Constant::Array(_) => "array",
        Constant::Map(_) => "map",
        Constant::Blob(_) => "blob",
        Constant::Range { .. } => "range",
        Constant::RangeInclusive { .. } => "range_inclusive",
        Constant::FnPtr { .. } => "fn_ptr",
    }
}

/// JSON has no infinities and no NaN, so the bits are told always, and the value where it has one.
fn float(value: f64, json: &mut Json<'_>) -> io::Result<()> {
    json.key("bits")?.string(&format!("{:016x}", value.to_bits()))?;
    if value.is_finite() {
        json.key("value")?.plain(format_args!("{value:?}"))
    } else {
        json.key("value")?.null()
    }
}

fn entries(entries: grain::Entries<'_>, json: &mut Json<'_>) -> io::Result<()> {
    json.array(|json| {
        for (key, value) in entries {
            json.object(|json| {
                json.key("key")?.string(key)?;
                constant(value, json.key("value")?)
            })?;
        }
        Ok(())
    })
}

/// The count that a function of the script has; any function of the name has none.
fn parameters(kind: FnPtrKind, json: &mut Json<'_>) -> io::Result<()> {
    match kind {
        FnPtrKind::Normal => json.null(),
        FnPtrKind::Script { parameters } => json.plain(parameters),
    }
}

#[cfg(test)]
mod tests {
    use super::*;

    #[test]
    fn floats_that_json_lacks_keep_their_bits() {
        for (value, wanted) in [
            (f64::NAN, r#"{"bits":"7ff8000000000000","value":null}"#),
            (f64::NEG_INFINITY, r#"{"bits":"fff0000000000000","value":null}"#),
            (-0.0, r#"{"bits":"8000000000000000","value":-0.0}"#),
            (1e300, r#"{"bits":"7e37e43c8800759c","value":1e300}"#),
        ] {
            let mut out = Vec::new();
            Json::new(&mut out).object(|json| float(value, json)).unwrap();
            assert_eq!(String::from_utf8(out).unwrap(), wanted);
        }
    }
}
