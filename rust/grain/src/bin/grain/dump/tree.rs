//! Constants as a tree of lines.
use super::view::whole;
use grain::{Constant, Constants};
use std::io::{self, Write};

/// Each constant on a line, and its items on lines further in.
pub fn items(constants: Constants<'_>, depth: usize, out: &mut dyn Write) -> io::Result<()> {
    for (index, constant) in constants.enumerate() {
        line(&index.to_string(), &constant, depth, out)?;
    }
    Ok(())
}

fn line(label: &str, constant: &Constant<'_>, depth: usize, out: &mut dyn Write) -> io::Result<()> {
    writeln!(out, "{:indent$}{label}: {}", "", whole(constant), indent = 2 * depth)?;
    match constant {
        Constant::Array(of) => items(of.clone(), depth + 1, out),
        Constant::FnPtr { curried, .. } => items(curried.clone(), depth + 1, out),
        Constant::Map(entries) => {
            entries.clone().try_for_each(|(key, value)| line(&format!("{key:?}"), &value, depth + 1, out))
        }
        _ => Ok(()),
    }
}
