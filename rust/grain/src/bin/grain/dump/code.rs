//! The code, and beside each address that has one its place in the source.
use crate::shown::site;
use grain::pos::{self, Entry};
use grain::Artifact;
use std::io::{self, Write};

/// The bytes of a line at most. A line begins at each address that the position table has, too.
const LINE: usize = 16;

pub fn write(artifact: &Artifact<'_>, out: &mut dyn Write) -> io::Result<()> {
    let code = artifact.code();
    let mut entries = pos::entries(artifact.positions()).peekable();
    let mut at = 0;
    while at < code.len() {
        let here = entries.next_if(|entry| entry.address as usize == at);
        let next = entries.peek().map_or(code.len(), |entry| entry.address as usize);
        let end = next.min(at + LINE).min(code.len());
        line(at, &spaced(&code[at..end]), here, out)?;
        at = end;
    }
    for entry in entries {
        line(entry.address as usize, "(behind the code)", Some(entry), out)?;
    }
    Ok(())
}

fn line(address: usize, bytes: &str, entry: Option<Entry>, out: &mut dyn Write) -> io::Result<()> {
    match entry {
        None => writeln!(out, "{address:>10}  {bytes}"),
        Some(entry) => writeln!(out, "{address:>10}  {bytes:<width$}  {}", site(entry.site), width = 3 * LINE - 1),
    }
}

fn spaced(bytes: &[u8]) -> String {
    bytes.iter().map(|byte| format!("{byte:02x}")).collect::<Vec<_>>().join(" ")
}
