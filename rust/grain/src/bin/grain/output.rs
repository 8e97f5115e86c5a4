//! Standard output.
use crate::status::Failure;
use std::io::{self, BufWriter, IsTerminal, Write};

/// Lines show at once on a terminal, and are gathered elsewhere.
pub fn open() -> Box<dyn Write> {
    let out = io::stdout();
    if out.is_terminal() {
        Box::new(out)
    } else {
        Box::new(BufWriter::new(out))
    }
}

/// Whether bytes that are no text may be written there: not where a reader sits.
pub fn takes_bytes() -> Result<(), Failure> {
    if io::stdout().is_terminal() {
        return Err(Failure::usage("bytes are not written to a terminal: send them to a file"));
    }
    Ok(())
}

/// Bytes that are no text.
pub fn bytes(bytes: &[u8], out: &mut dyn Write) -> Result<(), Failure> {
    takes_bytes()?;
    out.write_all(bytes)?;
    Ok(())
}
