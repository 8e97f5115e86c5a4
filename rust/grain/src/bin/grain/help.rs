//! What `--help` says.
use crate::status::{Failure, Status};
use std::ffi::OsString;
use std::io::Write;

const ALL: &str = "\
usage: grain COMMAND [WORD..]

Looks at Rhai Grain artifacts, and writes them anew, through functions that are proved.

  check FILE..              accepted or refused, a line a file
  dump FILE                 every section, readable, or as JSON
  positions FILE            the entries of the position table
  resolve TABLE ADDRESS..   the places in the source of addresses
  debug-id TABLE CHAINS     what names a position table and chain bytes
  rewrite FILE -o OUT       writes an artifact anew, numbers in their shortest form
  strip FILE -o OUT         the same without positions; --positions TABLE saves these
  sample                    writes an artifact to try all this on

`grain COMMAND --help` says more. A file `-` is standard input.

  -h, --help       this text
  -V, --version    the version

Exit status: 0 all accepted, 1 something refused, 2 usage or a file that cannot be read or written.
";

const CHECK: &str = "\
usage: grain check [--mask HEX] FILE..

Reads each file and says whether it is accepted, a line a file:

  FILE: accepted
  FILE: refused 2 Truncated
  FILE: refused 13 TrailingBytes: 4 behind the end

The number and the name are those of the table of refusals, and its values are in words behind them.

  --mask HEX    the step flags that are known, a byte (default 01)

Exit status: 0 all accepted, 1 something refused, 2 usage or a file that cannot be read; the worst of all files.
";

const DUMP: &str = "\
usage: grain dump [--json] [--mask HEX] FILE

Shows every section of an artifact: names in place of their indices, constants as trees, and the code with the places in the
source beside its addresses. Names that are referred to are cut where they are long.

  --json        one JSON object. Bytes that are no text are {\"hex\": \"..\"}; code is hexadecimal. A reference is
                {\"index\": n, \"name\": ..}, without a name where there is none or where it is longer than 200 bytes
  --mask HEX    the step flags that are known, a byte (default 01)

Exit status: 0 accepted, 1 refused, 2 usage or a file that cannot be read.
";

const POSITIONS: &str = "\
usage: grain positions [--table] [--raw] [--mask HEX] FILE

Shows the position table of an artifact, a line an entry: the address, and line:column, or none where the line is 0.

  --table       FILE is a position table by itself
  --raw         writes the bytes of the table instead
  --mask HEX    the step flags that are known, a byte (default 01)

Exit status: 0 accepted, 1 refused, 2 usage or a file that cannot be read.
";

const RESOLVE: &str = "\
usage: grain resolve [--artifact [--mask HEX]] TABLE ADDRESS..

Looks addresses up in a position table, a line each: the address, and line:column, or none where the table has no site for it.
An address is decimal, or hexadecimal behind 0x. A table that is not sound is looked up too, and then refused on standard error.

  --artifact    TABLE is an artifact, whose own table is used
  --mask HEX    the step flags that are known, a byte (default 01)

Exit status: 0 answered, 1 refused, 2 usage or a file that cannot be read.
";

const DEBUG_ID: &str = "\
usage: grain debug-id TABLE CHAINS

The debug id of a position table and of the chain bytes that were left behind with it, as 32 digits in hexadecimal. The artifact
that they belong to has the same id: `grain dump` shows it.

Exit status: 0 answered, 2 usage or a file that cannot be read.
";

const REWRITE: &str = "\
usage: grain rewrite [--mask HEX] [-o OUT] FILE

Writes an artifact anew. It means the same and is no longer than before: numbers have their shortest form, a position without a
line has no column, and what says yes is 1. Code and position table stay as they are. A second time changes nothing.

  -o, --output OUT    to this file; without it, or where it is -, to standard output
  --mask HEX          the step flags that are known, a byte (default 01)

OUT is written whole or not at all: in full beside its place, as .grain-*.tmp in the same folder, and then moved into it. A file
that is there is replaced, and OUT may be FILE itself. On any failure OUT is as it was, and nothing is left beside it; only a run
that is killed leaves its .grain-*.tmp there.

Exit status: 0 written, 1 refused, and nothing is written, 2 usage or a file that cannot be read or written.
";

const STRIP: &str = "\
usage: grain strip [--positions TABLE] [--mask HEX] [-o OUT] FILE

Writes an artifact without positions: its position table is empty, and every position in a chain is none. All else, the debug id
too, is as `grain rewrite` writes it.

  --positions TABLE    saves the position table of FILE in this file: `grain resolve TABLE ADDRESS..` looks addresses up there.
                       A FILE that has none is refused. The positions in chains are not saved: keep FILE where they matter
  -o, --output OUT     to this file; without it, or where it is -, to standard output
  --mask HEX           the step flags that are known, a byte (default 01)

OUT and TABLE are written whole or not at all: both in full beside their places, as .grain-*.tmp in the same folder, and then
moved, first TABLE, then OUT. Files that are there are replaced, and OUT may be FILE itself. On any failure OUT is as it was, and
nothing is left beside it; only a run that is killed leaves its .grain-*.tmp there.

Exit status: 0 written, 1 refused, and nothing is written, 2 usage or a file that cannot be read or written.
";

const SAMPLE: &str = "\
usage: grain sample [-o FILE]

Writes a small artifact with something in every section.

  -o, --output FILE    to this file; without it, or where it is -, to standard output

Exit status: 0 written, 2 usage or a file that cannot be written.
";

/// `grain --help`, and `grain help COMMAND`.
pub fn asked(words: &[OsString], out: &mut dyn Write) -> Result<Status, Failure> {
    match words {
        [] => {
            out.write_all(ALL.as_bytes())?;
            Ok(Status::Accepted)
        }
        [command, ..] => of(command.to_str().unwrap_or_default(), out),
    }
}

/// `grain COMMAND --help`
pub fn of(command: &str, out: &mut dyn Write) -> Result<Status, Failure> {
    let text = match command {
        "check" => CHECK,
        "dump" => DUMP,
        "positions" => POSITIONS,
        "resolve" => RESOLVE,
        "debug-id" => DEBUG_ID,
        "rewrite" => REWRITE,
        "strip" => STRIP,
        "sample" => SAMPLE,
        _ => return Err(unknown(command)),
    };
    out.write_all(text.as_bytes())?;
    Ok(Status::Accepted)
}

pub fn unknown(command: &str) -> Failure {
    Failure::usage(format!("there is no command `{}`", command.escape_debug()))
}
