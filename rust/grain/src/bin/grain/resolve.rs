//! `grain resolve`: the places in the source of addresses.
use crate::status::{self, Failure, Status};
use crate::{args, files, positions, shown};
use grain::pos;
use std::ffi::{OsStr, OsString};
use std::io::Write;

pub fn run(words: &[OsString], out: &mut dyn Write) -> Result<Status, Failure> {
    let args = args::parse(words, &["--artifact"], &["--mask"])?;
    let mask = args.mask()?;
    let Some((name, addresses)) = args.plain.split_first() else {
        return Err(Failure::usage("TABLE is missing"));
    };
    if addresses.is_empty() {
        return Err(Failure::usage("ADDRESS is missing"));
    }
    let addresses = addresses.iter().map(|word| address(word)).collect::<Result<Vec<_>, _>>()?;
    if args.has("--artifact") {
        return match positions::of_artifact(name, mask)? {
            Ok(table) => told(&table, &addresses, out),
            Err(refusal) => Ok(status::refused(name, refusal)),
        };
    }
    // A table that is not sound may still have the site: it is told, and the refusal with it.
    let table = files::whole(name)?;
    let told = told(&table, &addresses, out)?;
    Ok(pos::check(&table).map_or_else(|refusal| status::refused(name, refusal), |()| told))
}

fn told(table: &[u8], addresses: &[u32], out: &mut dyn Write) -> Result<Status, Failure> {
    for address in addresses {
        let site = pos::resolve(table, *address).map_or("none".to_string(), shown::site);
        writeln!(out, "{address} {site}")?;
    }
    Ok(Status::Accepted)
}

/// An address of 32 bits, in decimal, or behind 0x in hexadecimal.
fn address(word: &OsStr) -> Result<u32, Failure> {
    let text = word.to_str().unwrap_or_default();
    let (digits, radix) = text.strip_prefix("0x").map_or((text, 10), |digits| (digits, 16));
    let plain = digits.chars().all(|digit| digit.is_digit(radix));
    let value = plain.then(|| u32::from_str_radix(digits, radix).ok()).flatten();
    value.ok_or_else(|| Failure::usage(format!("`{}` is no address of 32 bits", text.escape_debug())))
}
