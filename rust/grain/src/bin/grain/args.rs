//! The words behind a command: options anywhere, plain words in their order.
use crate::status::Failure;
use grain::StepFlags;
use std::ffi::{OsStr, OsString};

#[derive(Debug, Default)]
pub struct Args {
    flags: Vec<&'static str>,
    values: Vec<(&'static str, OsString)>,
    pub plain: Vec<OsString>,
}

/// Takes the words apart. `flags` stand alone; those of `valued` have a value, behind `=` or as the next word.
pub fn parse(words: &[OsString], flags: &[&'static str], valued: &[&'static str]) -> Result<Args, Failure> {
    let mut args = Args::default();
    let mut words = words.iter();
    while let Some(word) = words.next() {
        let text = word.to_str().unwrap_or_default();
        if text == "--" {
            args.plain.extend(words.by_ref().cloned());
        } else if !text.starts_with('-') || text == "-" {
            args.plain.push(word.clone());
        } else if let Some(flag) = flags.iter().find(|flag| **flag == text) {
            args.flags.push(flag);
        } else {
            let (name, value) = text.split_once('=').map_or((text, None), |(name, value)| (name, Some(value)));
            let option = valued.iter().find(|option| **option == name);
            let option = option.ok_or_else(|| Failure::usage(format!("unknown option `{}`", name.escape_debug())))?;
            let value = value.map(OsString::from).or_else(|| words.next().cloned());
            let value = value.ok_or_else(|| Failure::usage(format!("`{name}` needs a value")))?;
            args.values.push((option, value));
        }
    }
    Ok(args)
}

impl Args {
    pub fn has(&self, flag: &str) -> bool {
        self.flags.contains(&flag)
    }

    /// The value of an option; the last one, where it was given twice.
    pub fn value(&self, option: &str) -> Option<&OsStr> {
        let given = self.values.iter().rev().find(|(name, _)| *name == option);
        given.map(|(_, value)| value.as_os_str())
    }

    /// The file that the output goes to; none where it is standard output, which `-` is too.
    pub fn output(&self) -> Option<&OsStr> {
        let given = self.value("-o").or(self.value("--output"));
        given.filter(|name| *name != "-")
    }

    /// The one plain word of a command that takes one.
    pub fn only(&self, what: &str) -> Result<&OsStr, Failure> {
        match self.plain.as_slice() {
            [one] => Ok(one),
            [] => Err(Failure::usage(format!("{what} is missing"))),
            _ => Err(Failure::usage(format!("only one {what} can be given"))),
        }
    }

    /// The step flags that are known: a byte in hexadecimal.
    pub fn mask(&self) -> Result<StepFlags, Failure> {
        let Some(given) = self.value("--mask") else { return Ok(StepFlags::SKIP_IF_UNIT) };
        let digits = given.to_str().unwrap_or_default();
        let digits = digits.strip_prefix("0x").unwrap_or(digits);
        let byte = digits.bytes().all(|d| d.is_ascii_hexdigit()).then(|| u8::from_str_radix(digits, 16).ok());
        let byte = byte.flatten();
        byte.map(StepFlags).ok_or_else(|| Failure::usage("`--mask` wants a byte in hexadecimal, 00 to FF"))
    }
}

#[cfg(test)]
mod tests {
    use super::*;

    fn words(line: &str) -> Vec<OsString> {
        line.split(' ').map(OsString::from).collect()
    }

    #[test]
    fn options_stand_anywhere() {
        let args = parse(&words("a --json - --mask=ff b -- --json -x"), &["--json"], &["--mask"]).unwrap();
        assert!(args.has("--json"));
        assert_eq!(args.mask().unwrap(), StepFlags(0xFF));
        assert_eq!(args.plain, words("a - b --json -x"));
    }

    #[test]
    fn masks_are_one_byte() {
        let mask = |given: &str| parse(&words(&format!("--mask {given}")), &[], &["--mask"]).unwrap().mask();
        assert_eq!(mask("0x03").unwrap(), StepFlags(3));
        for wrong in ["100", "+1", "g", "0x", "-1", "0x0x1"] {
            assert!(mask(wrong).is_err(), "{wrong}");
        }
    }

    #[test]
    fn wrong_words_are_refused() {
        for wrong in ["-x", "--js", "--mask", "--json=1"] {
            assert!(parse(&words(wrong), &["--json"], &["--mask"]).is_err(), "{wrong}");
        }
    }
}
