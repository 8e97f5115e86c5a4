//! A writer of JSON. Whatever is given, what it writes is valid: strings are escaped, and bytes that are no text are
//! written in hexadecimal.
use crate::shown;
use std::fmt::Display;
use std::io::{self, Write};

pub struct Json<'w> {
    out: &'w mut dyn Write,
    /// Whether a value stands before the next one, in the same array or object.
    follows: bool,
}

impl<'w> Json<'w> {
    pub fn new(out: &'w mut dyn Write) -> Json<'w> {
        Json { out, follows: false }
    }

    pub fn object(&mut self, fill: impl FnOnce(&mut Self) -> io::Result<()>) -> io::Result<()> {
        self.inside("{", fill, "}")
    }

    pub fn array(&mut self, fill: impl FnOnce(&mut Self) -> io::Result<()>) -> io::Result<()> {
        self.inside("[", fill, "]")
    }

    fn inside(&mut self, open: &str, fill: impl FnOnce(&mut Self) -> io::Result<()>, close: &str) -> io::Result<()> {
        self.separate()?;
        self.out.write_all(open.as_bytes())?;
        self.follows = false;
        fill(self)?;
        self.out.write_all(close.as_bytes())?;
        self.follows = true;
        Ok(())
    }

    /// The name of the value that is written next.
    pub fn key(&mut self, name: &str) -> io::Result<&mut Self> {
        self.string(name)?;
        self.out.write_all(b":")?;
        self.follows = false;
        Ok(self)
    }

    /// A number, `true`, `false` or `null`, as it is shown.
    pub fn plain(&mut self, value: impl Display) -> io::Result<()> {
        self.separate()?;
        write!(self.out, "{value}")?;
        self.follows = true;
        Ok(())
    }

    pub fn null(&mut self) -> io::Result<()> {
        self.plain("null")
    }

    pub fn string(&mut self, text: &str) -> io::Result<()> {
        self.separate()?;
        self.out.write_all(b"\"")?;
        for letter in text.chars() {
            match letter {
                '"' => self.out.write_all(b"\\\"")?,
                '\\' => self.out.write_all(b"\\\\")?,
                control if control.is_control() => write!(self.out, "\\u{:04x}", u32::from(control))?,
                other => write!(self.out, "{other}")?,
            }
        }
        self.out.write_all(b"\"")?;
        self.follows = true;
        Ok(())
    }

    /// Text, or what is no text in hexadecimal.
    pub fn text(&mut self, bytes: &[u8]) -> io::Result<()> {
        match std::str::from_utf8(bytes) {
            Ok(text) => self.string(text),
            Err(_) => self.object(|json| json.key("hex")?.string(&shown::hex(bytes))),
        }
    }

    fn separate(&mut self) -> io::Result<()> {
        if self.follows {
            self.out.write_all(b",")?;
        }
        Ok(())
    }
}

#[cfg(test)]
mod tests {
    use super::*;

    fn written(fill: impl FnOnce(&mut Json<'_>) -> io::Result<()>) -> String {
        let mut out = Vec::new();
        fill(&mut Json::new(&mut out)).unwrap();
        String::from_utf8(out).unwrap()
    }

    #[test]
    fn strings_are_escaped() {
        assert_eq!(written(|json| json.string("a\"\\\n\u{7f}\u{85}ä")), r#""a\"\\\u000a\u007f\u0085ä""#);
        assert_eq!(written(|json| json.text(b"\xff\x0a")), r#"{"hex":"ff0a"}"#);
    }

    #[test]
    fn commas_stand_between_values() {
        let nested = written(|json| {
            json.object(|json| {
                json.key("a")?.array(|_| Ok(()))?;
                json.key("b")?.array(|json| {
                    json.plain(1)?;
                    json.object(|_| Ok(()))?;
                    json.null()
                })
            })
        });
        assert_eq!(nested, r#"{"a":[],"b":[1,{},null]}"#);
    }
}
