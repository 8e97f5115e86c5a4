//! How names, texts and bytes are shown to a reader: on one line, with nothing in them that moves a terminal.
use grain::pos::Site;
use std::ffi::OsStr;

/// Names that are referred to are cut at so many letters, lest one long name make a small file a large dump.
const SHORT: usize = 48;

/// A letter has at most four bytes, and one more letter shows that there are more.
const LOOKED_AT: usize = 4 * (SHORT + 1);

/// A file's name. `-` is standard input.
pub fn file(name: &OsStr) -> String {
    if name == "-" {
        return "standard input".to_string();
    }
    let mut shown = String::new();
    for letter in name.to_string_lossy().chars() {
        if letter.is_control() {
            shown.extend(letter.escape_default());
        } else {
            shown.push(letter);
        }
    }
    shown
}

/// Text in quotes; bytes that are no text in hexadecimal.
pub fn text(bytes: &[u8]) -> String {
    match std::str::from_utf8(bytes) {
        Ok(text) => format!("{text:?}"),
        Err(_) => format!("bytes {}", hex(bytes)),
    }
}

/// The same, cut short with dots behind it. No more is looked at than could be shown, since many records may name one text.
pub fn short(bytes: &[u8]) -> String {
    let front = bytes.get(..LOOKED_AT).unwrap_or(bytes);
    let front = match std::str::from_utf8(front) {
        Ok(text) => text,
        // The look ends inside of a letter.
        Err(why) if why.error_len().is_none() && front.len() < bytes.len() => valid(front, why.valid_up_to()),
        Err(_) => return short_hex(bytes),
    };
    match front.char_indices().nth(SHORT) {
        Some((end, _)) => format!("{:?}..", &front[..end]),
        None => format!("{front:?}"),
    }
}

fn valid(bytes: &[u8], end: usize) -> &str {
    std::str::from_utf8(&bytes[..end]).unwrap_or_default()
}

fn short_hex(bytes: &[u8]) -> String {
    match bytes.get(..SHORT / 2) {
        Some(front) if front.len() < bytes.len() => format!("bytes {}..", hex(front)),
        _ => format!("bytes {}", hex(bytes)),
    }
}

/// Line and column; line 0 means that they are not known.
pub fn site(site: Site) -> String {
    match site.line {
        0 => "none".to_string(),
        line => format!("{line}:{}", site.column),
    }
}

/// Two digits a byte.
pub fn hex(bytes: &[u8]) -> String {
    bytes.iter().map(|byte| format!("{byte:02x}")).collect()
}

#[cfg(test)]
mod tests {
    use super::*;

    #[test]
    fn nothing_moves_a_terminal() {
        assert_eq!(file(OsStr::new("a\nb\u{1b}")), "a\\nb\\u{1b}");
        assert_eq!(text(b"\x1b[2J\"\n"), r#""\u{1b}[2J\"\n""#);
        assert_eq!(text(b"\xff\x00"), "bytes ff00");
    }

    #[test]
    fn long_names_are_cut_between_letters() {
        assert_eq!(short("ä".repeat(49).as_bytes()), format!("\"{}\"..", "ä".repeat(48)));
        assert_eq!(short("ä".repeat(48).as_bytes()), format!("\"{}\"", "ä".repeat(48)));
        assert_eq!(short(format!("a{}", "🌧".repeat(99)).as_bytes()), format!("\"a{}\"..", "🌧".repeat(47)));
        assert_eq!(short(&[0xFF; 24]), format!("bytes {}", "ff".repeat(24)));
        assert_eq!(short(&[0xFF; 25]), format!("bytes {}..", "ff".repeat(24)));
    }
}
