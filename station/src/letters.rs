//! Bytes as the characters of a text, for jobs and for timings.

/// A byte that no text has, with its line and what is wanted.
pub struct Stray {
    pub line: usize,
    pub bytes: String,
    pub wanted: &'static str,
}

/// The characters of a text, its lines ended by a line feed each. Editors put a
/// byte order mark in front, or end lines by a carriage return, with a line feed
/// or without.
pub fn characters(bytes: &[u8]) -> Result<String, Stray> {
    if is_utf_16(bytes) {
        let wanted = "this text is UTF-16; save it as UTF-8";
        return Err(Stray { line: 1, bytes: hexadecimal(&bytes[..2]), wanted });
    }
    let text = line_feeds(bytes.strip_prefix(&[0xEF, 0xBB, 0xBF]).unwrap_or(bytes));
    let stray = |place: usize, wanted| Stray {
        line: 1 + text[..place].iter().filter(|b| **b == b'\n').count(),
        bytes: hexadecimal(&text[place..place + 1]),
        wanted,
    };
    if let Some(place) = text.iter().position(|b| is_control(*b)) {
        return Err(stray(place, "this byte is no character of a text"));
    }
    match std::str::from_utf8(&text) {
        Ok(_) => Ok(String::from_utf8_lossy(&text).into_owned()),
        Err(error) => {
            Err(stray(error.valid_up_to(), "this byte is not UTF-8; save the text as UTF-8"))
        }
    }
}

pub fn is_utf_16(bytes: &[u8]) -> bool {
    bytes.starts_with(&[0xFF, 0xFE]) || bytes.starts_with(&[0xFE, 0xFF])
}

/// A byte that no text has.
pub fn is_control(byte: u8) -> bool {
    byte < 0x20 && !matches!(byte, b'\t' | b'\n' | b'\r') || byte == 0x7F
}

fn line_feeds(bytes: &[u8]) -> Vec<u8> {
    let mut text = Vec::with_capacity(bytes.len());
    for (i, &byte) in bytes.iter().enumerate() {
        match byte {
            b'\r' if bytes.get(i + 1) == Some(&b'\n') => {}
            b'\r' => text.push(b'\n'),
            _ => text.push(byte),
        }
    }
    text
}

pub fn hexadecimal(bytes: &[u8]) -> String {
    bytes.iter().map(|b| format!("{b:02X}")).collect::<Vec<_>>().join(" ")
}

const LONGEST_WORD: usize = 40;

/// A word for a message, which stays one line that can be read.
pub fn short(word: &str) -> String {
    let printed = |c: char| if c.is_control() { char::REPLACEMENT_CHARACTER } else { c };
    let dots = if word.chars().count() > LONGEST_WORD { "..." } else { "" };
    let word: String = word.chars().take(LONGEST_WORD).map(printed).collect();
    word + dots
}

#[cfg(test)]
mod tests {
    use super::*;

    #[test]
    fn lines_end_as_editors_end_them() {
        let text = characters(b"\xEF\xBB\xBFa\r\nb\rc\nd\r").ok();
        assert_eq!(text.as_deref(), Some("a\nb\nc\nd\n"));
    }

    #[test]
    fn other_bytes_are_named_by_their_line() {
        let stray = |bytes: &[u8]| {
            let stray = characters(bytes).err().expect("a stray byte");
            (stray.line, stray.bytes, stray.wanted.contains("UTF-8"))
        };
        assert_eq!(stray(b"a\r\ngr\xFCn"), (2, "FC".into(), true));
        assert_eq!(stray(b"a\rb\0"), (2, "00".into(), false));
        assert_eq!(stray(b"\xFF\xFEr\0"), (1, "FF FE".into(), true));
        assert_eq!(stray(b"\xC3"), (1, "C3".into(), true));
    }

    #[test]
    fn a_word_in_a_message_is_short() {
        assert_eq!(short("ms"), "ms");
        assert_eq!(short(&"x".repeat(41)), format!("{}...", "x".repeat(40)));
        assert_eq!(short("a\u{85}b"), "a\u{FFFD}b");
    }
}
