//! Numbers as texts have them, and as people read them.

/// A number with its base: 0x for hexadecimal, decimal otherwise, where an
/// underscore may stand before each three digits. For any other word, what is
/// wrong with it.
pub fn parse(word: &str) -> Result<u64, &'static str> {
    if let Some(digits) = word.strip_prefix("0x").or_else(|| word.strip_prefix("0X")) {
        return if is_all(digits, u8::is_ascii_hexdigit) {
            u64::from_str_radix(digits, 16).map_err(|_| BIG)
        } else {
            Err("not a number")
        };
    }
    // Manuals write hexadecimal numbers without 0x, often with a 0 in front.
    let digits_only = is_all(word, u8::is_ascii_digit);
    let leading = word.len() > 1 && word.starts_with('0');
    if is_all(word, u8::is_ascii_hexdigit) && !digits_only || leading {
        return Err("not a decimal number; a hexadecimal one has 0x in front");
    }
    let mut groups = word.split('_');
    let first = groups.next().unwrap_or("");
    let decimal = |group: &str| is_all(group, u8::is_ascii_digit);
    if !decimal(first) || !groups.all(|group| group.len() == 3 && decimal(group)) {
        return Err("not a number");
    }
    word.replace('_', "").parse().map_err(|_| BIG)
}

const BIG: &str = "above 64 bits";

fn is_all(word: &str, kind: fn(&u8) -> bool) -> bool {
    !word.is_empty() && word.bytes().all(|b| kind(&b))
}

/// Decimal digits with a mark before each three but the first ones.
fn grouped(value: u64, mark: char) -> String {
    let digits = value.to_string();
    let mut words = String::new();
    for (i, digit) in digits.chars().enumerate() {
        if i > 0 && (digits.len() - i) % 3 == 0 {
            words.push(mark);
        }
        words.push(digit);
    }
    words
}

/// For people: 1,234,567.
pub fn decimal(value: u64) -> String {
    grouped(value, ',')
}

/// As a text takes it: 1_234_567, and 1234 as it is.
pub fn plain(value: u64) -> String {
    if value < 10_000 {
        value.to_string()
    } else {
        grouped(value, '_')
    }
}

/// The digits of a value of so many bytes.
pub fn hexadecimal(width: u8, value: u64) -> String {
    format!("{:0digits$X}", value, digits = 2 * usize::from(width))
}

/// `1 byte`, `2 bytes`.
pub fn counted(n: usize, name: &str) -> String {
    let s = if n == 1 { "" } else { "s" };
    format!("{} {name}{s}", decimal(n as u64))
}

#[cfg(test)]
mod tests {
    use super::*;

    #[test]
    fn numbers_have_their_base() {
        assert_eq!(parse("0x1F"), Ok(31));
        assert_eq!(parse("0xfF"), Ok(255));
        assert_eq!(parse("0x00"), Ok(0));
        assert_eq!(parse("120_000"), Ok(120_000));
        assert_eq!(parse("0"), Ok(0));
        assert_eq!(parse("18446744073709551615"), Ok(u64::MAX));
        for word in ["", "0x", "0x+1", "+1", "-1", "1_00", "_100", "1__000", "12_", "1.5", "us"] {
            assert_eq!(parse(word), Err("not a number"), "{word}");
        }
        for word in ["08000000", "CDEF89AB", "4C5D6E7F", "00", "1e3", "01_000"] {
            assert!(parse(word).is_err_and(|why| why.ends_with("0x in front")), "{word}");
        }
        assert_eq!(parse("18446744073709551616"), Err(BIG));
        assert_eq!(parse("0x10000000000000000"), Err(BIG));
    }

    #[test]
    fn people_read_groups_of_three() {
        assert_eq!(decimal(0), "0");
        assert_eq!(decimal(999), "999");
        assert_eq!(decimal(1_000), "1,000");
        assert_eq!(decimal(12_345_678), "12,345,678");
        assert_eq!(plain(1_000), "1000");
        assert_eq!(plain(120_000), "120_000");
        assert_eq!(counted(1, "byte"), "1 byte");
        assert_eq!(counted(2_000, "call"), "2,000 calls");
        assert_eq!(hexadecimal(2, 0xAB), "00AB");
    }

    #[test]
    fn a_plain_number_is_read_back() {
        for value in [0, 9_999, 10_000, 123_456, u64::from(u32::MAX), u64::MAX] {
            assert_eq!(parse(&plain(value)), Ok(value));
        }
    }
}
