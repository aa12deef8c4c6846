//! How long each operation of a part lasts, and the text that says so.

use crate::letters;
use crate::number;

const ROWS: [&str; 4] = ["x8", "x16", "x32", "x64"];
const COLUMNS: [&str; 6] =
    ["program", "erase 16 KiB", "erase 64 KiB", "erase 128 KiB", "mass erase", "option change"];
const COUNT: usize = ROWS.len() * COLUMNS.len();
const MOST_US: u64 = 60_000_000;
const A_LINE: &str = "a line is as: erase 16 KiB, x32: 250 ms";

/// Stands above the timings of a new part.
pub const TYPICAL: &str = "\
Timings of the order of the data sheet's typical values. REPLACE THEM BY YOUR
OWN, from the data sheet of the very device; take its maximum values where a
wait must never be too short.

A line for each operation and each PSIZE (x8, x16, x32, x64), in any order.
Units are us, ms and s; each time is 1 us to 60 s.";

/// Microseconds: a row for each PSIZE, in it a column for each operation.
#[derive(Clone, Copy, Debug, PartialEq, Eq)]
pub struct Timings {
    us: [u32; COUNT],
}

impl Timings {
    /// Those of the part that `rehearse` starts from.
    pub fn thousands() -> Timings {
        Timings { us: [1000; COUNT] }
    }

    #[rustfmt::skip]
    pub fn typical() -> Timings {
        Timings {
            us: [
                16, 400_000, 1_200_000, 2_000_000, 16_000_000, 400_000,
                16, 300_000,   700_000, 1_300_000, 11_000_000, 300_000,
                16, 250_000,   550_000, 1_000_000,  8_000_000, 250_000,
                16, 230_000,   490_000,   875_000,  6_900_000, 230_000,
            ],
        }
    }

    /// As the job run takes them.
    pub fn bytes(&self) -> [u8; 4 * COUNT] {
        let mut bytes = [0; 4 * COUNT];
        for (four, us) in bytes.chunks_exact_mut(4).zip(self.us) {
            four.copy_from_slice(&us.to_le_bytes());
        }
        bytes
    }

    pub fn text(&self, comment: &str) -> String {
        let mut text = String::new();
        for line in comment.lines() {
            text += format!("# {line}").trim_end();
            text.push('\n');
        }
        for (column, operation) in COLUMNS.iter().enumerate() {
            text.push('\n');
            for (row, width) in ROWS.iter().enumerate() {
                let time = in_words(self.us[place(row, column)]);
                text += &format!("{operation}, {width}: {time}\n");
            }
        }
        text
    }

    /// Reads the text; `name` is how messages call it.
    pub fn parse(name: &str, text: &[u8]) -> Result<Timings, String> {
        let text = letters::characters(text)
            .map_err(|stray| format!("{name}:{}: {}: {}", stray.line, stray.bytes, stray.wanted))?;
        let mut given: [Option<Given>; COUNT] = [None; COUNT];
        for (line, words) in (1..).zip(text.lines()) {
            let words = words.split('#').next().unwrap_or("").trim();
            if !words.is_empty() {
                take(&mut given, line, words).map_err(|fault| format!("{name}:{line}: {fault}"))?;
            }
        }
        all(&given).map_err(|fault| format!("{name}: {fault}"))
    }
}

#[derive(Clone, Copy)]
struct Given {
    line: usize,
    us: u32,
}

fn place(row: usize, column: usize) -> usize {
    COLUMNS.len() * row + column
}

fn fault<T>(word: &str, wanted: &str) -> Result<T, String> {
    match word.is_empty() {
        true => Err(wanted.to_string()),
        false => Err(format!("{}: {wanted}", letters::short(word))),
    }
}

fn take(given: &mut [Option<Given>; COUNT], line: usize, words: &str) -> Result<(), String> {
    let (row, column, us) = timing(words)?;
    let timing = &mut given[place(row, column)];
    if let Some(Given { line, .. }) = timing {
        let name = format!("{}, {}", COLUMNS[column], ROWS[row]);
        return fault(&name, &format!("given in line {line} already"));
    }
    *timing = Some(Given { line, us });
    Ok(())
}

fn all(given: &[Option<Given>; COUNT]) -> Result<Timings, String> {
    let mut timings = Timings { us: [0; COUNT] };
    let mut missing = Vec::new();
    for (column, operation) in COLUMNS.iter().enumerate() {
        for (row, width) in ROWS.iter().enumerate() {
            match given[place(row, column)] {
                Some(timing) => timings.us[place(row, column)] = timing.us,
                None => missing.push(format!("{operation}, {width}")),
            }
        }
    }
    match missing.as_slice() {
        [] => Ok(timings),
        [one] => fault(one, &format!("missing; {A_LINE}")),
        [first, more @ ..] => {
            fault(first, &format!("missing, and {} more of the {COUNT}; {A_LINE}", more.len()))
        }
    }
}

/// The row, the column and the microseconds of a line.
fn timing(words: &str) -> Result<(usize, usize, u32), String> {
    let parts = words.split_once(':').and_then(|(name, time)| Some((name.split_once(',')?, time)));
    let Some(((operation, width), time)) = parts else {
        return fault(words, &format!("no timing; {A_LINE}"));
    };
    let (operation, width, time) = (operation.trim(), width.trim(), time.trim());
    let Some(column) = position(&COLUMNS, operation) else {
        return fault(operation, &format!("no such timing; the six are {}", COLUMNS.join(", ")));
    };
    let Some(row) = position(&ROWS, width) else {
        return fault(width, &format!("no such row; the four are {}", ROWS.join(", ")));
    };
    Ok((row, column, microseconds(time)?))
}

/// Which of the names it is; white space and capitals make no difference.
fn position(names: &[&str], word: &str) -> Option<usize> {
    let plain = |name: &str| name.split_whitespace().collect::<String>().to_ascii_lowercase();
    let word = plain(word);
    names.iter().position(|name| plain(name) == word)
}

fn microseconds(time: &str) -> Result<u32, String> {
    let end = time.find(|c: char| c.is_alphabetic() || c.is_whitespace()).unwrap_or(time.len());
    let (number, unit) = time.split_at(end);
    let Some((whole, fraction)) = point(number) else {
        return fault(time, "not a number with its unit, as 250 us, 1_000 ms or 1.5 s");
    };
    let decimals = match unit.trim() {
        "us" => 0,
        "ms" => 3,
        "s" => 6,
        "" => return fault(time, &format!("the unit is missing: us, ms or s; {A_LINE}")),
        unit => return fault(unit, "no such unit; the three are us, ms, s"),
    };
    if fraction.len() > decimals {
        return fault(time, "not a whole number of microseconds");
    }
    match value(&format!("{whole}{fraction:0<decimals$}")) {
        us @ 1..=MOST_US => Ok(us as u32),
        _ => fault(time, "out of range; the part takes 1 us to 60 s"),
    }
}

/// The digits before and behind the point, without zeros at the end of these;
/// before it an underscore may stand before each three digits.
fn point(number: &str) -> Option<(&str, &str)> {
    let digits = |text: &str| !text.is_empty() && text.bytes().all(|b| b.is_ascii_digit());
    let (whole, fraction) = number.split_once('.').unwrap_or((number, "0"));
    let mut groups = whole.split('_');
    let right = digits(groups.next()?)
        && groups.all(|group| group.len() == 3 && digits(group))
        && digits(fraction);
    right.then(|| (whole, fraction.trim_end_matches('0')))
}

/// The value of digits with underscores among them, however many there are.
fn value(digits: &str) -> u64 {
    let digits = digits.bytes().filter(u8::is_ascii_digit).map(|digit| u64::from(digit - b'0'));
    digits.fold(0, |value: u64, digit| value.saturating_mul(10).saturating_add(digit))
}

/// In the longest unit that needs no fraction.
fn in_words(us: u32) -> String {
    let (number, unit) = match us {
        us if us % 1_000_000 == 0 => (us / 1_000_000, "s"),
        us if us % 1_000 == 0 => (us / 1_000, "ms"),
        us => (us, "us"),
    };
    format!("{} {unit}", number::plain(number.into()))
}

#[cfg(test)]
mod tests {
    use super::*;

    const A_LINE: &str = "a line is as: erase 16 KiB, x32: 250 ms";

    /// The text of typical timings with one line exchanged for another one.
    fn with(old: &str, new: &str) -> String {
        let text = Timings::typical().text("");
        assert_eq!(text.matches(old).count(), 1, "{old}");
        text.replace(old, new)
    }

    fn parsed(text: &str) -> Result<Timings, String> {
        Timings::parse("t", text.as_bytes())
    }

    /// What is said about the line that stands for `program, x8: 16 us`, the
    /// second one of the text: a blank line is before it.
    fn refused(line: &str) -> String {
        let message = parsed(&with("program, x8: 16 us", line)).unwrap_err();
        message.strip_prefix("t:2: ").unwrap_or(&message).to_string()
    }

    fn program_x8(line: &str) -> u32 {
        parsed(&with("program, x8: 16 us", line)).unwrap().us[0]
    }

    #[test]
    fn each_timing_has_its_place() {
        let bytes = Timings::typical().bytes();
        // Row x32 (2), column erase 64 KiB (2): byte 4 * (6 * 2 + 2) = 56; 550,000 = 86470h.
        assert_eq!(bytes[56..60], [0x70, 0x64, 0x08, 0x00]);
        // Row x64 (3), column mass erase (4): byte 88; 6,900,000 = 694920h.
        assert_eq!(bytes[88..92], [0x20, 0x49, 0x69, 0x00]);
        assert_eq!(bytes[..4], [16, 0, 0, 0]);
        assert_eq!(Timings::thousands().bytes()[92..], [0xE8, 0x03, 0x00, 0x00]);
    }

    #[test]
    fn the_text_of_typical_timings() {
        let text = Timings::typical().text("one\n\ntwo");
        let lines: Vec<&str> = text.lines().collect();
        assert_eq!(lines[..5], ["# one", "#", "# two", "", "program, x8: 16 us"]);
        assert_eq!(lines[8..10], ["", "erase 16 KiB, x8: 400 ms"]);
        assert_eq!(lines[10..12], ["erase 16 KiB, x16: 300 ms", "erase 16 KiB, x32: 250 ms"]);
        assert_eq!(lines[12..15], ["erase 16 KiB, x64: 230 ms", "", "erase 64 KiB, x8: 1200 ms"]);
        assert_eq!(lines[19..21], ["erase 128 KiB, x8: 2 s", "erase 128 KiB, x16: 1300 ms"]);
        assert_eq!(lines[27], "mass erase, x64: 6900 ms");
        assert_eq!(lines[32..], ["option change, x64: 230 ms"]);
    }

    #[test]
    fn a_text_is_read_as_it_was_written() {
        // Of each unit some, and the last one is 60 s.
        let mut us = [0; COUNT];
        for (us, number) in us.iter_mut().zip(1..) {
            *us = [2_500_000, 1001, 1000][number as usize % 3] * number;
        }
        assert_eq!(us[20..], [52_500_000, 22_022, 23_000, 60_000_000]);
        for timings in [Timings { us }, Timings::typical(), Timings::thousands()] {
            assert_eq!(parsed(&timings.text(TYPICAL)), Ok(timings));
        }
    }

    #[test]
    fn lines_may_be_written_freely() {
        let text = Timings::typical().text(TYPICAL);
        let windows = format!("\u{FEFF}{}", text.replace('\n', "\r\n"));
        assert_eq!(parsed(&windows), Ok(Timings::typical()));
        let mut lines: Vec<&str> = text.lines().collect();
        lines.reverse();
        assert_eq!(parsed(&lines.join(" # note: x, y\n\n")), Ok(Timings::typical()));
        assert_eq!(program_x8("\t program,x8:17us# as measured"), 17);
        assert_eq!(program_x8("  Program , X8 :  18   us "), 18);
        assert_eq!(parsed(&with("erase 16 KiB, x32", "ERASE  16kib,x32")), Ok(Timings::typical()));
    }

    #[test]
    fn times_in_each_unit() {
        assert_eq!(program_x8("program, x8: 1 us"), 1);
        assert_eq!(program_x8("program, x8: 60 s"), 60_000_000);
        assert_eq!(program_x8("program, x8: 60_000_000 us"), 60_000_000);
        assert_eq!(program_x8("program, x8: 60000.000 ms"), 60_000_000);
        assert_eq!(program_x8("program, x8: 1.1 s"), 1_100_000);
        assert_eq!(program_x8("program, x8: 0.001 ms"), 1);
        assert_eq!(program_x8("program, x8: 0.000001 s"), 1);
        assert_eq!(program_x8("program, x8: 1_234.5670 ms"), 1_234_567);
        assert_eq!(program_x8("program, x8: 0007.0 us"), 7);
    }

    #[test]
    fn a_name_or_a_row_that_is_unknown() {
        assert_eq!(
            refused("erase 32 KiB, x8: 16 us"),
            "erase 32 KiB: no such timing; the six are program, erase 16 KiB, erase 64 KiB, \
             erase 128 KiB, mass erase, option change"
        );
        let row = "x128: no such row; the four are x8, x16, x32, x64";
        assert_eq!(refused("program, x128: 16 us"), row);
        for line in ["program x8: 16 us", "program, x8 16 us", "hello", ":"] {
            assert_eq!(refused(line), format!("{line}: no timing; {A_LINE}"));
        }
        assert_eq!(refused("a\0b"), "00: this byte is no character of a text");
        let (long, forty) = ("µ".repeat(41), "µ".repeat(40));
        assert_eq!(refused(&long), format!("{forty}...: no timing; {A_LINE}"));
        assert_eq!(refused(&forty), format!("{forty}: no timing; {A_LINE}"));
    }

    fn time(time: &str) -> String {
        refused(&format!("program, x8: {time}"))
    }

    #[test]
    fn a_time_that_is_no_number_with_a_unit() {
        let missing = format!("250: the unit is missing: us, ms or s; {A_LINE}");
        assert_eq!(time("250"), missing);
        for unit in ["sec", "S", "µs", "ms s", "ms 3", "min"] {
            let unknown = format!("{unit}: no such unit; the three are us, ms, s");
            assert_eq!(time(&format!("250 {unit}")), unknown);
        }
        let wanted = "not a number with its unit, as 250 us, 1_000 ms or 1.5 s";
        for number in ["1,000", "-5", "+5", "1.", ".5", "1_00", "_1", "1__000", "1.0.0"] {
            let time = time(&format!("{number} ms"));
            assert_eq!(time, format!("{number} ms: {wanted}"));
        }
        assert_eq!(time("ms"), format!("ms: {wanted}"));
        assert_eq!(time(""), wanted);
    }

    #[test]
    fn a_time_that_the_part_does_not_take() {
        let huge = format!("1{} s", "0".repeat(30));
        for text in ["0 us", "0.0 s", "60_000_001 us", "60.000001 s", "61 s", huge.as_str()] {
            assert_eq!(time(text), format!("{text}: out of range; the part takes 1 us to 60 s"));
        }
        for text in ["0.5 us", "1.0001 ms", "0.0000001 s"] {
            assert_eq!(time(text), format!("{text}: not a whole number of microseconds"));
        }
    }

    #[test]
    fn a_timing_that_is_given_twice_or_not_at_all() {
        // Line 4 is `program, x32`, line 19 is `erase 128 KiB, x32`.
        let twice = with("erase 128 KiB, x32: 1 s", "program, x32: 16 us");
        let message = "t:19: program, x32: given in line 4 already".to_string();
        assert_eq!(parsed(&twice), Err(message));
        let message = format!("t: erase 128 KiB, x32: missing; {A_LINE}");
        assert_eq!(parsed(&with("erase 128 KiB, x32: 1 s", "")), Err(message));
        let message = format!("t: program, x8: missing, and 23 more of the 24; {A_LINE}");
        assert_eq!(parsed(""), Err(message));
    }

    #[test]
    fn bytes_that_are_no_text() {
        let no_text = |line: u32, byte: &str| {
            Err(format!("t:{line}: {byte}: this byte is not UTF-8; save the text as UTF-8"))
        };
        assert_eq!(Timings::parse("t", b"# a\n# b\n# \xB5\n# c\n"), no_text(3, "B5"));
        let utf_16 = Timings::parse("t", b"\xFF\xFEp\0r\0o\0");
        assert_eq!(utf_16, Err("t:1: FF FE: this text is UTF-16; save it as UTF-8".into()));
        assert_eq!(Timings::parse("t", b"# \xC2"), no_text(1, "C2"));
    }
}
