//! A job file back to text, so that an old job can be read and changed. What is
//! made of the text is the same bytes, whatever they are.

use crate::job::{self, Access, Call, Record};
use crate::letters;
use crate::map;
use crate::number::{hexadecimal, plain};
use crate::refusals::wrong_field;

/// The text of a job, or of any bytes.
pub fn written(job: &[u8]) -> String {
    let records = job::records(job);
    let whole = job.len() >= job::HEAD && (job.len() - job::HEAD) % job::RECORD == 0;
    if !whole || records.len() > job::MOST_CALLS {
        return bytes(job);
    }
    let mut text = head(job, records.len());
    for record in &records {
        text.push_str(&line(record));
        text.push('\n');
    }
    text
}

/// The lines that say what is not as in a sound head.
fn head(job: &[u8], count: usize) -> String {
    let mut text = String::new();
    if !job.starts_with(job::MARK) {
        text.push_str(&format!("mark {}\n", letters::hexadecimal(&job[..3])));
    }
    let version = job::little_endian(&job[3..5]);
    if version != u64::from(job::VERSION) {
        text.push_str(&format!("version {version}\n"));
    }
    // A text without a call has to say that none is missing.
    if let Some(said) = job::count(job).filter(|said| *said != count || count == 0) {
        text.push_str(&format!("count {said}\n"));
    }
    text
}

fn bytes(job: &[u8]) -> String {
    if job.is_empty() {
        return "bytes\n".into();
    }
    let row = |bytes: &[u8]| format!("bytes {}\n", letters::hexadecimal(bytes));
    job.chunks(job::RECORD).map(row).collect()
}

/// A record as a line of a text.
fn line(record: &Record) -> String {
    match record.call() {
        Some(call) if wrong_field(record).is_none() => call_line(&call),
        _ => record_words(record),
    }
}

fn call_line(call: &Call) -> String {
    match call {
        Call::Reset { boot } => {
            format!("reset {}", ["flash", "system", "ram"][*boot as usize % 3])
        }
        Call::On => "on".into(),
        Call::Off => "off".into(),
        Call::Read(access) => format!("read {}", access_words(access)),
        Call::Fetch { address } => format!("fetch {}", place_words(*address)),
        Call::Write(access, value) => {
            format!("write {} 0x{}", access_words(access), hexadecimal(access.width, *value))
        }
        Call::Pass { us } => format!("pass {} us", plain((*us).into())),
        Call::Wait { ms } => format!("wait {} ms", plain((*ms).into())),
    }
}

fn access_words(access: &Access) -> String {
    let who = if access.who == 0 { "cpu" } else { "debugger" };
    format!("{who} {} {}", access.width, place_words(access.address))
}

fn place_words(address: u32) -> String {
    map::register_name(address).unwrap_or_else(|| format!("0x{}", hexadecimal(4, address.into())))
}

/// A record that no call has, field by field.
fn record_words(record: &Record) -> String {
    let fields: [(&str, u64); 4] = [
        ("kind", record.kind.into()),
        ("who", record.who.into()),
        ("width", record.width.into()),
        ("zero", record.zero.into()),
    ];
    let mut words: Vec<String> = fields
        .iter()
        .filter(|(name, value)| *name == "kind" || *value != 0)
        .map(|(name, value)| format!("{name} {value}"))
        .collect();
    if record.number != 0 {
        words.push(format!("number 0x{}", hexadecimal(4, record.number.into())));
    }
    if record.value != 0 {
        words.push(format!("value 0x{}", hexadecimal(8, record.value)));
    }
    format!("record {}", words.join(" "))
}

#[cfg(test)]
mod tests {
    use super::*;
    use crate::job_writer;
    use crate::text;

    /// Text to job to text, and job to text to job.
    fn there_and_back(job: &[u8]) {
        let text = written(job);
        let read = text::read(text.as_bytes()).unwrap_or_else(|f| panic!("{f:?} in {text}"));
        assert_eq!(read.job, job, "{text}");
        assert_eq!(written(&read.job), text);
    }

    #[test]
    fn each_kind_of_call_has_its_line() {
        let lines = "reset flash\nreset system\nreset ram\non\noff\nread cpu 1 0x08000000\n\
                     read debugger 8 OPTCR+1\nwrite debugger 2 CR+2 0x0001\n\
                     write cpu 8 0x1FFF7800 0x0123456789ABCDEF\npass 1000 us\n\
                     wait 120_000 ms\npass 4_294_967_295 us\nfetch 0x0800000E\nfetch CR+1\n";
        let read = text::read(lines.as_bytes()).expect("a text");
        assert_eq!(written(&read.job), lines);
        there_and_back(&read.job);
    }

    #[test]
    fn a_head_alone_says_its_count() {
        for (head, text) in [
            ([0x46, 0x4A, 0x42, 1, 0, 0, 0], "count 0\n"),
            ([0x46, 0x4A, 0x42, 1, 0, 2, 0], "count 2\n"),
            ([0x46, 0x4A, 0x43, 2, 0, 0, 0], "mark 46 4A 43\nversion 2\ncount 0\n"),
        ] {
            assert_eq!(written(&head), text);
            there_and_back(&head);
        }
    }

    #[test]
    fn any_bytes_come_back() {
        // A generator of bytes (a shift register), the same in every run.
        let mut state = 0x2545_F491_4F6C_DD1D_u64;
        let mut next = || {
            state ^= state << 13;
            state ^= state >> 7;
            state ^= state << 17;
            state
        };
        for _ in 0..2_000 {
            let length = (next() % 120) as usize;
            let mut job: Vec<u8> = (0..length).map(|_| next() as u8 & next() as u8).collect();
            if next() % 4 != 0 {
                job.splice(..length.min(5), [0x46, 0x4A, 0x42, 1, 0]);
            }
            there_and_back(&job);
            // Records that are nearly sound, under a right head.
            let record = |n: u64| Record {
                kind: (n % 9) as u8,
                who: (n >> 8 & 1) as u8,
                width: [0, 1, 2, 4, 8, 3][(n >> 16) as usize % 6],
                zero: u8::from(n >> 24 & 15 == 0),
                number: [0, 1, 2, 3, 0x4002_3C11, 0x0800_0000][(n >> 32) as usize % 6],
                value: [0, 1, 0xFF, 0x100, 0x1_0000_0000][(n >> 40) as usize % 5],
            };
            let records: Vec<Record> = (0..next() % 5).map(|_| record(next())).collect();
            there_and_back(&job_writer::file(&records));
        }
    }
}
