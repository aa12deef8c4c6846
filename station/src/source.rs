//! Jobs as they are handed in: a job file or a text, told apart by content.

use crate::job;
use crate::letters;
use crate::text::{self, Expected, Fault};
use crate::whole;
use std::ffi::OsStr;
use std::fs::File;
use std::io::Read;
use std::path::Path;

/// More than any text of 2,000 calls needs; an endless input ends here.
const LONGEST: u64 = 4 << 20;

pub struct Source {
    pub name: String,
    pub job: Vec<u8>,
    pub is_text: bool,
    /// The line of each call and the answer expected there; empty for a job
    /// file.
    pub calls: Vec<(usize, Option<Expected>)>,
    /// The line and the number of the refusal that is expected of the whole job.
    pub refused: Option<(usize, u64)>,
}

impl Source {
    pub fn read(path: &OsStr) -> Result<Source, String> {
        if path.is_empty() {
            return Err("the name of a job is empty".into());
        }
        let bytes = bytes(path).map_err(|error| whole::message(Path::new(path), &error))?;
        Source::of(path.to_string_lossy().into_owned(), bytes)
    }

    pub fn of(name: String, bytes: Vec<u8>) -> Result<Source, String> {
        if is_job(&bytes) {
            return Ok(Source {
                name,
                job: bytes,
                is_text: false,
                calls: Vec::new(),
                refused: None,
            });
        }
        match text::read(&bytes) {
            Ok(text::Text { job, calls, refused }) => {
                Ok(Source { name, job, is_text: true, calls, refused })
            }
            Err(fault) => Err(fault_words(&name, &fault)),
        }
    }

    /// The line of a call, numbered from 0; None for a job file.
    pub fn line(&self, call: usize) -> Option<usize> {
        self.calls.get(call).map(|(line, _)| *line)
    }

    /// The answer that a call, numbered from 0, is to get.
    pub fn expected(&self, call: usize) -> Option<Expected> {
        self.calls.get(call).and_then(|(_, expected)| *expected)
    }
}

fn bytes(path: &OsStr) -> std::io::Result<Vec<u8>> {
    let mut bytes = Vec::new();
    if path == "-" {
        std::io::stdin().take(LONGEST + 1).read_to_end(&mut bytes)?;
    } else {
        File::open(path)?.take(LONGEST + 1).read_to_end(&mut bytes)?;
    }
    if bytes.len() as u64 > LONGEST {
        return Err(std::io::Error::other(
            "longer than 4 MiB: neither a job file nor a text of one",
        ));
    }
    Ok(bytes)
}

/// A job file begins with its mark, or is the beginning of one, or has bytes in
/// its head that no text has: the version's 01 and 00 among them. UTF-16 is a
/// text, though one to be refused.
fn is_job(bytes: &[u8]) -> bool {
    let head = &bytes[..bytes.len().min(job::HEAD)];
    bytes.starts_with(job::MARK)
        || job::MARK.starts_with(bytes)
        || !letters::is_utf_16(bytes) && head.iter().any(|b| letters::is_control(*b))
}

fn fault_words(name: &str, fault: &Fault) -> String {
    if fault.word.is_empty() {
        format!("{name}:{}: {}", fault.line, fault.wanted)
    } else {
        format!("{name}:{}: {}: {}", fault.line, letters::short(&fault.word), fault.wanted)
    }
}

#[cfg(test)]
mod tests {
    use super::*;

    #[test]
    fn content_tells_a_job_from_a_text() {
        let jobs: [&[u8]; 6] =
            [b"FJB is a mark", b"", b"F", b"FJ", b"FJC\x01\0\x01\0", b"\x7FELF\x02\x01"];
        assert!(jobs.iter().all(|bytes| is_job(bytes)));
        let texts: [&[u8]; 5] =
            [b"reset flash", b"# FJB", b"on\r\n\t", b"\xFF\xFEr\0e\0", b"gr\xFCn"];
        assert!(texts.iter().all(|bytes| !is_job(bytes)));
    }
}
