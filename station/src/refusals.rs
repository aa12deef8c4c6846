//! Why the job run refuses a whole job, with what was found. Which number it is
//! comes from the job run; here stands what to look at.

use crate::job::{self, Record};
use crate::letters;
use crate::number::{counted, decimal};

/// What each kind is called, and which fields it uses.
struct Kind {
    name: &'static str,
    access: Access,
    number: bool,
    value: bool,
}

/// The values that who and width may have, and how they are said.
struct Access {
    who: (&'static [u8], &'static str),
    width: (&'static [u8], &'static str),
}

const UNUSED: (&[u8], &str) = (&[0], "");
const NONE: Access = Access { who: UNUSED, width: UNUSED };
const ANY: Access = Access { who: (&[0, 1], "0 or 1"), width: (&[1, 2, 4, 8], "1, 2, 4 or 8") };
const FETCH: Access = Access { who: (&[0], "0"), width: (&[4], "4") };

const fn kind(name: &'static str, access: Access, number: bool, value: bool) -> Kind {
    Kind { name, access, number, value }
}

const KINDS: [Kind; 8] = [
    kind("reset", NONE, true, false),
    kind("debugger on", NONE, false, false),
    kind("debugger off", NONE, false, false),
    kind("read", ANY, true, false),
    kind("write", ANY, true, true),
    kind("pass", NONE, true, false),
    kind("wait", NONE, true, false),
    kind("fetch", FETCH, true, false),
];

pub fn refusal_words(number: u32, job: &[u8]) -> String {
    let reason = match number {
        3 => head(job),
        4 => length(job),
        5 => malformed(job),
        _ => "the buffers that this program lends don't fit".into(),
    };
    format!("refused {number}: {reason}")
}

fn few(job: &[u8], least: &str) -> String {
    format!("the job has {}, fewer than {least}", counted(job.len(), "byte"))
}

/// 3: the first of length, mark and version that is wrong.
fn head(job: &[u8]) -> String {
    if job.len() < 5 {
        return few(job, "5");
    }
    if !job.starts_with(job::MARK) {
        return format!("the mark is {}, not 46 4A 42", letters::hexadecimal(&job[..3]));
    }
    let version = job::little_endian(&job[3..5]);
    format!("the version is {}, not {}", decimal(version), job::VERSION)
}

/// 4: the first of head, count and length that is wrong.
fn length(job: &[u8]) -> String {
    let Some(count) = job::count(job) else {
        return few(job, "the 7 of a head");
    };
    if count > job::MOST_CALLS {
        let most = counted(job::MOST_CALLS, "call");
        return format!("the count is {}; a job has at most {most}", decimal(count as u64));
    }
    // As a job stands that was appended to: the count comes with the close.
    if count == 0 {
        let behind = counted(job.len() - job::HEAD, "byte");
        return format!("the count is 0, with {behind} behind the head: was the job closed?");
    }
    let need = if count == 1 { "needs" } else { "need" };
    let bytes = counted(job::length(count), "byte");
    let found = decimal(job.len() as u64);
    format!("{} {need} {bytes}, the job has {found}", counted(count, "record"))
}

/// The first malformed record, from 0.
pub fn first_malformed(job: &[u8]) -> Option<usize> {
    job::records(job).iter().position(|record| wrong_field(record).is_some())
}

/// 5: the first malformed record.
fn malformed(job: &[u8]) -> String {
    let found = first_malformed(job).and_then(|i| Some((i, wrong_field(&job::records(job)[i])?)));
    match found {
        Some((i, fault)) => format!("record {}: field {fault}", decimal(i as u64 + 1)),
        None => "a record is malformed".into(),
    }
}

/// The first wrong field of a record, in the record's order, and what it may
/// be; None for a sound one.
pub fn wrong_field(record: &Record) -> Option<String> {
    let Some(kind) = KINDS.get(usize::from(record.kind)) else {
        return Some(format!("kind is {}, not 0 to {}", record.kind, KINDS.len() - 1));
    };
    let unused = |field| Some(format!("{field} is not used by {} and must be 0", kind.name));
    let limited =
        |field, found: u64, limits| Some(format!("{field} is {}, not {limits}", decimal(found)));
    let Access { who, width } = kind.access;
    for (field, found, (values, limits)) in
        [("who", record.who, who), ("width", record.width, width)]
    {
        if !values.contains(&found) && limits.is_empty() {
            return unused(field);
        }
        if !values.contains(&found) {
            return limited(field, found.into(), limits);
        }
    }
    if record.zero != 0 {
        return limited("zero", record.zero.into(), "0");
    }
    if !kind.number && record.number != 0 {
        return unused("number");
    }
    if record.kind == 0 && record.number > 2 {
        return limited("number (boot)", record.number.into(), "0, 1 or 2");
    }
    if !kind.value && record.value != 0 {
        return unused("value");
    }
    let too_big = record.width < 8 && record.value >> (8 * u32::from(record.width)) != 0;
    if kind.value && too_big {
        let width = counted(record.width.into(), "byte");
        return Some(format!("value is too big for {width}"));
    }
    None
}
