//! The words of one line of a text: a call, a record, an answer. What is wrong
//! is told by the word and by the form that is wanted there.

use crate::job::{Access, Answer, Call, Record};
use crate::map;
use crate::number;

/// What is wrong with a line: the word that it is about, and what is wanted.
pub type Judged<T> = Result<T, (String, String)>;

pub fn fault<T>(word: &str, wanted: impl Into<String>) -> Judged<T> {
    Err((word.to_string(), wanted.into()))
}

pub const CALLS: &str =
    "a line begins with reset, on, off, read, fetch, write, pass, wait or repeat";

/// What the words of each call have to be.
const RESET: &str = "reset wants flash, system or ram";
const READ: &str =
    "read wants cpu or debugger, a width and an address, as in: read cpu 4 0x08000000";
const FETCH: &str = "fetch wants an address, as in: fetch 0x08000000";
const WRITE: &str = "write wants cpu or debugger, a width, an address and a value, \
                     as in: write cpu 4 CR 0x00000201";
const PASS: &str = "pass wants a number and us, as in: pass 500 us";
const WAIT: &str = "wait wants a number and ms, as in: wait 500 ms";
const RECORD: &str = "record wants pairs of a field (kind, who, width, zero, number, value) \
                      and a number";
const WIDTHS: &str = "a width is 1, 2, 4 or 8";

/// The record of a line that begins with a call; None for any other line.
pub fn call(words: &[&str]) -> Judged<Option<Record>> {
    let call = match words {
        ["reset", rest @ ..] => Call::Reset { boot: boot(rest)? },
        ["on", rest @ ..] => alone_after("on", rest, Call::On)?,
        ["off", rest @ ..] => alone_after("off", rest, Call::Off)?,
        ["read", rest @ ..] => {
            let [who, width, place] = rest else {
                return fault(misfit(rest, 3, "read"), READ);
            };
            Call::Read(access(who, width, place, READ)?)
        }
        ["fetch", rest @ ..] => {
            let [place] = rest else {
                return fault(misfit(rest, 1, "fetch"), FETCH);
            };
            Call::Fetch { address: address(place, FETCH)? }
        }
        ["write", rest @ ..] => {
            let [who, width, place, value] = rest else {
                return fault(misfit(rest, 4, "write"), WRITE);
            };
            let access = access(who, width, place, WRITE)?;
            Call::Write(access, fitting(value, access.width)?)
        }
        ["pass", rest @ ..] => Call::Pass { us: time(rest, "passes", "us", PASS)? },
        ["wait", rest @ ..] => Call::Wait { ms: time(rest, "waits", "ms", WAIT)? },
        ["record", rest @ ..] => return Ok(Some(record(rest)?)),
        _ => return Ok(None),
    };
    Ok(Some(call.record()))
}

/// The word that a count of words is wrong at: the first that is too many, or
/// the call's own where one is missing.
fn misfit<'a>(words: &[&'a str], wanted: usize, call: &'a str) -> &'a str {
    words.get(wanted).copied().unwrap_or(call)
}

fn alone_after(name: &str, rest: &[&str], call: Call) -> Judged<Call> {
    match rest.first() {
        Some(word) => fault(word, format!("{name} stands alone")),
        None => Ok(call),
    }
}

fn boot(words: &[&str]) -> Judged<u32> {
    match words {
        ["flash"] => Ok(0),
        ["system"] => Ok(1),
        ["ram"] => Ok(2),
        _ => fault(words.last().unwrap_or(&"reset"), RESET),
    }
}

fn access(who: &str, width: &str, place: &str, form: &str) -> Judged<Access> {
    let who = match who {
        "cpu" => 0,
        "debugger" => 1,
        _ => return fault(who, form),
    };
    let width = match number_in(width, form)? {
        bytes @ (1 | 2 | 4 | 8) => bytes as u8,
        _ => return fault(width, format!("{WIDTHS}; {form}")),
    };
    Ok(Access { who, width, address: address(place, form)? })
}

fn number_in(word: &str, form: &str) -> Judged<u64> {
    number::parse(word).or_else(|why| fault(word, format!("{why}; {form}")))
}

/// A number of at most so many bits.
pub fn bits(word: &str, what: &str, bits: u32, form: &str) -> Judged<u64> {
    match number_in(word, form)? {
        value if value >> bits == 0 => Ok(value),
        _ => fault(word, format!("{what} has at most {bits} bits; {form}")),
    }
}

/// A number, a register, or a byte of one as in CR+2.
fn address(word: &str, form: &str) -> Judged<u32> {
    let (name, lane) = word.split_once('+').unwrap_or((word, "0"));
    let Some(base) = map::register_named(name) else {
        if !word.starts_with(|c: char| c.is_ascii_digit()) {
            return fault(word, format!("neither a number nor {}; {form}", map::register_names()));
        }
        return Ok(bits(word, "an address", 32, form)? as u32);
    };
    match number::parse(lane) {
        Ok(lane @ 0..=3) => Ok(base + lane as u32),
        _ => {
            fault(word, format!("a register has the bytes {name} and {name}+1 to {name}+3; {form}"))
        }
    }
}

fn fitting(word: &str, width: u8) -> Judged<u64> {
    let value = number_in(word, WRITE)?;
    if width < 8 && value >> (8 * u32::from(width)) != 0 {
        let width = number::counted(width.into(), "byte");
        return fault(word, format!("too big for {width}; {WRITE}"));
    }
    Ok(value)
}

/// The unit is judged before the number: it is the mistake that costs most.
fn time(words: &[&str], calls: &str, unit: &str, form: &str) -> Judged<u32> {
    match *words {
        [time, word] if word == unit => Ok(bits(time, "a time", 32, form)? as u32),
        [_, word, ..] if word != unit => fault(word, format!("{calls} are in {unit}; {form}")),
        [_, _, word, ..] => fault(word, form),
        [time] if number::parse(time).is_ok() => {
            fault(time, format!("the unit is missing: {calls} are in {unit}; {form}"))
        }
        [time] => fault(time, format!("{calls} are in {unit}; {form}")),
        _ => fault(form.split(' ').next().unwrap_or(""), form),
    }
}

pub fn byte_list(words: &[&str]) -> Judged<Vec<u8>> {
    let byte = |word: &&str| {
        let pair = word.len() == 2 && word.bytes().all(|b| b.is_ascii_hexdigit());
        match pair.then(|| u8::from_str_radix(word, 16).ok()).flatten() {
            Some(byte) => Ok(byte),
            None => fault(word, "bytes are pairs of hexadecimal digits, as in: 46 4A 42"),
        }
    };
    words.iter().map(byte).collect()
}

/// A record field by field, sound or not; a field that is not named is 0.
fn record(words: &[&str]) -> Judged<Record> {
    let mut record = Record::default();
    let mut named = Vec::new();
    for pair in words.chunks(2) {
        let [name, value] = *pair else {
            return fault(pair[0], RECORD);
        };
        if named.contains(&name) {
            return fault(name, format!("this field is given twice; {RECORD}"));
        }
        named.push(name);
        match name {
            "kind" => record.kind = bits(value, name, 8, RECORD)? as u8,
            "who" => record.who = bits(value, name, 8, RECORD)? as u8,
            "width" => record.width = bits(value, name, 8, RECORD)? as u8,
            "zero" => record.zero = bits(value, name, 8, RECORD)? as u8,
            "number" => record.number = bits(value, name, 32, RECORD)? as u32,
            "value" => record.value = number_in(value, RECORD)?,
            _ => return fault(name, RECORD),
        }
    }
    if named.is_empty() {
        return fault("record", RECORD);
    }
    Ok(record)
}

const ANSWER: &str = "an answer is done or a refusal's number, and a value where it is not 0, \
                      as in: -> done 0x10000";

/// The words behind an arrow.
pub fn answer(words: &[&str]) -> Judged<Answer> {
    let (code, value) = match *words {
        [code] => (code, "0"),
        [code, value] => (code, value),
        _ => return fault(words.get(2).unwrap_or(&"->"), ANSWER),
    };
    let code = if code == "done" { 0 } else { bits(code, "a refusal's number", 8, ANSWER)? as u8 };
    Ok(Answer { code, value: number_in(value, ANSWER)? })
}
