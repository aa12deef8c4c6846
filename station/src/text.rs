//! Jobs as text: a call on a line, its answer behind an arrow where one is
//! expected. docs/OPERATORS.md has the form; writing.rs is the way back.

use crate::grammar::{self, fault, Judged};
use crate::job::{self, Answer, Call, Record};
use crate::job_writer;
use crate::letters;
use crate::number;

/// What is wrong with a line, for people: the word that it is about, and what
/// is wanted there.
#[derive(Debug, PartialEq, Eq)]
pub struct Fault {
    pub line: usize,
    pub word: String,
    pub wanted: String,
}

/// What a text expects of a call: its answer, for a reset that is done whether it
/// cuts a running operation, and for a read or fetch whether its bytes are stale.
#[derive(Clone, Copy, Debug, PartialEq, Eq)]
pub struct Expected {
    pub answer: Answer,
    pub cuts: bool,
    pub stale: bool,
}

/// A job as its text has it.
#[derive(Debug, Default, PartialEq, Eq)]
pub struct Text {
    pub job: Vec<u8>,
    /// The line of each call, and the answer expected there.
    pub calls: Vec<(usize, Option<Expected>)>,
    /// The number with which the whole job is to be refused, and its line.
    pub refused: Option<(usize, u64)>,
}

/// A line without its comment: the words before the arrow, and those behind it
/// where there is one.
struct Line<'a> {
    number: usize,
    words: Vec<&'a str>,
    answer: Option<Vec<&'a str>>,
}

impl<'a> Line<'a> {
    /// None for a line without words.
    fn of(number: usize, text: &'a str) -> Option<Line<'a>> {
        let text = text.split('#').next().unwrap_or("").trim();
        if text.is_empty() {
            return None;
        }
        let (words, answer) = match text.split_once("->") {
            Some((words, answer)) => (words, Some(answer.split_whitespace().collect())),
            None => (text, None),
        };
        Some(Line { number, words: words.split_whitespace().collect(), answer })
    }

    /// `-> refused N`, without a call, is of the whole job.
    fn refusal(&self) -> Option<u64> {
        match (self.words.as_slice(), self.answer.as_deref()) {
            ([], Some(["refused", n])) => number::parse(n).ok(),
            _ => None,
        }
    }

    fn judged<T>(&self, judged: Judged<T>) -> Result<T, Fault> {
        judged.map_err(|(word, wanted)| Fault { line: self.number, word, wanted })
    }
}

const MOST_COUNTED: usize = 0xFFFF;

/// The job of a text. A text that expects its job to be refused may have more
/// calls than a job.
pub fn read(bytes: &[u8]) -> Result<Text, Fault> {
    let characters = letters::characters(bytes).map_err(|stray| Fault {
        line: stray.line,
        word: stray.bytes,
        wanted: stray.wanted.into(),
    })?;
    let lines = || (1..).zip(characters.lines()).filter_map(|(n, text)| Line::of(n, text));
    let refused = lines().any(|line| line.refusal().is_some());
    let most = if refused { MOST_COUNTED } else { job::MOST_CALLS };
    let mut reading = Reading { most, ..Reading::default() };
    let mut block: Option<Block> = None;
    for line in lines() {
        match (line.words.first().copied(), block.take()) {
            (Some("repeat"), opened) => block = Some(line.judged(Block::begin(&line, opened))?),
            (Some("end"), opened) => {
                let block = line.judged(Block::end(&line, opened))?;
                reading.repeat(&block)?;
            }
            (_, Some(opened)) => block = Some(opened.with(line, most)?),
            (_, None) => reading.take(&line)?,
        }
    }
    match block {
        Some(block) => block.fault("there is no end behind it"),
        None => reading.text(characters.lines().count().max(1)),
    }
}

/// The lines between `repeat N` and `end`.
struct Block<'a> {
    start: usize,
    times: u64,
    lines: Vec<Line<'a>>,
}

impl<'a> Block<'a> {
    fn begin(line: &Line<'a>, opened: Option<Block>) -> Judged<Block<'a>> {
        if opened.is_some() {
            return fault("repeat", "a repeat can't stand inside another one");
        }
        let [_, times] = line.words.as_slice() else {
            return fault("repeat", REPEAT);
        };
        if line.answer.is_some() {
            return fault("->", REPEAT);
        }
        match number::parse(times) {
            Ok(0) => fault(times, format!("that is no call; {REPEAT}")),
            Ok(times) => Ok(Block { start: line.number, times, lines: Vec::new() }),
            Err(why) => fault(times, format!("{why}; {REPEAT}")),
        }
    }

    fn end(line: &Line, opened: Option<Block<'a>>) -> Judged<Block<'a>> {
        let Some(block) = opened else {
            return fault("end", "there is no repeat before it");
        };
        match (line.words.get(1), &line.answer) {
            (Some(word), _) => fault(word, "end stands alone"),
            (None, Some(_)) => fault("->", "end stands alone"),
            (None, None) => Ok(block),
        }
    }

    fn with(mut self, line: Line<'a>, most: usize) -> Result<Block<'a>, Fault> {
        if self.lines.len() == most {
            return self.fault(&format!("more lines than a job has calls, {}", decimal(most)));
        }
        self.lines.push(line);
        Ok(self)
    }

    fn fault<T>(&self, wanted: &str) -> Result<T, Fault> {
        Err(Fault { line: self.start, word: "repeat".into(), wanted: wanted.into() })
    }
}

const REPEAT: &str = "repeat wants a number and nothing else, as in: repeat 10";

const NO_CALL: &str = "there is no call in this text; a job of no calls says: count 0";

fn decimal(n: usize) -> String {
    number::decimal(n as u64)
}

/// A text as far as it is read, damages included.
#[derive(Default)]
struct Reading {
    most: usize,
    records: Vec<Record>,
    calls: Vec<(usize, Option<Expected>)>,
    refused: Option<(usize, u64)>,
    answered: bool,
    mark: Option<Vec<u8>>,
    version: Option<u16>,
    count: Option<u16>,
    cut: Option<u64>,
    added: Option<u64>,
    whole: Option<Vec<u8>>,
    /// The line of the first damage but `bytes`.
    damaged: Option<usize>,
}

impl Reading {
    fn repeat(&mut self, block: &Block) -> Result<(), Fault> {
        if block.lines.is_empty() {
            return block.fault("nothing stands between it and its end");
        }
        if block.lines.len() as u128 * u128::from(block.times) > self.most as u128 {
            let (times, most) = (number::decimal(block.times), decimal(self.most));
            let lines = number::counted(block.lines.len(), "line");
            return block.fault(&format!("{times} times {lines}; a job has at most {most} calls"));
        }
        for _ in 0..block.times {
            block.lines.iter().try_for_each(|line| self.take(line))?;
        }
        Ok(())
    }

    fn take(&mut self, line: &Line) -> Result<(), Fault> {
        line.judged(self.judge(line))
    }

    fn judge(&mut self, line: &Line) -> Judged<()> {
        let Some(first) = line.words.first() else {
            return self.take_refusal(line);
        };
        let Some(record) = grammar::call(&line.words)? else {
            if line.answer.is_some() {
                return fault(first, format!("only calls have answers; {}", grammar::CALLS));
            }
            return self.take_damage(line);
        };
        if self.records.len() == self.most {
            let most = decimal(self.most);
            return fault(first, format!("one call too many; a job has at most {most} calls"));
        }
        let expected = line.answer.as_deref().map(|words| expected(words, &record)).transpose()?;
        self.answered |= expected.is_some();
        self.records.push(record);
        self.calls.push((line.number, expected));
        Ok(())
    }

    fn take_refusal(&mut self, line: &Line) -> Judged<()> {
        match line.refusal() {
            Some(number) => once(&mut self.refused, "refused", (line.number, number)),
            None => fault("->", "an answer without a call is that of a whole job: -> refused 4"),
        }
    }

    /// A line that damages the job.
    fn take_damage(&mut self, line: &Line) -> Judged<()> {
        let [word, rest @ ..] = line.words.as_slice() else {
            return Ok(());
        };
        if *word == "bytes" {
            self.whole.get_or_insert_with(Vec::new).extend(grammar::byte_list(rest)?);
            return Ok(());
        }
        match *word {
            "mark" => once(&mut self.mark, word, grammar::byte_list(rest)?)?,
            "version" => once(&mut self.version, word, one(word, "a version", rest, 16)? as u16)?,
            "count" => once(&mut self.count, word, one(word, "a count", rest, 16)? as u16)?,
            "cut" => once(&mut self.cut, word, one(word, "a length", rest, 20)?)?,
            "add" => once(&mut self.added, word, one(word, "a length", rest, 20)?)?,
            _ => return fault(word, format!("this word begins no line; {}", grammar::CALLS)),
        }
        self.damaged.get_or_insert(line.number);
        Ok(())
    }

    /// The job; `last` is the number of the text's last line.
    fn text(self, last: usize) -> Result<Text, Fault> {
        let whole = |line, word: &str, wanted: &str| {
            Err(Fault { line, word: word.to_string(), wanted: wanted.to_string() })
        };
        if let (Some((line, _)), true) = (self.refused, self.answered) {
            return whole(line, "->", "a job that is refused as a whole has no answers to calls");
        }
        let beside = self.calls.first().map(|(line, _)| *line).or(self.damaged);
        if let (Some(_), Some(line)) = (&self.whole, beside) {
            return whole(line, "", "a job that is given by its bytes has no other lines");
        }
        // Its count or its bytes say that none is missing.
        let meant = self.whole.is_some() || self.count.is_some();
        if self.records.is_empty() && !meant {
            return whole(last, "", NO_CALL);
        }
        Ok(Text { job: self.job(), calls: self.calls, refused: self.refused })
    }

    /// The job that the writer makes of the calls, with the damages laid over it.
    fn job(&self) -> Vec<u8> {
        if let Some(whole) = &self.whole {
            return whole.clone();
        }
        let mut job = job_writer::file(&self.records);
        if let Some(count) = self.count {
            job::lay_count(&mut job, count);
        }
        if let Some(version) = self.version {
            job[3..5].copy_from_slice(&version.to_le_bytes());
        }
        if let Some(mark) = &self.mark {
            job.splice(..3, mark.iter().copied());
        }
        job.truncate(job.len().saturating_sub(self.cut.unwrap_or(0) as usize));
        job.resize(job.len() + self.added.unwrap_or(0) as usize, 0);
        job
    }
}

fn expected(words: &[&str], record: &Record) -> Judged<Expected> {
    let done = |rest: &[&str]| grammar::answer(&[&["done"], rest].concat());
    let (answer, cuts, stale) = match (words, record.call()) {
        (["cuts"], Some(Call::Reset { .. })) => (done(&[])?, true, false),
        (["cuts"], _) => return fault("cuts", "only a reset cuts an operation"),
        (["stale", rest @ ..], Some(Call::Read(_) | Call::Fetch { .. })) => {
            (done(rest)?, false, true)
        }
        (["stale", ..], _) => return fault("stale", "only a read or a fetch is stale"),
        _ => (grammar::answer(words)?, false, false),
    };
    Ok(Expected { answer, cuts, stale })
}

/// What a text says once at most.
fn once<T>(place: &mut Option<T>, word: &str, value: T) -> Judged<()> {
    match place.replace(value) {
        Some(_) => fault(word, "this is given twice"),
        None => Ok(()),
    }
}

/// The one number behind a word.
fn one(word: &str, what: &str, rest: &[&str], bits: u32) -> Judged<u64> {
    let form = format!("{word} wants one number");
    match *rest {
        [number] => grammar::bits(number, what, bits, &form),
        _ => fault(rest.get(1).unwrap_or(&word), form),
    }
}

#[cfg(test)]
mod tests {
    use super::*;

    /// Line, word and what is wanted.
    fn said(text: &str) -> (usize, String, String) {
        let fault = read(text.as_bytes()).expect_err(text);
        (fault.line, fault.word, fault.wanted)
    }

    /// For each text, put behind these lines: the word that is named, and how
    /// what is wanted begins.
    fn each(before: &str, cases: &[(&str, &str, &str)]) {
        for (text, word, says) in cases {
            let (line, found, wanted) = said(&format!("{before}{text}"));
            assert_eq!((line, found.as_str()), (1 + before.lines().count(), *word), "{text}");
            assert!(wanted.starts_with(says), "{text}: {wanted}");
        }
    }

    #[test]
    fn the_unit_comes_first() {
        let cases = [
            ("wait 60000 us", "us", "waits are in ms; wait wants a number and ms"),
            ("wait 5 s", "s", "waits are in ms; wait wants a number and ms"),
            ("wait many us", "us", "waits are in ms; wait wants a number and ms"),
            ("wait 60000", "60000", "the unit is missing: waits are in ms"),
            ("wait 500ms", "500ms", "waits are in ms; wait wants a number and ms"),
            ("wait many ms", "many", "not a number; wait wants a number and ms"),
            ("wait", "wait", "wait wants a number and ms"),
            ("wait 1 ms long", "long", "wait wants a number and ms"),
            ("pass 500 ms", "ms", "passes are in us; pass wants a number and us"),
            ("pass 500", "500", "the unit is missing: passes are in us"),
            ("pass 4_294_967_296 us", "4_294_967_296", "a time has at most 32 bits"),
        ];
        each("# a comment\n", &cases);
    }

    #[test]
    fn each_call_says_what_it_wants() {
        let cases = [
            ("reset", "reset", "reset wants flash, system or ram"),
            ("reset rom", "rom", "reset wants flash, system or ram"),
            ("on now", "now", "on stands alone"),
            ("off 1", "1", "off stands alone"),
            ("read cpu 4", "read", "read wants cpu or debugger, a width and an address"),
            ("read cpu 4 CR 5", "5", "read wants cpu or debugger"),
            ("read jtag 4 CR", "jtag", "read wants cpu or debugger"),
            ("read cpu 3 CR", "3", "a width is 1, 2, 4 or 8; read wants"),
            ("read cpu x CR", "x", "not a number; read wants cpu or debugger"),
            ("read cpu 4 08000000", "08000000", "not a decimal number; a hexadecimal one has 0x"),
            (
                "read cpu 4 CRR",
                "CRR",
                "neither a number nor ACR, KEYR, OPTKEYR, SR, CR or OPTCR; read wants",
            ),
            ("read cpu 4 0x1FFFFFFFF", "0x1FFFFFFFF", "an address has at most 32 bits"),
            ("read cpu 1 CR+x", "CR+x", "a register has the bytes CR and CR+1 to CR+3; read wants"),
            ("read cpu 1 CR+4", "CR+4", "a register has the bytes CR and CR+1 to CR+3; read wants"),
            ("fetch", "fetch", "fetch wants an address, as in: fetch 0x08000000"),
            ("fetch cpu 4 0x08000000", "4", "fetch wants an address"),
            ("fetch 08000000", "08000000", "not a decimal number; a hexadecimal one has 0x"),
            ("fetch 0x123456789", "0x123456789", "an address has at most 32 bits; fetch wants"),
            ("write cpu 4 CR", "write", "write wants cpu or debugger, a width, an address and"),
            ("write cpu 1 CR 256", "256", "too big for 1 byte"),
            ("write cpu 4 CR 0x100000000", "0x100000000", "too big for 4 bytes"),
            ("write cpu 8 CR 99999999999999999999", "99999999999999999999", "above 64 bits; write"),
            ("write cpu 4 CR 0xG", "0xG", "not a number; write wants"),
            ("write cpu 4 CR CDEF89AB", "CDEF89AB", "not a decimal number; a hexadecimal one has"),
            ("wirte cpu 4 CR 1", "wirte", "this word begins no line; a line begins with reset"),
            ("record kind", "kind", "record wants pairs of a field"),
            ("record sort 1", "sort", "record wants pairs of a field"),
            ("record kind 1 kind 2", "kind", "this field is given twice"),
            ("record kind 256", "256", "kind has at most 8 bits"),
            ("record", "record", "record wants pairs of a field"),
            ("version 65536", "65536", "a version has at most 16 bits"),
            ("count", "count", "count wants one number"),
            ("bytes 46 4", "4", "bytes are pairs of hexadecimal digits"),
            ("add 2000000", "2000000", "a length has at most 20 bits"),
            ("count 1 2", "2", "count wants one number"),
        ];
        each("reset flash\n\n", &cases);
    }

    #[test]
    fn answers_say_what_they_want() {
        let cases = [
            ("on -> doen", "doen", "not a number; an answer is done or a refusal's number"),
            ("on ->", "->", "an answer is done or a refusal's number"),
            ("on -> done 1 2", "2", "an answer is done or a refusal's number"),
            ("on -> done x", "x", "not a number; an answer is done or a refusal's number"),
            ("-> done", "->", "an answer without a call is that of a whole job"),
            ("count 4 -> done", "count", "only calls have answers"),
            ("on -> 256", "256", "a refusal's number has at most 8 bits; an answer is done or"),
            ("on -> cuts", "cuts", "only a reset cuts an operation"),
            ("on -> stale 1", "stale", "only a read or a fetch is stale"),
            ("fetch 0 -> stale 1 2", "2", "an answer is done or a refusal's number"),
        ];
        each("", &cases);
        let (line, _, wanted) = said("on -> done\n-> refused 4");
        assert_eq!((line, wanted.contains("no answers to calls")), (2, true));
        assert_eq!(said("bytes 46\non").0, 2);
        assert_eq!(said("version 2\nbytes 46").0, 1);
        let twice = ["count 1\ncount 2\non", "-> refused 4\n-> refused 5\non"];
        assert!(twice.iter().all(|text| said(text).2 == "this is given twice"));
    }

    #[test]
    fn repeats_are_judged_at_their_own_line() {
        for (text, line, says) in [
            ("on\nrepeat 3\noff", 2, "there is no end behind it"),
            ("on\nend", 2, "there is no repeat before it"),
            ("repeat 2\nrepeat 2\non\nend\nend", 2, "a repeat can't stand inside another one"),
            ("repeat\non\nend", 1, "repeat wants a number and nothing else"),
            ("repeat x\non\nend", 1, "not a number; repeat wants a number"),
            ("repeat 0\non\nend", 1, "that is no call; repeat wants a number"),
            ("repeat 18446744073709551615\n# nothing\nend", 1, "nothing stands between it"),
            ("repeat 2\non\nend 2", 3, "end stands alone"),
            ("repeat 2001\non\nend", 1, "2,001 times 1 line; a job has at most 2,000 calls"),
            ("repeat 18446744073709551615\non\noff\nend", 1, "18,446,744,073,709,551,615 times"),
        ] {
            let (found, _, wanted) = said(text);
            assert_eq!(found, line, "{text}");
            assert!(wanted.starts_with(says), "{text}: {wanted}");
        }
        let long = format!("on\nrepeat 2000\noff\nend\n{}", "on\n".repeat(3));
        let (line, _, wanted) = said(&long);
        assert_eq!(line, 3, "the 2,001st call is the last off of the block");
        assert!(wanted.starts_with("one call too many; a job has at most 2,000 calls"));
        assert_eq!(said(&"on\n".repeat(2_001)).0, 2_001);
    }

    #[test]
    fn a_text_without_a_call_is_none() {
        assert_eq!(said(""), (1, String::new(), NO_CALL.into()));
        assert_eq!(said("# nothing\n\n").0, 2);
        assert_eq!(said("version 2\n-> refused 3").2, NO_CALL);
        let head = [0x46, 0x4A, 0x42, 0x01, 0x00, 0x00, 0x00];
        assert_eq!(read(b"# nothing\ncount 0\n").map(|text| text.job), Ok(head.into()));
        assert_eq!(said("on\nof\0f").1, "00");
    }

    #[test]
    fn what_editors_and_people_write_is_taken() {
        let text = "\u{FEFF}reset flash\r\n\twrite  cpu 4 CR 0xabcdef01->done # gr\u{FC}n\r\n";
        let read = read(text.as_bytes()).expect("a text");
        let done = Expected { answer: Answer { code: 0, value: 0 }, cuts: false, stale: false };
        assert_eq!(read.calls, [(1, None), (2, Some(done))]);
        assert_eq!(job::records(&read.job)[1].value, 0xABCD_EF01);
    }
}
