//! A job on a part: its answers, what of them was not expected, and how it
//! ended.

use crate::archive;
use crate::asking;
use crate::job::{self, Answer, Call, Record};
use crate::number::{counted, decimal, hexadecimal, plain};
use crate::part::Part;
use crate::refusals;
use crate::source::Source;
use crate::stale::{self, Stale};
use crate::telling::{self, Told};
use crate::text::Expected;
use crate::times;
use crate::words::{self, History};

/// Whether an operation runs behind the last call.
#[derive(Clone, Copy, Debug, PartialEq, Eq)]
pub enum End {
    Idle,
    Busy,
    Unknown,
}

pub struct Rehearsal<'a> {
    pub source: &'a Source,
    pub main_length: usize,
    pub records: Vec<Record>,
    /// The answers, or the number with which the whole job is refused.
    pub answers: Result<Vec<Answer>, u32>,
    pub end: End,
    /// The resets that cut a running operation, from 0.
    pub cuts: Vec<usize>,
    pub stale: Vec<Stale>,
}

/// The job on the part, whose cells it changes.
pub fn rehearse<'a>(source: &'a Source, part: &mut Part) -> Rehearsal<'a> {
    let before = part.clone();
    let mut rehearsal = Rehearsal {
        source,
        main_length: part.main.len(),
        records: job::records(&source.job),
        answers: archive::run(part, &source.job),
        end: End::Idle,
        cuts: Vec::new(),
        stale: Vec::new(),
    };
    if let Ok(answers) = &rehearsal.answers {
        let (job, records) = (&source.job, &rehearsal.records);
        rehearsal.end = end(&before, job, records, answers);
        rehearsal.cuts = cuts(&before, job, records, answers);
        rehearsal.stale = stale::found(&before, job, answers);
    }
    rehearsal
}

/// A read of SR behind the last call tells it. Where no room can be made for
/// one, a wait that is done as the last call does.
fn end(before: &Part, job: &[u8], records: &[Record], answers: &[Answer]) -> End {
    match asking::is_busy(before, job, records.len()) {
        Some(true) => End::Busy,
        Some(false) => End::Idle,
        None => match (records.last().and_then(Record::call), answers.last()) {
            (Some(Call::Wait { .. }), Some(answer)) if answer.is_done() => End::Idle,
            _ => End::Unknown,
        },
    }
}

/// A read of SR before a reset tells whether the reset cuts an operation. Only
/// those resets are asked about that have a write before them and no wait that
/// was done since.
fn cuts(before: &Part, job: &[u8], records: &[Record], answers: &[Answer]) -> Vec<usize> {
    let mut cuts = Vec::new();
    let mut written = false;
    for (i, (record, answer)) in records.iter().zip(answers).enumerate() {
        let Some(call) = record.call().filter(|_| answer.is_done()) else {
            continue;
        };
        if matches!(call, Call::Wait { .. }) {
            written = false;
        }
        if matches!(call, Call::Reset { .. }) {
            if written && asking::is_busy(before, job, i) == Some(true) {
                cuts.push(i);
            }
            written = false;
        }
        written |= times::may_begin(&call);
    }
    cuts
}

/// What is not as it should be: an answer that the text doesn't expect, or a
/// refusal, a reset that cuts an operation or a stale answer, of which it says
/// nothing.
pub struct Fault {
    /// The call, from 0; None for the job as a whole.
    pub call: Option<usize>,
    pub line: Option<usize>,
    /// Whether the line of the answer alone doesn't show it.
    pub unseen: bool,
    pub words: String,
}

impl Fault {
    /// `call 5, line 9: ...`
    pub fn told(&self) -> String {
        let call = self.call.map(|call| format!("call {}", decimal(call as u64 + 1)));
        let line = self.line.map(|line| format!("line {}", decimal(line as u64)));
        let place: Vec<String> = call.into_iter().chain(line).collect();
        if place.is_empty() {
            self.words.clone()
        } else {
            format!("{}: {}", place.join(", "), self.words)
        }
    }
}

impl Rehearsal<'_> {
    pub fn calls(&self) -> Vec<Call> {
        self.records.iter().filter_map(Record::call).collect()
    }

    /// The lines of document 01.
    pub fn lines(&self) -> Vec<String> {
        match &self.answers {
            Ok(answers) => answers.iter().map(Answer::line).collect(),
            Err(number) => vec![format!("refused {number}")],
        }
    }

    /// The calls and answers in words; none where the job is refused.
    pub fn told(&self) -> Vec<Told> {
        match &self.answers {
            Ok(answers) => {
                telling::tell(self.main_length, &self.calls(), answers, |i| self.note(i))
            }
            Err(_) => Vec::new(),
        }
    }

    pub fn is_stale(&self, call: usize) -> bool {
        self.stale.iter().any(|stale| stale.call == call)
    }

    /// What is to be said of a call, from 0, beside its answer: that it cuts an
    /// operation, or that its answer is stale.
    fn note(&self, i: usize) -> Option<String> {
        if self.cuts.contains(&i) {
            return Some(CUT.into());
        }
        let stale = self.stale.iter().find(|stale| stale.call == i)?;
        Some(stale::words(&self.records[i].call()?, stale.cells))
    }

    /// Why the job as a whole is refused.
    pub fn refusal(&self) -> Option<String> {
        let number = *self.answers.as_ref().err()?;
        Some(refusals::refusal_words(number, &self.source.job))
    }

    pub fn faults(&self) -> Vec<Fault> {
        match &self.answers {
            Ok(answers) => self.call_faults(answers),
            Err(number) => self.whole_fault(*number).into_iter().collect(),
        }
    }

    fn whole_fault(&self, number: u32) -> Option<Fault> {
        let words = refusals::refusal_words(number, &self.source.job);
        match self.source.refused {
            Some((_, expected)) if expected == u64::from(number) => None,
            Some((line, expected)) => {
                let words = format!("expected refused {expected}, came {words}");
                Some(Fault { call: None, line: Some(line), unseen: true, words })
            }
            None => {
                let call = refusals::first_malformed(&self.source.job).filter(|_| number == 5);
                let line = call.and_then(|call| self.source.line(call));
                Some(Fault { call, line, unseen: false, words })
            }
        }
    }

    fn call_faults(&self, answers: &[Answer]) -> Vec<Fault> {
        let mut faults = Vec::new();
        if let Some((line, expected)) = self.source.refused {
            let came = counted(answers.len(), "answer");
            let words = format!("expected refused {expected}, came {came}");
            faults.push(Fault { call: None, line: Some(line), unseen: true, words });
            return faults;
        }
        let mut history = History::default();
        for (i, (call, answer)) in self.calls().iter().zip(answers).enumerate() {
            if let Some(words) = self.call_fault(i, call, answer, history) {
                let unseen = self.source.expected(i).is_some() || self.note(i).is_some();
                faults.push(Fault { call: Some(i), line: self.source.line(i), unseen, words });
            }
            history.after(i + 1, call, answer);
        }
        faults.extend((answers.len()..self.source.calls.len()).map(|i| self.unanswered(i)));
        faults
    }

    /// A call of a text whose damaged job doesn't have it.
    fn unanswered(&self, i: usize) -> Fault {
        let words = "no answer came".into();
        Fault { call: Some(i), line: self.source.line(i), unseen: true, words }
    }

    fn call_fault(
        &self,
        i: usize,
        call: &Call,
        answer: &Answer,
        history: History,
    ) -> Option<String> {
        let refused = !answer.is_done();
        let Some(expected) = self.source.expected(i) else {
            let told = || words::answer_words(self.main_length, call, answer, history);
            return self.note(i).or_else(|| refused.then(told));
        };
        let (cuts, stale) = (self.cuts.contains(&i), self.is_stale(i));
        let came = Expected { answer: *answer, cuts, stale };
        if expected == came {
            return None;
        }
        let reason = || words::reason(self.main_length, call, answer, history);
        let why = self.note(i).or_else(|| refused.then(reason));
        let why = why.map(|why| format!(" ({why})")).unwrap_or_default();
        let (expected, came) = (answer_text(call, expected), answer_text(call, came));
        Some(format!("expected {expected}, came {came}{why}"))
    }

    /// What else is to be known of a job that fails: that it ends busy too.
    pub fn remark(&self) -> Option<&'static str> {
        (self.end == End::Busy && !self.faults().is_empty()).then_some(BUSY)
    }

    /// The one line that says it all.
    pub fn last_line(&self) -> String {
        let faults = self.faults();
        let stale = match (self.stale.len(), faults.is_empty()) {
            (0, _) => String::new(),
            (n, true) => format!("; {}, as expected", counted(n, "stale answer")),
            (n, false) => format!("; {}", counted(n, "stale answer")),
        };
        let ended = match (faults.first(), self.end) {
            (Some(first), _) => {
                let more = match faults.len() {
                    1 => String::new(),
                    n => format!("; the first of {}", counted(n, "fault")),
                };
                format!("job failed: {}{more}", first.told())
            }
            (None, End::Busy) => format!("job not finished: {BUSY}"),
            (None, End::Idle) => format!("job OK: {}", self.done_words()),
            (None, End::Unknown) => format!("job OK: {}; {NO_ROOM}", self.done_words()),
        };
        ended + &stale
    }

    fn done_words(&self) -> String {
        let answers = match &self.answers {
            Ok(answers) => answers,
            Err(number) => return format!("refused {number} as expected"),
        };
        if answers.is_empty() {
            return "no calls".into();
        }
        let refused = answers.iter().filter(|answer| !answer.is_done()).count();
        let calls = counted(answers.len(), "call");
        if refused == 0 {
            return format!("{calls} done");
        }
        let done = decimal((answers.len() - refused) as u64);
        format!("{calls}, {done} done and {} refused as expected", decimal(refused as u64))
    }

    pub fn is_ok(&self) -> bool {
        self.faults().is_empty() && self.end != End::Busy
    }
}

const BUSY: &str = "it ends while an operation is running, so that its cells keep their old \
                    bytes; a wait at the end lets it finish";
const CUT: &str =
    "the reset cuts a running operation, and no token promises what its cells hold then";
const NO_ROOM: &str = "no room for a read of SR behind them, so an operation may still be running";

/// An answer as a text has it: bytes that are read in hexadecimal, times in
/// decimal.
fn answer_text(call: &Call, expected: Expected) -> String {
    let Expected { answer, cuts, stale } = expected;
    let code = match answer.code {
        0 if stale => "stale".into(),
        0 => "done".into(),
        number => number.to_string(),
    };
    match (call, answer.code, answer.value) {
        _ if cuts => "cuts".into(),
        (Call::Read(access), 0, value) => format!("{code} 0x{}", hexadecimal(access.width, value)),
        (Call::Fetch { .. }, 0, value) => format!("{code} 0x{}", hexadecimal(4, value)),
        (_, _, 0) => code,
        (_, 17, flag) => format!("{code} 0x{flag:X}"),
        (_, _, value) => format!("{code} {}", plain(value)),
    }
}

#[cfg(test)]
mod tests {
    use super::*;
    use crate::timings::Timings;

    const OPEN: &str = "reset flash -> done\nwrite cpu 4 KEYR 0x45670123\n\
                        write cpu 4 KEYR 0xCDEF89AB\nwrite cpu 4 CR 0x00000201\n";

    /// The last line of a text on a new part, whether all is well, and every
    /// fault.
    fn ended(text: &str) -> (String, bool, Vec<String>) {
        ended_on(&mut Part::of_rehearse(), text)
    }

    fn ended_on(part: &mut Part, text: &str) -> (String, bool, Vec<String>) {
        let source = Source::of("a.txt".into(), text.into()).expect("a text");
        let rehearsal = rehearse(&source, part);
        let faults = rehearsal.faults().iter().map(Fault::told).collect();
        (rehearsal.last_line(), rehearsal.is_ok(), faults)
    }

    #[test]
    fn a_job_that_is_done_says_so() {
        let (line, ok, _) =
            ended(&format!("{OPEN}write cpu 4 0x08000000 1\nwait 1 ms -> done 1000"));
        assert_eq!((line.as_str(), ok), ("job OK: 6 calls done", true));
        let (line, ok, _) = ended("reset flash\nread debugger 4 CR -> 15\n");
        assert_eq!(line, "job OK: 2 calls, 1 done and 1 refused as expected");
        assert!(ok);
        assert_eq!(ended("count 3\non\n-> refused 4").0, "job OK: refused 4 as expected");
    }

    #[test]
    fn a_job_of_no_calls_is_taken_and_one_that_is_not_closed_refused() {
        assert_eq!(ended("count 0"), ("job OK: no calls".into(), true, Vec::new()));
        let (line, ok, _) = ended("count 0\n-> refused 4");
        assert_eq!(line, "job failed: line 2: expected refused 4, came 0 answers");
        assert!(!ok);
        assert_eq!(
            ended("count 0\nreset flash").0,
            "job failed: refused 4: the count is 0, with 16 bytes behind the head: was the job \
             closed?"
        );
    }

    #[test]
    fn the_first_refusal_or_difference_is_told_with_its_line() {
        let text =
            format!("{OPEN}\nwrite cpu 4 0x08000000 1\nwait 1 ms -> done 16\nread debugger 4 CR");
        let (line, ok, faults) = ended(&text);
        assert_eq!(
            line,
            "job failed: call 6, line 7: expected done 16, came done 1000; the first of 2 faults"
        );
        assert!(!ok);
        assert_eq!(faults[1], "call 7, line 8: refused 15: debugger not connected");
        let (line, ..) = ended("reset flash\nread cpu 1 OPTCR+1 -> done 0xCC");
        assert_eq!(line, "job failed: call 2, line 2: expected done 0xCC, came done 0xAA");
        let (line, ..) = ended("reset flash\nrecord kind 8");
        assert_eq!(
            line,
            "job failed: call 2, line 2: refused 5: record 2: field kind is 8, not 0 to 7"
        );
        let (line, ..) = ended("reset flash\n-> refused 4");
        assert_eq!(line, "job failed: line 2: expected refused 4, came 1 answer");
        let (line, ..) = ended("count 2\nreset flash\n-> refused 5");
        assert!(
            line.starts_with("job failed: line 3: expected refused 5, came refused 4: 2 records")
        );
    }

    #[test]
    fn a_job_that_ends_busy_is_not_finished() {
        let (line, ok, _) = ended(&format!("{OPEN}write cpu 4 0x08000000 1"));
        assert!(line.starts_with("job not finished: it ends while an operation is running"));
        assert!(!ok);
        let (line, ..) = ended("count 1\ncut 16\nreset flash\non -> done");
        assert_eq!(line, "job failed: call 2, line 4: no answer came");
    }

    #[test]
    fn a_cut_is_a_fault_unless_it_is_expected() {
        let program = format!("{OPEN}write cpu 4 0x08000000 1\n");
        let words =
            "the reset cuts a running operation, and no token promises what its cells hold then";
        let (line, ..) = ended(&format!("{program}reset flash"));
        assert_eq!(line, format!("job failed: call 6, line 6: {words}"));
        let (line, ok, _) = ended(&format!("{program}reset flash -> cuts"));
        assert_eq!((line.as_str(), ok), ("job OK: 6 calls done", true));
        let (line, ..) = ended(&format!("{program}reset flash -> done"));
        assert_eq!(line, format!("job failed: call 6, line 6: expected done, came cuts ({words})"));
        let (line, ..) = ended("reset flash\nreset flash -> cuts");
        assert_eq!(line, "job failed: call 2, line 2: expected cuts, came done");
        let (line, ..) = ended(&format!("{program}wait 1 ms\nreset flash"));
        assert_eq!(line, "job OK: 7 calls done");
    }

    /// The data lines hold row 0 as it was before the erase.
    #[test]
    fn a_stale_answer_is_a_fault_unless_it_is_expected() {
        let erased = format!(
            "{OPEN}write cpu 4 0x08000000 0x12345678\nwait 1 ms\nwrite cpu 4 ACR 0x00000400\n\
             read cpu 4 0x08000000 -> done 0x12345678\nwrite cpu 4 CR 0x00010002\nwait 1 ms\n"
        );
        let words = "STALE: a data line holds this, the cells hold FFFF; after an erase, empty \
                     the data lines (DCRST in ACR while DCEN is 0) or reset before the next read";
        let (line, ok, _) = ended(&format!("{erased}read cpu 2 0x08000000"));
        assert_eq!(line, format!("job failed: call 11, line 11: {words}; 1 stale answer"));
        assert!(!ok);
        let (line, ..) = ended(&format!("{erased}read cpu 2 0x08000000 -> done 0x5678"));
        assert_eq!(
            line,
            format!(
                "job failed: call 11, line 11: expected done 0x5678, came stale 0x5678 ({words}); \
                 1 stale answer"
            )
        );
        let (line, ok, _) = ended(&format!("{erased}read cpu 2 0x08000000 -> stale 0x5678"));
        assert_eq!(
            (line.as_str(), ok),
            ("job OK: 11 calls done; 1 stale answer, as expected", true)
        );
        let emptied = "write cpu 4 ACR 0\nwrite cpu 4 ACR 0x00001400\nread cpu 2 0x08000000";
        let (line, ok, _) = ended(&format!("{erased}{emptied}"));
        assert_eq!((line.as_str(), ok), ("job OK: 13 calls done", true));
        let (line, ..) = ended(&format!("{erased}{emptied} -> stale 0xFFFF"));
        assert_eq!(line, "job failed: call 13, line 13: expected stale 0xFFFF, came done 0xFFFF");
    }

    #[test]
    fn each_stale_fetch_is_counted() {
        let text = format!(
            "{OPEN}write cpu 4 ACR 0x00000200\nfetch 0x08000004\nwrite cpu 4 0x08000004 1\n\
             wait 1 ms\nrepeat 3\nfetch 0x08000004\nend\nread cpu 4 0x08000004 -> done 1\n"
        );
        let (line, _, faults) = ended(&text);
        assert_eq!(
            line,
            "job failed: call 9, line 10: STALE: an instruction line holds this, the cells hold \
             00000001; after programming or an erase, empty the instruction lines (ICRST in ACR \
             while ICEN is 0) or reset before the next fetch; the first of 3 faults; \
             3 stale answers"
        );
        assert_eq!(faults.len(), 3);
    }

    /// A part of six sectors, the last of which has 128 KiB.
    #[test]
    fn a_target_longer_than_the_scrap_is_not_cut() {
        let six = || Part::blank(6, Timings::thousands());
        let erase = format!("{OPEN}write cpu 4 CR 0x0001002A\n");
        let words = "the target of the running operation is longer than the scrap; a wait before \
                     the reset lets it finish";
        let (line, ..) = ended_on(&mut six(), &format!("{erase}reset flash\nwait 1 ms"));
        assert_eq!(line, format!("job failed: call 6, line 6: refused 21: {words}"));
        let (line, ..) = ended_on(&mut six(), &format!("{erase}reset flash -> cuts\nwait 1 ms"));
        assert_eq!(line, format!("job failed: call 6, line 6: expected cuts, came 21 ({words})"));
        let waited = "wait 1 ms -> done 1000\nreset flash -> done";
        let (line, ok, _) = ended_on(&mut six(), &format!("{erase}reset flash -> 21\n{waited}"));
        assert_eq!(line, "job OK: 8 calls, 7 done and 1 refused as expected");
        assert!(ok);
        // All of main flash; sector 4, which is as long as the scrap.
        for (cr, answer) in [("0x00010004", "21"), ("0x00010022", "cuts")] {
            let erase = format!("{OPEN}write cpu 4 CR {cr}\nreset flash -> {answer}\nwait 1 ms");
            assert!(ended_on(&mut six(), &erase).1, "{cr}");
        }
    }

    /// Of the 2,000 us of a regression the second 1,000 are its option time.
    #[test]
    fn the_second_phase_of_a_regression_is_cut_on_any_part() {
        let options = "write cpu 4 OPTKEYR 0x08192A3B\nwrite cpu 4 OPTKEYR 0x4C5D6E7F\n\
                       write cpu 4 OPTCR 0x0FFF55EE\nwait 1 ms\nwrite cpu 4 OPTCR 0x0FFFAAEE\n";
        let text = format!(
            "reset flash\n{options}pass 999 us\nreset flash -> 21\npass 1 us\n\
             reset flash -> cuts\nread cpu 2 0x1FFFC000 -> done 0x55FF\n"
        );
        let mut part = Part::blank(12, Timings::thousands());
        (part.main[0x4_0000], part.sram[0]) = (0x42, 7);
        let (line, ..) = ended_on(&mut part, &text);
        assert_eq!(line, "job OK: 11 calls, 10 done and 1 refused as expected");
        assert_eq!((part.main[0x4_0000], part.sram[0]), (0xFF, 0));
    }

    #[test]
    fn without_room_the_last_call_may_tell() {
        let longest = |fill: &str, last: &str| {
            let open = format!("{OPEN}write cpu 4 0x08000000 1\n");
            ended(&format!("{open}repeat 1994\n{fill}\nend\n{last}")).0
        };
        // A read makes room, and so does a fetch.
        let fetches = format!("{OPEN}repeat 1995\nfetch 0x08000000\nend\n");
        let (line, ..) = ended(&format!("{fetches}write cpu 4 0x08000000 1"));
        assert!(line.starts_with("job not finished"));
        assert!(longest("read cpu 4 SR", "read cpu 4 CR").starts_with("job not finished"));
        assert_eq!(longest("read cpu 4 SR", "wait 1 ms"), "job OK: 2,000 calls done");
        assert_eq!(longest("on", "wait 1 ms"), "job OK: 2,000 calls done");
        assert!(longest("on", "off").ends_with("so an operation may still be running"));
    }

    #[test]
    fn jobs_run_on_from_the_cells_of_the_one_before() {
        let mut part = Part::of_rehearse();
        let program = format!("{OPEN}write cpu 4 0x08000000 0x12345678\nwait 1 ms");
        for text in [program.as_str(), "reset flash\nread cpu 4 0x08000000 -> done 0x12345678"] {
            let source = Source::of("a.txt".into(), text.into()).expect("a text");
            assert!(rehearse(&source, &mut part).is_ok(), "{text}");
        }
    }
}
