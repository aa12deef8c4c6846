//! A whole job in words: a line for each call and its answer, runs of polls in
//! one line.

use crate::job::{Answer, Call};
use crate::map;
use crate::number::{counted, decimal};
use crate::times;
use crate::words::{self, History};

/// One line: the calls that it is about, by their numbers from 1.
pub struct Told {
    pub first: usize,
    pub last: usize,
    pub call: String,
    pub answer: String,
    pub done: bool,
}

impl Told {
    pub fn line(&self) -> String {
        format!("{}. {} -> {}", self.numbers(), self.call, self.answer)
    }

    pub fn numbers(&self) -> String {
        if self.first == self.last {
            decimal(self.first as u64)
        } else {
            format!("{} to {}", decimal(self.first as u64), decimal(self.last as u64))
        }
    }
}

/// The lines of a job on a part with main flash of that length; `note` is what
/// else is to be said of a call, from 0.
pub fn tell(
    main_length: usize,
    calls: &[Call],
    answers: &[Answer],
    note: impl Fn(usize) -> Option<String>,
) -> Vec<Told> {
    let remarks = times::remarks(calls, answers);
    let mut history = History::default();
    let mut lines = Vec::new();
    let mut i = 0;
    while i < calls.len() {
        let polls = polls(&calls[i..], &answers[i..], &remarks[i..]);
        let (call, answer) = (&calls[i], &answers[i]);
        let mut told = Told {
            first: i + 1,
            last: i + polls.calls,
            call: words::call_words(main_length, call, history),
            answer: words::answer_words(main_length, call, answer, history) + &remarks[i],
            done: answer.is_done(),
        };
        if let Some(note) = note(i) {
            told.answer += &format!(" ({note})");
        }
        if polls.reads > 1 {
            told.call += &polls.words();
            told.answer = format!("each time {}", told.answer);
        }
        lines.push(told);
        history.after(i + 1, call, answer);
        i += polls.calls;
    }
    lines
}

/// A run of the same read of SR with the same answer, with passes between.
struct Polls {
    reads: usize,
    calls: usize,
    us: u64,
}

/// So many reads make a run.
const FEWEST_POLLS: usize = 3;

impl Polls {
    fn words(&self) -> String {
        format!(" {}, {} in all", counted(self.reads, "time"), times::span(self.us))
    }
}

/// The polls that the calls begin with; a single call where they begin with
/// none.
fn polls(calls: &[Call], answers: &[Answer], remarks: &[String]) -> Polls {
    let single = || Polls { reads: 1, calls: 1, us: 0 };
    let is_poll =
        |call: &Call| matches!(call, Call::Read(a) if map::register_at(a.address) == Some(map::SR));
    if !is_poll(&calls[0]) || !answers[0].is_done() {
        return single();
    }
    let (mut run, mut us) = (single(), 0);
    for i in 1..calls.len() {
        let passes = matches!(calls[i], Call::Pass { .. }) && answers[i].is_done();
        if calls[i] == calls[0] && answers[i] == answers[0] {
            run = Polls { reads: run.reads + 1, calls: i + 1, us };
        } else if passes && remarks[i].is_empty() {
            us += times::passed(&calls[i], &answers[i]);
        } else {
            break;
        }
    }
    if run.reads < FEWEST_POLLS {
        single()
    } else {
        run
    }
}

#[cfg(test)]
mod tests {
    use super::*;
    use crate::job::{self, Record};
    use crate::text;

    /// The lines of a text whose answers are those written there.
    fn lines(text: &str) -> Vec<String> {
        let text = text::read(text.as_bytes()).expect("a text");
        let records = job::records(&text.job);
        let calls: Vec<Call> = records.iter().filter_map(Record::call).collect();
        let answers: Vec<Answer> =
            text.calls.iter().map(|(_, expected)| expected.expect("an answer").answer).collect();
        tell(65_536, &calls, &answers, |_| None).iter().map(Told::line).collect()
    }

    #[test]
    fn polls_fold_with_their_count_and_time() {
        let text = "write cpu 4 CR 0x00010002 -> done\n\
                    repeat 20\n\
                    read debugger 4 SR -> done 0x10000\n\
                    pass 100 us -> done\n\
                    end\n\
                    read debugger 4 SR -> done 0\n\
                    read debugger 4 SR -> done 0\n\
                    read cpu 4 SR -> done 0\n";
        assert_eq!(
            lines(text)[1..],
            [
                "2 to 40. debugger reads 4 bytes of SR 20 times, 1 ms 900 us in all \
                 -> each time done 00010000 (busy)",
                "41. pass 100 us -> done",
                "42. debugger reads 4 bytes of SR -> done 00000000 (idle)",
                "43. debugger reads 4 bytes of SR -> done 00000000 (idle)",
                "44. CPU reads 4 bytes of SR -> done 00000000 (idle)",
            ]
        );
    }

    #[test]
    fn a_lock_is_closed_until_a_reset_once_it_is() {
        let text = "read cpu 4 CR -> done 0x80000000\n\
                    write cpu 4 KEYR 0x12345678 -> 14\n\
                    write cpu 4 KEYR 0x45670123 -> 14\n\
                    write cpu 4 CR 0x00000001 -> 12\n\
                    write cpu 4 OPTCR 0x0FFFAAEC -> 12\n\
                    read cpu 4 CR -> done 0x80000000\n\
                    reset flash -> done\n\
                    write cpu 1 CR 0x01 -> 12\n";
        let answers: Vec<String> = lines(text)
            .iter()
            .map(|line| line.split(" -> ").last().unwrap_or("").to_string())
            .collect();
        assert_eq!(
            answers,
            [
                "done 80000000 (PSIZE 0, SNB 0, LOCK)",
                "refused 14: wrong key, CR is locked until a reset",
                "refused 14: CR is locked until a reset (wrong key in call 2)",
                "refused 12: CR is locked until a reset (wrong key in call 2)",
                "refused 12: written while locked",
                "done 80000000 (PSIZE 0, SNB 0, LOCK until a reset)",
                "done",
                "refused 12: written while locked",
            ]
        );
    }

    #[test]
    fn a_write_to_acr_is_judged_by_those_before() {
        let text = "write cpu 4 ACR 0x00000400 -> done\n\
                    write cpu 1 ACR 0x07 -> done\n\
                    write cpu 1 ACR+1 0x10 -> done\n\
                    write cpu 1 ACR+1 0x14 -> done\n\
                    reset flash -> done\n\
                    write debugger 4 ACR 0x00000400 -> 15\n\
                    write cpu 4 ACR 0x00001000 -> done\n";
        let writes: Vec<String> = lines(text)
            .iter()
            .filter_map(|line| Some(line.split_once(" to ")?.1.to_string()))
            .collect();
        assert_eq!(
            writes,
            [
                "ACR (data lines on) -> done",
                "ACR -> done",
                "ACR+1 (DCRST is not taken, since DCEN was 1; data lines off) -> done",
                "ACR+1 (empties the data lines; data lines on) -> done",
                "ACR (data lines on) -> refused 15: debugger not connected",
                "ACR (empties the data lines) -> done",
            ]
        );
    }

    #[test]
    fn a_closed_call_is_a_read_a_write_or_a_fetch() {
        let text = "read debugger 4 0x40024000 -> 13\n\
                    write debugger 4 0x40024000 0x00000001 -> 13\n\
                    fetch 0x08003FFE -> 13\n";
        assert_eq!(
            lines(text),
            [
                "1. debugger reads 4 bytes at 40024000 (backup SRAM) -> refused 13: closed read",
                "2. debugger writes 4 bytes 00000001 at 40024000 (backup SRAM) \
                 -> refused 13: closed write",
                "3. CPU fetches 4 bytes at 08003FFE (main flash, sectors 0 to 1) \
                 -> refused 13: closed fetch",
            ]
        );
    }

    #[test]
    fn a_wrperr_has_its_causes_at_that_place() {
        const MARK: &str = "the mark stands at level 1 or 2";
        for (write, cause) in [
            ("1 0x0800C000 0", format!("sector 3 is protected, or {MARK}")),
            ("1 0x1FFF7860 0", format!("block 3 is locked, or {MARK}")),
            ("1 0x1FFF7A03 0", MARK.to_string()),
            ("1 0x1FFF0000 0", "system memory can't be programmed".to_string()),
            ("1 0x1FFFC000 0", "option cells are changed through OPTCR".to_string()),
            ("4 CR 0x00010006", "SER and MER together".to_string()),
            ("4 CR 0x0001001A", format!("sector 3 is protected, or {MARK}")),
            ("4 CR 0x00010022", "this part has no sector 4".to_string()),
            ("4 CR 0x0001007A", "this part has no sector 15".to_string()),
            ("4 CR 0x00010004", format!("a sector is protected, or {MARK}")),
            (
                "1 CR+2 0x01",
                format!("SER and MER together, a sector that is protected or not in this part, or {MARK}"),
            ),
            ("4 OPTCR 0x0FFFAAEE", "level 2 takes no option change".to_string()),
        ] {
            let told = lines(&format!("write cpu {write} -> 17 0x10"));
            let said = told[0].split(" -> ").last().unwrap_or("");
            assert_eq!(said, format!("flag WRPERR: {cause}"), "{write}");
        }
        let told = lines("write cpu 1 0x08000000 0 -> 17 0x80");
        assert!(told[0].ends_with("-> flag PGSERR"));
    }
}
