//! When a job's operations ran, and on what. What an operation took is said by a
//! wait that saw its end. Where none did, the part itself is asked, by a long wait
//! behind the call that began it.

use crate::asking::{asked, LONG_WAIT};
use crate::fields;
use crate::job::{Access, Answer, Call};
use crate::map::{self, Area};
use crate::part::Part;
use crate::rehearsal::Rehearsal;
use crate::times;

#[derive(Clone, Copy, Debug, PartialEq, Eq)]
pub enum Work {
    /// Programs cells of a sector.
    Program(usize),
    ProgramOtp,
    Erase(usize),
    MassErase,
    /// With the RDP that it brings.
    OptionChange(u8),
    /// All sectors and the backup SRAM, then RDP.
    Regression(u8),
}

#[derive(Clone, Copy, Debug, PartialEq, Eq)]
pub struct Operation {
    /// The call that began it, from 0.
    pub call: usize,
    pub work: Work,
    pub start: u64,
    /// When it ends, or was cut by a reset, or the job ended before it.
    pub end: u64,
    pub whole: bool,
}

#[derive(Debug, Default)]
pub struct Timeline {
    /// The microsecond at which each call is made, and at last that of the end.
    pub times: Vec<u64>,
    pub operations: Vec<Operation>,
}

impl Timeline {
    pub fn total(&self) -> u64 {
        self.times.last().copied().unwrap_or(0)
    }
}

/// The timeline of a job that was run on a part, which is handed over as it was
/// before.
pub fn timeline(rehearsal: &Rehearsal, before: &Part) -> Timeline {
    let Ok(answers) = &rehearsal.answers else {
        return Timeline::default();
    };
    let calls = rehearsal.calls();
    let times = call_times(&calls, answers);
    let rdp = before.options[RDP];
    let (known, operations) = (Vec::new(), Vec::new());
    let mut trace = Trace { rehearsal, before, calls, answers, times, rdp, known, operations };
    let mut next = 0;
    while next < trace.calls.len() {
        next = trace.call(next);
    }
    Timeline { times: trace.times, operations: trace.operations }
}

fn call_times(calls: &[Call], answers: &[Answer]) -> Vec<u64> {
    let mut times = vec![0];
    let mut now = 0;
    for (call, answer) in calls.iter().zip(answers) {
        now += times::passed(call, answer);
        times.push(now);
    }
    times
}

const RDP: usize = 1;

/// What fixes the time of an operation: its kind, and PSIZE or what stands for it.
type Kind = (Work, u64);

struct Trace<'a> {
    rehearsal: &'a Rehearsal<'a>,
    before: &'a Part,
    calls: Vec<Call>,
    answers: &'a [Answer],
    times: Vec<u64>,
    /// RDP in the option cells.
    rdp: u8,
    /// Times that the part was asked for.
    known: Vec<(Kind, u64)>,
    operations: Vec<Operation>,
}

impl Trace<'_> {
    /// Looks at a call, and gives the next one to look at: none can begin an
    /// operation while one runs.
    fn call(&mut self, i: usize) -> usize {
        let call = self.calls[i];
        if !self.answers[i].is_done() || !times::may_begin(&call) {
            return i + 1;
        }
        let Some((work, took)) = self.work(i, &call) else {
            return i + 1;
        };
        // It ends at its time, or at a reset before, or not at all.
        let (start, due, count) = (self.times[i], self.times[i] + took, self.calls.len());
        let ends = |j: &usize| self.times[j + 1] >= due || self.rehearsal.cuts.contains(j);
        let last = (i + 1..count).find(ends);
        let end = self.times[last.map_or(count, |j| j + 1)].min(due);
        let whole = end == due;
        // A cut leaves RDP: the scrap of the tool keeps option cells old.
        if let (Work::OptionChange(rdp) | Work::Regression(rdp), true) = (work, whole) {
            self.rdp = rdp;
        }
        self.operations.push(Operation { call: i, work, start, end, whole });
        last.map_or(count, |j| j + 1)
    }

    /// What the call began, and how long it takes.
    fn work(&mut self, i: usize, call: &Call) -> Option<(Work, u64)> {
        let Call::Write(access, value) = call else {
            return None;
        };
        let kind = match map::area(self.before.main.len(), access) {
            Area::Main(sector, _) => (Work::Program(sector), access.width.into()),
            Area::Otp(..) => (Work::ProgramOtp, access.width.into()),
            Area::Register(map::OPTCR) => self.option_kind(i, access, *value)?,
            _ => self.erase_kind(i, access, *value)?,
        };
        let took = match self.seen(i) {
            Some(us) => us,
            None => self.asked_time(i, kind)?,
        };
        Some((kind.0, took))
    }

    /// A register as a write of the whole word shows it, or as the part has it.
    fn register(&self, i: usize, register: u32, access: &Access, value: u64) -> Option<u32> {
        if access.width == 4 {
            return Some(value as u32);
        }
        let read = Call::Read(Access { who: 0, width: 4, address: register });
        Some(self.asked(i, read)?.value as u32)
    }

    fn erase_kind(&self, i: usize, access: &Access, value: u64) -> Option<Kind> {
        let cr = self.register(i, map::CR, access, value)?;
        let sector = cr & fields::SER != 0;
        let work = if sector { Work::Erase(fields::snb(cr)) } else { Work::MassErase };
        Some((work, fields::psize(cr).into()))
    }

    /// An option change that brings RDP from another value to AA is a regression.
    /// Its PSIZE is that of the last write to CR, or a reset's.
    fn option_kind(&self, i: usize, access: &Access, value: u64) -> Option<Kind> {
        let rdp = (self.register(i, map::OPTCR, access, value)? >> 8) as u8;
        let opens = self.rdp != fields::RDP_LEVEL_0 && rdp == fields::RDP_LEVEL_0;
        let work = if opens { Work::Regression(rdp) } else { Work::OptionChange(rdp) };
        let sets_cr = |call: &Call| match call {
            Call::Write(access, _) => map::register_at(access.address) == Some(map::CR),
            _ => matches!(call, Call::Reset { .. }),
        };
        Some((work, self.calls[..i].iter().rposition(sets_cr)? as u64))
    }

    /// The time until a wait has seen the end: one that is done and let time pass.
    fn seen(&self, i: usize) -> Option<u64> {
        for j in i + 1..self.calls.len() {
            let (call, answer) = (&self.calls[j], self.answers[j]);
            match call {
                Call::Wait { .. } if answer.is_done() => {
                    return (answer.value > 0).then(|| self.times[j + 1] - self.times[i]);
                }
                Call::Reset { .. } if answer.is_done() => return None,
                _ if answer.is_done() && times::may_begin(call) => return None,
                _ => {}
            }
        }
        None
    }

    fn asked_time(&mut self, i: usize, kind: Kind) -> Option<u64> {
        if let Some((_, us)) = self.known.iter().find(|(known, _)| *known == kind) {
            return Some(*us);
        }
        let us = self.asked(i, LONG_WAIT).filter(Answer::is_done)?.value;
        self.known.push((kind, us));
        Some(us)
    }

    /// The answer to a call behind call i.
    fn asked(&self, i: usize, call: Call) -> Option<Answer> {
        asked(self.before, &self.rehearsal.source.job, i + 1, call)
    }
}

#[cfg(test)]
mod tests {
    use super::*;
    use crate::rehearsal::rehearse;
    use crate::source::Source;
    use crate::timings::Timings;

    fn operations(text: &str) -> Vec<Operation> {
        operations_on(&Part::of_rehearse(), text)
    }

    fn operations_on(before: &Part, text: &str) -> Vec<Operation> {
        let source = Source::of("a.txt".into(), text.into()).expect("a text");
        let rehearsal = rehearse(&source, &mut before.clone());
        timeline(&rehearsal, before).operations
    }

    const KEYS: &str = "reset flash\nwrite cpu 4 KEYR 0x45670123\nwrite cpu 4 KEYR 0xCDEF89AB\n\
                        write cpu 4 OPTKEYR 0x08192A3B\nwrite cpu 4 OPTKEYR 0x4C5D6E7F\n";

    /// From 0: every operation lasts 1,000 us here, a regression 2,000.
    fn at(call: usize, work: Work, start: u64, end: u64) -> Operation {
        Operation { call, work, start, end, whole: true }
    }

    #[test]
    fn operations_have_their_work_and_time() {
        let text = format!(
            "{KEYS}write cpu 1 CR 0x01\nwrite cpu 1 0x08004000 0\npass 5000 us\n\
             write cpu 1 0x1FFF7800 0\nwait 1 ms\nwrite cpu 1 CR 0x12\nwrite cpu 1 CR+2 0x01\n\
             pass 400 us\nread cpu 4 SR\npass 600 us\nwrite cpu 4 CR 0x00010004\nwait 1 ms\n\
             write cpu 4 OPTCR 0x0FFF55EE\nwait 1 ms\nwrite cpu 4 OPTCR 0x0FFFAAEE\nwait 2 ms\n"
        );
        assert_eq!(
            operations(&text),
            [
                at(6, Work::Program(1), 0, 1_000),
                at(8, Work::ProgramOtp, 5_000, 6_000),
                at(11, Work::Erase(2), 6_000, 7_000),
                at(15, Work::MassErase, 7_000, 8_000),
                at(17, Work::OptionChange(0x55), 8_000, 9_000),
                at(19, Work::Regression(0xAA), 9_000, 11_000),
            ]
        );
    }

    #[test]
    fn a_write_to_the_backup_sram_is_none() {
        let text = format!(
            "{KEYS}write cpu 4 0x40024000 0x00010002\nwrite cpu 4 CR 0x00010002\n\
             write cpu 4 0x40024004 0x00010004\nwait 1 ms\nwrite cpu 8 0x40024001 0\n"
        );
        assert_eq!(operations(&text), [at(6, Work::Erase(0), 0, 1_000)]);
    }

    #[test]
    fn one_that_begins_with_the_last_call_is_seen() {
        let fill = |n| format!("repeat {n}\nread cpu 4 SR\nend\n");
        let text = format!("{KEYS}{}write cpu 4 CR 0x0001000A\n", fill(1_994));
        let last = Operation { whole: false, ..at(1_999, Work::Erase(1), 0, 0) };
        assert_eq!(operations(&text), [last]);
        let text = format!("{KEYS}{}write cpu 4 CR 0x0001000A\nwait 1 ms\n", fill(1_993));
        assert_eq!(operations(&text), [at(1_998, Work::Erase(1), 0, 1_000)]);
    }

    #[test]
    fn one_that_is_cut_or_outlasts_the_job_is_not_whole() {
        let text = format!(
            "{KEYS}write cpu 4 CR 0x00010002\npass 300 us\nreset flash\npass 50 us\n\
             write cpu 4 KEYR 0x45670123\nwrite cpu 4 KEYR 0xCDEF89AB\nwrite cpu 4 CR 0x00010002\n\
             pass 7 us\n"
        );
        let cut =
            |call, start, end| Operation { whole: false, ..at(call, Work::Erase(0), start, end) };
        assert_eq!(operations(&text), [cut(5, 0, 300), cut(11, 350, 357)]);
    }

    /// A cut leaves RDP as it was, so that the same word begins the same work again.
    #[test]
    fn a_cut_change_of_options_is_begun_anew() {
        let twice = |rdp: &str| {
            let change = format!("write cpu 4 OPTCR 0x0FFF{rdp}EE\n");
            format!("{change}pass 900 us\n{KEYS}{change}wait 2 ms\n")
        };
        let text = format!("{KEYS}{}{}", twice("55"), twice("AA"));
        let cut = |operation| Operation { whole: false, ..operation };
        assert_eq!(
            operations(&text),
            [
                cut(at(5, Work::OptionChange(0x55), 0, 900)),
                at(12, Work::OptionChange(0x55), 900, 1_900),
                cut(at(14, Work::Regression(0xAA), 1_900, 2_800)),
                at(21, Work::Regression(0xAA), 2_800, 4_800),
            ]
        );
    }

    #[test]
    fn one_too_long_for_the_scrap_runs_on() {
        let part = Part::blank(6, Timings::thousands());
        let text =
            format!("{KEYS}write cpu 4 CR 0x0001002A\npass 300 us\nreset flash -> 21\nwait 1 ms\n");
        assert_eq!(operations_on(&part, &text), [at(5, Work::Erase(5), 0, 1_000)]);
    }
}
