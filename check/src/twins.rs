//! Demand 3 of document 01, as document 02 amends it: two parts at level 1 or 2
//! that differ in main flash and in the SRAM get the same job and the same
//! scrap. Only the values of clean CPU reads of these two and of clean fetches
//! may differ, and once level 1 has become 0 nothing does.

use crate::coverage::Coverage;
use crate::lent::{Left, Lent};
use crate::model::job::{self, Call, Who, FETCH_WIDTH, RECORD_LEN};
use crate::model::lines::{Lines, ROW_LEN};
use crate::model::map::{self, Area, Place, RDP};
use crate::model::operation::Running;
use crate::model::part::Part;
use crate::model::refusal::Answer;
use crate::proved;

/// Where the value starts in an answer.
const VALUE_AT: usize = 8;

/// The twin of a part, and what a job leaves of it.
#[derive(Default)]
pub struct Twins {
    lent: Lent,
    left: Left,
    stepped: Left,
}

/// A call and its answers from both parts.
pub struct Twinned {
    pub call: Call,
    pub answers: [[u8; RECORD_LEN]; 2],
    /// Of the cells that it goes to.
    pub area: Option<Area>,
    /// A line of its side holds the row of its first byte,
    pub held: bool,
    /// and has other bytes than the cells.
    pub old: bool,
    /// What it finds running.
    pub running: Option<Running>,
    /// It finds a debugger connected.
    pub connected: bool,
    pub level: u32,
    pub level_after: u32,
    /// The values may differ, since clean code reads what does.
    pub own: bool,
    /// Level 1 has become 0 before it.
    pub regressed: bool,
}

impl Twins {
    /// Whether a part may have a twin.
    pub fn concerns(lent: &Lent) -> bool {
        lent.options.get(RDP).is_some_and(|&rdp| rdp != 0xAA)
    }

    /// Runs a job that was done on the twin of its part. The result tells the
    /// first thing that differs from what the job has left and may not.
    pub fn difference(
        &mut self,
        lent: &Lent,
        left: &Left,
        coverage: &mut Coverage,
    ) -> Result<(), String> {
        self.lent.clone_from(lent);
        for cells in [&mut self.lent.main, &mut self.lent.sram] {
            cells.iter_mut().for_each(|cell| *cell = !*cell);
        }
        self.left.run(proved::run, &self.lent);
        if self.left.result != left.result {
            return Err(format!("the result is {}", self.left.result));
        }
        self.stepped.copy(lent);
        let regressed = walk(&mut self.stepped, lent, [left, &self.left], coverage)?;
        let buffers = [
            ("OTP", &left.otp, &self.left.otp, true),
            ("option cells", &left.options, &self.left.options, true),
            ("main flash", &left.main, &self.left.main, regressed),
            ("SRAM", &left.sram, &self.left.sram, regressed),
        ];
        for (name, one, other, alike) in buffers {
            if alike && one != other {
                return Err(format!("{name} differs when the job has ended"));
            }
        }
        Ok(())
    }
}

/// Compares the answers call by call; true if level 1 became 0 on the way.
fn walk(
    stepped: &mut Left,
    lent: &Lent,
    left: [&Left; 2],
    coverage: &mut Coverage,
) -> Result<bool, String> {
    let Left {
        main,
        otp,
        options,
        sram,
        ..
    } = stepped;
    let part = Part::fresh(main, otp, options, sram, &lent.timings, &lent.scrap);
    let records = job::accept(&lent.job, lent.answers.len());
    let (Ok(mut part), Ok(records)) = (part, records) else {
        return Err("the job is refused".to_string());
    };
    let mut lines = Lines::EMPTY;
    part.lines = Some(&mut lines);
    let mut past = Past::of(part);
    for (index, call) in records.iter().filter_map(Call::decode).enumerate() {
        let answers = left.map(|left| left.answers.as_chunks().0[index]);
        let twinned = past.take(call, answers);
        let [one, other] = answers;
        let compared = if twinned.own { VALUE_AT } else { RECORD_LEN };
        if one[..compared] != other[..compared] {
            return Err(format!(
                "call {index}, {call:X?}, gets {one:02X?} and {other:02X?}"
            ));
        }
        coverage.observe_twins(&twinned);
    }
    Ok(past.regressed)
}

/// A line with the bytes of its cells, or with others.
#[derive(Clone, Copy, PartialEq, Eq)]
enum Line {
    New,
    Old,
}

/// What document 01 calls clean, from the calls and their answers alone: the
/// part's own mark is not asked.
struct Past<'a> {
    part: Part<'a>,
    connected: bool,
    clean: bool,
    regressed: bool,
}

impl<'a> Past<'a> {
    fn of(part: Part<'a>) -> Past<'a> {
        Past {
            part,
            connected: false,
            clean: false,
            regressed: false,
        }
    }

    fn take(&mut self, call: Call, answers: [[u8; RECORD_LEN]; 2]) -> Twinned {
        let level = self.part.level();
        let place = self.place(call);
        let area = place.map(|place| place.area);
        let line = match place {
            Some(place) if place.area == Area::Main => self.line(call, place.offset),
            _ => None,
        };
        let running = self.part.record.running;
        let answer = self.part.take(call);
        let twinned = Twinned {
            call,
            answers,
            area,
            held: line.is_some(),
            old: line == Some(Line::Old),
            running,
            connected: self.connected,
            level,
            level_after: self.part.level(),
            own: self.reads_own(call, answer, area),
            regressed: self.regressed,
        };
        self.follow(call, answer, level);
        twinned
    }

    fn place(&self, call: Call) -> Option<Place> {
        let (address, width) = match call {
            Call::Read(access) | Call::Write(access, _) => (access.address, access.width),
            Call::Fetch { address } => (address, FETCH_WIDTH),
            _ => return None,
        };
        map::place(address, width, self.part.main.len())
    }

    /// What the side of the call holds of the row of this offset.
    fn line(&self, call: Call, offset: usize) -> Option<Line> {
        let row = offset / ROW_LEN;
        let lines = self.part.lines.as_deref()?;
        let held = match call {
            Call::Fetch { .. } => lines.instructions.bytes_of(row as u32),
            _ => lines.data.bytes_of(row as u32),
        };
        let cells = &self.part.main[row * ROW_LEN..][..ROW_LEN];
        held.map(|bytes| {
            if bytes == *cells {
                Line::New
            } else {
                Line::Old
            }
        })
    }

    fn reads_own(&self, call: Call, answer: Answer, area: Option<Area>) -> bool {
        let by_cpu = match call {
            Call::Read(access) => access.who == Who::Cpu,
            Call::Fetch { .. } => true,
            _ => false,
        };
        let secret = matches!(area, Some(Area::Main | Area::Sram));
        by_cpu && secret && answer.code == 0 && self.clean && !self.regressed
    }

    fn follow(&mut self, call: Call, answer: Answer, level_before: u32) {
        let level = self.part.level();
        match call {
            Call::Reset { boot } if answer.code == 0 => self.clean = boot == 0 && !self.connected,
            Call::DebuggerOn if answer.code == 0 => {
                self.connected = true;
                self.clean = false;
            }
            Call::DebuggerOff if answer.code == 0 => self.connected = false,
            _ => {}
        }
        self.connected &= !(level_before != 2 && level == 2);
        self.regressed |= level_before == 1 && level == 0;
    }
}
