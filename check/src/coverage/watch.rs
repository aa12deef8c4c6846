//! Watching a job call by call: what each call shows.

use super::cuts::{Cells, RunningPast};
use super::lines::{self, LinesPast};
use super::sram::{self, SramPast};
use super::table::{CODE, CODES, LEVEL, SECTORS};
use super::Coverage;
use crate::model::job::{Access, Call};
use crate::model::lines::Lines;
use crate::model::lock::Lock;
use crate::model::map::{self, Place};
use crate::model::part::{Part, Record};
use crate::model::refusal::Answer;

/// A call, its answer, and the state on both sides of it.
pub(super) struct Step<'a, 'b> {
    pub(super) call: Call,
    pub(super) answer: Answer,
    pub(super) before: Record,
    pub(super) level_before: u32,
    pub(super) locked_before: usize,
    pub(super) cells_before: Cells,
    pub(super) lines_before: Lines,
    pub(super) past: Past,
    pub(super) part: &'a Part<'b>,
}

/// What the record of the part does not tell.
#[derive(Clone, Copy, Default)]
pub(super) struct Past {
    pub(super) boot: u32,
    /// A write has closed the lock since the last reset: CR's, OPTCR's.
    pub(super) closed: [bool; 2],
    pub(super) sram: SramPast,
    pub(super) running: RunningPast,
}

/// An error tells of a call that breaks what document 02 promises.
pub fn watch(
    coverage: &mut Coverage,
    mut part: Part,
    calls: impl Iterator<Item = Call>,
) -> Result<(), String> {
    let mut past = Past::default();
    let mut lines_past = LinesPast::default();
    past.sram.used = part.is_sram_used();
    coverage.count(SECTORS.0, SECTORS.1[part.sectors - 1]);
    coverage.count(LEVEL.0, LEVEL.1[part.level() as usize]);
    sram::count_start(coverage, &part);
    for call in calls {
        let before = part.record;
        let level_before = part.level();
        let locked_before = locked_blocks(&part);
        let cells_before = Cells::of(&part);
        let lines_before = part.lines.as_deref().expect("a part with lines").clone();
        let answer = part.take(call);
        let step = Step {
            call,
            answer,
            before,
            level_before,
            locked_before,
            cells_before,
            lines_before,
            past,
            part: &part,
        };
        step.count(coverage);
        lines::observe(coverage, &step, &mut lines_past)?;
        if !step.leaves_erased() {
            return Err(format!("{call:X?} takes RDP to AA and leaves main flash"));
        }
        past = step.past_after();
    }
    Ok(())
}

pub(super) fn locked_blocks(part: &Part) -> usize {
    (0..16)
        .filter(|block| part.is_locked_otp(block * map::BLOCK_LEN))
        .count()
}

impl Step<'_, '_> {
    fn count(&self, coverage: &mut Coverage) {
        let code = CODES.iter().position(|&code| code == self.answer.code);
        coverage.count(CODE.0, CODE.1[code.expect("a code that a call can show")]);
        self.count_operation(coverage);
        self.count_sram(coverage);
        if let Some(running) = self.before.running {
            self.count_running(coverage, running);
        }
        match self.answer.code {
            9 => self.count_refused_9(coverage),
            17 => self.count_flag(coverage),
            _ => {}
        }
        match self.call {
            Call::Reset { boot } => self.count_reset(coverage, boot),
            Call::DebuggerOn | Call::DebuggerOff => self.count_visit(coverage),
            Call::Read(access) => {
                self.count_edges(coverage, access);
                self.count_read(coverage, access);
            }
            Call::Write(access, value) => {
                self.count_edges(coverage, access);
                self.count_write(coverage, access, value);
            }
            Call::Pass(_) | Call::Wait(_) => self.count_time(coverage),
            Call::Fetch { address } => self.count_fetch(coverage, address),
        }
    }

    pub(super) fn is_done(&self) -> bool {
        self.answer.code == 0
    }

    pub(super) fn was_busy(&self) -> bool {
        self.before.running.is_some()
    }

    pub(super) fn place(&self, access: Access) -> Option<Place> {
        map::place(
            access.address,
            access.width,
            map::main_len(self.part.sectors),
        )
    }
}

impl Step<'_, '_> {
    /// Each lock before and after: CR's, OPTCR's.
    pub(super) fn locks(&self) -> [(Lock, Lock); 2] {
        let after = &self.part.record;
        [
            (self.before.cr_lock, after.cr_lock),
            (self.before.optcr_lock, after.optcr_lock),
        ]
    }

    fn past_after(&self) -> Past {
        match self.call {
            Call::Reset { boot } if self.is_done() => Past {
                boot,
                closed: [false; 2],
                sram: self.sram_after(),
                running: self.running_after(),
            },
            _ => {
                let closed = |(old, new)| old == Lock::Open && new == Lock::Closed;
                let [cr, optcr] = self.locks().map(closed);
                let past = self.past;
                Past {
                    closed: [past.closed[0] || cr, past.closed[1] || optcr],
                    sram: self.sram_after(),
                    running: self.running_after(),
                    ..past
                }
            }
        }
    }
}
