//! The backup SRAM: who reads and writes it and when, and what its bytes
//! outlast.

use super::operations::kind_of;
use super::refused::count_alone;
use super::table::{Group, OPERATIONS};
use super::watch::Step;
use super::Coverage;
use crate::model::job::{Access, Call, Who};
use crate::model::map::{Area, REGISTERS, REGISTERS_LEN, SRAM, SRAM_LEN};
use crate::model::operation::{Operation, Running};
use crate::model::part::Part;
use crate::model::registers::CR_ERRIE;

/// Of each pair of groups the first is for reads, the second for writes.
const DONE: [Group; 2] = [
    ("SRAM, reads done", ACCESSES),
    ("SRAM, writes done", ACCESSES),
];
const ACCESSES: &[&str] = &[
    "1 byte",
    "2 bytes",
    "4 bytes",
    "8 bytes",
    "2 bytes, unaligned",
    "4 bytes, unaligned",
    "8 bytes, unaligned",
    "the first byte",
    "the last byte",
    "clean, level 0",
    "clean, level 1",
    "clean, level 2",
    "with the mark at level 0",
    "by a debugger",
];
const BUSY: [Group; 2] = [
    ("SRAM, reads done while running", OPERATIONS),
    ("SRAM, writes done while running", OPERATIONS),
];
const CLOSED: [Group; 2] = [
    ("SRAM, reads closed", CLOSINGS),
    ("SRAM, writes closed", CLOSINGS),
];
const CLOSINGS: &[&str] = &[
    "at level 1 to a debugger",
    "at level 1 to the CPU beside a debugger",
    "at level 1 to the CPU after a debugger",
    "at level 1 to the CPU after another boot",
    "at level 2",
    "while busy",
    "with ERRIE set",
];
const REFUSED: [Group; 2] = [
    ("SRAM, reads refused", REFUSALS),
    ("SRAM, writes refused", REFUSALS),
];
const REFUSALS: &[&str] = &[
    "10 without power",
    "15 to a debugger that is not connected",
    "15 where 7 applies too",
    "7 from before its start",
    "7 over its end",
    "7 right behind its end",
    "7 between registers and SRAM",
    "7 where its bytes are closed",
];

const LASTING: Group = (
    "SRAM in use, and what its bytes outlast",
    &[
        "reset",
        "regression cut while it erases",
        "sector erase",
        "mass erase",
        "option change",
        "read while a regression runs",
    ],
);
const ZEROED: Group = (
    "SRAM zeroed by a regression",
    &[
        "in use",
        "written while the regression ran",
        "by a regression cut in its option time",
        "read afterwards",
    ],
);

const START: Group = (
    "sound jobs by the SRAM at the start",
    &["zeros", "other bytes"],
);
const LENGTH: Group = (
    "refused 1, by the length of the SRAM",
    &["0", "4,095", "4,097"],
);

pub const TABLE: &[Group] = &[
    LENGTH, START, DONE[0], DONE[1], BUSY[0], BUSY[1], CLOSED[0], CLOSED[1], REFUSED[0],
    REFUSED[1], LASTING, ZEROED,
];

pub fn count_start(coverage: &mut Coverage, part: &Part) {
    coverage.count(START.0, START.1[usize::from(part.is_sram_used())]);
}

pub fn count_length(coverage: &mut Coverage, len: usize) {
    let wrong = [0, SRAM_LEN - 1, SRAM_LEN + 1].map(|wrong| wrong == len);
    count_alone(coverage, LENGTH, &wrong);
}

/// What the record of the part does not tell of the SRAM.
#[derive(Clone, Copy, Default)]
pub(super) struct SramPast {
    /// There are other bytes than 0.
    pub(super) used: bool,
    /// Written since a regression began that is still running.
    written: bool,
    /// Zeroed by a regression, and not written since.
    zeroed: bool,
}

impl Step<'_, '_> {
    pub(super) fn count_sram(&self, coverage: &mut Coverage) {
        match self.call {
            Call::Read(access) => self.count_sram_access(coverage, access, 0),
            Call::Write(access, _) => self.count_sram_access(coverage, access, 1),
            _ if self.past.sram.used => self.count_lasting(coverage),
            _ => {}
        }
    }

    fn count_sram_access(&self, coverage: &mut Coverage, access: Access, kind: usize) {
        let inside = matches!(self.place(access), Some(place) if place.area == Area::Sram);
        let mut count = |name, applies| coverage.count_if(REFUSED[kind], name, applies);
        match self.answer.code {
            0 if inside => self.count_sram_done(coverage, access, kind),
            13 if inside => self.count_sram_closed(coverage, access, kind),
            10 => count("10 without power", inside),
            15 => {
                count("15 to a debugger that is not connected", inside);
                count("15 where 7 applies too", !inside && touches(access));
            }
            7 => self.count_sram_missed(coverage, access, kind),
            _ => {}
        }
    }

    fn count_sram_missed(&self, coverage: &mut Coverage, access: Access, kind: usize) {
        let first = access.address;
        let end = u64::from(first) + u64::from(access.width);
        let gap = REGISTERS + REGISTERS_LEN as u32;
        let mut count = |name, applies| coverage.count_if(REFUSED[kind], name, applies);
        count("7 from before its start", touches(access) && first < SRAM);
        count("7 over its end", touches(access) && first >= SRAM);
        count("7 right behind its end", first == SRAM + SRAM_LEN as u32);
        let between = first >= gap && end <= SRAM.into();
        count("7 between registers and SRAM", between);
        let closed = touches(access) && self.part.is_intruded();
        count("7 where its bytes are closed", closed);
    }

    fn count_sram_done(&self, coverage: &mut Coverage, access: Access, kind: usize) {
        let Access {
            who,
            width,
            address,
        } = access;
        let size = width.ilog2() as usize;
        let aligned = address.is_multiple_of(width);
        let size_row = if aligned { size } else { 3 + size };
        coverage.count(DONE[kind].0, DONE[kind].1[size_row]);
        let mark = self.before.mark;
        let clean_row = 9 + self.level_before as usize;
        coverage.count_if(DONE[kind], DONE[kind].1[clean_row], !mark);
        let mut count = |name, applies| coverage.count_if(DONE[kind], name, applies);
        count("the first byte", address == SRAM);
        count("the last byte", address + width == SRAM + SRAM_LEN as u32);
        count("with the mark at level 0", mark);
        count("by a debugger", who == Who::Debugger);
        if let Some(running) = self.before.running {
            let row = kind_of(running.operation, &self.before, self.level_before);
            coverage.count(BUSY[kind].0, BUSY[kind].1[row]);
        }
        if matches!(self.call, Call::Read(_)) {
            let kept = self.runs_regression() && self.answer.value != 0;
            coverage.count_if(LASTING, "read while a regression runs", kept);
            coverage.count_if(ZEROED, "read afterwards", self.past.sram.zeroed);
        }
    }

    fn count_sram_closed(&self, coverage: &mut Coverage, access: Access, kind: usize) {
        let level_1 = self.level_before == 1;
        let to_cpu = level_1 && access.who == Who::Cpu;
        let connected = self.before.connected;
        let boot = self.past.boot;
        let mut count = |name, applies| coverage.count_if(CLOSED[kind], name, applies);
        count("at level 1 to a debugger", level_1 && !to_cpu);
        count(
            "at level 1 to the CPU beside a debugger",
            to_cpu && connected,
        );
        let alone = to_cpu && !connected;
        count("at level 1 to the CPU after a debugger", alone && boot == 0);
        count(
            "at level 1 to the CPU after another boot",
            alone && boot != 0,
        );
        count("at level 2", self.level_before == 2);
        count("while busy", self.was_busy());
        count("with ERRIE set", self.before.cr & CR_ERRIE != 0);
    }

    /// A reset or the end of an operation, with other bytes than 0 before it.
    fn count_lasting(&self, coverage: &mut Coverage) {
        let mut count = |name, applies| coverage.count_if(LASTING, name, applies);
        let ended = self
            .before
            .running
            .filter(|_| self.part.record.running.is_none())
            .map(|running| running.operation);
        if matches!(self.call, Call::Reset { .. }) && self.is_done() {
            let zeroed = self.zeroes_sram();
            let erasing = self.runs_regression() && !zeroed;
            count("reset", !zeroed);
            count("regression cut while it erases", erasing);
            let name = "by a regression cut in its option time";
            return coverage.count_if(ZEROED, name, zeroed);
        }
        match ended {
            Some(Operation::EraseSector(_)) => count("sector erase", true),
            Some(Operation::MassErase) => count("mass erase", true),
            Some(Operation::ChangeOptions) => count("option change", true),
            Some(Operation::Regression { .. }) => {
                coverage.count(ZEROED.0, "in use");
                let name = "written while the regression ran";
                coverage.count_if(ZEROED, name, self.past.sram.written);
            }
            _ => {}
        }
    }

    fn runs_regression(&self) -> bool {
        let running = self.before.running.map(|running| running.operation);
        matches!(running, Some(Operation::Regression { .. }))
    }

    /// By the end of a regression, or by its cut where main flash was done.
    fn zeroes_sram(&self) -> bool {
        let over = self.runs_regression() && self.part.record.running.is_none();
        let cut_early = matches!(self.call, Call::Reset { .. })
            && self.before.running.is_some_and(Running::is_in_first_phase);
        over && !cut_early
    }

    pub(super) fn sram_after(&self) -> SramPast {
        let past = self.past.sram;
        let still = self.part.record.running.is_some() && self.runs_regression();
        let wrote = self.writes_sram();
        SramPast {
            used: self.part.is_sram_used(),
            written: still && (past.written || wrote),
            zeroed: self.zeroes_sram() || past.zeroed && !wrote,
        }
    }

    fn writes_sram(&self) -> bool {
        let Call::Write(access, _) = self.call else {
            return false;
        };
        self.is_done() && touches(access)
    }
}

/// One byte of the access at least is in the SRAM.
fn touches(access: Access) -> bool {
    let first = u64::from(access.address);
    let start = u64::from(SRAM);
    first < start + SRAM_LEN as u64 && first + u64::from(access.width) > start
}
