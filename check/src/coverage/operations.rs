//! Operations: started, finished and how, or cut by a reset.

use super::table::{CUT, ENDING, FINISHED, PSIZE, STARTED};
use super::watch::{locked_blocks, Step};
use super::Coverage;
use crate::model::job::Call;
use crate::model::map;
use crate::model::operation::Operation;
use crate::model::part::Record;
use crate::model::registers::*;

impl Step<'_, '_> {
    pub(super) fn count_operation(&self, coverage: &mut Coverage) {
        let after = self.part.record.running;
        match (self.before.running, after) {
            (None, Some(running)) => {
                let kind = kind_of(running.operation, &self.part.record, self.level_before);
                coverage.count(STARTED.0, STARTED.1[kind]);
                self.count_psize(coverage, running.operation);
            }
            (Some(running), None) => {
                let kind = kind_of(running.operation, &self.before, self.level_before);
                if matches!(self.call, Call::Reset { .. }) {
                    coverage.count(CUT.0, CUT.1[kind]);
                } else {
                    coverage.count(FINISHED.0, FINISHED.1[kind]);
                    self.count_ending(coverage, running.operation);
                }
            }
            _ => {}
        }
    }

    fn count_psize(&self, coverage: &mut Coverage, operation: Operation) {
        let psize = (self.part.record.cr & CR_PSIZE) >> CR_PSIZE_SHIFT;
        let first = match operation {
            Operation::ProgramMain(_) | Operation::ProgramOtp(_) => 0,
            Operation::EraseSector(_) | Operation::MassErase => 4,
            Operation::ChangeOptions | Operation::Regression { .. } => 8,
        };
        coverage.count(PSIZE.0, PSIZE.1[first + psize as usize]);
    }

    fn count_ending(&self, coverage: &mut Coverage, operation: Operation) {
        let mut count = |name, applies| coverage.count_if(ENDING, name, applies);
        let eopie = self.before.cr & CR_EOPIE != 0;
        let waited = matches!(self.call, Call::Wait(_));
        let left = self.before.running.map(|running| running.left);
        let just = matches!(self.call, Call::Wait(limit) if Some(limit.micros()) == left);
        count("with EOP", eopie);
        count("without EOP", !eopie);
        count("by a pass", !waited);
        count("by a wait", waited);
        count("by a wait that just reaches", just);
        if matches!(operation, Operation::Regression { .. }) {
            let pending = self.before.optcr ^ self.part.record.optcr;
            let protected = (0..self.part.sectors).any(|sector| self.part.is_protected(sector));
            count("regression with a protected sector", protected);
            count(
                "regression with other nWRP pending",
                pending & OPTCR_NWRP != 0,
            );
            count(
                "regression with other USER pending",
                pending & OPTCR_USER != 0,
            );
        }
        let left_alone = self.before.connected && !self.part.record.connected;
        count("debugger disconnected by level 2", left_alone);
        count(
            "OTP block locked",
            locked_blocks(self.part) > self.locked_before,
        );
    }
}

/// The row of an operation; the record is one from its running time.
pub(super) fn kind_of(operation: Operation, record: &Record, level: u32) -> usize {
    let rdp = (record.optcr & OPTCR_RDP) >> OPTCR_RDP_SHIFT;
    match operation {
        Operation::ProgramMain(write) => write.width.ilog2() as usize,
        Operation::ProgramOtp(write) if write.offset >= map::LOCK_BYTES => 8,
        Operation::ProgramOtp(write) => 4 + write.width.ilog2() as usize,
        Operation::EraseSector(0..=3) => 9,
        Operation::EraseSector(4) => 10,
        Operation::EraseSector(_) => 11,
        Operation::MassErase => 12,
        Operation::ChangeOptions if rdp == 0xCC => 15,
        Operation::ChangeOptions if level == 0 && rdp != 0xAA => 14,
        Operation::ChangeOptions => 13,
        Operation::Regression { .. } => 16,
    }
}
