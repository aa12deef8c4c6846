//! Writes to registers: keys, locks, lanes. Those to cells show as operations
//! and flags.

use super::table::{Group, LANES, LOCK, REFUSED_9, REGISTER, WRITTEN_AT};
use super::watch::Step;
use super::Coverage;
use crate::model::job::{Access, Call};
use crate::model::lock::Lock;
use crate::model::map::{Area, Place};
use crate::model::registers::*;

impl Step<'_, '_> {
    pub(super) fn count_write(&self, coverage: &mut Coverage, access: Access, value: u64) {
        let Some(Place {
            area: Area::Registers,
            offset,
        }) = self.place(access)
        else {
            return;
        };
        match offset & !3 {
            KEYR => self.count_key(coverage, 0),
            OPTKEYR => self.count_key(coverage, 1),
            register if matches!(self.answer.code, 0 | 17) => {
                count_offset(coverage, WRITTEN_AT, offset, access.width);
                self.count_lanes(coverage, register, access.width);
                self.count_rules(coverage, register, Lanes::of(offset, access.width), value);
                self.count_closing(coverage);
            }
            _ => {}
        }
    }

    /// Why an access was refused with 9.
    pub(super) fn count_refused_9(&self, coverage: &mut Coverage) {
        let (Call::Read(access) | Call::Write(access, _)) = self.call else {
            return;
        };
        let row = match (access.width, access.address as usize % 4) {
            (2, 1) => 0,
            (2, 3) => 1,
            (4, lane) => 1 + lane,
            (8, _) => 5,
            (1, _) => 6,
            _ => 7,
        };
        coverage.count(REFUSED_9.0, REFUSED_9.1[row]);
    }

    fn count_key(&self, coverage: &mut Coverage, which: usize) {
        let mut count = |name, applies| coverage.count_if(LOCK[which], name, applies);
        let (old, new) = self.locks()[which];
        let opened = old == Lock::HalfOpen && new == Lock::Open;
        let wrong = self.answer.code == 14;
        count("opened", opened);
        count(
            "opened again after a write closed it",
            opened && self.past.closed[which],
        );
        count("opened while busy", opened && self.was_busy());
        count("wrong first word", wrong && old == Lock::Closed);
        count("wrong second word", wrong && old == Lock::HalfOpen);
        count("word once open", wrong && old == Lock::Open);
        count("word after a wrong one", wrong && old == Lock::Jammed);
        count("wrong word while busy", wrong && self.was_busy());
    }

    fn count_closing(&self, coverage: &mut Coverage) {
        for (group, (old, new)) in LOCK.into_iter().zip(self.locks()) {
            if old == Lock::Open && new == Lock::Closed {
                let starts = self.part.record.running.is_some();
                let raises = self.answer.code == 17;
                coverage.count_if(group, "closed by a write", !starts && !raises);
                coverage.count_if(group, "closed by a write that starts", starts);
                coverage.count_if(group, "closed by a write that raises a flag", raises);
            }
        }
    }

    fn count_lanes(&self, coverage: &mut Coverage, register: usize, width: u32) {
        if width == 4 {
            return;
        }
        let row = [ACR, SR, CR, OPTCR]
            .iter()
            .position(|&other| other == register);
        let row = 2 * row.expect("a register that takes lanes") + usize::from(width == 2);
        coverage.count(LANES.0, LANES.1[row]);
        let starts = !self.was_busy() && self.part.record.running.is_some() && width == 1;
        coverage.count_if(LANES, "STRT starts by byte", starts && register == CR);
        coverage.count_if(LANES, "OPTSTRT starts by byte", starts && register == OPTCR);
    }

    fn count_rules(&self, coverage: &mut Coverage, register: usize, lanes: Lanes, value: u64) {
        let mut count = |name, applies| coverage.count_if(REGISTER, name, applies);
        let old = self.before;
        match register {
            ACR => {
                let held = lanes.over(old.acr, value) ^ self.part.record.acr;
                count("DCRST held by DCEN", held & ACR_DCRST != 0);
                count("ICRST held by ICEN", held & ACR_ICRST != 0);
            }
            SR => {
                let cleared = old.sr & !self.part.record.sr != 0;
                let missed = old.sr & value as u32 & !lanes.alone(value) != 0;
                count("SR flag cleared", cleared);
                count("SR flag kept, written in another lane", missed);
                count("SR flag cleared while busy", cleared && self.was_busy());
            }
            OPTCR => {
                let pending_only = self.is_done() && self.level_before == 2;
                count("OPTCR written at level 2 without OPTSTRT", pending_only);
            }
            _ => {}
        }
    }
}

/// Of an aligned access of at most four bytes.
pub(super) fn count_offset(coverage: &mut Coverage, group: Group, offset: usize, width: u32) {
    let row = match (width, offset % 4) {
        (1, lane) => lane,
        (2, lane) => 4 + lane / 2,
        _ => 6,
    };
    coverage.count(group.0, group.1[row]);
}
