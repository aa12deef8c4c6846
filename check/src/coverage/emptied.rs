//! What empties lines, what does not, and sides switched on and off.

use super::lines::ENABLED;
use super::table::Group;
use super::watch::Step;
use super::Coverage;
use crate::model::job::{Access, Call};
use crate::model::map::REGISTERS;
use crate::model::operation::Operation;
use crate::model::registers::*;

/// Every row counts where lines of the side were held.
const EMPTIED: [Group; 2] = [
    ("data lines emptied", EMPTYINGS),
    ("instruction lines emptied", EMPTYINGS),
];
const EMPTYINGS: &[&str] = &[
    "by a byte",
    "by a half-word",
    "by a word",
    "by a 1 where the bit was 1",
    "and switched on by the same write",
    "while busy",
    "with those of the other side by one write",
    "by a reset",
    "by a reset that cuts",
    "by a reset with a debugger connected",
    "by the end of a regression",
];
const KEPT: [Group; 2] = [
    ("data lines kept", KEEPINGS),
    ("instruction lines kept", KEEPINGS),
];
const KEEPINGS: &[&str] = &[
    "1 written to the bit with the side on",
    "and the side switched off by the same write",
    "0 written to the bit",
    "another lane written, the bit at 1",
    "1 written to the other side's bit, taken",
    "a reset refused with 16",
    "a reset refused with 21",
    "a sector erase",
    "a mass erase",
    "an option change",
    "a debugger on",
    "switched off",
    "switched on",
];

pub const TABLE: &[Group] = &[EMPTIED[0], EMPTIED[1], KEPT[0], KEPT[1]];

/// The bits of each side that empty it.
const RESET: [u32; 2] = [ACR_DCRST, ACR_ICRST];

/// Where ACR is at its first byte, and the first one behind it is another
/// register's.
fn written_lanes(step: &Step) -> Option<(Lanes, Access, u64)> {
    let Call::Write(access, value) = step.call else {
        return None;
    };
    let offset = access.address.wrapping_sub(REGISTERS) as usize;
    let done = step.is_done() && offset < KEYR;
    done.then(|| (Lanes::of(offset, access.width), access, value))
}

/// Which sides this call empties, by the calls and their answers alone: an ACR
/// write of 1 that is taken, a reset, the end of a regression.
pub(super) fn emptied(step: &Step) -> [bool; 2] {
    let all = matches!(step.call, Call::Reset { .. }) && step.is_done()
        || matches!(step.ended(), Some(Operation::Regression { .. }));
    let written = written_lanes(step).map_or(0, |(lanes, _, value)| lanes.alone(value));
    [0, 1].map(|side| all || written & RESET[side] != 0 && step.before.acr & ENABLED[side] == 0)
}

pub(super) fn count(coverage: &mut Coverage, step: &Step) {
    let before = &step.lines_before;
    let held = [
        before.data.rows().next().is_some(),
        before.instructions.rows().next().is_some(),
    ];
    for side in [0, 1] {
        if held[side] {
            step.count_acr(coverage, side);
            step.count_over(coverage, side);
        }
    }
}

impl Step<'_, '_> {
    fn count_acr(&self, coverage: &mut Coverage, side: usize) {
        let Some((lanes, access, value)) = written_lanes(self) else {
            return;
        };
        let old = self.before.acr;
        let written = lanes.alone(value);
        let reaches = lanes.over(0, u64::MAX) & RESET[side] != 0;
        let [was_on, is_on] = [old, self.part.record.acr].map(|acr| acr & ENABLED[side] != 0);
        let asked = written & RESET[side] != 0;
        let both = emptied(self);
        if both[side] {
            let mut count = |name, applies| coverage.count_if(EMPTIED[side], name, applies);
            count(EMPTYINGS[access.width.ilog2() as usize], true);
            count("by a 1 where the bit was 1", old & RESET[side] != 0);
            count("and switched on by the same write", is_on);
            count("while busy", self.was_busy());
            let others = both[1 - side];
            count("with those of the other side by one write", others);
            return;
        }
        let mut count = |name, applies| coverage.count_if(KEPT[side], name, applies);
        count("1 written to the bit with the side on", asked);
        let off = was_on && !is_on;
        count("and the side switched off by the same write", asked && off);
        count("0 written to the bit", reaches && !asked && !was_on);
        let stands = !reaches && old & RESET[side] != 0;
        count("another lane written, the bit at 1", stands && !was_on);
        count("1 written to the other side's bit, taken", both[1 - side]);
        count("switched off", off);
        count("switched on", !was_on && is_on);
    }

    /// All but ACR writes.
    fn count_over(&self, coverage: &mut Coverage, side: usize) {
        let mut count = |name, applies| coverage.count_if(EMPTIED[side], name, applies);
        let reset = matches!(self.call, Call::Reset { .. });
        if reset && self.is_done() {
            count("by a reset", true);
            count("by a reset that cuts", self.was_busy());
            count(
                "by a reset with a debugger connected",
                self.before.connected,
            );
        }
        let ended = self.ended();
        let regressed = matches!(ended, Some(Operation::Regression { .. }));
        count("by the end of a regression", regressed);
        let mut count = |name, applies| coverage.count_if(KEPT[side], name, applies);
        count("a reset refused with 16", reset && self.answer.code == 16);
        count("a reset refused with 21", reset && self.answer.code == 21);
        let by_sector = matches!(ended, Some(Operation::EraseSector(_)));
        count("a sector erase", by_sector);
        count("a mass erase", ended == Some(Operation::MassErase));
        count("an option change", ended == Some(Operation::ChangeOptions));
        let on = self.call == Call::DebuggerOn && self.is_done();
        count("a debugger on", on);
    }
}
