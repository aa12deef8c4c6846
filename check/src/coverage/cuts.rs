//! Operations cut by a reset: when, by how much scrap, and what it makes of
//! their targets.

use super::table::Group;
use super::watch::{locked_blocks, Step};
use super::Coverage;
use crate::model::job::Call;
use crate::model::map::{LOCK_BYTES, OPTIONS_LEN, RDP};
use crate::model::operation::{Operation, Running, Write};
use crate::model::part::Part;

pub(super) const TARGETS: &[&str] = &[
    "program, 1 byte",
    "program, 2 bytes",
    "program, 4 bytes",
    "program, 8 bytes",
    "sector of 16 KiB",
    "sector of 64 KiB",
    "sector of 128 KiB",
    "mass erase",
    "option change",
    "regression, main flash",
    "regression, option cells",
];
const FITTING: Group = ("cut with scrap of just the target's length", TARGETS);
const SHORT: Group = ("refused 21", TARGETS);
const SHORT_BY_ONE: Group = ("refused 21 for want of one byte", TARGETS);
const RUN_ON: Group = ("refused 21, and run on to the end", TARGETS);

const MOMENT: Group = (
    "moments of a cut",
    &[
        "before any time has passed",
        "with 1 microsecond left",
        "regression, option time and 1 left",
        "regression, option time left",
        "regression, option time less 1 left",
        "regression, after a 21 while it erased",
    ],
);
const RESET: Group = (
    "resets while an operation runs",
    &[
        "cut by boot 0",
        "cut by boot 1",
        "cut by boot 2",
        "cut with a debugger connected",
        "cut at level 2",
        "refused 16",
        "refused 16 where 21 applies too",
        "refused 21 without any scrap",
        "refused 21 with a debugger connected",
        "refused 21 at level 2",
        "refused 21 by another boot",
    ],
);
const LEVEL: Group = (
    "levels changed by a cut",
    &[
        "0 to 1",
        "0 to 2",
        "1 to 0",
        "1 to 2",
        "to 2 with a debugger connected",
        "to 2 by another boot",
    ],
);

/// Where the scrap decides, since old and new bits differ.
const PROGRAM: Group = (
    "bits of programs that are cut",
    &[
        "main flash, kept",
        "main flash, cleared",
        "OTP, kept",
        "OTP, cleared",
        "OTP block locked",
        "OTP block kept open",
    ],
);
const CHANGE: Group = (
    "cells of a cut option change, where old, FF and new differ",
    REMAINDERS,
);
const REGRESSION: Group = ("cells of a cut regression, where old is not FF", REMAINDERS);
const REMAINDERS: &[&str] = &[
    "RDP, remainder 0: old",
    "RDP, remainder 1: FF",
    "RDP, remainder 2: new",
    "another, remainder 0: old",
    "another, remainder 1: FF",
    "another, remainder 2: new",
];
const TO_AA: Group = (
    "calls that take RDP to AA, with main flash all FF",
    &["end of a regression", "cut of a regression"],
);

pub const TABLE: &[Group] = &[
    FITTING,
    SHORT,
    SHORT_BY_ONE,
    RUN_ON,
    MOMENT,
    RESET,
    LEVEL,
    PROGRAM,
    CHANGE,
    REGRESSION,
    TO_AA,
];

/// Cells before a call that may cut.
pub(super) struct Cells {
    options: [u8; OPTIONS_LEN],
    /// What an option change would leave.
    changed: [u8; OPTIONS_LEN],
    /// Where a program goes.
    pub(super) programmed: u64,
}

impl Cells {
    pub(super) fn of(part: &Part) -> Cells {
        Cells {
            options: *part.options,
            changed: part.changed_options(),
            programmed: part
                .record
                .running
                .map_or(0, |running| programmed(part, running.operation)),
        }
    }
}

/// The cells that a program goes to; 0 for other operations.
fn programmed(part: &Part, operation: Operation) -> u64 {
    let (cells, Write { offset, width, .. }) = match operation {
        Operation::ProgramMain(write) => (&*part.main, write),
        Operation::ProgramOtp(write) => (&part.otp[..], write),
        _ => return 0,
    };
    let mut bytes = [0; 8];
    bytes[..width as usize].copy_from_slice(&cells[offset..][..width as usize]);
    u64::from_le_bytes(bytes)
}

/// What the record of the part does not tell of what is running.
#[derive(Clone, Copy, Default)]
pub(super) struct RunningPast {
    /// The microseconds that it lasts.
    duration: u32,
    /// The target of a reset that was refused with 21.
    refused: Option<usize>,
}

/// The row of what a cut leaves to the scrap.
pub(super) fn target_row(running: Running) -> usize {
    match running.operation {
        Operation::ProgramMain(write) | Operation::ProgramOtp(write) => {
            write.width.ilog2() as usize
        }
        Operation::EraseSector(0..=3) => 4,
        Operation::EraseSector(4) => 5,
        Operation::EraseSector(_) => 6,
        Operation::MassErase => 7,
        Operation::ChangeOptions => 8,
        Operation::Regression { .. } if running.is_in_first_phase() => 9,
        Operation::Regression { .. } => 10,
    }
}

impl Step<'_, '_> {
    /// Of a call that finds an operation running.
    pub(super) fn count_running(&self, coverage: &mut Coverage, running: Running) {
        match self.call {
            Call::Reset { boot } if self.is_done() => self.count_cut(coverage, running, boot),
            Call::Reset { boot } => self.count_refused_reset(coverage, running, boot),
            _ => {}
        }
        let ended = self.part.record.running.is_none() && !self.cuts();
        if let Some(row) = self.past.running.refused.filter(|_| ended) {
            coverage.count(RUN_ON.0, RUN_ON.1[row]);
        }
        self.count_to_aa(coverage);
    }

    fn cuts(&self) -> bool {
        matches!(self.call, Call::Reset { .. }) && self.was_busy() && self.is_done()
    }

    /// The bytes of scrap beyond those that the target wants.
    fn spare(&self, running: Running) -> isize {
        self.part.scrap.len() as isize - self.part.target_len(running) as isize
    }

    fn count_refused_reset(&self, coverage: &mut Coverage, running: Running, boot: u32) {
        let spare = self.spare(running);
        let row = target_row(running);
        let short = self.answer.code == 21;
        coverage.count_if(SHORT, SHORT.1[row], short);
        coverage.count_if(SHORT_BY_ONE, SHORT_BY_ONE.1[row], short && spare == -1);
        let mut count = |name, applies| coverage.count_if(RESET, name, applies);
        count("refused 16", !short);
        count("refused 16 where 21 applies too", !short && spare < 0);
        let none = short && self.part.scrap.is_empty();
        count("refused 21 without any scrap", none);
        let connected = short && self.before.connected;
        count("refused 21 with a debugger connected", connected);
        let level_2 = short && self.level_before == 2;
        count("refused 21 at level 2", level_2);
        count("refused 21 by another boot", short && boot != 0);
    }

    fn count_cut(&self, coverage: &mut Coverage, running: Running, boot: u32) {
        let fits = self.spare(running) == 0;
        coverage.count_if(FITTING, FITTING.1[target_row(running)], fits);
        coverage.count(RESET.0, RESET.1[boot as usize]);
        let mut count = |name, applies| coverage.count_if(RESET, name, applies);
        count("cut with a debugger connected", self.before.connected);
        count("cut at level 2", self.level_before == 2);
        self.count_moment(coverage, running);
        self.count_level(coverage, boot);
        match running.operation {
            operation @ (Operation::ProgramMain(write) | Operation::ProgramOtp(write)) => {
                self.count_programmed(coverage, operation, write);
            }
            Operation::ChangeOptions => self.count_changed(coverage),
            Operation::Regression { .. } if running.is_in_first_phase() => {}
            Operation::Regression { .. } => self.count_regressed(coverage),
            Operation::EraseSector(_) | Operation::MassErase => {}
        }
    }

    fn count_moment(&self, coverage: &mut Coverage, running: Running) {
        let mut count = |name, applies| coverage.count_if(MOMENT, name, applies);
        let left = running.left.0;
        let at_once = left == self.past.running.duration;
        count("before any time has passed", at_once);
        count("with 1 microsecond left", left == 1);
        if let Operation::Regression { option_time } = running.operation {
            let time = option_time.0;
            count("regression, option time and 1 left", left == time + 1);
            count("regression, option time left", left == time);
            count("regression, option time less 1 left", left + 1 == time);
            let refused = self.past.running.refused.is_some();
            count("regression, after a 21 while it erased", refused);
        }
    }

    fn count_level(&self, coverage: &mut Coverage, boot: u32) {
        let mut count = |name, applies| coverage.count_if(LEVEL, name, applies);
        let levels = (self.level_before, self.part.level());
        count("0 to 1", levels == (0, 1));
        count("0 to 2", levels == (0, 2));
        count("1 to 0", levels == (1, 0));
        count("1 to 2", levels == (1, 2));
        let to_2 = self.level_before != 2 && self.part.level() == 2;
        count(
            "to 2 with a debugger connected",
            to_2 && self.before.connected,
        );
        count("to 2 by another boot", to_2 && boot != 0);
    }

    fn count_programmed(&self, coverage: &mut Coverage, operation: Operation, write: Write) {
        let old = self.cells_before.programmed;
        let left = programmed(self.part, operation);
        let (kept, cleared) = (left & !write.value != 0, left != old);
        let mut count = |name, applies| coverage.count_if(PROGRAM, name, applies);
        if matches!(operation, Operation::ProgramMain(_)) {
            count("main flash, kept", kept);
            return count("main flash, cleared", cleared);
        }
        count("OTP, kept", kept);
        count("OTP, cleared", cleared);
        let locked = locked_blocks(self.part) > self.locked_before;
        count("OTP block locked", locked);
        let whole = (old & write.value).to_le_bytes();
        let mut locks = whole.iter().zip(left.to_le_bytes());
        let kept_open = locks.any(|(&whole, left)| whole == 0 && left != 0);
        count(
            "OTP block kept open",
            write.offset >= LOCK_BYTES && kept_open,
        );
    }

    fn count_changed(&self, coverage: &mut Coverage) {
        let Cells {
            options, changed, ..
        } = self.cells_before;
        for (cell, (old, new)) in options.into_iter().zip(changed).enumerate() {
            if old != new && old != 0xFF && new != 0xFF {
                self.count_option(coverage, CHANGE, cell);
            }
        }
    }

    fn count_regressed(&self, coverage: &mut Coverage) {
        for (cell, old) in self.cells_before.options.into_iter().enumerate() {
            if old != 0xFF {
                self.count_option(coverage, REGRESSION, cell);
            }
        }
    }

    fn count_option(&self, coverage: &mut Coverage, group: Group, cell: usize) {
        let first_row = if cell == RDP { 0 } else { 3 };
        let remainder = usize::from(self.part.scrap[cell] % 3);
        coverage.count(group.0, group.1[first_row + remainder]);
    }

    fn count_to_aa(&self, coverage: &mut Coverage) {
        if self.takes_rdp_to_aa() {
            coverage.count(TO_AA.0, TO_AA.1[usize::from(self.cuts())]);
        }
    }

    fn takes_rdp_to_aa(&self) -> bool {
        self.cells_before.options[RDP] != 0xAA && self.part.options[RDP] == 0xAA
    }

    /// Whoever takes RDP to AA finds nothing in main flash.
    pub(super) fn leaves_erased(&self) -> bool {
        let rows = self.part.main.as_chunks().0;
        !self.takes_rdp_to_aa() || rows.iter().all(|row| *row == [0xFF; 64])
    }

    pub(super) fn running_after(&self) -> RunningPast {
        let past = self.past.running;
        match (self.before.running, self.part.record.running) {
            (None, Some(running)) => RunningPast {
                duration: running.left.0,
                refused: None,
            },
            (Some(running), Some(_)) if self.answer.code == 21 => RunningPast {
                refused: Some(target_row(running)),
                ..past
            },
            (Some(_), Some(_)) => past,
            (_, None) => RunningPast::default(),
        }
    }
}
