//! Resets, debuggers, time.

use super::table::{TIME, VISIT};
use super::watch::Step;
use super::Coverage;
use crate::model::job::Call;
use crate::model::part::Record;
use crate::model::time::{PASS_LIMIT, WAIT_LIMIT};

impl Step<'_, '_> {
    pub(super) fn count_reset(&self, coverage: &mut Coverage, boot: u32) {
        let mut count = |name, applies| coverage.count_if(VISIT, name, applies);
        count("boot refused at level 2", self.answer.code == 16);
        if self.is_done() {
            count(["boot 0", "boot 1", "boot 2"][boot as usize], true);
            count("reset with a debugger connected", self.before.connected);
            count(
                "reset that takes the mark away",
                self.before.mark && !self.part.record.mark,
            );
        }
    }

    pub(super) fn count_visit(&self, coverage: &mut Coverage) {
        let mut count = |name, applies| coverage.count_if(VISIT, name, applies);
        let connected = self.before.connected;
        count("on refused at level 2", self.answer.code == 16);
        if self.is_done() && self.call == Call::DebuggerOn {
            count("on", !connected);
            count("on when connected", connected);
            count("on while busy", self.was_busy());
        }
        if self.is_done() && self.call == Call::DebuggerOff {
            count("off", connected);
            count("off when not connected", !connected);
        }
    }

    pub(super) fn count_time(&self, coverage: &mut Coverage) {
        if !self.before.powered || self.answer.code == 8 {
            return;
        }
        let mut count = |name, applies| coverage.count_if(TIME, name, applies);
        let left = |record: &Record| record.running.map_or(0, |running| running.left.0);
        match self.call {
            Call::Pass(time) => {
                count("pass of 0 while busy", time.0 == 0 && self.was_busy());
                count("pass of 120,000,000", time == PASS_LIMIT);
                count(
                    "pass that leaves 1 microsecond",
                    left(&self.part.record) == 1,
                );
            }
            Call::Wait(limit) => {
                let short = left(&self.before).div_ceil(1_000) == limit.0 + 1;
                count("wait while idle", !self.was_busy());
                count("wait of 120,000", limit == WAIT_LIMIT);
                count("wait of 0 while busy", limit.0 == 0 && self.was_busy());
                count("wait one millisecond too short", short);
            }
            _ => {}
        }
    }
}
