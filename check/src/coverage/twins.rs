//! Pairs of parts that differ in main flash and in the SRAM: what they were
//! asked.

use super::cuts::{target_row, TARGETS};
use super::table::Group;
use super::Coverage;
use crate::model::job::{Call, Who};
use crate::model::map::Area;
use crate::twins::Twinned;

const PAIR: Group = (
    "calls of two parts that differ in main flash and SRAM",
    &[
        "clean read of main flash, values differ",
        "clean read of main flash, values alike",
        "clean read of SRAM, values differ",
        "clean read of SRAM, values alike",
        "read of main flash closed to a debugger",
        "read of SRAM closed to a debugger",
        "read of SRAM closed to the CPU, level 1",
        "read of SRAM closed to the CPU, level 2",
        "write to SRAM closed to a debugger",
        "write to SRAM closed to the CPU, level 1",
        "write to SRAM closed to the CPU, level 2",
        "write to SRAM done",
        "read of main flash after level 1 became 0",
        "read of SRAM after level 1 became 0",
    ],
);

const LINES: Group = (
    "lines of two such parts",
    &[
        "clean fetch, values differ",
        "clean fetch, values alike",
        "clean read of an old line, values differ",
        "clean fetch of an old line, values differ",
        "fetch closed, level 1",
        "fetch closed, level 2",
        "read closed to a debugger, line held",
        "read closed to the CPU, line held",
        "fetch closed, line held",
        "fetch after level 1 became 0",
        "read by a held line after level 1 became 0",
        "fetch by a held line after level 1 became 0",
    ],
);

const CUT: Group = ("cuts of two such parts", TARGETS);
const RESET: Group = (
    "resets of two such parts while an operation runs",
    &[
        "refused 21",
        "cut with a debugger connected",
        "level 1 becomes 0",
        "level 1 becomes 2",
        "level 1 becomes 2 beside a debugger",
    ],
);

pub const TABLE: &[Group] = &[PAIR, LINES, CUT, RESET];

impl Coverage {
    pub fn observe_twins(&mut self, twinned: &Twinned) {
        self.observe_twin_lines(twinned);
        let (access, reads) = match twinned.call {
            Call::Read(access) => (access, true),
            Call::Write(access, _) => (access, false),
            Call::Reset { .. } => return self.observe_twin_reset(twinned),
            _ => return,
        };
        let main = reads && twinned.area == Some(Area::Main);
        let sram = twinned.area == Some(Area::Sram);
        let [one, other] = twinned.answers;
        let (done, closed) = (one[0] == 0, one[0] == 13);
        let by_debugger = access.who == Who::Debugger;
        let mut count = |name, applies| self.count_if(PAIR, name, applies);
        let (own, alike) = (twinned.own, one == other);
        count(
            "clean read of main flash, values differ",
            main && own && !alike,
        );
        count(
            "clean read of main flash, values alike",
            main && own && alike,
        );
        count("clean read of SRAM, values differ", sram && own && !alike);
        count("clean read of SRAM, values alike", sram && own && alike);
        let later = twinned.regressed && reads && done;
        count("read of main flash after level 1 became 0", main && later);
        count("read of SRAM after level 1 became 0", sram && later);
        count(
            "read of main flash closed to a debugger",
            main && closed && by_debugger,
        );
        let (shut, level) = (sram && closed, twinned.level);
        let shut_to_cpu = shut && !by_debugger;
        count(
            "read of SRAM closed to a debugger",
            reads && shut && by_debugger,
        );
        count(
            "read of SRAM closed to the CPU, level 1",
            reads && shut_to_cpu && level == 1,
        );
        count(
            "read of SRAM closed to the CPU, level 2",
            reads && shut_to_cpu && level == 2,
        );
        count(
            "write to SRAM closed to a debugger",
            !reads && shut && by_debugger,
        );
        count(
            "write to SRAM closed to the CPU, level 1",
            !reads && shut_to_cpu && level == 1,
        );
        count(
            "write to SRAM closed to the CPU, level 2",
            !reads && shut_to_cpu && level == 2,
        );
        count("write to SRAM done", sram && !reads && done);
    }

    fn observe_twin_lines(&mut self, twinned: &Twinned) {
        let by_debugger = match twinned.call {
            Call::Read(access) => access.who == Who::Debugger,
            Call::Fetch { .. } => false,
            _ => return,
        };
        if twinned.area != Some(Area::Main) {
            return;
        }
        let fetch = matches!(twinned.call, Call::Fetch { .. });
        let [one, other] = twinned.answers;
        let (done, closed) = (one[0] == 0, one[0] == 13);
        let differs = twinned.own && one != other;
        let mut count = |name, applies| self.count_if(LINES, name, applies);
        count("clean fetch, values differ", fetch && differs);
        let alike = twinned.own && !differs;
        count("clean fetch, values alike", fetch && alike);
        let old = twinned.old && differs;
        count("clean read of an old line, values differ", !fetch && old);
        count("clean fetch of an old line, values differ", fetch && old);
        count(
            "fetch closed, level 1",
            fetch && closed && twinned.level == 1,
        );
        count(
            "fetch closed, level 2",
            fetch && closed && twinned.level == 2,
        );
        let shut = closed && twinned.held;
        count("read closed to a debugger, line held", shut && by_debugger);
        let to_cpu = !fetch && !by_debugger;
        count("read closed to the CPU, line held", shut && to_cpu);
        count("fetch closed, line held", fetch && shut);
        let later = twinned.regressed && done;
        count("fetch after level 1 became 0", fetch && later);
        let by_line = later && twinned.held;
        count(
            "read by a held line after level 1 became 0",
            !fetch && by_line,
        );
        count(
            "fetch by a held line after level 1 became 0",
            fetch && by_line,
        );
    }

    fn observe_twin_reset(&mut self, twinned: &Twinned) {
        let Some(running) = twinned.running else {
            return;
        };
        let code = twinned.answers[0][0];
        let done = code == 0;
        self.count_if(CUT, CUT.1[target_row(running)], done);
        let mut count = |name, applies| self.count_if(RESET, name, applies);
        count("refused 21", code == 21);
        let connected = twinned.connected;
        count("cut with a debugger connected", done && connected);
        let levels = (twinned.level, twinned.level_after);
        count("level 1 becomes 0", levels == (1, 0));
        let to_2 = levels == (1, 2);
        count("level 1 becomes 2", to_2);
        count("level 1 becomes 2 beside a debugger", to_2 && connected);
    }
}
