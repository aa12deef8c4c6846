//! Data lines and instruction lines: how they are used, and what reads and
//! fetches get from them when the cells have changed.

use super::emptied;
use super::table::Group;
use super::watch::Step;
use super::Coverage;
use crate::model::job::{Call, Who, FETCH_WIDTH};
use crate::model::lines::{Lines, Row, Side, ROW_LEN};
use crate::model::map::{self, MAIN};
use crate::model::operation::{Operation, Write};
use crate::model::registers::*;

/// Of each pair of groups, and of all else that comes twice, the first is for
/// the data side, the second for the instruction side.
const USE: [Group; 2] = [
    ("reads through the data lines", USES),
    ("fetches through the instruction lines", USES),
];
const USES: &[&str] = &[
    "line held",
    "free line filled",
    "all lines held, one replaced",
    "replaced, and not the first one filled",
    "unaligned in one line",
    "over two lines, both held",
    "over two lines, lower held alone",
    "over two lines, upper held alone",
    "over two lines, none held",
    "over two lines, upper pushed out by the lower",
    "over two lines, old in the lower alone",
    "over two lines, old in the upper alone",
    "with the side off, row held",
    "with the side off, row not held",
    "line held that was kept with the side off",
];
const BY_DEBUGGER: Group = (
    "reads through the data lines by a debugger",
    &["line held", "free line filled", "one replaced"],
);

const VALUE: [Group; 2] = [
    (
        "values of reads from one held data line",
        &[
            "as filled, cells unchanged",
            "old, after a sector erase",
            "old, after a mass erase",
            "new, after a program",
            "new, after a program with the side off",
            "old and new, programmed after an erase",
            "old, also after an option change",
            "old, also after the side was off",
        ],
    ),
    (
        "values of fetches from one held instruction line",
        &[
            "as filled, cells unchanged",
            "old, after a sector erase",
            "old, after a mass erase",
            "old, after a program",
            "old, after a program with the side off",
            "old, after a program and an erase",
            "old, also after an option change",
            "old, also after the side was off",
        ],
    ),
];
const FILLED: Group = (
    "cells taken anew, that a line held before has not followed",
    &[
        "read, line replaced",
        "read, side emptied",
        "fetch, line replaced",
        "fetch, side emptied",
    ],
);

const PROGRAM: Group = (
    "programs that end, by the lines of the row",
    &[
        "data line held, side on",
        "data line held, side off",
        "data line held, next to be replaced",
        "data line held, bits written stay 0",
        "data line held, old, and a cell stays as it is",
        "instruction line held",
        "lines of both sides held",
        "no line held",
        "of OTP, data line of the same offset held",
    ],
);
const REFUSED: [Group; 2] = [
    (
        "reads refused with the data side on",
        &[
            "7 over the end, row held",
            "7 over the end, row not held",
            "11, row held",
            "11, row not held",
            "13, row held",
            "13, row not held",
            "15, row held",
            "15, row not held",
        ],
    ),
    (
        "fetches refused with the instruction side on",
        &[
            "7 over the end, row held",
            "7 over the end, row not held",
            "11, row held",
            "11, row not held",
            "13, row held",
            "13, row not held",
        ],
    ),
];

pub const TABLE: &[Group] = &[
    USE[0],
    USE[1],
    BY_DEBUGGER,
    VALUE[0],
    VALUE[1],
    FILLED,
    PROGRAM,
    REFUSED[0],
    REFUSED[1],
];

pub(super) const ENABLED: [u32; 2] = [ACR_DCEN, ACR_ICEN];

/// A line that is held, with what has happened since it was filled.
#[derive(Clone, Copy)]
struct Held {
    row: u32,
    filled: Row,
    events: Events,
}

#[derive(Clone, Copy, Default)]
struct Events {
    programmed: bool,
    programmed_off: bool,
    sector_erased: bool,
    mass_erased: bool,
    options_changed: bool,
    off: bool,
}

/// A line that its side has dropped: with all others, or for another row.
#[derive(Clone, Copy)]
struct Dropped {
    row: u32,
    bytes: Row,
    emptied: bool,
}

/// What the watcher of a job knows of its lines.
#[derive(Default)]
pub(super) struct LinesPast {
    /// In the order in which they were filled.
    held: [Vec<Held>; 2],
    dropped: [Vec<Dropped>; 2],
    /// Cells have changed that a side does not follow, since it was emptied.
    unfollowed: [bool; 2],
}

/// A read of main flash, or a fetch there, by its first byte.
struct LineAccess {
    side: usize,
    offset: usize,
    width: usize,
}

impl LineAccess {
    fn rows(&self) -> (u32, u32) {
        let last = self.offset + self.width - 1;
        ((self.offset / ROW_LEN) as u32, (last / ROW_LEN) as u32)
    }
}

/// Counts a call, and keeps what is known. An error tells of one that gets
/// another value than the cells have, though its side was emptied after the last
/// change that it does not follow.
pub(super) fn observe(
    coverage: &mut Coverage,
    step: &Step,
    past: &mut LinesPast,
) -> Result<(), String> {
    let access = step.line_access();
    let mut kept = Ok(());
    if let Some(access) = &access {
        let before = &step.lines_before;
        match access.side {
            0 => step.count_line_access(coverage, access, &before.data, past),
            _ => step.count_line_access(coverage, access, &before.instructions, past),
        }
        if step.is_done() && step.is_old(access) && !past.unfollowed[access.side] {
            kept = Err(format!("{:X?} gets an old value", step.call));
        }
    }
    step.count_programmed_line(coverage);
    emptied::count(coverage, step);
    past.follow(step, access);
    kept
}

impl Step<'_, '_> {
    fn line_access(&self) -> Option<LineAccess> {
        let (side, address, width) = match self.call {
            Call::Read(access) => (0, access.address, access.width),
            Call::Fetch { address } => (1, address, FETCH_WIDTH),
            _ => return None,
        };
        let offset = address.wrapping_sub(MAIN) as usize;
        (offset < self.part.main.len()).then_some(LineAccess {
            side,
            offset,
            width: width as usize,
        })
    }

    pub(super) fn lines_after(&self) -> &Lines {
        self.part.lines.as_deref().expect("a part with lines")
    }

    fn is_on(&self, side: usize) -> bool {
        self.before.acr & ENABLED[side] != 0
    }

    fn cells(&self, access: &LineAccess) -> &[u8] {
        &self.part.main[access.offset..][..access.width]
    }

    /// A done access gets another value than its cells have.
    fn is_old(&self, access: &LineAccess) -> bool {
        self.answer.value.to_le_bytes()[..access.width] != *self.cells(access)
    }

    fn count_line_access<const N: usize>(
        &self,
        coverage: &mut Coverage,
        access: &LineAccess,
        before: &Side<N>,
        past: &LinesPast,
    ) {
        let side = access.side;
        let (lower, upper) = access.rows();
        let held = before.bytes_of(lower).is_some();
        let mut count = |name, applies| coverage.count_if(USE[side], name, applies);
        match (self.is_done(), self.is_on(side)) {
            (true, false) => {
                count("with the side off, row held", held);
                count("with the side off, row not held", !held);
            }
            (true, true) if lower == upper => {
                self.count_line(coverage, access, before, past);
            }
            (true, true) => self.count_two_lines(coverage, access, before),
            (false, true) => self.count_refused_access(coverage, side, held),
            (false, false) => {}
        }
    }

    fn count_line<const N: usize>(
        &self,
        coverage: &mut Coverage,
        access: &LineAccess,
        before: &Side<N>,
        past: &LinesPast,
    ) {
        let side = access.side;
        let row = access.rows().0;
        let line = past.held[side].iter().find(|line| line.row == row);
        let use_row = match (line, before.next_out()) {
            (Some(_), _) => 0,
            (None, None) => 1,
            (None, Some(_)) => 2,
        };
        coverage.count(USE[side].0, USE[side].1[use_row]);
        let by_debugger = matches!(self.call, Call::Read(read) if read.who == Who::Debugger);
        coverage.count_if(BY_DEBUGGER, BY_DEBUGGER.1[use_row], by_debugger);
        let mut count = |name, applies| coverage.count_if(USE[side], name, applies);
        let first = past.held[side].first().map(|line| line.row);
        let other = use_row == 2 && before.next_out() != first;
        count("replaced, and not the first one filled", other);
        let aligned = access.offset.is_multiple_of(access.width);
        count("unaligned in one line", !aligned);
        match line {
            Some(line) => {
                let kept_off = line.events.off;
                count("line held that was kept with the side off", kept_off);
                self.count_value(coverage, access, line);
            }
            None => self.count_filled(coverage, access, past),
        }
    }

    fn count_value(&self, coverage: &mut Coverage, access: &LineAccess, line: &Held) {
        let filled = &line.filled[access.offset % ROW_LEN..][..access.width];
        let changed = filled != self.cells(access);
        let old = self.answer.value.to_le_bytes()[..access.width] == *filled && changed;
        let mixed = self.is_old(access) && !old;
        let new = changed && !self.is_old(access);
        let events = line.events;
        let erased = events.sector_erased || events.mass_erased;
        let group = VALUE[access.side];
        let mut count = |name, applies| coverage.count_if(group, name, applies);
        count("as filled, cells unchanged", !changed && !mixed);
        let by_erase = old && !events.programmed;
        let by_sector = by_erase && !events.mass_erased;
        count("old, after a sector erase", by_sector);
        let by_mass = by_erase && !events.sector_erased;
        count("old, after a mass erase", by_mass);
        count(
            "old, also after an option change",
            old && events.options_changed,
        );
        count("old, also after the side was off", old && events.off);
        let followed = if access.side == 0 { new } else { old };
        let program = followed && events.programmed && !erased;
        if access.side == 0 {
            count("new, after a program", program);
            let off = program && events.programmed_off;
            count("new, after a program with the side off", off);
            count("old and new, programmed after an erase", mixed);
        } else {
            count("old, after a program", program);
            let off = program && events.programmed_off;
            count("old, after a program with the side off", off);
            let both = old && events.programmed && erased;
            count("old, after a program and an erase", both);
        }
    }

    /// Where the line that was there before would give another value.
    fn count_filled(&self, coverage: &mut Coverage, access: &LineAccess, past: &LinesPast) {
        let row = access.rows().0;
        let dropped = past.dropped[access.side]
            .iter()
            .find(|dropped| dropped.row == row);
        let Some(dropped) = dropped else {
            return;
        };
        let bytes = &dropped.bytes[access.offset % ROW_LEN..][..access.width];
        let name = FILLED.1[2 * access.side + usize::from(dropped.emptied)];
        coverage.count_if(FILLED, name, bytes != self.cells(access));
    }

    fn count_two_lines<const N: usize>(
        &self,
        coverage: &mut Coverage,
        access: &LineAccess,
        before: &Side<N>,
    ) {
        let (lower, upper) = access.rows();
        let held = |row| before.bytes_of(row).is_some();
        let row = match (held(lower), held(upper)) {
            (true, true) => 5,
            (true, false) => 6,
            (false, true) => 7,
            (false, false) => 8,
        };
        let group = USE[access.side];
        coverage.count(group.0, group.1[row]);
        let mut count = |name, applies| coverage.count_if(group, name, applies);
        let pushed = pushes_upper(access, before);
        count("over two lines, upper pushed out by the lower", pushed);
        let in_lower = ROW_LEN - access.offset % ROW_LEN;
        let value = self.answer.value.to_le_bytes();
        let (value_low, value_high) = value[..access.width].split_at(in_lower);
        let (cells_low, cells_high) = self.cells(access).split_at(in_lower);
        let old = (value_low != cells_low, value_high != cells_high);
        count(
            "over two lines, old in the lower alone",
            old == (true, false),
        );
        count(
            "over two lines, old in the upper alone",
            old == (false, true),
        );
    }

    fn count_refused_access(&self, coverage: &mut Coverage, side: usize, held: bool) {
        let codes = [7, 11, 13, 15];
        let code = codes.iter().position(|&code| code == self.answer.code);
        if let Some(code) = code {
            let group = REFUSED[side];
            coverage.count(group.0, group.1[2 * code + usize::from(!held)]);
        }
    }

    /// The operation that this call has brought to its end.
    pub(super) fn ended(&self) -> Option<Operation> {
        let by_time = matches!(self.call, Call::Pass(_) | Call::Wait(_));
        let running = self.before.running.filter(|_| by_time)?;
        let ended = self.part.record.running.is_none();
        ended.then_some(running.operation)
    }

    fn count_programmed_line(&self, coverage: &mut Coverage) {
        let write = match self.ended() {
            Some(Operation::ProgramMain(write)) => write,
            Some(Operation::ProgramOtp(Write { offset, .. })) => {
                let held = self.lines_before.data.bytes_of((offset / ROW_LEN) as u32);
                let name = "of OTP, data line of the same offset held";
                return coverage.count_if(PROGRAM, name, held.is_some());
            }
            _ => return,
        };
        let row = (write.offset / ROW_LEN) as u32;
        let Lines { data, instructions } = &self.lines_before;
        let line = data.bytes_of(row);
        let fetched = instructions.bytes_of(row).is_some();
        let mut count = |name, applies| coverage.count_if(PROGRAM, name, applies);
        let on = self.is_on(0);
        count("data line held, side on", line.is_some() && on);
        count("data line held, side off", line.is_some() && !on);
        count(
            "data line held, next to be replaced",
            data.next_out() == Some(row),
        );
        count("instruction line held", fetched);
        count("lines of both sides held", line.is_some() && fetched);
        count("no line held", line.is_none() && !fetched);
        let Some(line) = line else {
            return;
        };
        let width = write.width as usize;
        let cells = &self.cells_before.programmed.to_le_bytes()[..width];
        let line = &line[write.offset % ROW_LEN..][..width];
        let written = &write.value.to_le_bytes()[..width];
        let mut bytes = cells.iter().zip(written).zip(line);
        let stay = bytes
            .clone()
            .any(|((cell, written), line)| cell == line && cell & written != *written);
        count("data line held, bits written stay 0", stay);
        let same = bytes.any(|((cell, written), line)| cell != line && cell & written == *cell);
        count("data line held, old, and a cell stays as it is", same);
    }
}

/// Whether the fill of the lower line drops the upper one.
fn pushes_upper<const N: usize>(access: &LineAccess, before: &Side<N>) -> bool {
    let (lower, upper) = access.rows();
    lower != upper && before.bytes_of(lower).is_none() && before.next_out() == Some(upper)
}

impl LinesPast {
    fn follow(&mut self, step: &Step, access: Option<LineAccess>) {
        let before = &step.lines_before;
        let after = step.lines_after();
        let emptied = emptied::emptied(step);
        let pushed = access.filter(|access| step.is_done() && step.is_on(access.side));
        let pushed = pushed.filter(|access| match access.side {
            0 => pushes_upper(access, &before.data),
            _ => pushes_upper(access, &before.instructions),
        });
        if let Some(access) = pushed {
            let upper = access.rows().1;
            self.held[access.side].retain(|line| line.row != upper);
        }
        self.follow_side(0, &before.data, &after.data, emptied[0]);
        self.follow_side(1, &before.instructions, &after.instructions, emptied[1]);
        self.note(step);
        let ended = step.ended();
        if let Some(Operation::ProgramMain(Write { offset, .. })) = ended {
            let row = (offset / ROW_LEN) as u32;
            self.dropped[0].retain(|dropped| dropped.row != row);
        }
        let erased = matches!(
            ended,
            Some(Operation::EraseSector(_) | Operation::MassErase)
        );
        let programmed = matches!(ended, Some(Operation::ProgramMain(_)));
        for (side, changed) in [erased, erased || programmed].into_iter().enumerate() {
            self.unfollowed[side] = !emptied[side] && (self.unfollowed[side] || changed);
        }
    }

    fn follow_side<const N: usize>(
        &mut self,
        side: usize,
        before: &Side<N>,
        after: &Side<N>,
        emptied: bool,
    ) {
        let held = &mut self.held[side];
        let dropped = &mut self.dropped[side];
        for row in before.rows() {
            if let (Some(bytes), None) = (before.bytes_of(row), after.bytes_of(row)) {
                held.retain(|line| line.row != row);
                dropped.push(Dropped {
                    row,
                    bytes,
                    emptied,
                });
            }
        }
        for row in after.rows() {
            if held.iter().all(|line| line.row != row) {
                dropped.retain(|dropped| dropped.row != row);
                held.push(Held {
                    row,
                    filled: after.bytes_of(row).unwrap_or_default(),
                    events: Events::default(),
                });
            }
        }
    }

    fn note(&mut self, step: &Step) {
        let ended = step.ended();
        for (side, lines) in self.held.iter_mut().enumerate() {
            let off = !step.is_on(side);
            for Held { row, events, .. } in lines {
                let start = *row as usize * ROW_LEN;
                events.off |= off;
                match ended {
                    Some(Operation::ProgramMain(Write { offset, .. }))
                        if offset / ROW_LEN == *row as usize =>
                    {
                        events.programmed = true;
                        events.programmed_off |= off;
                    }
                    Some(Operation::EraseSector(sector))
                        if map::sector_range(sector).contains(&start) =>
                    {
                        events.sector_erased = true;
                    }
                    Some(Operation::MassErase) => events.mass_erased = true,
                    Some(Operation::ChangeOptions) => events.options_changed = true,
                    _ => {}
                }
            }
        }
    }
}
