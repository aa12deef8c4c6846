//! Instruction fetches, done and refused.

use super::table::Group;
use super::watch::Step;
use super::Coverage;
use crate::model::job::FETCH_WIDTH;
use crate::model::lines::ROW_LEN;
use crate::model::map::*;

const DONE: Group = (
    "fetches done",
    &[
        "clean, level 0",
        "clean, level 1",
        "clean, level 2",
        "with the mark at level 0",
        "beside a debugger at level 0",
        "aligned",
        "unaligned in one row",
        "over two rows",
        "over the end of a sector",
        "the first bytes of main flash",
        "the last bytes of main flash",
    ],
);
const REFUSED: Group = (
    "fetches refused",
    &[
        "10 without power",
        "10 where 7 applies too",
        "7 into main flash",
        "7 over the end of main flash",
        "7 right behind main flash",
        "7 in system memory",
        "7 in OTP",
        "7 in option cells",
        "7 in registers",
        "7 in the SRAM",
        "7 outside the map",
        "7 over the end of all addresses",
        "7 where 11 applies too",
        "7 where 13 applies too",
        "11 stalled",
        "11 where 13 applies too",
        "13 at level 1 beside a debugger",
        "13 at level 1 after a debugger",
        "13 at level 1 after another boot",
        "13 at level 2",
    ],
);

pub const TABLE: &[Group] = &[DONE, REFUSED];

impl Step<'_, '_> {
    pub(super) fn count_fetch(&self, coverage: &mut Coverage, address: u32) {
        match self.answer.code {
            0 => self.count_fetched(coverage, address),
            7 => self.count_fetch_outside(coverage, address),
            code => self.count_fetch_refused(coverage, address, code),
        }
    }

    fn count_fetched(&self, coverage: &mut Coverage, address: u32) {
        let mark = self.before.mark;
        let level = self.level_before as usize;
        coverage.count_if(DONE, DONE.1[level], !mark);
        let offset = (address - MAIN) as usize;
        let last = offset + FETCH_WIDTH as usize - 1;
        let one_row = offset / ROW_LEN == last / ROW_LEN;
        let aligned = address.is_multiple_of(FETCH_WIDTH);
        let mut count = |name, applies| coverage.count_if(DONE, name, applies);
        count("with the mark at level 0", mark);
        count("beside a debugger at level 0", self.before.connected);
        count("aligned", aligned);
        count("unaligned in one row", !aligned && one_row);
        count("over two rows", !one_row);
        let sectors = [offset, last].map(sector_of);
        count("over the end of a sector", sectors[0] != sectors[1]);
        count("the first bytes of main flash", offset == 0);
        let to_the_end = last + 1 == self.part.main.len();
        count("the last bytes of main flash", to_the_end);
    }

    fn count_fetch_outside(&self, coverage: &mut Coverage, address: u32) {
        let end = MAIN + self.part.main.len() as u32;
        let place = place(address, FETCH_WIDTH, self.part.main.len());
        let area = place.map(|place| place.area);
        let mut count = |name, applies| coverage.count_if(REFUSED, name, applies);
        let into = (MAIN - FETCH_WIDTH + 1..MAIN).contains(&address);
        count("7 into main flash", into);
        let over = (end - FETCH_WIDTH + 1..end).contains(&address);
        count("7 over the end of main flash", over);
        count("7 right behind main flash", address == end);
        count("7 in system memory", area == Some(Area::System));
        count("7 in OTP", area == Some(Area::Otp));
        count("7 in option cells", area == Some(Area::Options));
        count("7 in registers", area == Some(Area::Registers));
        count("7 in the SRAM", area == Some(Area::Sram));
        count("7 outside the map", area.is_none() && !into && !over);
        let wraps = address.checked_add(FETCH_WIDTH - 1).is_none();
        count("7 over the end of all addresses", wraps);
        count("7 where 11 applies too", self.was_busy());
        count("7 where 13 applies too", self.part.is_intruded());
    }

    fn count_fetch_refused(&self, coverage: &mut Coverage, address: u32, code: u8) {
        let level_1 = self.level_before == 1;
        let connected = self.before.connected;
        let alone = code == 13 && level_1 && !connected;
        let boot = self.past.boot;
        let place = place(address, FETCH_WIDTH, self.part.main.len());
        let outside = !place.is_some_and(|place| place.area == Area::Main);
        let mut count = |name, applies| coverage.count_if(REFUSED, name, applies);
        count("10 without power", code == 10 && !outside);
        count("10 where 7 applies too", code == 10 && outside);
        let intruded = self.part.is_intruded();
        count("11 stalled", code == 11 && !intruded);
        count("11 where 13 applies too", code == 11 && intruded);
        let beside = code == 13 && level_1 && connected;
        count("13 at level 1 beside a debugger", beside);
        count("13 at level 1 after a debugger", alone && boot == 0);
        count("13 at level 1 after another boot", alone && boot != 0);
        count("13 at level 2", code == 13 && self.level_before == 2);
    }
}
