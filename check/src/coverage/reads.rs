//! Reads, done and closed. Those of the SRAM are counted with its writes.

use super::registers::count_offset;
use super::table::{CLOSED, READ, READ_AT, REGISTER};
use super::watch::Step;
use super::Coverage;
use crate::model::job::{Access, Who};
use crate::model::map::{self, Area, Place};
use crate::model::registers::*;

impl Step<'_, '_> {
    pub(super) fn count_read(&self, coverage: &mut Coverage, access: Access) {
        let Some(place) = self.place(access) else {
            return;
        };
        match (self.answer.code, place.area) {
            (_, Area::Sram) => {}
            (0, Area::Registers) => self.count_register_read(coverage, access, place),
            (0, _) => self.count_cell_read(coverage, access, place),
            (13, _) => self.count_closed(coverage, access, place),
            _ => {}
        }
    }

    fn count_cell_read(&self, coverage: &mut Coverage, access: Access, place: Place) {
        let level = self.level_before as usize;
        let mark = self.before.mark;
        match place.area {
            Area::Main if !mark => coverage.count(READ.0, READ.1[level]),
            Area::Otp if !mark => coverage.count(READ.0, READ.1[3 + level]),
            Area::Main => self.count_pending_level(coverage),
            _ => {}
        }
        let mut count = |name, applies| coverage.count_if(READ, name, applies);
        let in_main = place.area == Area::Main;
        let mixed = is_mixed(place, access.width);
        count("main with the mark at level 0", in_main && mark);
        count(
            "OTP with the mark at level 0",
            place.area == Area::Otp && mark,
        );
        count("main by a debugger", in_main && access.who == Who::Debugger);
        count("system memory", place.area == Area::System && !mixed);
        count("system memory and OTP", mixed);
        count("option cells", place.area == Area::Options);
        count(
            "option cells with the mark at level 1",
            place.area == Area::Options && mark && level == 1,
        );
        count(
            "cells, unaligned",
            !access.address.is_multiple_of(access.width),
        );
        count("cells, 8 bytes", access.width == 8);
    }

    /// Main was read although the mark stands: at level 0, whatever level
    /// OPTCR has been asked for.
    fn count_pending_level(&self, coverage: &mut Coverage) {
        let pending = (self.before.optcr & OPTCR_RDP) >> OPTCR_RDP_SHIFT;
        let name = "level pending in OPTCR, read done";
        coverage.count_if(REGISTER, name, pending != 0xAA);
    }

    fn count_register_read(&self, coverage: &mut Coverage, access: Access, place: Place) {
        count_offset(coverage, READ_AT, place.offset, access.width);
        let debugger = access.who == Who::Debugger;
        coverage.count_if(READ, "register by a debugger", debugger);
    }

    fn count_closed(&self, coverage: &mut Coverage, access: Access, place: Place) {
        let mut count = |name, applies| coverage.count_if(CLOSED, name, applies);
        let in_main = place.area == Area::Main;
        let in_otp = place.area == Area::Otp;
        let level = self.level_before;
        let main_to_cpu = in_main && level == 1 && access.who == Who::Cpu;
        let connected = self.before.connected;
        let other_boot = self.past.boot != 0;
        let by_debugger = in_main && level == 1 && access.who == Who::Debugger;
        count("main at level 1 to a debugger", by_debugger);
        count(
            "main at level 1 to the CPU beside a debugger",
            main_to_cpu && connected,
        );
        count(
            "main at level 1 to the CPU after a debugger",
            main_to_cpu && !connected && !other_boot,
        );
        count(
            "main at level 1 to the CPU after another boot",
            main_to_cpu && !connected && other_boot,
        );
        count("main at level 2", in_main && level == 2);
        count("OTP at level 1", in_otp && level == 1);
        count("OTP at level 2", in_otp && level == 2);
        count("system memory and OTP", is_mixed(place, access.width));
        count("option cells at level 2", place.area == Area::Options);
    }
}

fn is_mixed(place: Place, width: u32) -> bool {
    place.area == Area::System && place.offset + width as usize > map::SYSTEM_LEN
}
