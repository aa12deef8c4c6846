//! Flags and their causes. A call that raises one changes no cell, so that the
//! cells still show why.

use super::table::{FLAG, PGSERR, PGSERR_FROM_CELLS, PGSERR_FROM_CR, WRPERR};
use super::watch::Step;
use super::Coverage;
use crate::model::job::Call;
use crate::model::map::{self, Area, Place};
use crate::model::registers::*;

impl Step<'_, '_> {
    pub(super) fn count_flag(&self, coverage: &mut Coverage) {
        let flags = [SR_PGSERR, SR_PGPERR, SR_PGAERR, SR_WRPERR];
        let flag = flags
            .iter()
            .position(|&flag| u64::from(flag) == self.answer.value);
        let flag = flag.expect("an error flag");
        let with_operr = usize::from(self.part.record.cr & CR_ERRIE != 0);
        coverage.count(FLAG.0, FLAG.1[2 * flag + with_operr]);
        let Call::Write(access, _) = self.call else {
            return;
        };
        let Some(place) = self.place(access) else {
            return;
        };
        match (flags[flag], place.area) {
            (SR_PGSERR, Area::Registers) => coverage.count(PGSERR.0, PGSERR_FROM_CR),
            (SR_PGSERR, _) => coverage.count(PGSERR.0, PGSERR_FROM_CELLS),
            (SR_WRPERR, _) => self.count_cause(coverage, place),
            _ => {}
        }
    }

    fn count_cause(&self, coverage: &mut Coverage, place: Place) {
        let causes = match place {
            Place {
                area: Area::Registers,
                offset: OPTCR..,
            } => {
                return coverage.count(WRPERR.0, WRPERR.1[12]);
            }
            Place {
                area: Area::Registers,
                ..
            } => self.erase_causes(),
            _ => self.program_causes(place),
        };
        let mut standing = causes.iter().filter(|cause| cause.1);
        if let (Some(&(row, _)), None) = (standing.next(), standing.next()) {
            coverage.count(WRPERR.0, WRPERR.1[row]);
        }
    }

    fn program_causes(&self, place: Place) -> [(usize, bool); 6] {
        let Place { area, offset } = place;
        let sector = || map::sector_of(offset);
        let intruded = self.part.is_intruded();
        [
            (0, area == Area::System),
            (1, area == Area::Options),
            (2, area == Area::Main && self.part.is_protected(sector())),
            (3, area == Area::Otp && self.part.is_locked_otp(offset)),
            (4, intruded && self.level_before == 1),
            (5, intruded && self.level_before == 2),
        ]
    }

    fn erase_causes(&self) -> [(usize, bool); 6] {
        let cr = self.part.record.cr;
        let mass = cr & CR_MER != 0;
        let single = cr & CR_SER != 0;
        let sector = ((cr & CR_SNB) >> CR_SNB_SHIFT) as usize;
        let any_protected = (0..self.part.sectors).any(|sector| self.part.is_protected(sector));
        let intruded = self.part.is_intruded();
        let present = sector < self.part.sectors;
        [
            (6, mass && single),
            (7, single && !present),
            (8, single && present && self.part.is_protected(sector)),
            (9, mass && any_protected),
            (10, intruded && self.level_before == 1),
            (11, intruded && self.level_before == 2),
        ]
    }
}
