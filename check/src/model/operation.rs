//! Operations on cells: what starts them, how long they take, and what they
//! leave when their last microsecond passes.

use super::job::Access;
use super::map::{self, Area, Place};
use super::part::Part;
use super::refusal::Refusal;
use super::registers::*;
use super::time::Micros;

#[derive(Clone, Copy, PartialEq, Eq, Debug)]
pub enum Operation {
    ProgramMain(Write),
    ProgramOtp(Write),
    EraseSector(usize),
    MassErase,
    ChangeOptions,
    /// Erases main flash first; its option time comes last.
    Regression {
        option_time: Micros,
    },
}

/// The bytes to program, from an offset in their area on.
#[derive(Clone, Copy, PartialEq, Eq, Debug)]
pub struct Write {
    pub offset: usize,
    pub width: u32,
    pub value: u64,
}

#[derive(Clone, Copy, PartialEq, Eq, Debug)]
pub struct Running {
    pub operation: Operation,
    pub left: Micros,
}

impl Operation {
    pub fn is_erase(self) -> bool {
        matches!(self, Operation::EraseSector(_) | Operation::MassErase)
    }

    pub fn is_option_change(self) -> bool {
        matches!(
            self,
            Operation::ChangeOptions | Operation::Regression { .. }
        )
    }
}

impl Write {
    /// Programming only clears bits.
    fn program(self, cells: &mut [u8]) {
        let bytes = self.value.to_le_bytes();
        let target = &mut cells[self.offset..][..self.width as usize];
        for (cell, byte) in target.iter_mut().zip(bytes) {
            *cell &= byte;
        }
    }
}

/// Starting.
impl Part<'_> {
    /// A write to cells. A target that crosses no row lies in one area.
    pub(super) fn start_program(
        &mut self,
        place: Place,
        access: Access,
        value: u64,
    ) -> Result<u64, Refusal> {
        let width = access.width;
        if self.record.cr & CR_PG == 0 {
            return Err(self.raise(SR_PGSERR));
        }
        if map::crosses_row(access.address, width) {
            return Err(self.raise(SR_PGAERR));
        }
        if width != 1 << self.psize() {
            return Err(self.raise(SR_PGPERR));
        }
        let offset = place.offset;
        let write = Write {
            offset,
            width,
            value,
        };
        let operation = match place.area {
            Area::Main if !self.is_protected(map::sector_of(offset)) => {
                Operation::ProgramMain(write)
            }
            Area::Otp if !self.is_locked_otp(offset) => Operation::ProgramOtp(write),
            _ => return Err(self.raise(SR_WRPERR)),
        };
        if self.is_intruded() {
            return Err(self.raise(SR_WRPERR));
        }
        self.start(operation, self.timings.row(self.psize()).program());
        Ok(0)
    }

    /// A write to CR with STRT, once its fields are stored.
    pub(super) fn start_erase(&mut self) -> Result<u64, Refusal> {
        let mass = self.record.cr & CR_MER != 0;
        let single = self.record.cr & CR_SER != 0;
        let sector = ((self.record.cr & CR_SNB) >> CR_SNB_SHIFT) as usize;
        let row = self.timings.row(self.psize());
        let (operation, duration, protected) = match (mass, single) {
            (false, false) => return Err(self.raise(SR_PGSERR)),
            (true, true) => return Err(self.raise(SR_WRPERR)),
            (true, false) => {
                let protected = (0..self.sectors).any(|sector| self.is_protected(sector));
                (Operation::MassErase, row.mass_erase(), protected)
            }
            (false, true) => {
                let protected = sector >= self.sectors || self.is_protected(sector);
                (Operation::EraseSector(sector), row.erase(sector), protected)
            }
        };
        if protected || self.is_intruded() {
            return Err(self.raise(SR_WRPERR));
        }
        self.start(operation, duration);
        Ok(0)
    }

    /// A write to OPTCR with OPTSTRT, once its fields are stored. The level
    /// is that of the cells, whatever OPTCR holds.
    pub(super) fn start_option_change(&mut self) -> Result<u64, Refusal> {
        let row = self.timings.row(self.psize());
        let asked_rdp = (self.record.optcr & OPTCR_RDP) >> OPTCR_RDP_SHIFT;
        let (operation, duration) = match self.level() {
            2 => return Err(self.raise(SR_WRPERR)),
            1 if asked_rdp == 0xAA => {
                let option_time = row.option();
                (Operation::Regression { option_time }, row.regression())
            }
            _ => (Operation::ChangeOptions, row.option()),
        };
        self.start(operation, duration);
        Ok(0)
    }

    fn start(&mut self, operation: Operation, left: Micros) {
        self.record.running = Some(Running { operation, left });
    }

    /// Raises an error flag, and OPERR with it if ERRIE is set.
    fn raise(&mut self, flag: u32) -> Refusal {
        self.record.sr |= flag;
        if self.record.cr & CR_ERRIE != 0 {
            self.record.sr |= SR_OPERR;
        }
        Refusal::flag(flag)
    }

    pub(super) fn psize(&self) -> u32 {
        (self.record.cr & CR_PSIZE) >> CR_PSIZE_SHIFT
    }
}

/// Running and ending.
impl Part<'_> {
    /// Lets time pass; what is running ends with its last microsecond.
    pub(super) fn elapse(&mut self, time: Micros) {
        let Some(running) = &mut self.record.running else {
            return;
        };
        if time < running.left {
            running.left.0 -= time.0;
        } else {
            let operation = running.operation;
            self.finish(operation);
        }
    }

    fn finish(&mut self, operation: Operation) {
        match operation {
            Operation::ProgramMain(write) => self.program_main(write),
            Operation::ProgramOtp(write) => write.program(self.otp),
            Operation::EraseSector(sector) => self.main[map::sector_range(sector)].fill(0xFF),
            Operation::MassErase => self.main.fill(0xFF),
            Operation::ChangeOptions => *self.options = self.changed_options(),
            Operation::Regression { .. } => {
                self.main.fill(0xFF);
                self.sram.fill(0);
                *self.options = self.regressed_options();
                self.empty_lines();
            }
        }
        if operation.is_option_change() {
            self.load_options();
            if self.level() == 2 {
                self.record.connected = false;
            }
        }
        self.record.running = None;
        if self.record.cr & CR_EOPIE != 0 {
            self.record.sr |= SR_EOP;
        }
    }

    /// A data line follows its cells, be it on or off.
    fn program_main(&mut self, write: Write) {
        write.program(self.main);
        if let Some(lines) = &mut self.lines {
            let cells = &self.main[write.offset..][..write.width as usize];
            lines.data.set(write.offset, cells);
        }
    }

    /// Every option cell anew: the used ones from OPTCR, with 1 in each bit
    /// that OPTCR does not have.
    pub fn changed_options(&self) -> [u8; map::OPTIONS_LEN] {
        let optcr = self.record.optcr;
        let [low, high] =
            (((optcr & OPTCR_NWRP) >> OPTCR_NWRP_SHIFT) as u16 | 0xF000).to_le_bytes();
        let mut options = [0xFF; map::OPTIONS_LEN];
        options[map::USER] = (optcr | !OPTCR_USER) as u8;
        options[map::RDP] = ((optcr & OPTCR_RDP) >> OPTCR_RDP_SHIFT) as u8;
        options[map::NWRP] = low;
        options[map::NWRP + 1] = high;
        options
    }

    pub(super) fn regressed_options(&self) -> [u8; map::OPTIONS_LEN] {
        let mut options = *self.options;
        options[map::RDP] = 0xAA;
        options
    }

    /// OPTCR's fields from the option cells.
    pub(super) fn load_options(&mut self) {
        let user = u32::from(self.options[map::USER]);
        let rdp = u32::from(self.options[map::RDP]) << OPTCR_RDP_SHIFT;
        let nwrp = u32::from(self.nwrp()) << OPTCR_NWRP_SHIFT;
        self.record.optcr = (nwrp | rdp | user) & OPTCR_FIELDS;
    }
}
