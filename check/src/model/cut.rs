//! Operations cut by a reset: what each leaves in its target, byte i by byte i
//! of the scrap.

use super::map::{self, OPTIONS_LEN};
use super::operation::{Operation, Running, Write};
use super::part::Part;
use super::refusal::Refusal;

impl Running {
    /// Whether a regression is still busy with main flash.
    pub fn is_in_first_phase(self) -> bool {
        matches!(self.operation, Operation::Regression { option_time } if self.left > option_time)
    }
}

impl Write {
    /// A bit is cleared unless it is 1 in what is written or in the scrap.
    fn cut(self, cells: &mut [u8], scrap: &[u8]) {
        let bytes = self.value.to_le_bytes();
        let target = &mut cells[self.offset..][..self.width as usize];
        for ((cell, byte), scrap) in target.iter_mut().zip(bytes).zip(scrap) {
            *cell &= byte | scrap;
        }
    }
}

impl Part<'_> {
    /// The length of the cells that a cut leaves to the scrap.
    pub fn target_len(&self, running: Running) -> usize {
        match running.operation {
            Operation::ProgramMain(write) | Operation::ProgramOtp(write) => write.width as usize,
            Operation::EraseSector(sector) => map::sector_range(sector).len(),
            Operation::MassErase => self.main.len(),
            Operation::Regression { .. } if running.is_in_first_phase() => self.main.len(),
            Operation::ChangeOptions | Operation::Regression { .. } => OPTIONS_LEN,
        }
    }

    /// The caller puts the record right, in which the operation still runs.
    pub(super) fn cut(&mut self, running: Running) -> Result<(), Refusal> {
        let scrap = self.scrap.get(..self.target_len(running));
        let scrap = scrap.ok_or(Refusal::SHORT_SCRAP)?;
        match running.operation {
            Operation::ProgramMain(write) => write.cut(self.main, scrap),
            Operation::ProgramOtp(write) => write.cut(self.otp, scrap),
            Operation::EraseSector(sector) => {
                self.main[map::sector_range(sector)].copy_from_slice(scrap);
            }
            Operation::MassErase => self.main.copy_from_slice(scrap),
            Operation::ChangeOptions => self.cut_options(self.changed_options()),
            Operation::Regression { .. } if running.is_in_first_phase() => {
                self.main.copy_from_slice(scrap);
            }
            Operation::Regression { .. } => {
                self.main.fill(0xFF);
                self.sram.fill(0);
                self.cut_options(self.regressed_options());
            }
        }
        Ok(())
    }

    fn cut_options(&mut self, new: [u8; OPTIONS_LEN]) {
        for ((cell, new), scrap) in self.options.iter_mut().zip(new).zip(self.scrap) {
            match scrap % 3 {
                0 => {}
                1 => *cell = 0xFF,
                _ => *cell = new,
            }
        }
    }
}
