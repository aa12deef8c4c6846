//! Reads and writes, of cells, of registers and of the backup SRAM, and
//! instruction fetches.

use super::job::{Access, Who, FETCH_WIDTH};
use super::lock::{Lock, CR_KEYS, OPTCR_KEYS};
use super::map::{self, Area, Place};
use super::part::Part;
use super::refusal::Refusal;
use super::registers::*;

impl Part<'_> {
    /// Where an access goes, unless who asks, the map or the shape of
    /// register accesses forbids it.
    fn place(&self, access: Access) -> Result<Place, Refusal> {
        self.powered()?;
        if access.who == Who::Debugger && !self.record.connected {
            return Err(Refusal::NOT_CONNECTED);
        }
        let place = map::place(access.address, access.width, self.main.len())
            .ok_or(Refusal::OUTSIDE_MAP)?;
        if place.area == Area::Registers && !register_access_fits(place.offset, access.width) {
            return Err(Refusal::REGISTER_ACCESS);
        }
        Ok(place)
    }

    pub(super) fn read(&mut self, access: Access) -> Result<u64, Refusal> {
        let Place { area, offset } = self.place(access)?;
        let width = access.width as usize;
        let end = offset + width;
        if area == Area::Registers {
            return Ok(Lanes::of(offset, access.width).read(self.register(offset & !3)));
        }
        if area == Area::Sram {
            return self.read_sram(offset, width);
        }
        self.not_busy()?;
        let enters_otp = area == Area::System && end > map::SYSTEM_LEN;
        if self.is_closed(area) || enters_otp && self.is_closed(Area::Otp) {
            return Err(Refusal::CLOSED);
        }
        Ok(match area {
            Area::Main => self.read_main(offset, width),
            Area::Otp => little_endian(&self.otp[offset..end]),
            Area::Options => little_endian(&self.options[offset..end]),
            _ => {
                let mut bytes = [0xFF; 8];
                if enters_otp {
                    let from_otp = end - map::SYSTEM_LEN;
                    bytes[width - from_otp..width].copy_from_slice(&self.otp[..from_otp]);
                }
                little_endian(&bytes[..width])
            }
        })
    }

    /// Through the data lines while they are on.
    fn read_main(&mut self, offset: usize, width: usize) -> u64 {
        match &mut self.lines {
            Some(lines) if self.record.acr & ACR_DCEN != 0 => {
                little_endian(&lines.data.take(self.main, offset, width)[..width])
            }
            _ => little_endian(&self.main[offset..][..width]),
        }
    }

    /// Of main flash alone, and through the instruction lines while they are on.
    pub(super) fn fetch(&mut self, address: u32) -> Result<u64, Refusal> {
        self.powered()?;
        let offset = match map::place(address, FETCH_WIDTH, self.main.len()) {
            Some(place) if place.area == Area::Main => place.offset,
            _ => return Err(Refusal::OUTSIDE_MAP),
        };
        self.not_busy()?;
        if self.is_closed(Area::Main) {
            return Err(Refusal::CLOSED);
        }
        let width = FETCH_WIDTH as usize;
        Ok(match &mut self.lines {
            Some(lines) if self.record.acr & ACR_ICEN != 0 => {
                little_endian(&lines.instructions.take(self.main, offset, width)[..width])
            }
            _ => little_endian(&self.main[offset..][..width]),
        })
    }

    pub(super) fn write(&mut self, access: Access, value: u64) -> Result<u64, Refusal> {
        let place = self.place(access)?;
        if place.area == Area::Sram {
            return self.write_sram(place.offset, access.width as usize, value);
        }
        if place.area != Area::Registers {
            self.not_busy()?;
            return self.start_program(place, access, value);
        }
        let lanes = Lanes::of(place.offset, access.width);
        match place.offset & !3 {
            ACR => self.write_acr(lanes, value),
            KEYR => take_key(&mut self.record.cr_lock, value, CR_KEYS),
            OPTKEYR => take_key(&mut self.record.optcr_lock, value, OPTCR_KEYS),
            SR => self.write_sr(lanes, value),
            CR => self.write_cr(lanes, value),
            _ => self.write_optcr(lanes, value),
        }
    }
}

/// The backup SRAM: no operation stalls it, and what closes its reads closes
/// its writes as well.
impl Part<'_> {
    fn read_sram(&self, offset: usize, width: usize) -> Result<u64, Refusal> {
        self.sram_open()?;
        Ok(little_endian(&self.sram[offset..][..width]))
    }

    fn write_sram(&mut self, offset: usize, width: usize, value: u64) -> Result<u64, Refusal> {
        self.sram_open()?;
        self.sram[offset..][..width].copy_from_slice(&value.to_le_bytes()[..width]);
        Ok(0)
    }

    fn sram_open(&self) -> Result<(), Refusal> {
        if self.is_closed(Area::Sram) {
            Err(Refusal::CLOSED)
        } else {
            Ok(())
        }
    }
}

/// The registers.
impl Part<'_> {
    pub fn register(&self, register: usize) -> u32 {
        let record = &self.record;
        let operation = record.running.map(|running| running.operation);
        let bit = |bit: u32, set: bool| if set { bit } else { 0 };
        match register {
            ACR => record.acr,
            SR => record.sr | bit(SR_BSY, operation.is_some()),
            CR => {
                let started = operation.is_some_and(|operation| operation.is_erase());
                let locked = record.cr_lock != Lock::Open;
                record.cr | bit(CR_STRT, started) | bit(CR_LOCK, locked)
            }
            OPTCR => {
                let started = operation.is_some_and(|operation| operation.is_option_change());
                let locked = record.optcr_lock != Lock::Open;
                record.optcr | bit(OPTCR_OPTSTRT, started) | bit(OPTCR_OPTLOCK, locked)
            }
            _ => 0,
        }
    }

    /// A cache's reset bit can't change while that cache was enabled. A 1 that
    /// is written to it else empties the lines of its side.
    fn write_acr(&mut self, lanes: Lanes, value: u64) -> Result<u64, Refusal> {
        let old = self.record.acr;
        let mut kept = !ACR_FIELDS;
        if old & ACR_DCEN != 0 {
            kept |= ACR_DCRST;
        }
        if old & ACR_ICEN != 0 {
            kept |= ACR_ICRST;
        }
        self.record.acr = old & kept | lanes.over(old, value) & !kept;
        let taken = lanes.alone(value) & !kept;
        if let Some(lines) = &mut self.lines {
            if taken & ACR_DCRST != 0 {
                lines.data.empty();
            }
            if taken & ACR_ICRST != 0 {
                lines.instructions.empty();
            }
        }
        Ok(0)
    }

    /// BSY is not stored in the record, and so stays as it is.
    fn write_sr(&mut self, lanes: Lanes, value: u64) -> Result<u64, Refusal> {
        self.record.sr &= !lanes.alone(value);
        Ok(0)
    }

    /// What starts does not look at the lock, which may therefore close first.
    fn write_cr(&mut self, lanes: Lanes, value: u64) -> Result<u64, Refusal> {
        self.not_busy()?;
        if self.record.cr_lock != Lock::Open {
            return Err(Refusal::LOCKED);
        }
        let written = lanes.over(self.record.cr, value);
        self.record.cr = written & CR_FIELDS;
        if written & CR_LOCK != 0 {
            self.record.cr_lock = Lock::Closed;
        }
        if written & CR_STRT != 0 {
            self.start_erase()
        } else {
            Ok(0)
        }
    }

    fn write_optcr(&mut self, lanes: Lanes, value: u64) -> Result<u64, Refusal> {
        self.not_busy()?;
        if self.record.optcr_lock != Lock::Open {
            return Err(Refusal::LOCKED);
        }
        let written = lanes.over(self.record.optcr, value);
        self.record.optcr = written & OPTCR_FIELDS;
        if written & OPTCR_OPTLOCK != 0 {
            self.record.optcr_lock = Lock::Closed;
        }
        if written & OPTCR_OPTSTRT != 0 {
            self.start_option_change()
        } else {
            Ok(0)
        }
    }
}

/// Key registers take whole words, the others any aligned part of one.
fn register_access_fits(offset: usize, width: u32) -> bool {
    match offset & !3 {
        KEYR | OPTKEYR => width == 4 && offset.is_multiple_of(4),
        _ => width <= 4 && offset.is_multiple_of(width as usize),
    }
}

fn take_key(lock: &mut Lock, value: u64, keys: [u32; 2]) -> Result<u64, Refusal> {
    if lock.take(value as u32, keys) {
        Ok(0)
    } else {
        Err(Refusal::WRONG_KEY)
    }
}

fn little_endian(bytes: &[u8]) -> u64 {
    match *bytes {
        [a] => a.into(),
        [a, b] => u16::from_le_bytes([a, b]).into(),
        [a, b, c, d] => u32::from_le_bytes([a, b, c, d]).into(),
        [a, b, c, d, e, f, g, h] => u64::from_le_bytes([a, b, c, d, e, f, g, h]),
        _ => unreachable!("an access has 1, 2, 4 or 8 bytes"),
    }
}
