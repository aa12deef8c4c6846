//! The part: the record of its state, what its cells say, and the calls that
//! go to no address.

use super::job::Call;
use super::lines::Lines;
use super::lock::Lock;
use super::map::{self, Area};
use super::operation::Running;
use super::refusal::{Answer, JobRefusal, Refusal};
use super::time::{Micros, Millis, Timings, PASS_LIMIT, WAIT_LIMIT};

/// The state of a part beside its cells. Bits that follow from other state
/// are not stored: LOCK and OPTLOCK show the locks; BSY, STRT and OPTSTRT
/// show what is running.
#[derive(Clone, Copy, PartialEq, Eq, Debug)]
pub struct Record {
    pub powered: bool,
    /// A debugger is connected.
    pub connected: bool,
    /// The intrusion mark: since the last reset the part may have been under
    /// a stranger's control (another boot, or a debugger).
    pub mark: bool,
    pub acr: u32,
    pub sr: u32,
    pub cr: u32,
    pub optcr: u32,
    pub cr_lock: Lock,
    pub optcr_lock: Lock,
    pub running: Option<Running>,
}

impl Record {
    const FRESH: Record = Record {
        powered: false,
        connected: false,
        mark: false,
        acr: 0,
        sr: 0,
        cr: 0,
        optcr: 0,
        cr_lock: Lock::Closed,
        optcr_lock: Lock::Closed,
        running: None,
    };
}

/// A part at work: its record, and the buffers that it is lent.
pub struct Part<'a> {
    pub record: Record,
    pub sectors: usize,
    pub main: &'a mut [u8],
    pub otp: &'a mut [u8; map::OTP_LEN],
    pub options: &'a mut [u8; map::OPTIONS_LEN],
    pub(super) sram: &'a mut [u8; map::SRAM_LEN],
    pub(super) timings: Timings,
    pub scrap: &'a [u8],
    /// The uncached part has none.
    pub lines: Option<&'a mut Lines>,
}

impl<'a> Part<'a> {
    /// An uncached part without power on these buffers, if they fit. Inlined into the job
    /// run: a job that is refused at once does little else.
    #[inline(always)]
    pub fn fresh(
        main: &'a mut [u8],
        otp: &'a mut [u8],
        options: &'a mut [u8],
        sram: &'a mut [u8],
        timings: &[u8],
        scrap: &'a [u8],
    ) -> Result<Part<'a>, JobRefusal> {
        let sectors = map::sectors_of(main.len()).ok_or(JobRefusal::BufferLength)?;
        let otp = otp.try_into().map_err(|_| JobRefusal::BufferLength)?;
        let options = options.try_into().map_err(|_| JobRefusal::BufferLength)?;
        let sram = sram.try_into().map_err(|_| JobRefusal::BufferLength)?;
        let timings = timings.try_into().map_err(|_| JobRefusal::BufferLength)?;
        let timings = Timings::decode(timings).ok_or(JobRefusal::Timing)?;
        Ok(Part {
            record: Record::FRESH,
            sectors,
            main,
            otp,
            options,
            sram,
            timings,
            scrap,
            lines: None,
        })
    }

    pub fn take(&mut self, call: Call) -> Answer {
        let outcome = match call {
            Call::Reset { boot } => self.reset(boot),
            Call::DebuggerOn => self.debugger_on(),
            Call::DebuggerOff => self.debugger_off(),
            Call::Read(access) => self.read(access),
            Call::Write(access, value) => self.write(access, value),
            Call::Pass(time) => self.pass(time),
            Call::Wait(limit) => self.wait(limit),
            Call::Fetch { address } => self.fetch(address),
        };
        outcome.into()
    }
}

/// What the cells say.
impl Part<'_> {
    pub fn level(&self) -> u32 {
        match self.options[map::RDP] {
            0xAA => 0,
            0xCC => 2,
            _ => 1,
        }
    }

    pub(super) fn nwrp(&self) -> u16 {
        u16::from_le_bytes([self.options[map::NWRP], self.options[map::NWRP + 1]])
    }

    pub fn is_protected(&self, sector: usize) -> bool {
        self.nwrp() >> sector & 1 == 0
    }

    /// Whether this byte of OTP is in a locked block. The lock bytes are in
    /// no block.
    pub fn is_locked_otp(&self, offset: usize) -> bool {
        offset < map::LOCK_BYTES && self.otp[map::LOCK_BYTES + offset / map::BLOCK_LEN] == 0
    }

    /// Whether the SRAM has other bytes than 0.
    pub fn is_sram_used(&self) -> bool {
        *self.sram != [0; map::SRAM_LEN]
    }

    /// Whether the mark stands at a level where it counts.
    pub fn is_intruded(&self) -> bool {
        self.record.mark && self.level() != 0
    }

    pub(super) fn is_closed(&self, area: Area) -> bool {
        match area {
            Area::Main | Area::Otp | Area::Sram => self.is_intruded(),
            Area::Options => self.level() == 2,
            Area::System | Area::Registers => false,
        }
    }
}

/// Reset, debugger and time.
impl Part<'_> {
    /// The level may be another one behind a cut: what is asked for is judged
    /// by the old one, and the debugger stays or leaves by the new one.
    fn reset(&mut self, boot: u32) -> Result<u64, Refusal> {
        if boot != 0 && self.level() == 2 {
            return Err(Refusal::LEVEL_TWO);
        }
        if let Some(running) = self.record.running {
            self.cut(running)?;
        }
        let connected = self.record.connected;
        self.record = Record {
            powered: true,
            connected: connected && self.level() != 2,
            mark: boot != 0 || connected,
            ..Record::FRESH
        };
        self.load_options();
        self.empty_lines();
        Ok(0)
    }

    fn debugger_on(&mut self) -> Result<u64, Refusal> {
        self.powered()?;
        if self.level() == 2 {
            return Err(Refusal::LEVEL_TWO);
        }
        self.record.connected = true;
        self.record.mark = true;
        Ok(0)
    }

    /// The mark stays.
    fn debugger_off(&mut self) -> Result<u64, Refusal> {
        self.powered()?;
        self.record.connected = false;
        Ok(0)
    }

    fn pass(&mut self, time: Micros) -> Result<u64, Refusal> {
        if time > PASS_LIMIT {
            return Err(Refusal::TOO_LONG);
        }
        self.powered()?;
        self.elapse(time);
        Ok(0)
    }

    fn wait(&mut self, limit: Millis) -> Result<u64, Refusal> {
        if limit > WAIT_LIMIT {
            return Err(Refusal::TOO_LONG);
        }
        self.powered()?;
        let limit = limit.micros();
        let left = self
            .record
            .running
            .map_or(Micros(0), |running| running.left);
        self.elapse(left.min(limit));
        if left > limit {
            return Err(Refusal::expired(limit.0));
        }
        Ok(left.0.into())
    }

    pub(super) fn empty_lines(&mut self) {
        if let Some(lines) = &mut self.lines {
            lines.empty();
        }
    }

    pub(super) fn powered(&self) -> Result<(), Refusal> {
        if self.record.powered {
            Ok(())
        } else {
            Err(Refusal::NO_POWER)
        }
    }

    pub(super) fn not_busy(&self) -> Result<(), Refusal> {
        if self.record.running.is_none() {
            Ok(())
        } else {
            Err(Refusal::STALLED)
        }
    }
}
