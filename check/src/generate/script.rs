//! A job while it is written: each call goes into the file and is taken by
//! the part at once.

use super::access;
use super::cuts::Cuts;
use super::lines::LineAccesses;
use super::sram::SramAccesses;
use crate::model::job::{Access, Call, Who};
use crate::model::lock::Lock;
use crate::model::map::{self, MAIN, REGISTERS};
use crate::model::part::Part;
use crate::model::time::{Micros, Millis};
use crate::random::Random;

/// What sort of job it is, in percent.
pub struct Temper {
    /// Calls that are left out, doubled, altered or preceded by a stray one.
    pub noise: u32,
    /// Resets that boot elsewhere, and visits by a debugger.
    pub strangers: u32,
    /// Fragments that change to level 2, from which nothing leads back.
    pub finality: u32,
}

impl Temper {
    pub fn choose(random: &Random) -> Temper {
        Temper {
            noise: random.pick(&[0, 1, 3, 10]),
            strangers: random.pick(&[0, 10, 40]),
            finality: random.weigh(&[(80, 0), (12, 1), (8, 10)]),
        }
    }
}

pub struct Script<'a> {
    pub random: &'a Random,
    pub part: Part<'a>,
    pub temper: Temper,
    /// Addresses in main flash that the job comes back to.
    pub haunts: [u32; 3],
    /// What goes to the SRAM between the calls; some jobs leave it alone.
    sram_accesses: Option<SramAccesses<'a>>,
    /// When resets cut what is running; some jobs leave this to chance.
    pub cuts: Option<Cuts<'a>>,
    /// What goes through lines; some jobs leave this to chance.
    pub lines: Option<LineAccesses<'a>>,
    records: &'a mut Vec<[u8; 16]>,
    count: usize,
}

impl<'a> Script<'a> {
    pub fn new(
        random: &'a Random,
        beside: Option<&'a Random>,
        part: Part<'a>,
        temper: Temper,
        records: &'a mut Vec<[u8; 16]>,
        count: usize,
    ) -> Script<'a> {
        let len = map::main_len(part.sectors) as u32;
        let haunts = [(); 3].map(|_| MAIN + (random.below(len) & !15));
        Script {
            random,
            part,
            temper,
            haunts,
            sram_accesses: beside.map(SramAccesses::new),
            cuts: beside.map(Cuts::new),
            lines: beside.map(LineAccesses::new),
            records,
            count,
        }
    }

    pub fn is_full(&self) -> bool {
        self.room() == 0
    }

    /// How many calls it still takes.
    pub fn room(&self) -> usize {
        self.count.saturating_sub(self.records.len())
    }

    pub fn is_busy(&self) -> bool {
        self.part.record.running.is_some()
    }

    /// The microseconds that are left, 0 when idle.
    pub fn left(&self) -> u32 {
        self.part.record.running.map_or(0, |running| running.left.0)
    }

    /// Adds a call, now and then disturbed.
    pub fn call(&mut self, call: Call) {
        if !self.random.chance(self.temper.noise) {
            return self.plain(call);
        }
        match self.random.below(4) {
            0 => {}
            1 => {
                self.plain(call);
                self.plain(call);
            }
            2 => {
                let altered = self.alter(call);
                self.plain(altered);
            }
            _ => {
                access::stray(self);
                self.plain(call);
            }
        }
    }

    /// Adds a call as it is, behind the accesses that come before it.
    pub fn plain(&mut self, call: Call) {
        let sram = self.sram_accesses.as_ref().map(|sram| sram.accesses(self));
        let lines = self.lines.map(|lines| lines.accesses(self));
        for access in sram.into_iter().chain(lines).flatten() {
            self.push(access);
        }
        self.push(call);
    }

    /// A full script takes none.
    fn push(&mut self, call: Call) {
        if !self.is_full() {
            self.records.push(call.encode());
            self.part.take(call);
        }
    }

    pub fn read(&mut self, address: u32, width: u32) {
        let who = self.who();
        self.call(Call::Read(Access {
            who,
            width,
            address,
        }));
    }

    pub fn write(&mut self, address: u32, width: u32, value: u64) {
        let who = self.who();
        self.call(Call::Write(
            Access {
                who,
                width,
                address,
            },
            cut(value, width),
        ));
    }

    pub fn set(&mut self, register: usize, value: u32) {
        self.write(REGISTERS + register as u32, 4, value.into());
    }

    /// The same by bytes or half-words, from the top lane down, so that start
    /// bits come after the fields above them.
    pub fn set_by_lanes(&mut self, register: usize, value: u32) {
        let width = self.random.pick(&[1, 2]);
        for lane in (0..4).step_by(width as usize).rev() {
            let address = REGISTERS + register as u32 + lane;
            self.write(address, width, (value >> (8 * lane)).into());
        }
    }

    fn who(&self) -> Who {
        let percent = if self.part.record.connected { 50 } else { 2 };
        if self.random.chance(percent) {
            Who::Debugger
        } else {
            Who::Cpu
        }
    }

    pub fn width(&self) -> u32 {
        self.random.pick(&[1, 2, 4, 8])
    }

    pub fn value(&self, width: u32) -> u64 {
        let any = self.random.next();
        cut(
            self.random.weigh(&[(20, 0), (15, u64::MAX), (65, any)]),
            width,
        )
    }

    fn alter(&self, call: Call) -> Call {
        match call {
            Call::Reset { .. } => Call::Reset {
                boot: self.random.below(3),
            },
            Call::DebuggerOn => Call::DebuggerOff,
            Call::DebuggerOff => Call::DebuggerOn,
            Call::Read(access) => Call::Read(self.alter_access(access)),
            Call::Write(access, value) => {
                let access = self.alter_access(access);
                let value = value ^ (1 << self.random.below(64));
                Call::Write(access, cut(value, access.width))
            }
            Call::Pass(time) => Call::Pass(Micros(self.step_beside(time.0))),
            Call::Wait(limit) => Call::Wait(Millis(self.step_beside(limit.0))),
            Call::Fetch { address } => Call::Fetch {
                address: self.step_beside(address),
            },
        }
    }

    fn alter_access(&self, mut access: Access) -> Access {
        match self.random.below(4) {
            0 => access.width = self.width(),
            1 => access.address = self.step_beside(access.address),
            2 => access.who = self.random.pick(&[Who::Cpu, Who::Debugger]),
            _ => {}
        }
        access
    }

    fn step_beside(&self, number: u32) -> u32 {
        let step = self.random.pick(&[1, 1, 2, 4]);
        if self.random.chance(50) {
            number.wrapping_add(step)
        } else {
            number.saturating_sub(step)
        }
    }
}

/// Bringing the part to where a fragment can start. A disturbed job may miss
/// it; the fragment then runs all the same.
impl Script<'_> {
    pub fn make_idle(&mut self) {
        if !self.part.record.powered {
            access::boot(self);
        }
        if self.is_busy() {
            self.call(Call::Pass(Micros(self.left())));
        }
        if self.part.is_intruded() && self.random.chance(80) {
            self.call(Call::DebuggerOff);
            self.call(Call::Reset { boot: 0 });
        }
    }

    pub fn make_cr_open(&mut self) {
        self.make_idle();
        if self.part.record.cr_lock == Lock::Jammed {
            access::boot(self);
        }
        super::locks::open_cr(self);
    }

    pub fn make_optcr_open(&mut self) {
        self.make_idle();
        if self.part.record.optcr_lock == Lock::Jammed {
            access::boot(self);
        }
        super::locks::open_optcr(self);
    }
}

/// The part of a value that an access of this width carries.
pub fn cut(value: u64, width: u32) -> u64 {
    value & (u64::MAX >> (64 - 8 * width))
}
