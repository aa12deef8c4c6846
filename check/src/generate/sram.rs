//! Accesses to the backup SRAM and around it. They come between the other calls
//! of a job, at any moment, since nothing but the mark concerns them.

use super::script::{cut, Script};
use crate::model::job::{Access, Call, Who};
use crate::model::map::{REGISTERS, REGISTERS_LEN, SRAM, SRAM_LEN};
use crate::random::Random;

/// What goes to the SRAM. The random numbers are a stream of their own, so that
/// the other calls of a seed are the same with and without these.
pub struct SramAccesses<'a> {
    random: &'a Random,
    /// How often accesses come before a call, in percent.
    percent: u32,
    /// Addresses that are written and read again.
    haunts: [u32; 3],
}

impl<'a> SramAccesses<'a> {
    pub fn new(random: &'a Random) -> SramAccesses<'a> {
        let inside = || SRAM + random.below(SRAM_LEN as u32 - 8);
        SramAccesses {
            random,
            percent: random.pick(&[2, 10, 30]),
            haunts: [(); 3].map(|_| inside()),
        }
    }

    /// The accesses that come next, if any do.
    pub fn accesses(&self, script: &Script) -> Vec<Call> {
        let mut calls = Vec::new();
        while self.random.chance(self.percent) {
            calls.push(self.access(script));
        }
        calls
    }

    fn access(&self, script: &Script) -> Call {
        let connected = script.part.record.connected;
        let debugger = self.random.chance(if connected { 50 } else { 3 });
        let width = self.random.pick(&[1, 2, 4, 8]);
        let access = Access {
            who: if debugger { Who::Debugger } else { Who::Cpu },
            width,
            address: self.address(width),
        };
        if self.random.chance(50) {
            return Call::Read(access);
        }
        let any = self.random.next();
        let value = self.random.weigh(&[(10, 0), (10, u64::MAX), (80, any)]);
        Call::Write(access, cut(value, width))
    }

    /// Mostly a haunt, else anywhere, within eight bytes of an end, or in the gap
    /// below.
    fn address(&self, width: u32) -> u32 {
        let len = SRAM_LEN as u32;
        let gap_start = REGISTERS + REGISTERS_LEN as u32;
        let haunt = self.random.pick(&self.haunts);
        let aligned = (SRAM + self.random.below(len)) & !(width - 1);
        let any = SRAM + self.random.below(len);
        let start = SRAM - 8 + self.random.below(17);
        let end = SRAM + len - 8 + self.random.below(17);
        let gap = gap_start + self.random.below(SRAM - gap_start);
        self.random.weigh(&[
            (40, haunt),
            (20, aligned),
            (10, any),
            (10, start),
            (10, end),
            (1, gap),
        ])
    }
}
