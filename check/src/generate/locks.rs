//! Keys, locks, and writes to registers that start nothing by intent.

use super::script::Script;
use crate::model::lock::{Lock, CR_KEYS, OPTCR_KEYS};
use crate::model::map::REGISTERS;
use crate::model::registers::*;

pub fn open_cr(script: &mut Script) {
    if script.part.record.cr_lock == Lock::Open {
        return;
    }
    open(script, KEYR, CR_KEYS);
}

pub fn open_optcr(script: &mut Script) {
    if script.part.record.optcr_lock == Lock::Open {
        return;
    }
    open(script, OPTKEYR, OPTCR_KEYS);
}

/// The two keys; accesses elsewhere may come between.
fn open(script: &mut Script, register: usize, keys: [u32; 2]) {
    script.set(register, keys[0]);
    if script.random.chance(15) {
        let between = script.random.pick(&[SR, CR, OPTCR, register]);
        let width = script.random.pick(&[2, 4]);
        script.read(REGISTERS + between as u32, width);
    }
    script.set(register, keys[1]);
}

/// Words that close a lock until reset, and the right keys after them.
pub fn spoil(script: &mut Script) {
    let (register, locked, keys, others) = script.random.pick(&[
        (KEYR, CR, CR_KEYS, OPTCR_KEYS),
        (OPTKEYR, OPTCR, OPTCR_KEYS, CR_KEYS),
    ]);
    let any = script.random.word();
    let words = script.random.pick(&[
        [keys[0], keys[0]],
        [keys[1], keys[0]],
        [others[0], others[1]],
        [keys[0], any],
        [keys[0], keys[1] ^ 1],
        [any, keys[0]],
        [0, keys[0]],
    ]);
    for word in words {
        script.set(register, word);
    }
    if script.random.chance(70) {
        script.set(register, keys[0]);
        script.set(register, keys[1]);
        script.read(REGISTERS + locked as u32, 4);
    }
}

/// LOCK or OPTLOCK is set, with other fields now and then, and mostly the
/// keys open the lock again.
pub fn close(script: &mut Script) {
    let fields = if script.random.chance(30) {
        script.random.word()
    } else {
        0
    };
    if script.random.chance(50) {
        script.make_cr_open();
        script.set(CR, CR_LOCK | fields & !CR_STRT);
        script.read(REGISTERS + CR as u32, 4);
        script.set(CR, CR_PG);
        if script.random.chance(70) {
            open_cr(script);
        }
    } else {
        script.make_optcr_open();
        let kept = script.part.register(OPTCR) & OPTCR_FIELDS;
        script.set(OPTCR, OPTCR_OPTLOCK | (kept ^ fields) & !OPTCR_OPTSTRT);
        script.read(REGISTERS + OPTCR as u32, 4);
        script.set(OPTCR, kept);
        if script.random.chance(70) {
            open_optcr(script);
        }
    }
}

/// Any bits into any lanes of a register other than the key registers. A
/// change to level 2 is left to the fragment that is for it.
pub fn write_lanes(script: &mut Script) {
    if script.random.chance(60) {
        script.make_cr_open();
    }
    let register = script.random.pick(&[ACR, SR, CR, CR, OPTCR]);
    let width = script.random.pick(&[1, 1, 2, 2, 4]);
    let lane = script.random.below(4) & !(width - 1);
    let few = script.random.word() & script.random.word();
    let any = script.random.word();
    let mut value = script.random.pick(&[few, any]);
    if register == OPTCR && lane == 0 {
        value &= !OPTCR_OPTSTRT;
    }
    script.write(REGISTERS + register as u32 + lane, width, value.into());
    let read_width = script.random.pick(&[1, 2, 4]);
    let read_lane = script.random.below(4) & !(read_width - 1);
    script.read(REGISTERS + register as u32 + read_lane, read_width);
}

pub fn clear_flags(script: &mut Script) {
    let standing = script.part.record.sr;
    let any = script.random.word();
    let flags = script
        .random
        .pick(&[standing, standing & any, any, SR_EOP, u32::MAX]);
    let width = script.random.pick(&[1, 2, 4]);
    let lane = if script.random.chance(80) {
        0
    } else {
        script.random.below(4) & !(width - 1)
    };
    script.write(REGISTERS + SR as u32 + lane, width, flags.into());
    script.read(REGISTERS + SR as u32, 4);
}

/// Cache bits: the reset bits hold still while their cache is enabled.
pub fn set_caches(script: &mut Script) {
    for _ in 0..2 + script.random.below(3) {
        let bits = script.random.word() & ACR_FIELDS;
        if script.random.chance(50) {
            script.set(ACR, bits);
        } else {
            script.write(REGISTERS + ACR as u32 + 1, 1, (bits >> 8).into());
        }
        script.read(REGISTERS + ACR as u32, 4);
    }
}
