//! Programming and erasing, sound and refused.

use super::script::Script;
use super::time::settle;
use crate::model::map::*;
use crate::model::registers::*;

pub fn program(script: &mut Script) {
    script.make_cr_open();
    program_as_it_is(script);
}

/// Writes of one width to one or more targets, each settled and read back.
pub fn program_as_it_is(script: &mut Script) {
    let psize = script.random.below(4);
    let cr = CR_PG | psize << CR_PSIZE_SHIFT | interrupts(script) | odd_fields(script);
    script.set(CR, cr);
    for _ in 0..1 + script.random.below(4) {
        let width = if script.random.chance(92) {
            1 << psize
        } else {
            script.width()
        };
        let address = program_target(script, width);
        let value = script.value(width);
        script.write(address, width, value);
        settle(script);
        script.read(address, width);
    }
}

/// Mostly in one row; else at any byte, so that rows are crossed.
fn program_target(script: &Script, width: u32) -> u32 {
    let haunt = script.random.pick(&script.haunts);
    let main = MAIN
        + script
            .random
            .below(main_len(script.part.sectors) as u32 - 15);
    let block = OTP + script.random.below(LOCK_BYTES as u32);
    let lock_byte = OTP + LOCK_BYTES as u32;
    let system = SYSTEM + script.random.below(SYSTEM_LEN as u32);
    let row = !15
        & script.random.weigh(&[
            (30, haunt),
            (25, main),
            (25, block),
            (6, lock_byte),
            (3, system),
            (3, OPTIONS),
        ]);
    let byte = script.random.below(16);
    row + match script.random.below(10) {
        0 => byte,
        1..=3 => byte.min(16 - width),
        _ => byte & !(width - 1),
    }
}

/// Locks a block of OTP, or fails to with another value, and tries the block.
pub fn lock_otp_block(script: &mut Script) {
    script.make_cr_open();
    script.set(CR, CR_PG | interrupts(script));
    let block = script.random.below(16);
    let lock = script.random.pick(&[0, 0, 0, 0x0F, 0x80]);
    script.write(OTP + LOCK_BYTES as u32 + block, 1, lock);
    settle(script);
    let byte = OTP + BLOCK_LEN as u32 * block + script.random.below(BLOCK_LEN as u32);
    let value = script.value(1);
    script.write(byte, 1, value);
    settle(script);
    script.read(byte, 1);
}

pub fn erase_sector(script: &mut Script) {
    script.make_cr_open();
    erase_as_it_is(script);
}

pub fn erase_as_it_is(script: &mut Script) {
    let sectors = script.part.sectors as u32;
    let any = script.random.below(16);
    let present = script.random.below(sectors);
    let sector = script
        .random
        .weigh(&[(80, present), (10, any), (5, sectors), (5, sectors - 1)]);
    start(script, CR_SER | sector << CR_SNB_SHIFT);
    settle(script);
    if sector < sectors {
        let range = sector_range(sector as usize);
        let inside = script.random.index(range.len());
        let offset = script
            .random
            .pick(&[range.start, range.end - 1, range.start + inside]);
        script.read(MAIN + offset as u32, 1);
    }
}

/// SNB does not count here.
pub fn mass_erase(script: &mut Script) {
    script.make_cr_open();
    let sector = script.random.below(16);
    start(script, CR_MER | sector << CR_SNB_SHIFT);
    settle(script);
    script.read(script.haunts[0], 4);
}

/// STRT with neither or both of MER and SER.
pub fn start_oddly(script: &mut Script) {
    script.make_cr_open();
    let fields = script
        .random
        .pick(&[0, CR_PG, CR_MER | CR_SER, CR_MER | CR_SER | CR_PG]);
    start(script, fields);
    script.read(REGISTERS + SR as u32, 4);
    script.read(REGISTERS + CR as u32, 4);
}

/// STRT with these fields: in one write, in a second word, or in the byte
/// that holds it. LOCK may come with it.
fn start(script: &mut Script, fields: u32) {
    let psize = script.random.below(4) << CR_PSIZE_SHIFT;
    let pg = if script.random.chance(10) { CR_PG } else { 0 };
    let lock = if script.random.chance(10) { CR_LOCK } else { 0 };
    let cr = fields | psize | pg | interrupts(script);
    match script.random.below(4) {
        0 => {
            script.set(CR, cr);
            script.set(CR, cr | CR_STRT | lock);
        }
        1 => {
            script.set(CR, cr);
            script.write(REGISTERS + CR as u32 + 2, 1, (CR_STRT >> 16).into());
        }
        2 => {
            script.set(CR, cr);
            script.write(
                REGISTERS + CR as u32 + 2,
                2,
                ((cr | CR_STRT | lock) >> 16).into(),
            );
        }
        _ => script.set(CR, cr | CR_STRT | lock),
    }
}

/// ERRIE and EOPIE, each as often set as not.
fn interrupts(script: &Script) -> u32 {
    script.random.word() & (CR_ERRIE | CR_EOPIE)
}

/// Fields that a write to cells does not look at.
fn odd_fields(script: &Script) -> u32 {
    if script.random.chance(10) {
        script.random.word() & (CR_SER | CR_MER | CR_SNB)
    } else {
        0
    }
}
