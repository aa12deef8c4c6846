//! Option changes: other protection, other levels, regression, and changes
//! that stay pending.

use super::access::{probe, read_around};
use super::operations::{erase_as_it_is, program_as_it_is};
use super::part::choose_nwrp;
use super::script::Script;
use super::time::settle;
use crate::model::job::Call;
use crate::model::map::{MAIN, OPTIONS};
use crate::model::registers::*;

/// Any change but one to level 2; at level 1 mostly one that stays there.
pub fn change(script: &mut Script) {
    script.make_optcr_open();
    let any = script.random.byte();
    let level_one = if any == 0xCC { 0xCD } else { any };
    let rdp = match script.part.level() {
        0 => script.random.weigh(&[(60, 0xAA), (40, level_one)]),
        _ => script.random.weigh(&[(15, 0xAA), (85, level_one)]),
    };
    write_optcr(script, rdp);
    settle(script);
    look_at_options(script);
}

/// From level 1, or after going there first. Pending USER and nWRP go along.
pub fn regression(script: &mut Script) {
    script.make_optcr_open();
    if script.part.level() == 0 {
        if script.random.chance(50) {
            return change(script);
        }
        script.set(OPTCR, fields(script, 0x55) | OPTCR_OPTSTRT);
        script.make_idle();
        script.make_optcr_open();
    }
    write_optcr(script, 0xAA);
    settle(script);
    look_at_options(script);
    script.read(MAIN, 8);
}

/// Mostly with a debugger that has been there, so that the mark stands and
/// closes the cells to the CPU.
pub fn level_two(script: &mut Script) {
    script.make_cr_open();
    script.make_optcr_open();
    if script.random.chance(60) {
        script.call(Call::DebuggerOn);
    }
    write_optcr(script, 0xCC);
    settle(script);
    look_at_options(script);
    read_around(script);
    program_as_it_is(script);
    erase_as_it_is(script);
}

fn look_at_options(script: &mut Script) {
    probe(script);
    if script.random.chance(50) {
        script.read(OPTIONS, 8);
        script.read(OPTIONS + 8, 8);
    }
}

fn fields(script: &Script, rdp: u8) -> u32 {
    let nwrp = u32::from(choose_nwrp(script.random)) << OPTCR_NWRP_SHIFT;
    let user = script.random.word() & OPTCR_USER;
    nwrp | u32::from(rdp) << OPTCR_RDP_SHIFT | user
}

/// Fields and OPTSTRT in one write, in two, or lane by lane; some changes are
/// never started, and OPTLOCK may come with the start.
fn write_optcr(script: &mut Script, rdp: u8) {
    let reserved = script.random.word() & !(OPTCR_FIELDS | OPTCR_OPTSTRT | OPTCR_OPTLOCK);
    let pending = fields(script, rdp) | reserved;
    let lock = if script.random.chance(10) {
        OPTCR_OPTLOCK
    } else {
        0
    };
    let started = pending | OPTCR_OPTSTRT | lock;
    match script.random.below(8) {
        0 => script.set(OPTCR, pending | lock),
        1 | 2 => {
            script.set(OPTCR, pending);
            probe(script);
            script.set(OPTCR, started);
        }
        3 => script.set_by_lanes(OPTCR, started),
        _ => script.set(OPTCR, started),
    }
}
