//! Time: exact, one too short, at its limits, and cut by a reset.

use super::access::{boot, probe};
use super::script::Script;
use super::{cuts, locks};
use crate::model::job::Call;
use crate::model::map::REGISTERS;
use crate::model::registers::{ACR, CR, CR_PG, OPTCR, OPTCR_OPTSTRT, SR};
use crate::model::time::{Micros, Millis, PASS_LIMIT, WAIT_LIMIT};

/// Brings what is running to an end, or lets it run on.
pub fn settle(script: &mut Script) {
    if !script.is_busy() || cuts::cut(script) {
        return;
    }
    if script.random.chance(25) {
        disturb(script);
    }
    match script.random.below(12) {
        0..=2 => wait_to_the_end(script),
        3 => wait_too_short(script),
        4 => wait_on_the_edge(script),
        5..=7 => script.call(Call::Pass(Micros(script.left()))),
        8 => pass_in_two(script),
        9 => boot(script),
        10 => {
            let part = script.random.below(script.left() + 1);
            script.call(Call::Pass(Micros(part)));
        }
        _ => {}
    }
    if script.random.chance(50) {
        probe(script);
    }
}

pub fn wait_to_the_end(script: &mut Script) {
    let exact = script.left().div_ceil(1_000);
    let limit = script.random.pick(&[exact, exact, exact + 1, WAIT_LIMIT.0]);
    script.call(Call::Wait(Millis(limit)));
}

/// The longest wait that still expires; now and then the next one ends it.
fn wait_too_short(script: &mut Script) {
    script.call(Call::Wait(Millis(
        script.left().div_ceil(1_000).saturating_sub(1),
    )));
    if script.random.chance(70) {
        script.call(Call::Wait(Millis(1)));
    }
}

/// What is left becomes a whole number of milliseconds, or one more.
fn wait_on_the_edge(script: &mut Script) {
    let over = script.random.below(2);
    let surplus = (script.left() % 1_000).saturating_sub(over);
    script.call(Call::Pass(Micros(surplus)));
    script.call(Call::Wait(Millis(script.left() / 1_000)));
}

/// All but the last microsecond, a look, and the last one.
fn pass_in_two(script: &mut Script) {
    script.call(Call::Pass(Micros(script.left().saturating_sub(1))));
    script.read(REGISTERS + SR as u32, 4);
    script.call(Call::Pass(Micros(script.random.below(3))));
}

/// What a busy part takes and what stalls it.
fn disturb(script: &mut Script) {
    let bits = script.random.word();
    match script.random.below(10) {
        0 => script.read(script.haunts[0], 4),
        1 => script.set(CR, CR_PG),
        2 => script.set(OPTCR, bits & !OPTCR_OPTSTRT),
        3 => locks::open_cr(script),
        4 => locks::spoil(script),
        5 => locks::clear_flags(script),
        6 => script.set(ACR, bits),
        7 => script.call(Call::DebuggerOn),
        8 => script.call(Call::DebuggerOff),
        _ => script.call(Call::Wait(Millis(0))),
    }
    probe(script);
}

/// Times at and past their limits, on any part.
pub fn idle_time(script: &mut Script) {
    let limit = script
        .random
        .pick(&[0, 1, WAIT_LIMIT.0, WAIT_LIMIT.0 + 1, 500_000, u32::MAX]);
    let time = script
        .random
        .pick(&[0, 1, PASS_LIMIT.0, PASS_LIMIT.0 + 1, u32::MAX]);
    if script.random.chance(50) {
        script.call(Call::Wait(Millis(limit)));
    } else {
        script.call(Call::Pass(Micros(time)));
    }
}
