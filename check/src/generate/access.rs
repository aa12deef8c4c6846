//! Accesses at edges and anywhere, boots, visits by a debugger.

use super::script::Script;
use crate::model::job::{Access, Call, Who};
use crate::model::map::*;
use crate::model::registers::{ACR, CR, KEYR, OPTCR, OPTKEYR, SR};
use crate::model::time::{Micros, Millis};

pub fn boot(script: &mut Script) {
    let strange = script.random.chance(script.temper.strangers);
    let boot = if strange {
        script.random.pick(&[1, 2])
    } else {
        0
    };
    if !strange && script.part.record.connected && script.random.chance(70) {
        script.call(Call::DebuggerOff);
    }
    script.call(Call::Reset { boot });
}

/// A debugger comes, looks around, perhaps leaves, and perhaps a reset takes
/// the mark away.
pub fn debugger_visit(script: &mut Script) {
    if !script.random.chance(20 + 2 * script.temper.strangers) {
        return script.call(Call::DebuggerOff);
    }
    script.call(Call::DebuggerOn);
    for _ in 0..script.random.below(4) {
        read_around(script);
    }
    if script.random.chance(70) {
        script.call(Call::DebuggerOff);
        read_around(script);
    }
    if script.random.chance(50) {
        boot(script);
        read_around(script);
    }
}

/// Registers and cells show the state that earlier calls have left.
pub fn probe(script: &mut Script) {
    for register in [SR, CR, OPTCR, ACR] {
        if script.random.chance(70) {
            script.read(REGISTERS + register as u32, 4);
        }
    }
    if script.random.chance(50) {
        script.read(OPTIONS + 8 * script.random.below(2), 8);
    }
    if script.random.chance(50) {
        let block = script.random.below(16);
        script.read(OTP + LOCK_BYTES as u32 + block, 1);
    }
}

/// One read of each sort of cell that can be open or closed.
pub fn read_around(script: &mut Script) {
    let width = script.width();
    let main = script.random.pick(&script.haunts) + script.random.below(16);
    let otp = OTP + script.random.below(OTP_LEN as u32 - 8);
    let options = OPTIONS + script.random.below(9);
    let seam = OTP - script.random.below(8);
    let address = script
        .random
        .weigh(&[(5, main), (3, otp), (2, options), (1, seam)]);
    script.read(address, width);
}

pub fn read_at_edge(script: &mut Script) {
    let address = edge(script);
    let width = script.width();
    script.read(address, width);
}

pub fn write_at_edge(script: &mut Script) {
    let address = edge(script);
    let width = script.width();
    let value = script.value(width);
    script.write(address, width, value);
}

/// Any call at all.
pub fn stray(script: &mut Script) {
    let who = script.random.pick(&[Who::Cpu, Who::Cpu, Who::Debugger]);
    let width = script.width();
    let access = Access {
        who,
        width,
        address: any_address(script),
    };
    let value = script.value(width);
    let time = any_time(script);
    let call = script.random.weigh(&[
        (
            1,
            Call::Reset {
                boot: script.random.below(3),
            },
        ),
        (1, Call::DebuggerOn),
        (1, Call::DebuggerOff),
        (6, Call::Read(access)),
        (8, Call::Write(access, value)),
        (2, Call::Pass(Micros(time))),
        (2, Call::Wait(Millis(time))),
    ]);
    script.plain(call);
}

fn any_address(script: &Script) -> u32 {
    let register = REGISTERS + script.random.pick(&[ACR, KEYR, OPTKEYR, SR, CR, OPTCR]) as u32;
    let haunt = script.random.pick(&script.haunts) + script.random.below(16);
    let edge = edge(script);
    let nowhere = script.random.word();
    script
        .random
        .weigh(&[(8, register), (4, haunt), (4, edge), (1, nowhere)])
}

fn any_time(script: &Script) -> u32 {
    let any = script.random.word() >> script.random.below(32);
    script.random.pick(&[
        0,
        1,
        1_000,
        119_999,
        120_000,
        120_001,
        120_000_000,
        120_000_001,
        any,
    ])
}

/// An address within eight bytes of where an area, a sector, a block or a
/// register starts or ends.
fn edge(script: &Script) -> u32 {
    let sectors = script.part.sectors;
    let sector = MAIN + main_len(script.random.index(sectors + 1)) as u32;
    let block = OTP + BLOCK_LEN as u32 * script.random.below(17);
    let register = REGISTERS + 4 * script.random.below(7);
    let fixed = script.random.pick(&[
        0,
        u32::MAX,
        MAIN,
        MAIN + main_len(SECTORS_MAX) as u32,
        SYSTEM,
        OTP,
        OTP + OTP_LEN as u32,
        OPTIONS,
        OPTIONS + OPTIONS_LEN as u32,
    ]);
    let edge = script
        .random
        .weigh(&[(3, sector), (3, block), (3, register), (4, fixed)]);
    edge.wrapping_add(script.random.below(17)).wrapping_sub(8)
}
