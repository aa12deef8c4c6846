//! The backup SRAM of document 02, worked through by hand.

use super::{Example, DONE};
use crate::calls::*;
use crate::lent::{JobRun, Left, Lent};
use crate::model::job::{Access, Call, Who};
use crate::model::map::MAIN;
use crate::model::registers::*;
use crate::model::time::{Micros, Millis};

const SRAM: u32 = 0x4002_4000;

pub fn examples() -> Vec<Example> {
    let mut examples = stored();
    examples.extend(closed());
    examples.extend(beside_operations());
    examples
}

fn stored() -> Vec<Example> {
    let by_debugger = Access {
        who: Who::Debugger,
        width: 2,
        address: SRAM + 3,
    };
    vec![
        Example::new("SRAM stores every width at once", 1)
            .does(reset(0))
            .does(write(0x4002_4001, 8, 0x1122_3344_5566_7788))
            .gets(read(0x4002_4000, 8), DONE, 0x2233_4455_6677_8800)
            .does(write(0x4002_4003, 4, 0xA1A2_A3A4))
            .does(write(0x4002_4005, 2, 0xB1B2))
            .does(write(0x4002_4006, 1, 0xC1))
            .gets(read(0x4002_4001, 8), DONE, 0x1122_C1B2_A3A4_7788)
            .gets(read(0x4002_4006, 2), DONE, 0x22C1)
            .gets(read_register(SR), DONE, 0)
            .leaves_sram(0..1, 0x00)
            .leaves_sram(6..7, 0xC1)
            .leaves_sram(9..4_096, 0x00),
        Example::new("F0 in the SRAM written with 3C", 1)
            .sram(0xF0)
            .does(reset(0))
            .does(write(SRAM, 1, 0x3C))
            .gets(read(SRAM, 2), DONE, 0xF03C),
        Example::new("the ends of the SRAM", 1)
            .sram(0x5A)
            .does(reset(0))
            .gets(read(0x4002_4FFF, 1), DONE, 0x5A)
            .gets(read(0x4002_4FFF, 2), 7, 0)
            .gets(read(0x4002_5000, 1), 7, 0)
            .gets(read(0x4002_3FFF, 1), 7, 0)
            .gets(read(0x4002_3FFF, 2), 7, 0)
            .gets(read(0x4002_3C18, 1), 7, 0)
            .gets(write(0x4002_4FFD, 4, 0), 7, 0)
            .gets(write(0x4002_3FFC, 8, 0), 7, 0)
            .leaves_sram(0..4_096, 0x5A),
        Example::new("the SRAM without power, and to a debugger", 1)
            .sram(0x5A)
            .gets(write(SRAM, 1, 0), 10, 0)
            .does(reset(0))
            .gets(Call::Write(by_debugger, 0), 15, 0)
            .does(Call::DebuggerOn)
            .does(Call::Write(by_debugger, 0x1234))
            .gets(Call::Read(by_debugger), DONE, 0x1234)
            .leaves_sram(0..3, 0x5A),
    ]
}

/// A closed write raises nothing, whatever ERRIE asks for.
fn closed() -> Vec<Example> {
    vec![
        Example::new("the SRAM closed at level 1", 1)
            .rdp(0x00)
            .sram(0x5A)
            .open_cr(2)
            .does(set_cr(CR_ERRIE))
            .gets(read(SRAM, 4), 13, 0)
            .gets(write(SRAM, 4, 0), 13, 0)
            .gets(write(0x4002_4FFF, 2, 0), 7, 0)
            .gets(read_register(SR), DONE, 0)
            .does(reset(0))
            .gets(read(SRAM, 4), DONE, 0x5A5A_5A5A)
            .leaves_sram(0..4_096, 0x5A),
        Example::new("the SRAM closed at level 2", 1)
            .rdp(0x55)
            .sram(0x5A)
            .open_optcr(0)
            .does(Call::DebuggerOn)
            .does(set_optcr(0x0FFF_CCEC | OPTCR_OPTSTRT))
            .gets(Call::Wait(Millis(1)), DONE, 1_000)
            .gets(read(SRAM, 1), 13, 0)
            .gets(write(SRAM, 1, 0), 13, 0)
            .does(reset(0))
            .does(write(SRAM, 1, 0xA5))
            .gets(read(SRAM, 2), DONE, 0x5AA5),
    ]
}

fn beside_operations() -> Vec<Example> {
    vec![
        Example::new("the SRAM while a byte is programmed", 1)
            .open_cr(0)
            .does(set_cr(CR_PG))
            .does(write(MAIN, 1, 0))
            .does(write(SRAM, 4, 0x1234_5678))
            .gets(read(SRAM + 1, 2), DONE, 0x3456)
            .gets(read(MAIN, 1), 11, 0)
            .gets(Call::Wait(Millis(1)), DONE, 1_000)
            .leaves(0, 0x00)
            .leaves(1, 0xFF),
        Example::new("the SRAM over a mass erase and a reset", 1)
            .sram(0x5A)
            .open_cr(0)
            .does(set_cr(CR_MER | CR_STRT))
            .gets(Call::Wait(Millis(1)), DONE, 1_000)
            .does(reset(1))
            .gets(read(SRAM, 1), DONE, 0x5A)
            .leaves_sram(0..4_096, 0x5A),
        Example::new("the SRAM up to a regression's last microsecond", 1)
            .rdp(0x00)
            .main(0)
            .sram(0x5A)
            .open_optcr(0)
            .does(set_optcr(0x0FFF_AAEC | OPTCR_OPTSTRT))
            .does(write(SRAM, 1, 0x77))
            .does(Call::Pass(Micros(1_999)))
            .gets(read(SRAM, 2), DONE, 0x5A77)
            .does(Call::Pass(Micros(1)))
            .gets(read(SRAM, 8), DONE, 0)
            .leaves_sram(0..4_096, 0x00)
            .leaves(0, 0xFF),
    ]
}

/// No other length than 4,096 is taken, be the job sound or not.
pub fn lengths(run: JobRun) -> Result<(), String> {
    let mut left = Left::default();
    for len in [0, 4_095, 4_097] {
        for job in [job(&[reset(0)]), Vec::new()] {
            let mut lent = Lent::for_rehearse(job);
            lent.sram.resize(len, 0);
            left.run(run, &lent);
            if left.result != 1 {
                return Err(format!("SRAM of {len} bytes, result {}", left.result));
            }
        }
    }
    Ok(())
}
