//! Power lost in an operation, after document 02, worked through by hand. Every
//! operation lasts 1,000 microseconds, a regression 2,000.

use super::{Example, DONE};
use crate::calls::*;
use crate::model::job::{Access, Call, Who};
use crate::model::map::{MAIN, OTP};
use crate::model::registers::*;
use crate::model::time::Micros;

const HALF_WORDS: u32 = CR_PG | 1 << CR_PSIZE_SHIFT;
const WORDS: u32 = CR_PG | 2 << CR_PSIZE_SHIFT;
const REGRESSION: u32 = 0x0FFF_AAEC | OPTCR_OPTSTRT;
const TO_LEVEL_2: u32 = 0x0FFF_CCEC | OPTCR_OPTSTRT;

pub fn examples() -> Vec<Example> {
    let mut examples = programs();
    examples.extend(erases());
    examples.extend(option_changes());
    examples.extend(regressions());
    examples.extend(refused());
    examples
}

/// 3C OR 41 is 7D, and F0 AND 7D is 70.
fn programs() -> Vec<Example> {
    vec![
        Example::new("F0 programmed with 3C and cut by 41", 1)
            .main(0xF0)
            .scrap_bytes(&[0x41])
            .open_cr(0)
            .does(set_cr(CR_PG))
            .does(write(MAIN, 1, 0x3C))
            .does(Call::Pass(Micros(999)))
            .does(reset(0))
            .gets(read(MAIN, 1), DONE, 0x70)
            .gets(read_register(SR), DONE, 0)
            .leaves(1, 0xF0),
        Example::new("00 programmed in OTP and cut, byte by byte", 1)
            .scrap_bytes(&[0x81, 0x18])
            .open_cr(0)
            .does(set_cr(HALF_WORDS))
            .does(write(OTP + 2, 2, 0))
            .does(reset(0))
            .gets(read(OTP, 8), DONE, 0xFFFF_FFFF_1881_FFFF),
    ]
}

/// Sector 1 is the target, and starts with the first byte of the scrap.
fn erases() -> Vec<Example> {
    let mut scrap = [0x5A; 0x4000];
    scrap[0] = 0x01;
    scrap[0x3FFF] = 0x99;
    vec![
        Example::new("a sector erase cut", 4)
            .scrap_bytes(&scrap)
            .main(0x00)
            .open_cr(0)
            .does(set_cr(CR_SER | CR_STRT | CR_EOPIE | 1 << CR_SNB_SHIFT))
            .does(Call::Pass(Micros(500)))
            .does(reset(0))
            .gets(read_register(SR), DONE, 0)
            .leaves(0x3FFF, 0x00)
            .leaves(0x4000, 0x01)
            .leaves(0x4001, 0x5A)
            .leaves(0x7FFF, 0x99)
            .leaves(0x8000, 0x00),
        Example::new("a mass erase cut", 4)
            .scrap(0x5A)
            .main(0x00)
            .open_cr(0)
            .does(set_cr(CR_MER | CR_STRT))
            .does(reset(0))
            .leaves(0x0000, 0x5A)
            .leaves(0xFFFF, 0x5A),
    ]
}

/// Remainder 1 makes FF of RDP, which is level 1. Remainder 2 makes it CC: the
/// reset is done by the level before it, and the debugger, who sets the mark, is
/// gone.
fn option_changes() -> Vec<Example> {
    let by_debugger = Access {
        who: Who::Debugger,
        width: 4,
        address: MAIN,
    };
    vec![
        Example::new("an option change cut, RDP FF", 1)
            .scrap_bytes(&option_scrap(&[(1, 0x40)]))
            .open_optcr(0)
            .does(set_optcr(TO_LEVEL_2))
            .does(reset(2))
            .gets(read_register(OPTCR), DONE, 0x0FFF_FFED)
            .gets(read(MAIN, 1), 13, 0),
        Example::new("an option change cut, level 2", 1)
            .scrap_bytes(&option_scrap(&[(1, 0x02), (8, 0xFE)]))
            .nwrp(0xFFFC)
            .open_optcr(0)
            .does(Call::DebuggerOn)
            .does(set_optcr(TO_LEVEL_2))
            .does(Call::Pass(Micros(1)))
            .does(reset(0))
            .gets(read_register(OPTCR), DONE, 0x0FFF_CCED)
            .gets(read(MAIN, 4), 13, 0)
            .gets(Call::Read(by_debugger), 15, 0)
            .does(reset(0))
            .gets(read(MAIN, 4), DONE, 0xFFFF_FFFF),
        Example::new("an option change cut by boot 1, level 2", 1)
            .scrap(0x02)
            .open_optcr(0)
            .does(set_optcr(TO_LEVEL_2))
            .does(reset(1))
            .gets(read(MAIN, 4), 13, 0)
            .gets(reset(1), 16, 0),
    ]
}

/// More than its option time left: main flash alone is cut. From then on main
/// flash is FF, the SRAM 00, and the option cells are cut.
fn regressions() -> Vec<Example> {
    let regression = |name, passed| {
        Example::new(name, 1)
            .rdp(0x55)
            .nwrp(0xFFF0)
            .main(0x22)
            .sram(0x5A)
            .open_optcr(0)
            .does(set_optcr(REGRESSION))
            .does(Call::Pass(Micros(passed)))
            .does(reset(0))
    };
    vec![
        regression("a regression cut, 1,001 left", 999)
            .scrap(0x11)
            .gets(read(MAIN, 2), DONE, 0x1111)
            .gets(read_register(OPTCR), DONE, 0x0FF0_55ED)
            .leaves(0x3FFF, 0x11)
            .leaves_sram(0..4_096, 0x5A),
        regression("a regression cut, 1,000 left, RDP and nWRP FF", 1_000)
            .scrap_bytes(&option_scrap(&[(1, 0x01), (8, 0x04)]))
            .gets(read(MAIN, 2), DONE, 0xFFFF)
            .gets(read_register(OPTCR), DONE, 0x0FFF_FFED)
            .leaves(0x3FFF, 0xFF)
            .leaves_sram(0..4_096, 0x00),
        regression("a regression cut, 1 left, RDP AA and nWRP kept", 1_999)
            .scrap_bytes(&option_scrap(&[(1, 0x02), (8, 0x02)]))
            .gets(read(MAIN, 2), DONE, 0xFFFF)
            .gets(read_register(OPTCR), DONE, 0x0FF0_AAED)
            .leaves(0x3FFF, 0xFF)
            .leaves_sram(0..4_096, 0x00),
    ]
}

/// Scrap for option cells: remainder 0, which keeps the old byte, but for these.
fn option_scrap(others: &[(usize, u8)]) -> [u8; 16] {
    let mut scrap = [0x00; 16];
    for &(cell, byte) in others {
        scrap[cell] = byte;
    }
    scrap
}

/// What is refused cuts nothing.
fn refused() -> Vec<Example> {
    vec![
        Example::new("a program goes on after 21", 1)
            .scrap_bytes(&[0x00; 3])
            .open_cr(0)
            .does(set_cr(WORDS))
            .does(write(MAIN, 4, 0x1122_3344))
            .does(Call::Pass(Micros(400)))
            .gets(reset(0), 21, 0)
            .gets(read_register(SR), DONE, SR_BSY.into())
            .does(Call::Pass(Micros(600)))
            .gets(read(MAIN, 4), DONE, 0x1122_3344)
            .gets(read_register(CR), DONE, WORDS.into()),
        Example::new("16 before 21", 1)
            .rdp(0xCC)
            .scrap_bytes(&[])
            .open_cr(0)
            .does(set_cr(CR_PG))
            .does(write(MAIN, 1, 0))
            .gets(reset(1), 16, 0)
            .gets(reset(0), 21, 0)
            .does(Call::Pass(Micros(1_000)))
            .does(reset(0))
            .gets(read(MAIN, 1), DONE, 0),
    ]
}
