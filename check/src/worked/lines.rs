//! Data lines and instruction lines of document 02, worked through by hand.
//! Where the uncached part gives another value, that one stands last.

use super::{Example, DONE};
use crate::calls::*;
use crate::lent::{JobRun, Left, Lent};
use crate::model::job::{Access, Call, Who};
use crate::model::map::{MAIN, OTP, SRAM};
use crate::model::registers::*;
use crate::model::time::Millis;

const BOTH_ON: u32 = ACR_DCEN | ACR_ICEN;
const ERASE_0: u32 = CR_SER | CR_STRT;
const BLANK: u64 = 0xFFFF_FFFF;

pub fn examples() -> Vec<Example> {
    let mut examples = old_values();
    examples.extend(replacement());
    examples.extend(programs());
    examples.extend(emptied());
    examples.extend(refused());
    examples
}

fn row(index: u32) -> u32 {
    MAIN + 16 * index
}

fn set_acr(value: u32) -> Call {
    write_register(ACR, value)
}

impl Example {
    /// CR open, both sides on, main flash filled.
    fn lines(name: &str, fill: u8) -> Example {
        Example::new(name, 1)
            .main(fill)
            .open_cr(0)
            .does(set_acr(BOTH_ON))
    }

    fn ends(self) -> Example {
        self.gets(Call::Wait(Millis(1)), DONE, 1_000)
    }

    fn erases(self) -> Example {
        self.does(set_cr(ERASE_0)).ends()
    }

    /// One byte.
    fn programs(self, address: u32, byte: u64) -> Example {
        self.does(set_cr(CR_PG))
            .does(write(address, 1, byte))
            .ends()
    }

    /// Reads of a word in each row, all of 11.
    fn reads_rows(mut self, rows: impl Iterator<Item = u32>) -> Example {
        for index in rows {
            self = self.gets(read(row(index), 4), DONE, 0x1111_1111);
        }
        self
    }

    /// The same after an erase, from lines.
    fn reads_old_rows(mut self, rows: impl Iterator<Item = u32>) -> Example {
        for index in rows {
            self = self.gets_old(read(row(index), 4), 0x1111_1111, BLANK);
        }
        self
    }

    fn reads_blank_rows(mut self, rows: impl Iterator<Item = u32>) -> Example {
        for index in rows {
            self = self.gets(read(row(index), 4), DONE, BLANK);
        }
        self
    }
}

fn old_values() -> Vec<Example> {
    vec![
        Example::lines("lines after an erase", 0x5A)
            .gets(read(MAIN, 4), DONE, 0x5A5A_5A5A)
            .gets(fetch(MAIN + 5), DONE, 0x5A5A_5A5A)
            .erases()
            .gets_old(read(MAIN + 1, 2), 0x5A5A, 0xFFFF)
            .gets_old(fetch(MAIN), 0x5A5A_5A5A, BLANK)
            .gets_old(read(MAIN + 14, 4), 0xFFFF_5A5A, BLANK)
            .gets_old(fetch(MAIN + 13), 0xFF5A_5A5A, BLANK)
            .leaves(0, 0xFF),
        Example::lines("a side that is off keeps its lines, unread", 0x5A)
            .gets(read(MAIN, 1), DONE, 0x5A)
            .gets(fetch(MAIN), DONE, 0x5A5A_5A5A)
            .erases()
            .does(set_acr(ACR_DCEN))
            .gets_old(read(MAIN, 1), 0x5A, 0xFF)
            .gets(fetch(MAIN), DONE, BLANK)
            .does(set_acr(ACR_ICEN))
            .gets(read(MAIN, 1), DONE, 0xFF)
            .gets_old(fetch(MAIN), 0x5A5A_5A5A, BLANK)
            .does(set_acr(BOTH_ON))
            .gets_old(read(MAIN, 1), 0x5A, 0xFF),
        Example::new("a side that is off fills no line", 1)
            .main(0x5A)
            .open_cr(0)
            .gets(read(MAIN, 1), DONE, 0x5A)
            .gets(fetch(MAIN), DONE, 0x5A5A_5A5A)
            .erases()
            .does(set_acr(BOTH_ON))
            .gets(read(MAIN, 1), DONE, 0xFF)
            .gets(fetch(MAIN), DONE, BLANK),
    ]
}

/// What is held shows when the sector has been erased.
fn replacement() -> Vec<Example> {
    let fetched = |mut example: Example, rows: &mut dyn Iterator<Item = u32>| {
        for index in rows {
            example = example.gets(fetch(row(index)), DONE, 0x1111_1111);
        }
        example
    };
    let mut sixty_four = fetched(Example::lines("the 65th row", 0x11), &mut (0..65)).erases();
    for index in (1..65).rev() {
        sixty_four = sixty_four.gets_old(fetch(row(index)), 0x1111_1111, BLANK);
    }
    vec![
        Example::lines("the ninth row", 0x11)
            .reads_rows(0..8)
            .reads_rows(0..1)
            .reads_rows(8..9)
            .erases()
            .reads_old_rows([0, 2, 3, 4, 5, 6, 7, 8].into_iter())
            .reads_blank_rows([1, 0].into_iter())
            .reads_old_rows(3..9),
        sixty_four
            .gets(fetch(row(0)), DONE, BLANK)
            .gets(fetch(row(64)), DONE, BLANK)
            .gets_old(fetch(row(62)), 0x1111_1111, BLANK),
        // The fill of row 0 drops row 1, and the fill of row 1 drops row 2.
        Example::lines("the lower line pushes out the upper", 0x11)
            .reads_rows(1..9)
            .erases()
            .gets(read(row(1) - 1, 2), DONE, 0xFFFF)
            .reads_old_rows(3..9)
            .reads_blank_rows([2].into_iter()),
        Example::lines("two lines held", 0x11)
            .reads_rows(1..9)
            .erases()
            .gets_old(read(row(2) - 4, 8), 0x1111_1111_1111_1111, u64::MAX)
            .reads_blank_rows([0].into_iter())
            .reads_old_rows([1, 2, 4].into_iter())
            .reads_blank_rows([3].into_iter()),
    ]
}

/// F0 programmed with 3C is 30.
fn programs() -> Vec<Example> {
    vec![
        Example::lines("a program sets data lines alone", 0xF0)
            .gets(read(MAIN, 4), DONE, 0xF0F0_F0F0)
            .gets(fetch(MAIN), DONE, 0xF0F0_F0F0)
            .programs(MAIN + 1, 0x3C)
            .gets(read(MAIN, 4), DONE, 0xF0F0_30F0)
            .gets_old(fetch(MAIN), 0xF0F0_F0F0, 0xF0F0_30F0),
        Example::lines("a program sets the bytes that it writes", 0x5A)
            .gets(read(MAIN, 1), DONE, 0x5A)
            .erases()
            .does(set_acr(0))
            .programs(MAIN + 1, 0x0F)
            .programs(MAIN + 2, 0xFF)
            .does(set_acr(BOTH_ON))
            .gets_old(read(MAIN, 4), 0x5AFF_0F5A, 0xFFFF_0FFF),
        // Row 0 is still the one that goes next.
        Example::lines("a program is no use", 0x11)
            .reads_rows(0..8)
            .programs(MAIN + 15, 0x00)
            .reads_rows(8..9)
            .erases()
            .reads_blank_rows(0..1)
            .reads_old_rows(2..9),
    ]
}

fn emptied() -> Vec<Example> {
    let old = |name| {
        Example::lines(name, 0x5A)
            .gets(read(MAIN, 1), DONE, 0x5A)
            .gets(fetch(MAIN), DONE, 0x5A5A_5A5A)
            .erases()
    };
    let keeps = |example: Example| {
        example
            .gets_old(read(MAIN, 1), 0x5A, 0xFF)
            .gets_old(fetch(MAIN), 0x5A5A_5A5A, BLANK)
    };
    let acr = |lane: u32| 0x4002_3C00 + lane;
    let held = keeps(old("1 written to a side that is on").does(set_acr(ACR_FIELDS)));
    let switched_off = held.does(set_acr(ACR_DCRST | ACR_ICRST));
    let regression = 0x0FFF_AAEC | OPTCR_OPTSTRT;
    let [first, second] = open_optcr();
    vec![
        keeps(switched_off.does(set_acr(BOTH_ON))),
        old("one write empties the data side and switches it on")
            .does(set_acr(ACR_ICEN))
            .does(write(acr(1), 1, 0x16))
            .gets(read(MAIN, 1), DONE, 0xFF)
            .gets_old(fetch(MAIN), 0x5A5A_5A5A, BLANK),
        old("one write empties the instruction side and switches it on")
            .does(set_acr(ACR_DCEN))
            .does(write(acr(0), 2, 0x0E00))
            .gets_old(read(MAIN, 1), 0x5A, 0xFF)
            .gets(fetch(MAIN), DONE, BLANK),
        // The bits are 1 before the lines are filled again.
        Example::lines("1 written where it stands", 0x5A)
            .does(set_acr(0))
            .does(set_acr(0x1800))
            .does(set_acr(0x1E00))
            .gets(read(MAIN, 1), DONE, 0x5A)
            .gets(fetch(MAIN), DONE, 0x5A5A_5A5A)
            .erases()
            .does(set_acr(0x1800))
            .does(write(acr(0), 1, 0xFF))
            .does(write(acr(2), 2, 0xFFFF))
            .does(write(acr(1), 1, 0x0E))
            .gets_old(read(MAIN, 1), 0x5A, 0xFF)
            .gets(fetch(MAIN), DONE, BLANK),
        old("a reset empties both")
            .does(reset(0))
            .does(set_acr(BOTH_ON))
            .gets(read(MAIN, 1), DONE, 0xFF)
            .gets(fetch(MAIN), DONE, BLANK),
        Example::lines("the end of a regression empties both", 0x5A)
            .rdp(0x55)
            .gets(read(MAIN, 1), DONE, 0x5A)
            .gets(fetch(MAIN), DONE, 0x5A5A_5A5A)
            .does(first)
            .does(second)
            .does(set_optcr(regression))
            .gets(Call::Wait(Millis(2)), DONE, 2_000)
            .gets(read(MAIN, 1), DONE, 0xFF)
            .gets(fetch(MAIN), DONE, BLANK),
    ]
}

fn refused() -> Vec<Example> {
    let by_debugger = Call::Read(Access {
        who: Who::Debugger,
        width: 1,
        address: MAIN,
    });
    vec![
        Example::new("fetches outside main flash", 1)
            .gets(fetch(0), 10, 0)
            .does(reset(0))
            .gets(fetch(0x0800_3FFC), DONE, BLANK)
            .gets(fetch(0x0800_3FFD), 7, 0)
            .gets(fetch(0x0800_4000), 7, 0)
            .gets(fetch(0x07FF_FFFF), 7, 0)
            .gets(fetch(OTP), 7, 0)
            .gets(fetch(SRAM), 7, 0)
            .gets(fetch(0x4002_3C00), 7, 0)
            .gets(fetch(0xFFFF_FFFF), 7, 0),
        Example::lines("a stalled access fills no line", 0x5A)
            .does(set_cr(ERASE_0))
            .gets(read(MAIN, 1), 11, 0)
            .gets(fetch(MAIN), 11, 0)
            .gets(fetch(0x0800_3FFD), 7, 0)
            .ends()
            .gets(read(MAIN, 1), DONE, 0xFF)
            .gets(fetch(MAIN), DONE, BLANK),
        Example::lines("other refused reads fill no line", 0x5A)
            .gets(by_debugger, 15, 0)
            .gets(read(0x0800_3FFE, 4), 7, 0)
            .gets(fetch(0x0800_3FFE), 7, 0)
            .erases()
            .gets(read(MAIN, 1), DONE, 0xFF)
            .gets(read(0x0800_3FFE, 2), DONE, 0xFFFF)
            .gets(fetch(0x0800_3FFC), DONE, BLANK),
        Example::lines("closed, be the line held or not", 0x5A)
            .rdp(0x55)
            .gets(read(MAIN, 1), DONE, 0x5A)
            .gets(fetch(MAIN), DONE, 0x5A5A_5A5A)
            .does(Call::DebuggerOn)
            .gets(by_debugger, 13, 0)
            .gets(read(MAIN, 1), 13, 0)
            .gets(fetch(MAIN), 13, 0)
            .gets(fetch(MAIN + 16), 13, 0)
            .gets(fetch(OTP), 7, 0),
    ]
}

/// A fetch is by the CPU, of four bytes and without a value; there is no kind
/// above it.
pub fn malformed(run: JobRun) -> Result<(), String> {
    let sound = fetch(MAIN).encode();
    let mut left = Left::default();
    for (place, byte) in [(0, 8), (1, 1), (2, 2), (2, 8), (3, 1), (8, 1), (15, 0x80)] {
        let mut record = sound;
        record[place] = byte;
        left.run(run, &Lent::for_rehearse(job_of_records(&[sound, record])));
        if left.result != 5 {
            return Err(format!("{record:02X?}, result {}", left.result));
        }
    }
    Ok(())
}
