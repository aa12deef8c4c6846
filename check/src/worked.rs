//! The bench examples of document 01, worked through as jobs. They run on
//! both job runs before any random job does: a fault that both share would
//! not show as a difference. Likewise both job writers, and what document 02
//! adds.

mod cuts;
mod lines;
mod sram;
mod writing;

use crate::calls::*;
use crate::lent::{JobRun, Left, Lent};
use crate::model::job::Call;
use crate::model::map::{main_len, MAIN, NWRP, RDP};
use crate::model::registers::*;
use crate::model::time::{Micros, Millis};
use crate::writing::Writer;
use std::ops::Range;

const DONE: u8 = 0;
const WRPERR: (u8, u64) = (17, SR_WRPERR as u64);

struct Step {
    call: Call,
    code: u8,
    value: u64,
    /// On the uncached part.
    uncached: u64,
}

struct Example {
    name: String,
    lent: Lent,
    /// The calls, each with the answer that the paper gives.
    steps: Vec<Step>,
    /// Bytes of main flash afterwards, by offset.
    cells: Vec<(usize, u8)>,
    /// Stretches of the SRAM afterwards, each of one byte throughout.
    sram: Vec<(Range<usize>, u8)>,
}

impl Example {
    fn new(name: &str, sectors: usize) -> Example {
        let lent = Lent::erased(sectors, 1_000, Vec::new());
        Example {
            name: name.to_string(),
            lent,
            steps: Vec::new(),
            cells: Vec::new(),
            sram: Vec::new(),
        }
    }

    fn rdp(mut self, rdp: u8) -> Example {
        self.lent.options[RDP] = rdp;
        self
    }

    fn nwrp(mut self, nwrp: u16) -> Example {
        self.lent.options[NWRP..][..2].copy_from_slice(&nwrp.to_le_bytes());
        self
    }

    fn main(mut self, fill: u8) -> Example {
        self.lent.main.fill(fill);
        self
    }

    fn sram(mut self, fill: u8) -> Example {
        self.lent.sram.fill(fill);
        self
    }

    fn timing(mut self, micros: u32) -> Example {
        self.lent.timings = micros.to_le_bytes().repeat(24);
        self
    }

    /// All scrap the same byte.
    fn scrap(mut self, byte: u8) -> Example {
        self.lent.scrap.fill(byte);
        self
    }

    /// Just these bytes of scrap.
    fn scrap_bytes(mut self, bytes: &[u8]) -> Example {
        self.lent.scrap.clear();
        self.lent.scrap.extend_from_slice(bytes);
        self
    }

    fn gets(mut self, call: Call, code: u8, value: u64) -> Example {
        self.steps.push(Step {
            call,
            code,
            value,
            uncached: value,
        });
        self
    }

    /// Done, with a value from lines and that of the cells.
    fn gets_old(mut self, call: Call, value: u64, uncached: u64) -> Example {
        self.steps.push(Step {
            call,
            code: DONE,
            value,
            uncached,
        });
        self
    }

    fn does(self, call: Call) -> Example {
        self.gets(call, DONE, 0)
    }

    fn open_cr(self, boot: u32) -> Example {
        let [first, second] = open_cr();
        self.does(reset(boot)).does(first).does(second)
    }

    fn open_optcr(self, boot: u32) -> Example {
        let [first, second] = open_optcr();
        self.does(reset(boot)).does(first).does(second)
    }

    fn leaves(mut self, offset: usize, cell: u8) -> Example {
        self.cells.push((offset, cell));
        self
    }

    fn leaves_sram(mut self, stretch: Range<usize>, byte: u8) -> Example {
        self.sram.push((stretch, byte));
        self
    }

    fn check(mut self, run: JobRun, run_uncached: JobRun) -> Result<(), String> {
        let calls: Vec<Call> = self.steps.iter().map(|step| step.call).collect();
        self.lent.job = job(&calls);
        self.lent.answers = vec![0; 16 * calls.len()];
        self.check_run(run, |step| step.value)?;
        self.check_run(run_uncached, |step| step.uncached)
            .map_err(|message| format!("uncached, {message}"))
    }

    fn check_run(&self, run: JobRun, value_of: fn(&Step) -> u64) -> Result<(), String> {
        let mut left = Left::default();
        left.run(run, &self.lent);
        if left.result != 0 {
            return Err(format!("{}: refused {}", self.name, left.result));
        }
        let (answers, _) = left.answers.as_chunks::<16>();
        for (step, answer) in self.steps.iter().zip(answers) {
            let Step { call, code, .. } = step;
            let value = value_of(step);
            let [got, _, _, _, _, _, _, _, bytes @ ..] = *answer;
            let got_value = u64::from_le_bytes(bytes);
            if (got, got_value) != (*code, value) {
                return Err(format!(
                    "{}: {call:X?} got {got} {got_value:X}, the paper says {code} {value:X}",
                    self.name
                ));
            }
        }
        for &(offset, cell) in &self.cells {
            if left.main[offset] != cell {
                return Err(format!(
                    "{}: byte {offset:X} is {:X}",
                    self.name, left.main[offset]
                ));
            }
        }
        self.check_sram(&left)
    }

    fn check_sram(&self, left: &Left) -> Result<(), String> {
        for (stretch, byte) in &self.sram {
            if let Some(offset) = stretch.clone().find(|&offset| left.sram[offset] != *byte) {
                return Err(format!(
                    "{}: byte {offset:X} of the SRAM is {:X}",
                    self.name, left.sram[offset]
                ));
            }
        }
        Ok(())
    }
}

/// Works through every example with the job runs and the writer of one side.
pub fn check(run: JobRun, run_uncached: JobRun, writer: &Writer) -> Result<usize, String> {
    let mut examples = reset_values();
    examples.extend(sectors());
    examples.extend(programming());
    examples.extend(waiting());
    examples.extend(erasing());
    examples.extend(gone_astray());
    examples.extend(accesses());
    examples.extend(sram::examples());
    examples.extend(cuts::examples());
    examples.extend(lines::examples());
    let count = examples.len();
    for example in examples {
        example.check(run, run_uncached)?;
    }
    for run in [run, run_uncached] {
        rehearsed_job(run)?;
        jobs_of_count_0(run)?;
        sram::lengths(run)?;
        lines::malformed(run)?;
    }
    Ok(count + 4 + writing::check(writer)?)
}

fn reset_values() -> Vec<Example> {
    vec![
        Example::new("options all FF", 1)
            .rdp(0xFF)
            .does(reset(0))
            .gets(read_register(OPTCR), DONE, 0x0FFF_FFED),
        Example::new("RDP AA", 1)
            .does(reset(0))
            .gets(read_register(OPTCR), DONE, 0x0FFF_AAED)
            .gets(read_register(CR), DONE, 0x8000_0000),
        // Level 2 would refuse this boot, and level 0 would read.
        Example::new("RDP 00 is level 1", 1)
            .rdp(0x00)
            .does(reset(2))
            .gets(read(MAIN, 4), 13, 0),
    ]
}

/// A sector is told by protecting it alone, and by protecting all others.
fn sectors() -> Vec<Example> {
    let places = [
        (0x0800_3FFF, 0),
        (0x0800_4000, 1),
        (0x0801_0000, 4),
        (0x080E_0000, 11),
    ];
    let mut examples = Vec::new();
    for (address, sector) in places {
        let name = format!("{address:08X} is sector {sector}");
        let program = write(address, 1, 0);
        examples.push(
            Example::new(&name, 12)
                .nwrp(!(1 << sector))
                .open_cr(0)
                .does(set_cr(CR_PG))
                .gets(program, WRPERR.0, WRPERR.1),
        );
        examples.push(
            Example::new(&name, 12)
                .nwrp(1 << sector)
                .open_cr(0)
                .does(set_cr(CR_PG))
                .does(program),
        );
    }
    examples
}

fn programming() -> Vec<Example> {
    let half_words = CR_PG | 1 << CR_PSIZE_SHIFT;
    vec![
        Example::new("F0 programmed with 3C", 1)
            .main(0xF0)
            .open_cr(0)
            .does(set_cr(CR_PG))
            .does(write(MAIN, 1, 0x3C))
            .gets(Call::Wait(Millis(1)), DONE, 1_000)
            .gets(read(MAIN, 1), DONE, 0x30)
            .leaves(0, 0x30)
            .leaves(1, 0xF0),
        Example::new("two bytes across a row", 1)
            .open_cr(0)
            .does(set_cr(half_words))
            .gets(write(0x0800_000F, 2, 0), 17, SR_PGAERR.into())
            .does(write(0x0800_000E, 2, 0)),
        Example::new("a write without PG", 1)
            .does(reset(0))
            .gets(write(MAIN, 1, 0), 17, 0x80)
            .gets(read_register(SR), DONE, 0x80),
    ]
}

fn waiting() -> Vec<Example> {
    let programming = |name| {
        Example::new(name, 1)
            .timing(500_000)
            .open_cr(0)
            .does(set_cr(CR_PG))
            .does(write(MAIN, 1, 0x00))
    };
    vec![
        programming("500,000 left, wait 500").gets(Call::Wait(Millis(500)), DONE, 500_000),
        programming("500,000 left, wait 499")
            .gets(Call::Wait(Millis(499)), 18, 499_000)
            .does(Call::Pass(Micros(999)))
            .gets(read_register(SR), DONE, SR_BSY.into())
            .does(Call::Pass(Micros(1)))
            .gets(read_register(SR), DONE, 0)
            .leaves(0, 0x00),
        Example::new("limits of a wait", 1)
            .does(reset(0))
            .does(Call::Wait(Millis(120_000)))
            .gets(Call::Wait(Millis(120_001)), 8, 0)
            .gets(Call::Wait(Millis(500_000)), 8, 0),
    ]
}

fn erasing() -> Vec<Example> {
    let sector = |number: u32| CR_SER | CR_STRT | number << CR_SNB_SHIFT;
    vec![
        Example::new("SNB 3 of four sectors", 4)
            .main(0)
            .open_cr(0)
            .does(set_cr(sector(3)))
            .gets(Call::Wait(Millis(1)), DONE, 1_000)
            .leaves(0xBFFF, 0x00)
            .leaves(0xC000, 0xFF)
            .leaves(0xFFFF, 0xFF),
        Example::new("SNB 4 of four sectors", 4).open_cr(0).gets(
            set_cr(sector(4)),
            WRPERR.0,
            WRPERR.1,
        ),
    ]
}

/// The faults that document 01 tells of in earlier parts.
fn gone_astray() -> Vec<Example> {
    let regression = 0x0FFF_AAEC | OPTCR_OPTSTRT;
    vec![
        Example::new("a pending level does not count", 1)
            .main(0x5A)
            .open_optcr(2)
            .does(set_optcr(0x0FFF_00EC))
            .gets(read(MAIN, 1), DONE, 0x5A),
        Example::new(
            "regression in spite of a protected sector, with nWRP kept",
            12,
        )
        .rdp(0x00)
        .nwrp(0xFFFE)
        .main(0)
        .open_optcr(1)
        .does(set_optcr(regression))
        .gets(Call::Wait(Millis(2)), DONE, 2_000)
        .gets(read_register(OPTCR), DONE, 0x0FFE_AAEC)
        .leaves(0, 0xFF)
        .leaves(main_len(12) - 1, 0xFF),
        Example::new("the mark stays when the debugger leaves", 1)
            .rdp(0x00)
            .does(reset(0))
            .gets(read(MAIN, 1), DONE, 0xFF)
            .does(Call::DebuggerOn)
            .does(Call::DebuggerOff)
            .gets(read(MAIN, 1), 13, 0)
            .does(reset(0))
            .gets(read(MAIN, 1), DONE, 0xFF),
    ]
}

/// Which refusal comes first at the end of the registers.
fn accesses() -> Vec<Example> {
    vec![Example::new("eight bytes at registers", 1)
        .does(reset(0))
        .gets(read(0x4002_3C14, 8), 7, 0)
        .gets(read(0x4002_3C10, 8), 9, 0)
        .gets(read(0xFFFF_FFFC, 8), 7, 0)]
}

/// The job that document 01 prints byte by byte, and a refused one.
fn rehearsed_job(run: JobRun) -> Result<(), String> {
    let mut job = vec![0x46, 0x4A, 0x42, 0x01, 0x00, 0x02, 0x00];
    job.extend([0; 16]);
    job.extend([0x03, 0x00, 0x04, 0x00, 0x14, 0x3C, 0x02, 0x40]);
    job.extend([0; 8]);
    let mut answers = [0; 32];
    answers[24..28].copy_from_slice(&[0xED, 0xAA, 0xFF, 0x0F]);
    let mut left = Left::default();
    left.run(run, &Lent::for_rehearse(job.clone()));
    if left.result != 0 || left.answers != answers {
        return Err("the job that the paper prints got other answers".to_string());
    }
    left.run(run, &Lent::for_rehearse(job[..6].to_vec()));
    if left.result != 4 {
        return Err(format!("a job of 6 bytes was refused with {}", left.result));
    }
    Ok(())
}

/// A head alone is done and leaves the room for answers as it is; a call
/// behind it is one too many.
fn jobs_of_count_0(run: JobRun) -> Result<(), String> {
    let mut job = vec![0x46, 0x4A, 0x42, 0x01, 0x00, 0x00, 0x00];
    let mut left = Left::default();
    for room in [0, 16] {
        let mut lent = Lent::for_rehearse(job.clone());
        lent.answers = vec![0xA5; room];
        left.run(run, &lent);
        if left.result != 0 || left.answers != lent.answers {
            return Err(format!("a job of no calls, result {}", left.result));
        }
    }
    job.extend([0; 16]);
    left.run(run, &Lent::for_rehearse(job));
    if left.result != 4 {
        return Err(format!("count 0 and a call, result {}", left.result));
    }
    Ok(())
}
