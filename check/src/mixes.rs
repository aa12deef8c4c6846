//! The jobs that are timed, each for a part with a given number of sectors.

mod lines;

use crate::calls::*;
use crate::generate::Generator;
use crate::lent::Lent;
use crate::model::job::{Access, Call, Who, COUNT_MAX, HEAD_LEN, RECORD_LEN};
use crate::model::map::{main_len, sector_range, MAIN, OTP, RDP, REGISTERS, SRAM, SRAM_LEN};
use crate::model::registers::*;
use crate::model::time::{Micros, Millis};
use crate::random::Random;

/// Jobs that are run one after the other, and what is counted of them.
pub struct Mix {
    pub name: &'static str,
    pub lents: Vec<Lent>,
    /// The result that each job has.
    pub result: u32,
    /// Runs per measurement: more than one where a run is too short for the
    /// clock and leaves the buffers as they were.
    pub repeat: usize,
    pub unit: &'static str,
    /// Units in one run of all the jobs.
    pub units: usize,
    /// Ranges of main flash that the jobs erase, in order.
    pub erased: Vec<std::ops::Range<usize>>,
}

impl Mix {
    fn of_calls(name: &'static str, sectors: usize, calls: &[Call]) -> Mix {
        let lents = vec![Lent::erased(sectors, 1_000, job(calls))];
        let units = calls.len();
        Mix {
            name,
            lents,
            result: 0,
            repeat: 1,
            unit: "call",
            units,
            erased: Vec::new(),
        }
    }
}

pub fn all(sectors: usize) -> Vec<Mix> {
    let mut mixes = vec![
        reads_and_polls(sectors),
        programming(sectors),
        register_lanes(sectors),
        sector_erases(sectors),
        mass_erases(sectors),
        mixed(sectors),
        calls_without_power(sectors),
        refused_calls(sectors),
        malformed_last_record(sectors),
        wrong_head(sectors),
        sram_accesses(sectors),
        sram_while_busy(sectors),
        cut_erases(sectors),
        cut_programs(sectors),
        cut_option_changes(sectors),
    ];
    mixes.extend(lines::all(sectors));
    mixes
}

/// Jobs of 2,000 calls or just below, for the job writer.
pub fn written() -> [Mix; 3] {
    [reads_and_polls(12), programming(12), mixed(12)]
}

/// Any word of main flash.
fn any_word(random: &Random, sectors: usize) -> u32 {
    MAIN + (random.below(main_len(sectors) as u32) & !3)
}

fn reads_and_polls(sectors: usize) -> Mix {
    let random = Random::new(1);
    let mut calls = vec![reset(0)];
    while calls.len() + 2 <= COUNT_MAX {
        calls.push(read(any_word(&random, sectors), 4));
        calls.push(read_register(SR));
    }
    Mix::of_calls("word reads and SR polls", sectors, &calls)
}

fn programming(sectors: usize) -> Mix {
    let random = Random::new(2);
    let mut calls = vec![reset(0)];
    calls.extend(open_cr());
    calls.push(set_cr(CR_PG | 2 << CR_PSIZE_SHIFT));
    while calls.len() + 3 <= COUNT_MAX {
        let address = any_word(&random, sectors);
        calls.push(write(address, 4, random.word().into()));
        calls.push(Call::Wait(Millis(1)));
        calls.push(read(address, 4));
    }
    Mix::of_calls("program a word, wait, read back", sectors, &calls)
}

/// Registers written at every aligned width and offset, each read back.
/// Nothing starts, no lock closes, and both sides of the lines stay off.
fn register_lanes(sectors: usize) -> Mix {
    let random = Random::new(10);
    let registers = [
        (ACR, ACR_FIELDS & !(ACR_DCEN | ACR_ICEN)),
        (SR, u32::MAX),
        (CR, CR_FIELDS),
        (OPTCR, OPTCR_FIELDS),
    ];
    let lanes = [(1, 0), (1, 1), (1, 2), (1, 3), (2, 0), (2, 2), (4, 0)];
    let mut calls = vec![reset(0)];
    calls.extend(open_cr());
    calls.extend(open_optcr());
    while calls.len() + 2 <= COUNT_MAX {
        let (register, stored) = random.pick(&registers);
        let (width, lane) = random.pick(&lanes);
        let value = Lanes::of(lane, width).read(random.word() & stored);
        let address = REGISTERS + (register + lane) as u32;
        calls.push(write(address, width, value));
        calls.push(read(address, width));
    }
    Mix::of_calls("registers by lanes, read back", sectors, &calls)
}

fn sector_erases(sectors: usize) -> Mix {
    let order = (0..48).map(|index| index % sectors);
    let erase = |sector: usize| CR_SER | CR_STRT | (sector as u32) << CR_SNB_SHIFT;
    let starts: Vec<u32> = order.clone().map(erase).collect();
    let mix = erases("sector erases", sectors, &starts);
    Mix {
        erased: order.map(sector_range).collect(),
        ..mix
    }
}

fn mass_erases(sectors: usize) -> Mix {
    let mix = erases("mass erases", sectors, &[CR_MER | CR_STRT; 16]);
    Mix {
        erased: vec![0..main_len(sectors); 16],
        ..mix
    }
}

fn erases(name: &'static str, sectors: usize, starts: &[u32]) -> Mix {
    let mut calls = vec![reset(0)];
    calls.extend(open_cr());
    for &start in starts {
        calls.push(set_cr(start));
        calls.push(Call::Wait(Millis(1)));
    }
    let mix = Mix::of_calls(name, sectors, &calls);
    Mix {
        unit: "erase",
        units: starts.len(),
        ..mix
    }
}

/// Jobs as the comparison makes them, without damage.
fn mixed(sectors: usize) -> Mix {
    let mut generator = Generator::default();
    let mut lents = vec![Lent::default(); 6];
    for (seed, lent) in (3..).zip(&mut lents) {
        generator.generate_sound(&Random::new(seed), None, sectors, COUNT_MAX, lent);
    }
    let units = lents.len() * COUNT_MAX;
    Mix {
        lents,
        units,
        ..Mix::of_calls("calls of all kinds", sectors, &[])
    }
}

fn calls_without_power(sectors: usize) -> Mix {
    let kinds = [
        read(MAIN, 4),
        Call::DebuggerOn,
        write(MAIN, 4, 0),
        Call::DebuggerOff,
        read_register(SR),
        Call::Wait(Millis(1)),
        Call::Pass(Micros(u32::MAX)),
    ];
    let calls: Vec<Call> = kinds.into_iter().cycle().take(COUNT_MAX).collect();
    Mix::of_calls("calls refused without power", sectors, &calls)
}

/// Every call but the reset is refused, for many reasons.
fn refused_calls(sectors: usize) -> Mix {
    let debugger = Access {
        who: Who::Debugger,
        width: 4,
        address: MAIN,
    };
    let kinds = [
        Call::Read(debugger),
        Call::Write(debugger, 0),
        read(0, 4),
        read(MAIN + main_len(sectors) as u32 - 2, 4),
        read(REGISTERS, 8),
        read(REGISTERS + KEYR as u32, 1),
        set_cr(CR_PG),
        set_optcr(0),
        write(MAIN, 4, 0),
        write(OTP, 4, 0),
        write_register(KEYR, 0),
        Call::Wait(Millis(120_001)),
    ];
    let calls = std::iter::once(reset(0)).chain(kinds.into_iter().cycle());
    let calls: Vec<Call> = calls.take(COUNT_MAX).collect();
    Mix::of_calls("calls refused with power", sectors, &calls)
}

fn malformed_last_record(sectors: usize) -> Mix {
    let mut mix = reads_and_polls(sectors);
    let lent = &mut mix.lents[0];
    let last = lent.job.len() - RECORD_LEN;
    lent.job[last] = 8;
    let units = (lent.job.len() - HEAD_LEN) / RECORD_LEN;
    Mix {
        name: "job refused at its last record",
        result: 5,
        unit: "record",
        units,
        ..mix
    }
}

fn wrong_head(sectors: usize) -> Mix {
    let mut mix = reads_and_polls(sectors);
    mix.lents[0].job[0] = b'G';
    Mix {
        name: "job refused at its mark",
        result: 3,
        repeat: 1_000,
        unit: "job",
        units: 1,
        ..mix
    }
}

fn sram_accesses(sectors: usize) -> Mix {
    Mix::of_calls("SRAM write, read back", sectors, &sram_calls(&[reset(0)]))
}

/// No time passes, so that the erase goes on to the end of the job.
fn sram_while_busy(sectors: usize) -> Mix {
    let [first, second] = open_cr();
    let erasing = [reset(0), first, second, set_cr(CR_MER | CR_STRT)];
    let calls = sram_calls(&erasing);
    Mix::of_calls("SRAM write, read back, erasing", sectors, &calls)
}

/// Behind these calls, writes of every width at any place, each read back.
fn sram_calls(before: &[Call]) -> Vec<Call> {
    let random = Random::new(9);
    let mut calls = before.to_vec();
    while calls.len() + 2 <= COUNT_MAX {
        let width = random.pick(&[1, 2, 4, 8]);
        let address = SRAM + random.below(SRAM_LEN as u32 - 7);
        let value = random.next() >> (64 - 8 * width);
        calls.push(write(address, width, value));
        calls.push(read(address, width));
    }
    calls
}

fn cut_erases(sectors: usize) -> Mix {
    let [first, second] = open_cr();
    cuts("resets that cut a 16 KiB erase", sectors, || {
        vec![first, second, set_cr(CR_SER | CR_STRT)]
    })
}

fn cut_programs(sectors: usize) -> Mix {
    let random = Random::new(11);
    let [first, second] = open_cr();
    cuts("resets that cut a program", sectors, || {
        let words = set_cr(CR_PG | 2 << CR_PSIZE_SHIFT);
        let start = write(any_word(&random, sectors), 4, random.word().into());
        vec![first, second, words, start]
    })
}

/// Other nWRP and USER each time, always at level 0.
fn cut_option_changes(sectors: usize) -> Mix {
    let random = Random::new(12);
    let [first, second] = open_optcr();
    cuts("resets that cut an option change", sectors, || {
        let fields = random.word() & (OPTCR_NWRP | OPTCR_USER);
        let start = set_optcr(fields | 0xAA << OPTCR_RDP_SHIFT | OPTCR_OPTSTRT);
        vec![first, second, start]
    })
}

/// Each start is cut by the next reset. The scrap is as long as main flash, and
/// keeps RDP.
fn cuts(name: &'static str, sectors: usize, start: impl Fn() -> Vec<Call>) -> Mix {
    let mut calls = vec![reset(0)];
    let mut units = 0;
    loop {
        let mut unit = start();
        unit.push(reset(0));
        if calls.len() + unit.len() > COUNT_MAX {
            break;
        }
        calls.extend(unit);
        units += 1;
    }
    let mut mix = Mix::of_calls(name, sectors, &calls);
    let scrap = &mut mix.lents[0].scrap;
    scrap.resize(main_len(sectors), 0);
    Random::new(13).fill(scrap);
    scrap[RDP] = 0;
    Mix {
        unit: "cut",
        units,
        ..mix
    }
}
