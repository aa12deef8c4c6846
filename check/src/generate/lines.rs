//! Data lines and instruction lines: what fills them and uses them, what makes
//! them stale, and what empties them or keeps them.

use super::script::{cut, Script};
use super::{access, options};
use crate::model::job::{Access, Call, Who, FETCH_WIDTH};
use crate::model::lines::{DATA_LINES, INSTRUCTION_LINES, ROW_LEN};
use crate::model::map::*;
use crate::model::registers::*;
use crate::model::time::Micros;
use crate::random::Random;

const ROW: u32 = ROW_LEN as u32;

/// What goes through lines. The random numbers are those for the SRAM; a job
/// that is made without them has no fetches.
#[derive(Clone, Copy)]
pub struct LineAccesses<'a> {
    random: &'a Random,
    /// How often reads and fetches come before a call, in percent.
    percent: u32,
    /// How often a stretch of calls is about lines, in percent.
    stretches: u32,
}

impl<'a> LineAccesses<'a> {
    pub fn new(random: &'a Random) -> LineAccesses<'a> {
        LineAccesses {
            random,
            percent: random.pick(&[0, 2, 10]),
            stretches: random.pick(&[0, 10, 50]),
        }
    }

    /// The accesses that come next, if any do.
    pub fn accesses(&self, script: &Script) -> Vec<Call> {
        let mut calls = Vec::new();
        while self.random.chance(self.percent) {
            calls.push(self.access(script));
        }
        calls
    }

    fn access(&self, script: &Script) -> Call {
        let haunt = self.random.pick(&script.haunts) + self.random.below(ROW);
        if self.random.chance(40) {
            return self.read(script, haunt);
        }
        let edge = self.fetched_at_edge(script);
        let address = self.random.weigh(&[(70, haunt), (30, edge)]);
        Call::Fetch { address }
    }

    fn read(&self, script: &Script, address: u32) -> Call {
        let connected = script.part.record.connected;
        let debugger = self.random.chance(if connected { 50 } else { 3 });
        Call::Read(Access {
            who: if debugger { Who::Debugger } else { Who::Cpu },
            width: self.random.pick(&[1, 2, 4, 8]),
            address,
        })
    }

    /// Around the ends of main flash, and elsewhere in the map.
    fn fetched_at_edge(&self, script: &Script) -> u32 {
        let end = MAIN + main_len(script.part.sectors) as u32;
        let beside = self.random.below(9).wrapping_sub(4);
        let near_end = end - FETCH_WIDTH + beside.wrapping_add(1);
        let near_start = MAIN.wrapping_add(beside);
        let area = self
            .random
            .pick(&[SYSTEM, OTP, OPTIONS, REGISTERS, SRAM, 0, u32::MAX]);
        let within = area.wrapping_add(4 * self.random.below(4));
        self.random
            .weigh(&[(4, near_end), (2, near_start), (4, within)])
    }
}

/// The two sides, with their bits in ACR.
#[derive(Clone, Copy, PartialEq)]
enum Side {
    Data,
    Instructions,
}

/// Rows next to each other that a stretch comes back to, and the sides that it
/// is about.
#[derive(Clone, Copy)]
struct Pool {
    start: u32,
    rows: u32,
    sides: &'static [Side],
}

const BOTH: &[Side] = &[Side::Data, Side::Instructions];

/// If the job turns to lines now: rows are taken into them and used, their cells
/// are changed, and the rows are looked at again.
pub fn stretch(script: &mut Script) -> bool {
    let Some(LineAccesses {
        random, stretches, ..
    }) = script.lines
    else {
        return false;
    };
    if !random.chance(stretches) {
        return false;
    }
    script.make_cr_open();
    let pool = choose_pool(script, random);
    if is_blank(script, pool) {
        for _ in 0..1 + random.below(3) {
            program(script, random, pool);
        }
    }
    switch_on(script, random);
    let oldest = fill(script, random, pool);
    if random.chance(25) {
        ask_in_vain(script, random, pool, oldest);
    }
    if random.chance(25) {
        meddle(script, random, pool);
    }
    for _ in 0..1 + random.below(2) {
        change(script, random, pool);
    }
    if random.chance(60) {
        meddle(script, random, pool);
    }
    if random.chance(80) {
        switch_on(script, random);
    }
    look(script, random, pool);
    true
}

/// About as many rows as a side has lines: as it has data lines, mostly, since
/// the others take long jobs. They may be the first or the last of main flash.
fn choose_pool(script: &Script, random: &Random) -> Pool {
    let long = script.room() > 170 && random.chance(15);
    let (rows, sides): (u32, &'static [Side]) = if long {
        let lines = INSTRUCTION_LINES as u32;
        let rows = lines - 2 + random.pick(&[0, 1, 2, 2, 2, 3, 4, 8]);
        (rows, &[Side::Instructions])
    } else {
        let lines = DATA_LINES as u32;
        let rows = random.pick(&[1, 2, lines - 1, lines, lines, lines + 1, lines + 4]);
        (
            rows,
            random.pick(&[BOTH, &[Side::Data], &[Side::Instructions]]),
        )
    };
    let last = main_len(script.part.sectors) as u32 / ROW - rows;
    let any = || random.below(last + 1);
    let haunt = (random.pick(&script.haunts) - MAIN) / ROW;
    let first = random.weigh(&[(9, any()), (6, haunt.min(last)), (3, last), (1, 0)]);
    let pool = Pool {
        start: MAIN + ROW * first,
        rows,
        sides,
    };
    let other = Pool {
        start: MAIN + ROW * any(),
        ..pool
    };
    if is_blank(script, pool) {
        other
    } else {
        pool
    }
}

impl Pool {
    fn row(self, index: u32) -> u32 {
        self.start + ROW * index
    }

    fn offset(self) -> usize {
        (self.start - MAIN) as usize
    }

    fn len(self) -> usize {
        ROW_LEN * self.rows as usize
    }
}

/// An erase would change nothing there.
fn is_blank(script: &Script, pool: Pool) -> bool {
    let cells = &script.part.main[pool.offset()..][..pool.len()];
    cells.iter().all(|&cell| cell == 0xFF)
}

/// A read or a fetch that starts in this row, now and then over its end.
fn touch(script: &mut Script, random: &Random, pool: Pool, row: u32) {
    let address = if random.chance(15) {
        row + ROW - random.pick(&[1, 2, 3])
    } else {
        row + random.below(ROW - 7)
    };
    touch_at(script, random, pool, address);
}

fn touch_at(script: &mut Script, random: &Random, pool: Pool, address: u32) {
    let Some(lines) = script.lines else {
        return;
    };
    let call = match random.pick(pool.sides) {
        Side::Data => lines.read(script, address),
        Side::Instructions => Call::Fetch { address },
    };
    script.call(call);
}

/// All rows from the lowest or from the second on, or from the last one back,
/// and some of them once more: the first ones, which would go next, or any. The
/// result is the row that most likely goes next.
fn fill(script: &mut Script, random: &Random, pool: Pool) -> u32 {
    let back = random.chance(30);
    let first = random.pick(&[0, 1]);
    let row = |index| pool.row(if back { pool.rows - 1 - index } else { index });
    for index in first..pool.rows {
        touch(script, random, pool, row(index));
    }
    let again = random.pick(&[0, 0, 1, 2, 4]).min(pool.rows);
    let in_order = random.chance(50);
    for index in 0..again {
        let any = random.below(pool.rows);
        touch(
            script,
            random,
            pool,
            row(if in_order { index } else { any }),
        );
    }
    row(if in_order { again } else { first }.min(pool.rows - 1))
}

/// The row that goes next is asked for where that is no use of it, and then
/// others are, which take its place.
fn ask_in_vain(script: &mut Script, random: &Random, pool: Pool, oldest: u32) {
    match random.below(4) {
        0 => {
            set_acr(script, random, 0);
            touch(script, random, pool, oldest);
            set_acr(script, random, ACR_DCEN | ACR_ICEN);
        }
        1 => {
            script.make_cr_open();
            script.set(CR, CR_PG);
            script.write(OTP + random.below(LOCK_BYTES as u32), 1, 0);
            touch(script, random, pool, oldest);
            script.call(Call::Pass(Micros(script.left())));
        }
        2 => script.call(Call::Read(Access {
            who: Who::Debugger,
            width: 1,
            address: oldest,
        })),
        _ => touch_at(script, random, pool, oldest + ROW - 1),
    }
    let other = random.pick(&script.haunts);
    for index in 0..random.pick(&[1, 1, 2]) {
        touch(script, random, pool, other ^ ROW * index);
    }
}

/// From the first row on, from the last one back, or in no order; over the end
/// of the first row before all others, where a fill may push out the second.
fn look(script: &mut Script, random: &Random, pool: Pool) {
    if random.chance(40) {
        let over = pool.start + ROW - random.pick(&[1, 2, 3]);
        if pool.rows > 1 {
            touch_at(script, random, pool, over);
        }
    }
    let order = random.below(3);
    for index in 0..pool.rows {
        let row = match order {
            0 => index,
            1 => pool.rows - 1 - index,
            _ => random.below(pool.rows),
        };
        touch(script, random, pool, pool.row(row));
    }
}

/// Cells of the pool, or what else may concern lines.
fn change(script: &mut Script, random: &Random, pool: Pool) {
    script.make_cr_open();
    match random.below(20) {
        0..=6 => {
            for _ in 0..1 + random.below(4) {
                program(script, random, pool);
            }
        }
        7..=14 => erase_sector(script, random, pool),
        15..=16 => erase(script, random, pool, CR_MER),
        17 => options::change(script),
        18 => options::regression(script),
        _ => {}
    }
}

/// A write of one width inside a row of the pool, or at the same offset in OTP,
/// to its end.
fn program(script: &mut Script, random: &Random, pool: Pool) {
    let psize = random.below(4);
    let width = 1 << psize;
    let mut row = pool.row(random.pick(&[0, random.below(pool.rows)]));
    if row < MAIN + LOCK_BYTES as u32 && random.chance(50) {
        row = row - MAIN + OTP;
    }
    let any = random.next();
    let value = random.weigh(&[(2, 0), (2, u64::MAX), (6, any)]);
    script.set(CR, CR_PG | psize << CR_PSIZE_SHIFT);
    let address = row + random.below(ROW - width + 1);
    script.write(address, width, cut(value, width));
    end(script, random, pool);
}

fn erase_sector(script: &mut Script, random: &Random, pool: Pool) {
    let sector = sector_of(pool.offset()) as u32;
    erase(script, random, pool, CR_SER | sector << CR_SNB_SHIFT);
}

fn erase(script: &mut Script, random: &Random, pool: Pool, fields: u32) {
    script.set(CR, CR_STRT | fields);
    end(script, random, pool);
}

/// What is running ends, or is cut; rows are asked for before.
fn end(script: &mut Script, random: &Random, pool: Pool) {
    if script.is_busy() && random.chance(10) {
        touch(script, random, pool, pool.row(random.below(pool.rows)));
        script.plain(Call::Reset {
            boot: random.pick(&[0, 1, 1]),
        });
    }
    if script.is_busy() {
        script.call(Call::Pass(Micros(script.left())));
    }
}

/// What empties lines, what seems to, and what does not.
fn meddle(script: &mut Script, random: &Random, pool: Pool) {
    match random.below(8) {
        0..=3 => {
            for _ in 0..1 + random.below(3) {
                write_acr(script, random);
            }
        }
        4..=5 => {
            set_acr(script, random, random.pick(&[0, ACR_DCEN, ACR_ICEN]));
            for _ in 0..random.below(4) {
                touch(script, random, pool, pool.row(random.below(pool.rows)));
            }
            if random.chance(50) {
                script.make_cr_open();
                program(script, random, pool);
            }
        }
        6 => access::boot(script),
        _ => visit(script, random, pool),
    }
}

/// A debugger asks for rows, and so does the CPU beside it.
fn visit(script: &mut Script, random: &Random, pool: Pool) {
    script.call(Call::DebuggerOn);
    for _ in 0..2 + random.below(4) {
        touch(script, random, pool, pool.row(random.below(pool.rows)));
    }
    if random.chance(50) {
        script.call(Call::DebuggerOff);
        touch(script, random, pool, pool.row(random.below(pool.rows)));
    }
}

/// One side or both, with whatever the write empties by the way, or nothing.
fn switch_on(script: &mut Script, random: &Random) {
    let sides = random.weigh(&[(6, ACR_DCEN | ACR_ICEN), (2, ACR_DCEN), (2, ACR_ICEN)]);
    let reset = random.weigh(&[
        (9, 0),
        (1, ACR_DCRST | ACR_ICRST),
        (1, ACR_DCRST),
        (1, ACR_ICRST),
    ]);
    set_acr(script, random, sides | reset);
}

/// These bits by a byte, a half-word or a word, with others beside them.
fn set_acr(script: &mut Script, random: &Random, bits: u32) {
    let beside = random.word() & random.pick(&[0, ACR_PRFTEN | ACR_LATENCY]);
    let value = bits | beside;
    let (lane, width) = random.pick(&[(1, 1), (0, 2), (0, 4)]);
    script.write(REGISTERS + lane, width, (value >> (8 * lane)).into());
}

/// Any bits of both sides into any lanes.
fn write_acr(script: &mut Script, random: &Random) {
    let (lane, width) = random.weigh(&[
        (4, (1, 1)),
        (3, (0, 2)),
        (3, (0, 4)),
        (1, (0, 1)),
        (1, (2, 1)),
        (1, (3, 1)),
        (1, (2, 2)),
    ]);
    let value = random.word() & ACR_FIELDS;
    script.write(REGISTERS + lane, width, (value >> (8 * lane)).into());
}
