//! The part that a job starts on: its cells and its timings.

use crate::lent::Lent;
use crate::model::map::{self, LOCK_BYTES, NWRP, OPTIONS_LEN, OTP_LEN, RDP, SECTORS_MAX, SRAM_LEN};
use crate::model::time::{TIMINGS_LEN, TIMING_LIMIT};
use crate::random::Random;

/// Small parts come more often, since a job on them takes less time.
pub fn choose_sectors(random: &Random) -> usize {
    if random.chance(50) {
        1 + random.index(5)
    } else {
        1 + random.index(SECTORS_MAX)
    }
}

pub fn choose(random: &Random, sectors: usize, lent: &mut Lent) {
    choose_main(random, sectors, lent);
    choose_otp(random, lent);
    choose_options(random, lent);
    choose_timings(random, lent);
}

fn choose_main(random: &Random, sectors: usize, lent: &mut Lent) {
    lent.main.resize(map::main_len(sectors), 0);
    match random.below(3) {
        0 => lent.main.fill(0xFF),
        1 => lent.main.fill(random.byte()),
        _ => random.fill(&mut lent.main),
    }
}

/// Lock bytes other than 00 and FF don't lock either.
fn choose_otp(random: &Random, lent: &mut Lent) {
    lent.otp.clear();
    lent.otp.resize(OTP_LEN, 0xFF);
    if random.chance(50) {
        random.fill(&mut lent.otp[..LOCK_BYTES]);
    }
    let odd = random.byte();
    for lock in &mut lent.otp[LOCK_BYTES..] {
        *lock = random.weigh(&[(70, 0xFF), (20, 0x00), (5, 0x01), (5, odd)]);
    }
}

fn choose_options(random: &Random, lent: &mut Lent) {
    lent.options.clear();
    lent.options.resize(OPTIONS_LEN, 0xFF);
    if random.chance(50) {
        random.fill(&mut lent.options);
    }
    lent.options[RDP] = choose_rdp(random);
    let nwrp = choose_nwrp(random) | (random.word() as u16 & 0xF000);
    lent.options[NWRP..][..2].copy_from_slice(&nwrp.to_le_bytes());
}

/// The neighbours of AA and CC, and any other value, stand for level 1.
fn choose_rdp(random: &Random) -> u8 {
    let any = random.byte();
    random.weigh(&[
        (45, 0xAA),
        (8, 0xCC),
        (8, 0x00),
        (8, 0xFF),
        (4, 0xAB),
        (4, 0xCD),
        (20, any),
    ])
}

/// The twelve bits of nWRP: mostly no sector is protected, or few are.
pub fn choose_nwrp(random: &Random) -> u16 {
    let any = random.word() as u16;
    let one = !(1 << random.below(12));
    let few = random.word() as u16 | any;
    0x0FFF & random.weigh(&[(55, 0xFFFF), (20, one), (15, few), (7, any), (3, 0)])
}

/// Zeros, as after a regression, or what a token has left there.
pub fn choose_sram(random: Option<&Random>, lent: &mut Lent) {
    lent.sram.clear();
    lent.sram.resize(SRAM_LEN, 0);
    if let Some(random) = random.filter(|random| random.chance(75)) {
        random.fill(&mut lent.sram);
    }
}

/// No bytes, as many as a target has, one more or less, or enough for every
/// target. They are all the same, so that a cut does the same to each option
/// cell, or any.
pub fn choose_scrap(random: Option<&Random>, sectors: usize, lent: &mut Lent) {
    lent.scrap.clear();
    let Some(random) = random else {
        return lent.scrap.resize(map::main_len(sectors), 0xFF);
    };
    let len = choose_scrap_len(random, sectors);
    let any = random.byte();
    lent.scrap.resize(len, random.pick(&[0xFF, 0x00, any]));
    if random.chance(60) {
        random.fill(&mut lent.scrap);
    }
}

fn choose_scrap_len(random: &Random, sectors: usize) -> usize {
    let main_len = map::main_len(sectors);
    let sector = random.pick(&[0, sectors.min(5) - 1, sectors - 1]);
    let sector_len = map::sector_range(sector).len();
    let program = random.pick(&[1, 2, 4, 8]);
    let target = random.weigh(&[
        (4, program),
        (2, OPTIONS_LEN),
        (3, sector_len),
        (2, main_len),
    ]);
    let enough = main_len + random.index(0x1_0000);
    random.weigh(&[
        (5, 0),
        (15, target - 1),
        (20, target),
        (15, target + 1),
        (45, enough),
    ])
}

/// The ends of the range, round numbers for exact waits, and any others.
fn choose_timings(random: &Random, lent: &mut Lent) {
    let most = TIMING_LIMIT.0;
    let kind = random.below(5);
    lent.timings.clear();
    for _ in 0..TIMINGS_LEN / 4 {
        let short = 1 + random.below(20);
        let round = 1_000 * (1 + random.below(60));
        let any = (1 + random.below(most)) >> random.below(26);
        let timing: u32 = match kind {
            0 => 1_000,
            1 => short,
            2 => round,
            3 => random.pick(&[1, 2, 999, 1_000, 1_001, most - 1, most]),
            _ => random.pick(&[short, round, any.max(1)]),
        };
        lent.timings.extend(timing.to_le_bytes());
    }
}
