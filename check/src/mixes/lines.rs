//! Jobs that go through the data lines or the instruction lines.

use super::{any_word, Mix};
use crate::calls::*;
use crate::model::job::{Call, COUNT_MAX};
use crate::model::lines::{DATA_LINES, INSTRUCTION_LINES, ROW_LEN};
use crate::model::map::{main_len, MAIN};
use crate::model::registers::*;
use crate::model::time::Millis;
use crate::random::Random;

const ROW: u32 = ROW_LEN as u32;

pub fn all(sectors: usize) -> [Mix; 9] {
    [
        held_reads(sectors),
        reads_in_sequence(sectors),
        reads_of_nine_rows(sectors),
        reads_over_two_lines(sectors),
        loop_of_lines(sectors),
        loop_of_more(sectors),
        fetches_anywhere(sectors),
        fetches_past_lines(sectors),
        programs_in_lines(sectors),
    ]
}

/// A reset, these bits in ACR, and accesses by their number.
fn accesses(name: &'static str, sectors: usize, acr: u32, access: impl FnMut(u32) -> Call) -> Mix {
    let mut calls = vec![reset(0), write_register(ACR, acr)];
    calls.extend((0..).map(access).take(COUNT_MAX - calls.len()));
    Mix::of_calls(name, sectors, &calls)
}

fn held_reads(sectors: usize) -> Mix {
    let random = Random::new(14);
    let words = DATA_LINES as u32 * ROW / 4;
    accesses("reads, lines held", sectors, ACR_DCEN, |_| {
        read(MAIN + 4 * random.below(words), 4)
    })
}

fn reads_in_sequence(sectors: usize) -> Mix {
    accesses(
        "reads, one word after the other",
        sectors,
        ACR_DCEN,
        |index| read(MAIN + 4 * index, 4),
    )
}

/// Each row has just been dropped.
fn reads_of_nine_rows(sectors: usize) -> Mix {
    let rows = DATA_LINES as u32 + 1;
    accesses("reads, nine rows in turn", sectors, ACR_DCEN, |index| {
        read(MAIN + ROW * (index % rows), 4)
    })
}

/// The lower line is that of the access before, but where rows start again.
fn reads_over_two_lines(sectors: usize) -> Mix {
    let ends = main_len(sectors) as u32 / ROW - 1;
    accesses("reads, over two lines", sectors, ACR_DCEN, |index| {
        read(MAIN + ROW * (index % ends + 1) - 4, 8)
    })
}

fn loop_of_lines(sectors: usize) -> Mix {
    let words = INSTRUCTION_LINES as u32 * ROW / 4;
    accesses("fetches, a loop of 64 lines", sectors, ACR_ICEN, |index| {
        fetch(MAIN + 4 * (index % words))
    })
}

/// Each row has just been dropped.
fn loop_of_more(sectors: usize) -> Mix {
    let rows = INSTRUCTION_LINES as u32 + 1;
    accesses("fetches, 65 rows in turn", sectors, ACR_ICEN, |index| {
        fetch(MAIN + ROW * (index % rows))
    })
}

fn fetches_anywhere(sectors: usize) -> Mix {
    let random = Random::new(15);
    accesses("fetches, anywhere", sectors, ACR_ICEN, |_| {
        fetch(any_word(&random, sectors))
    })
}

fn fetches_past_lines(sectors: usize) -> Mix {
    let random = Random::new(15);
    accesses("fetches, anywhere, lines off", sectors, 0, |_| {
        fetch(any_word(&random, sectors))
    })
}

/// In rows that both sides hold.
fn programs_in_lines(sectors: usize) -> Mix {
    let random = Random::new(16);
    let mut calls = vec![reset(0), write_register(ACR, ACR_DCEN | ACR_ICEN)];
    calls.extend(open_cr());
    calls.push(set_cr(CR_PG | 2 << CR_PSIZE_SHIFT));
    for row in 0..DATA_LINES as u32 {
        calls.push(read(MAIN + ROW * row, 4));
        calls.push(fetch(MAIN + ROW * row));
    }
    while calls.len() + 4 <= COUNT_MAX {
        let address = MAIN + 4 * random.below(DATA_LINES as u32 * ROW / 4);
        calls.push(write(address, 4, random.word().into()));
        calls.push(Call::Wait(Millis(1)));
        calls.push(read(address, 4));
        calls.push(fetch(address));
    }
    Mix::of_calls("program in lines, read and fetch", sectors, &calls)
}
