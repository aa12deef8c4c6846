//! Damage to a job: each kind alone, and several at once, so that the order
//! of the refusals shows.

use crate::lent::Lent;
use crate::model::job::{Access, Call, Who, COUNT_MAX, HEAD_LEN, MARK_AND_VERSION, RECORD_LEN};
use crate::model::refusal::JobRefusal;
use crate::model::time::{Micros, Millis, TIMING_LIMIT};
use crate::random::Random;

/// The refusals that a damaged job asks for, a bit for each number.
#[derive(Clone, Copy, Default)]
pub struct Damage(u8);

impl Damage {
    pub fn asks_for(self, refusal: u32) -> bool {
        self.0 >> refusal & 1 == 1
    }
}

type Harm = fn(&Random, &mut Lent);

/// What a kind of damage asks for, how often it comes, and the damage. The
/// job's own length changes last, so that its records are whole while they are
/// damaged; there is most to damage in them.
const KINDS: [(JobRefusal, u32, Harm); 6] = [
    (JobRefusal::BufferLength, 2, buffer_length),
    (JobRefusal::Timing, 1, timing),
    (JobRefusal::Record, 6, record),
    (JobRefusal::AnswerBuffer, 1, answer_buffer),
    (JobRefusal::Length, 2, length),
    (JobRefusal::Head, 1, head),
];

/// One kind of damage at least. A job of no calls has no record to damage, and
/// all room for its answers.
pub fn damage(random: &Random, lent: &mut Lent) -> Damage {
    let has_calls = lent.job.len() > HEAD_LEN;
    let mut kinds = KINDS.to_vec();
    kinds.retain(|(refusal, ..)| {
        has_calls || !matches!(refusal, JobRefusal::Record | JobRefusal::AnswerBuffer)
    });
    let weights: Vec<_> = kinds.iter().map(|kind| (kind.1, kind.0)).collect();
    let certain = random.weigh(&weights);
    let percent = random.pick(&[0, 30]);
    let mut done = Damage::default();
    for (refusal, _, harm) in kinds {
        if refusal == certain || random.chance(percent) {
            harm(random, lent);
            done.0 |= 1 << refusal as u8;
        }
    }
    done
}

fn buffer_length(random: &Random, lent: &mut Lent) {
    let buffer = random.pick(&[0, 0, 1, 2, 3, 4]);
    let (bytes, lengths) = match buffer {
        0 => (&mut lent.main, [0, 1, 0x14000, 0x18000, 0x3C000, 0x12_0000]),
        1 => (&mut lent.otp, [0, 16, 512, 520, 532, 1056]),
        2 => (&mut lent.options, [0, 2, 8, 10, 24, 32]),
        3 => (&mut lent.sram, [0, 16, 512, 4_088, 4_104, 8_192]),
        _ => (&mut lent.timings, [0, 24, 48, 92, 100, 192]),
    };
    let len = bytes.len();
    let other = random.pick(&lengths);
    let len = random.pick(&[len - 1, len + 1, other, other]);
    bytes.resize(len, 1);
}

fn timing(random: &Random, lent: &mut Lent) {
    let (timings, _) = lent.timings.as_chunks_mut::<4>();
    if timings.is_empty() {
        return;
    }
    let first_or_last = random.pick(&[0, timings.len() - 1]);
    let any = random.index(timings.len());
    let wrong = random.pick(&[0, TIMING_LIMIT.0 + 1, TIMING_LIMIT.0 + 1_000, u32::MAX]);
    timings[random.pick(&[first_or_last, any])] = wrong.to_le_bytes();
}

fn answer_buffer(random: &Random, lent: &mut Lent) {
    let needed = lent.job.len() - HEAD_LEN;
    let any = random.index(needed);
    let len = random.pick(&[0, needed - 1, needed - RECORD_LEN, any]);
    lent.answers.truncate(len);
}

fn head(random: &Random, lent: &mut Lent) {
    if random.chance(30) {
        return lent.job.truncate(random.index(MARK_AND_VERSION.len()));
    }
    let byte = random.index(MARK_AND_VERSION.len());
    lent.job[byte] ^= 1 << random.below(8);
}

/// Cut down, too long, or with a count that is not the number of records.
fn length(random: &Random, lent: &mut Lent) {
    let records = (lent.job.len() - HEAD_LEN) / RECORD_LEN;
    let ways = if records > 0 { 6 } else { 4 };
    match random.below(ways) {
        0 => lent.job.truncate(5 + random.index(2)),
        1 => lent
            .job
            .extend(std::iter::repeat_n(0, 1 + random.index(2 * RECORD_LEN))),
        2 => too_many_records(random, lent),
        3 => set_count(
            lent,
            random.pick(&[records.wrapping_sub(1), records + 1, records ^ 0x100]),
        ),
        4 => lent
            .job
            .truncate(lent.job.len() - 1 - random.index(RECORD_LEN)),
        _ => set_count(lent, 0),
    }
}

/// A file whose length fits its count, but whose count is too big.
fn too_many_records(random: &Random, lent: &mut Lent) {
    let count = COUNT_MAX + 1 + random.pick(&[0, 0, 1, 48, 2_000]);
    lent.job.resize(HEAD_LEN + RECORD_LEN * count, 0);
    set_count(lent, count);
}

fn set_count(lent: &mut Lent, count: usize) {
    lent.job[5..HEAD_LEN].copy_from_slice(&(count as u16).to_le_bytes());
}

/// One record, often the first or the last, becomes one of any kind with one
/// field that it can't have.
fn record(random: &Random, lent: &mut Lent) {
    let (records, _) = lent.job[HEAD_LEN..].as_chunks_mut::<RECORD_LEN>();
    let any = random.index(records.len());
    let mut record = any_call(random).encode();
    match random.below(6) {
        0 => record[0] = random.pick(&[8, 9, 128, 255]),
        1 => spoil_who(random, &mut record),
        2 => spoil_width(random, &mut record),
        3 => record[3] = 1 << random.below(8),
        4 => spoil_number(random, &mut record),
        _ => spoil_value(random, &mut record),
    }
    records[random.pick(&[0, any, records.len() - 1])] = record;
}

pub fn any_call(random: &Random) -> Call {
    let who = random.pick(&[Who::Cpu, Who::Debugger]);
    let access = Access {
        who,
        width: random.pick(&[1, 2, 4, 8]),
        address: random.word(),
    };
    random.pick(&[
        Call::Reset {
            boot: random.below(3),
        },
        Call::DebuggerOn,
        Call::DebuggerOff,
        Call::Read(access),
        Call::Write(access, random.byte().into()),
        Call::Pass(Micros(random.word())),
        Call::Wait(Millis(random.word())),
        Call::Fetch {
            address: random.word(),
        },
    ])
}

fn is_access(record: &[u8; RECORD_LEN]) -> bool {
    matches!(record[0], 3 | 4)
}

fn spoil_who(random: &Random, record: &mut [u8; RECORD_LEN]) {
    let least = if is_access(record) { 2 } else { 1 };
    record[1] = random.pick(&[least, random.byte().max(least)]);
}

fn spoil_width(random: &Random, record: &mut [u8; RECORD_LEN]) {
    let width = random.pick(&[1, 2, 4, 8]);
    let no_width = random.pick(&[0, 3, 5, 6, 7, 9, 16, 32, 255]);
    record[2] = match record[0] {
        3 | 4 => no_width,
        7 => random.pick(&[0, 1, 2, 8, no_width]),
        _ => width,
    };
}

/// A boot above 2, or a number where there is none. Addresses and times are
/// never malformed; there the value is spoilt instead.
fn spoil_number(random: &Random, record: &mut [u8; RECORD_LEN]) {
    match record[0] {
        0..=2 => {
            let number = random.pick(&[3, 0x100, random.word().max(3)]);
            record[4..8].copy_from_slice(&number.to_le_bytes());
        }
        _ => spoil_value(random, record),
    }
}

/// A value where there is none, or one bit more than the width holds.
fn spoil_value(random: &Random, record: &mut [u8; RECORD_LEN]) {
    let least = if record[0] == 4 {
        usize::from(record[2])
    } else {
        0
    };
    if least == 8 {
        return spoil_width(random, record);
    }
    let byte = random.pick(&[least, 7, least + random.index(8 - least)]);
    record[8 + byte] |= 1 << random.below(8);
}
