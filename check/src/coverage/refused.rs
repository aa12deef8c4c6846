//! Refused jobs: what was wrong with them. Each row counts where one thing
//! was wrong alone.

use super::table::*;
use super::{sram, Coverage};
use crate::lent::Lent;
use crate::model::job::{Call, COUNT_MAX, FETCH_WIDTH, HEAD_LEN, MARK_AND_VERSION, RECORD_LEN};
use crate::model::map::{sectors_of, OPTIONS_LEN, OTP_LEN, SRAM_LEN};
use crate::model::time::{TIMINGS_LEN, TIMING_LIMIT};
use crate::model::writer::Fields;

pub fn count(coverage: &mut Coverage, lent: &Lent, result: u32) {
    match result {
        1 => count_lengths(coverage, lent),
        2 => count_timings(coverage, lent),
        3 => count_head(coverage, &lent.job),
        4 => count_length(coverage, &lent.job),
        5 => count_malformed(coverage, &lent.job),
        _ => {}
    }
}

fn count_lengths(coverage: &mut Coverage, lent: &Lent) {
    let wrong = [
        sectors_of(lent.main.len()).is_none(),
        lent.otp.len() != OTP_LEN,
        lent.options.len() != OPTIONS_LEN,
        lent.sram.len() != SRAM_LEN,
        lent.timings.len() != TIMINGS_LEN,
    ];
    count_alone(coverage, BUFFER, &wrong);
    sram::count_length(coverage, lent.sram.len());
}

fn count_timings(coverage: &mut Coverage, lent: &Lent) {
    let (timings, _) = lent.timings.as_chunks();
    let any = |wrong: fn(u32) -> bool| {
        timings
            .iter()
            .any(|bytes| wrong(u32::from_le_bytes(*bytes)))
    };
    let wrong = [
        any(|timing| timing == 0),
        any(|timing| timing > TIMING_LIMIT.0),
    ];
    count_alone(coverage, TIMING, &wrong);
}

fn count_head(coverage: &mut Coverage, job: &[u8]) {
    let short = job.len() < MARK_AND_VERSION.len();
    let differs = |from: usize, to: usize| !short && job[from..to] != MARK_AND_VERSION[from..to];
    count_alone(
        coverage,
        HEAD,
        &[short, differs(0, 3), differs(3, 4), differs(4, 5)],
    );
}

fn count_length(coverage: &mut Coverage, job: &[u8]) {
    let Some(records) = job.get(HEAD_LEN..) else {
        return coverage.count(LENGTH.0, LENGTH.1[0]);
    };
    let count = usize::from(u16::from_le_bytes([job[5], job[6]]));
    let fits = records.len() == RECORD_LEN * count;
    let wrong = [
        false,
        count == 0,
        fits && count > COUNT_MAX,
        records.len() < RECORD_LEN * count,
        count > 0 && records.len() > RECORD_LEN * count,
    ];
    count_alone(coverage, LENGTH, &wrong);
}

/// The first malformed record is the one that counts.
fn count_malformed(coverage: &mut Coverage, job: &[u8]) {
    let (records, _) = job[HEAD_LEN..].as_chunks::<RECORD_LEN>();
    let Some(record) = records.iter().find(|record| Call::decode(record).is_none()) else {
        return;
    };
    match MALFORMED.get(usize::from(record[0])) {
        Some(group) => {
            let [who, width, value, number] = wrong_fields(Fields::of(record));
            let wrong = [record[3] != 0, who, width, value, number];
            count_alone(coverage, *group, &wrong);
        }
        None => coverage.count(KIND.0, KIND.1[0]),
    }
}

/// Of a call whose kind there is: who, width, value, number.
pub(super) fn wrong_fields(fields: Fields) -> [bool; 4] {
    let Fields {
        kind,
        who,
        width,
        number,
        value,
    } = fields;
    let is_access = matches!(kind, 3 | 4);
    let is_width = matches!(width, 1 | 2 | 4 | 8);
    let most_value = match kind {
        4 if is_width => u64::MAX >> (64 - 8 * width),
        4 => u64::MAX,
        _ => 0,
    };
    let most_number = match kind {
        0 => 2,
        1 | 2 => 0,
        _ => u32::MAX,
    };
    [
        who > u32::from(is_access),
        match kind {
            3 | 4 => !is_width,
            7 => width != FETCH_WIDTH,
            _ => width != 0,
        },
        value > most_value,
        number > most_number,
    ]
}

pub(super) fn count_alone(coverage: &mut Coverage, group: Group, wrong: &[bool]) {
    let mut rows = (0..wrong.len()).filter(|&row| wrong[row]);
    if let (Some(row), None) = (rows.next(), rows.next()) {
        coverage.count(group.0, group.1[row]);
    }
}
