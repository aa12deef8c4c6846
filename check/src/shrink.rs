//! Cutting a job that shows a difference down to a short one.

use crate::compare::Comparer;
use crate::lent::Lent;
use crate::model::job::{HEAD_LEN, RECORD_LEN};
use crate::model::map::{self, MAIN, RDP, SECTORS_MAX};

pub struct Shrunk {
    pub lent: Lent,
    /// The part is the one that the program `rehearse` holds.
    pub for_rehearse: bool,
}

/// The difference that remains may be another one than at first; any does.
pub fn shrink(comparer: &mut Comparer, lent: &Lent) -> Shrunk {
    let mut lent = lent.clone();
    let mut for_rehearse = try_rehearse(comparer, &mut lent);
    drop_records(comparer, &mut lent);
    if !for_rehearse {
        simplify_part(comparer, &mut lent);
        drop_records(comparer, &mut lent);
        for_rehearse = try_rehearse(comparer, &mut lent);
        drop_records(comparer, &mut lent);
    }
    Shrunk { lent, for_rehearse }
}

/// Keeps a candidate that still shows a difference.
fn keep(comparer: &mut Comparer, lent: &mut Lent, candidate: Lent) -> bool {
    let differs = comparer.differs(&candidate);
    if differs {
        *lent = candidate;
    }
    differs
}

/// The job as it is, and with its accesses moved to where main flash is.
fn try_rehearse(comparer: &mut Comparer, lent: &mut Lent) -> bool {
    let candidates = [lent.job.clone(), folded(&lent.job)].map(Lent::for_rehearse);
    candidates
        .into_iter()
        .any(|candidate| keep(comparer, lent, candidate))
}

/// The job with each access to main flash at the same place in the first four
/// sectors, as far as these reach.
fn folded(job: &[u8]) -> Vec<u8> {
    let mut job = job.to_vec();
    let (records, _) = job
        .get_mut(HEAD_LEN..)
        .unwrap_or_default()
        .as_chunks_mut::<RECORD_LEN>();
    for record in records {
        let [kind, _, _, _, address @ .., _, _, _, _, _, _, _, _] = record;
        let offset = u32::from_le_bytes(*address).wrapping_sub(MAIN);
        if matches!(kind, 3 | 4 | 7) && offset < map::main_len(SECTORS_MAX) as u32 {
            *address = (MAIN + offset % map::main_len(4) as u32).to_le_bytes();
        }
    }
    job
}

/// Leaves out records, first many at once, then fewer, down to single ones.
fn drop_records(comparer: &mut Comparer, lent: &mut Lent) {
    let mut size = lent.job.len() / RECORD_LEN;
    while size > 0 {
        let dropped = drop_stretches(comparer, lent, size);
        if !dropped || size > 1 {
            size /= 2;
        }
    }
}

fn drop_stretches(comparer: &mut Comparer, lent: &mut Lent, size: usize) -> bool {
    let mut start = 0;
    let mut dropped = false;
    while let Some(job) = without(&lent.job, start, size) {
        let answers = answers_for(&job, lent);
        let old_job = std::mem::replace(&mut lent.job, job);
        let old_answers = std::mem::replace(&mut lent.answers, answers);
        if comparer.differs(lent) {
            dropped = true;
        } else {
            lent.job = old_job;
            lent.answers = old_answers;
            start += size;
        }
    }
    dropped
}

/// As many bytes more or fewer than the job needs as before, each other than
/// the 0 that most bytes of answers are.
fn answers_for(job: &[u8], lent: &Lent) -> Vec<u8> {
    let len = (lent.answers.len() + job.len()).saturating_sub(lent.job.len());
    vec![0xA5; len]
}

/// The job without these records, if any of them are there. The count goes
/// down with them; what else is wrong with the file stays wrong.
fn without(job: &[u8], start: usize, size: usize) -> Option<Vec<u8>> {
    let (head, rest) = job.split_first_chunk::<HEAD_LEN>()?;
    let records = rest.len() / RECORD_LEN;
    if start >= records {
        return None;
    }
    let end = records.min(start + size);
    let [mark_and_version @ .., low, high] = head;
    let count = u16::from_le_bytes([*low, *high]).wrapping_sub((end - start) as u16);
    let kept = [&rest[..RECORD_LEN * start], &rest[RECORD_LEN * end..]].concat();
    Some([&mark_and_version[..], &count.to_le_bytes(), &kept].concat())
}

/// Brings each buffer by itself as near to an erased part as it goes.
fn simplify_part(comparer: &mut Comparer, lent: &mut Lent) {
    let erased = Lent::for_rehearse(Vec::new());
    let attempts: [fn(&mut Lent, &Lent); 8] = [
        |lent, erased| lent.timings.clone_from(&erased.timings),
        |lent, erased| lent.otp.clone_from(&erased.otp),
        |lent, erased| lent.sram.clone_from(&erased.sram),
        |lent, erased| lent.scrap.clone_from(&erased.scrap),
        |lent, _| lent.scrap.fill(0xFF),
        |lent, erased| lent.options.clone_from(&erased.options),
        |lent, _| {
            let rdp = lent.options.get(RDP).copied();
            lent.options.fill(0xFF);
            if let Some(rdp) = rdp {
                lent.options[RDP] = rdp;
            }
        },
        |lent, _| lent.main.fill(0xFF),
    ];
    for attempt in attempts {
        let mut candidate = lent.clone();
        attempt(&mut candidate, &erased);
        keep(comparer, lent, candidate);
    }
    for sectors in [4, 1, 2, 3, 5, 6, 7, 8, 9, 10, 11] {
        let mut candidate = lent.clone();
        candidate.main.resize(map::main_len(sectors), 0xFF);
        if candidate.main.len() < lent.main.len() && keep(comparer, lent, candidate) {
            break;
        }
    }
}
