//! Telling a difference to a person.

use crate::compare::{Comparer, Pair};
use crate::lent::{Left, Lent};
use crate::model::job::{Call, HEAD_LEN, RECORD_LEN};
use crate::model::map::{self, LOCK_BYTES, RDP};
use crate::shrink::Shrunk;
use std::fs;

const FILE: &str = "difference.job";
/// Longer jobs are told by their last calls.
const CALLS_TOLD: usize = 40;

/// Runs the short job once more, writes it to a file and tells what differs.
pub fn report(comparer: &mut Comparer, shrunk: &Shrunk, seed: u64) {
    let lent = &shrunk.lent;
    comparer.differs(lent);
    println!("A difference at seed {seed}; `check 1 {seed}` makes this job again.");
    match fs::write(FILE, &lent.job) {
        Ok(()) => println!("Cut down to {} bytes in {FILE}.", lent.job.len()),
        Err(error) => println!("{FILE} could not be written: {error}"),
    }
    let on_uncached = !comparer.cached.differs();
    let pair = if on_uncached {
        println!("It shows on the uncached part alone.");
        &comparer.uncached
    } else {
        &comparer.cached
    };
    let answered_alike =
        pair.plain.result == pair.proved.result && pair.plain.answers == pair.proved.answers;
    match (shrunk.for_rehearse, answered_alike || on_uncached) {
        (true, false) => println!("It shows on the part that `rehearse` holds: rehearse < {FILE}"),
        (true, true) => println!("The part is that of `rehearse`, whose answers don't show it."),
        _ => {
            println!("It does not show on the part that `rehearse` holds, but on this one:");
            tell_part(lent);
        }
    }
    tell_buffers(pair);
    tell_calls(pair, &lent.job);
}

fn tell_part(lent: &Lent) {
    match map::sectors_of(lent.main.len()) {
        Some(sectors) => println!("  n = {sectors}, main flash {}", tell_fill(&lent.main)),
        None => println!(
            "  main flash of {} bytes, {}",
            lent.main.len(),
            tell_fill(&lent.main)
        ),
    }
    let level = match lent.options.get(RDP) {
        Some(0xAA) => "level 0",
        Some(0xCC) => "level 2",
        Some(_) => "level 1",
        None => "no level",
    };
    println!("  option cells {:02X?}, {level}", lent.options);
    let blocks = &lent.otp[..lent.otp.len().min(LOCK_BYTES)];
    let locks = &lent.otp[blocks.len()..];
    println!(
        "  OTP of {} bytes, blocks {}",
        lent.otp.len(),
        tell_fill(blocks)
    );
    println!("  lock bytes {locks:02X?}");
    println!(
        "  backup SRAM of {} bytes, {}",
        lent.sram.len(),
        tell_fill(&lent.sram)
    );
    let (timings, _) = lent.timings.as_chunks();
    let timings: Vec<u32> = timings
        .iter()
        .map(|timing| u32::from_le_bytes(*timing))
        .collect();
    if timings.iter().all(|&timing| timing == 1_000) {
        println!("  {} bytes of timings, all 1,000", lent.timings.len());
    } else {
        println!("  {} bytes of timings {timings:?}", lent.timings.len());
    }
    println!(
        "  scrap of {} bytes, {}",
        lent.scrap.len(),
        tell_fill(&lent.scrap)
    );
    println!("  answer buffer of {} bytes", lent.answers.len());
}

fn tell_fill(cells: &[u8]) -> String {
    match cells {
        [] => "empty".to_string(),
        [first, rest @ ..] if rest.iter().all(|cell| cell == first) => format!("all {first:02X}"),
        _ => "as the seed makes it".to_string(),
    }
}

fn tell_buffers(pair: &Pair) {
    let Pair { plain, proved } = pair;
    if plain.result != proved.result {
        println!(
            "The result is {} by the plain run, {} by the proved one.",
            plain.result, proved.result
        );
    }
    let buffers = [
        ("main flash", &plain.main, &proved.main),
        ("OTP", &plain.otp, &proved.otp),
        ("option cells", &plain.options, &proved.options),
        ("backup SRAM", &plain.sram, &proved.sram),
        ("answers", &plain.answers, &proved.answers),
    ];
    for (name, plain, proved) in buffers {
        let pairs = plain.iter().zip(proved);
        let mut differing = pairs
            .enumerate()
            .filter(|(_, (plain, proved))| plain != proved);
        if let Some((offset, (plain, proved))) = differing.next() {
            let count = 1 + differing.count();
            println!(
                "Bytes that differ in {name}: {count}, first {offset:X}: \
                 {plain:02X} by the plain run, {proved:02X} by the proved one."
            );
        }
    }
}

fn tell_calls(pair: &Pair, job: &[u8]) {
    let Some((head, records)) = job.split_first_chunk::<HEAD_LEN>() else {
        return println!("The job: {job:02X?}");
    };
    let (records, tail) = records.as_chunks::<RECORD_LEN>();
    println!(
        "Head {head:02X?}, {} records, {} bytes more.",
        records.len(),
        tail.len()
    );
    println!("Calls and answers (code in decimal, all else in hexadecimal):");
    let hidden = records.len().saturating_sub(CALLS_TOLD);
    for (index, record) in records.iter().enumerate().skip(hidden) {
        let call = match Call::decode(record) {
            Some(call) => format!("{call:X?}"),
            None => format!("malformed {record:02X?}"),
        };
        let plain = tell_answer(&pair.plain, index);
        let proved = tell_answer(&pair.proved, index);
        if plain == proved {
            println!("  {call}: {plain}");
        } else {
            println!("  {call}: {plain} by the plain run, {proved} by the proved one");
        }
    }
}

/// A refused job has no answers.
fn tell_answer(left: &Left, index: usize) -> String {
    let (answers, _) = left.answers.as_chunks::<RECORD_LEN>();
    let Some(answer) = answers.get(index).filter(|_| left.result == 0) else {
        return "no answer".to_string();
    };
    let [code, zeros @ .., v0, v1, v2, v3, v4, v5, v6, v7] = *answer;
    let value = u64::from_le_bytes([v0, v1, v2, v3, v4, v5, v6, v7]);
    let odd = if zeros == [0; 7] {
        ""
    } else {
        " (with other bytes than 0 between)"
    };
    format!("{code} {value:X}{odd}")
}
