//! The job run and the job writer of documents 01 and 02, written a second
//! time in plain Rust.
//!
//! They were written from these documents, the readings agreed on where they
//! admit two, and the register bits of PM0059 2.8 alone, so that a comparison
//! with the proved ones tells something.
//! They are also the baseline that the proved ones are timed against: they
//! work in the lent buffers, allocate nothing and look at each input once.

pub mod access;
pub mod cut;
pub mod job;
pub mod lines;
pub mod lock;
pub mod map;
pub mod operation;
pub mod part;
pub mod refusal;
pub mod registers;
pub mod time;
pub mod writer;

use job::{Call, RECORD_LEN};
use lines::Lines;
use part::Part;
use refusal::JobRefusal;

/// Runs a job on a part that starts without power and with no lines held. The
/// result is 0, or the number of the refusal of the whole job, which changes no
/// byte. The scrap is for all resets of the job.
pub fn run(
    main: &mut [u8],
    otp: &mut [u8],
    options: &mut [u8],
    sram: &mut [u8],
    timings: &[u8],
    scrap: &[u8],
    job: &[u8],
    answers: &mut [u8],
) -> u32 {
    result_of(|| {
        let mut part = Part::fresh(main, otp, options, sram, timings, scrap)?;
        let records = job::accept(job, answers.len())?;
        let mut lines = Lines::EMPTY;
        part.lines = Some(&mut lines);
        answer_all(part, records, answers);
        Ok(())
    })
}

/// The same on the uncached part, which has no lines.
pub fn run_uncached(
    main: &mut [u8],
    otp: &mut [u8],
    options: &mut [u8],
    sram: &mut [u8],
    timings: &[u8],
    scrap: &[u8],
    job: &[u8],
    answers: &mut [u8],
) -> u32 {
    result_of(|| {
        let part = Part::fresh(main, otp, options, sram, timings, scrap)?;
        let records = job::accept(job, answers.len())?;
        answer_all(part, records, answers);
        Ok(())
    })
}

fn result_of(run: impl FnOnce() -> Result<(), JobRefusal>) -> u32 {
    match run() {
        Ok(()) => 0,
        Err(refusal) => refusal as u32,
    }
}

fn answer_all(mut part: Part, records: &[[u8; RECORD_LEN]], answers: &mut [u8]) {
    let (answers, _) = answers.as_chunks_mut();
    for (call, answer) in records.iter().filter_map(Call::decode).zip(answers) {
        *answer = part.take(call).encode();
    }
}
