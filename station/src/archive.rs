//! The one door to the proved part: `flash_job_run` of its archive, and
//! `flash_job_run_uncached` of another, the same part without lines.

use crate::job::{self, Answer};
use crate::part::Part;

#[link(name = "flash_job", kind = "static")]
#[rustfmt::skip]
extern "C" {
    fn flash_job_run(
        main: *mut u8, main_length: usize, otp: *mut u8, otp_length: usize,
        options: *mut u8, options_length: usize, sram: *mut u8, sram_length: usize,
        timings_us: *const u8, timings_length: usize, scrap: *const u8, scrap_length: usize,
        job: *const u8, job_length: usize, answers: *mut u8, answers_length: usize,
    ) -> u32;
}

#[link(name = "flash_job_uncached", kind = "static")]
#[rustfmt::skip]
extern "C" {
    fn flash_job_run_uncached(
        main: *mut u8, main_length: usize, otp: *mut u8, otp_length: usize,
        options: *mut u8, options_length: usize, sram: *mut u8, sram_length: usize,
        timings_us: *const u8, timings_length: usize, scrap: *const u8, scrap_length: usize,
        job: *const u8, job_length: usize, answers: *mut u8, answers_length: usize,
    ) -> u32;
}

/// The scrap that every job is lent: what the resets that cut an operation make of
/// its cells. FF leaves an erased cell FF, and programmed and option cells old.
static SCRAP: [u8; 65_536] = [0xFF; 65_536];

/// Runs a job on the part: an answer for each call, or the number with which
/// the whole job is refused.
pub fn run(part: &mut Part, job: &[u8]) -> Result<Vec<Answer>, u32> {
    answered(part, job, true)
}

/// The same on the part without lines, whose reads and fetches take the cells.
pub fn run_uncached(part: &mut Part, job: &[u8]) -> Result<Vec<Answer>, u32> {
    answered(part, job, false)
}

fn answered(part: &mut Part, job: &[u8], lines: bool) -> Result<Vec<Answer>, u32> {
    let run = if lines { flash_job_run } else { flash_job_run_uncached };
    let timings = part.timings.bytes();
    let mut answers = [0; job::ANSWER * job::MOST_CALLS];
    // Safe: each pointer comes with the length of the buffer that it was taken
    // from, and no two of the buffers overlap.
    let refusal = unsafe {
        run(
            part.main.as_mut_ptr(),
            part.main.len(),
            part.otp.as_mut_ptr(),
            part.otp.len(),
            part.options.as_mut_ptr(),
            part.options.len(),
            part.sram.as_mut_ptr(),
            part.sram.len(),
            timings.as_ptr(),
            timings.len(),
            SCRAP.as_ptr(),
            SCRAP.len(),
            job.as_ptr(),
            job.len(),
            answers.as_mut_ptr(),
            answers.len(),
        )
    };
    if refusal != 0 {
        return Err(refusal);
    }
    let count = job::count(job).unwrap_or(0);
    Ok(answers.chunks(job::ANSWER).take(count).map(Answer::of).collect())
}
