//! The proved job run and job writer, called as a host program calls them:
//! through the C functions of the static archives.

use crate::model::writer::Fields;

extern "C" {
    fn flash_job_run(
        main: *mut u8,
        main_len: usize,
        otp: *mut u8,
        otp_len: usize,
        options: *mut u8,
        options_len: usize,
        sram: *mut u8,
        sram_len: usize,
        timings_us: *const u8,
        timings_len: usize,
        scrap: *const u8,
        scrap_len: usize,
        job: *const u8,
        job_len: usize,
        answers: *mut u8,
        answers_len: usize,
    ) -> u32;

    fn flash_job_run_uncached(
        main: *mut u8,
        main_len: usize,
        otp: *mut u8,
        otp_len: usize,
        options: *mut u8,
        options_len: usize,
        sram: *mut u8,
        sram_len: usize,
        timings_us: *const u8,
        timings_len: usize,
        scrap: *const u8,
        scrap_len: usize,
        job: *const u8,
        job_len: usize,
        answers: *mut u8,
        answers_len: usize,
    ) -> u32;

    fn flash_job_begin(buffer: *mut u8, buffer_len: usize) -> u32;

    fn flash_job_append(
        buffer: *mut u8,
        buffer_len: usize,
        count: u32,
        kind: u32,
        who: u32,
        width: u32,
        number: u32,
        value: u64,
    ) -> u32;

    fn flash_job_close(buffer: *mut u8, buffer_len: usize, count: u32) -> u32;
}

/// The function of the archive that runs jobs, and the one that runs them on
/// the uncached part.
type RunInC = unsafe extern "C" fn(
    *mut u8,
    usize,
    *mut u8,
    usize,
    *mut u8,
    usize,
    *mut u8,
    usize,
    *const u8,
    usize,
    *const u8,
    usize,
    *const u8,
    usize,
    *mut u8,
    usize,
) -> u32;

pub fn run(
    main: &mut [u8],
    otp: &mut [u8],
    options: &mut [u8],
    sram: &mut [u8],
    timings: &[u8],
    scrap: &[u8],
    job: &[u8],
    answers: &mut [u8],
) -> u32 {
    lend(
        flash_job_run,
        main,
        otp,
        options,
        sram,
        timings,
        scrap,
        job,
        answers,
    )
}

pub fn run_uncached(
    main: &mut [u8],
    otp: &mut [u8],
    options: &mut [u8],
    sram: &mut [u8],
    timings: &[u8],
    scrap: &[u8],
    job: &[u8],
    answers: &mut [u8],
) -> u32 {
    lend(
        flash_job_run_uncached,
        main,
        otp,
        options,
        sram,
        timings,
        scrap,
        job,
        answers,
    )
}

/// Inlined, so that each of the two is a call by name.
#[inline(always)]
fn lend(
    run: RunInC,
    main: &mut [u8],
    otp: &mut [u8],
    options: &mut [u8],
    sram: &mut [u8],
    timings: &[u8],
    scrap: &[u8],
    job: &[u8],
    answers: &mut [u8],
) -> u32 {
    // Each pointer comes with the length of the slice that it was taken from,
    // and no two of the slices overlap.
    unsafe {
        run(
            main.as_mut_ptr(),
            main.len(),
            otp.as_mut_ptr(),
            otp.len(),
            options.as_mut_ptr(),
            options.len(),
            sram.as_mut_ptr(),
            sram.len(),
            timings.as_ptr(),
            timings.len(),
            scrap.as_ptr(),
            scrap.len(),
            job.as_ptr(),
            job.len(),
            answers.as_mut_ptr(),
            answers.len(),
        )
    }
}

// The pointer of each of these comes with the length of its slice.

pub fn begin(buffer: &mut [u8]) -> u32 {
    unsafe { flash_job_begin(buffer.as_mut_ptr(), buffer.len()) }
}

pub fn append(buffer: &mut [u8], count: u32, fields: Fields) -> u32 {
    unsafe {
        flash_job_append(
            buffer.as_mut_ptr(),
            buffer.len(),
            count,
            fields.kind,
            fields.who,
            fields.width,
            fields.number,
            fields.value,
        )
    }
}

pub fn close(buffer: &mut [u8], count: u32) -> u32 {
    unsafe { flash_job_close(buffer.as_mut_ptr(), buffer.len(), count) }
}
