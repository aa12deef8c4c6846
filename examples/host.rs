//! Runs a job file on a blank part of four sectors and prints the answers.
#[link(name = "flash_job", kind = "static")]
#[rustfmt::skip]
extern "C" {
    fn flash_job_run(
        main: *mut u8, main_length: usize, otp: *mut u8, otp_length: usize,
        options: *mut u8, options_length: usize, sram: *mut u8, sram_length: usize,
        timings_us: *const u8, timings_length: usize, scrap: *const u8, scrap_length: usize,
        job: *const u8, job_length: usize, answers: *mut u8, answers_length: usize,
    ) -> u32;
}

/// The CPU reads SR: run behind the job's last call, to see whether an operation is running.
const READ_SR: [u8; 16] = [3, 0, 4, 0, 0x0C, 0x3C, 0x02, 0x40, 0, 0, 0, 0, 0, 0, 0, 0];
const BSY: u64 = 0x10000;

fn value_of(answer: &[u8]) -> u64 {
    u64::from_le_bytes(answer[8..16].try_into().unwrap())
}

#[rustfmt::skip]
fn main() {
    let path = std::env::args().nth(1).expect("usage: host JOB");
    let mut job = std::fs::read(path).expect("a job file");
    let (mut main, mut otp, mut options) = ([0xFF; 65536], [0xFF; 528], [0xFF; 16]);
    options[1] = 0xAA; // RDP: level 0
    let mut sram = [0x00; 4096];
    let timings_us = 1000u32.to_le_bytes().repeat(24); // microseconds
    let scrap = [0xFF; 65536]; // as `rehearse` has it: a cut erase is complete, all else not begun
    let mut answers = [0; 16 * 2000];
    // A job that its head or its length refuses stays as it is.
    let count = job.len() / 16;
    if count < 2000 && job.len() == 7 + 16 * count && job[5..7] == (count as u16).to_le_bytes() {
        job.extend(READ_SR);
        job[5..7].copy_from_slice(&(count as u16 + 1).to_le_bytes());
    }
    // Safe: each buffer is as long as is said, and no two overlap.
    let refusal = unsafe {
        flash_job_run(
            main.as_mut_ptr(), main.len(), otp.as_mut_ptr(), otp.len(),
            options.as_mut_ptr(), options.len(), sram.as_mut_ptr(), sram.len(),
            timings_us.as_ptr(), timings_us.len(), scrap.as_ptr(), scrap.len(),
            job.as_ptr(), job.len(), answers.as_mut_ptr(), answers.len(),
        )
    };
    if refusal != 0 {
        println!("refused {refusal}");
        std::process::exit(1);
    }
    for answer in answers.chunks(16).take(count) {
        println!("{:02X} {:016X}", answer[0], value_of(answer));
    }
    if count == 2000 {
        eprintln!("No room to see whether an operation is running.");
    } else if value_of(&answers[16 * count..]) & BSY != 0 {
        eprintln!("The job ended while an operation was running.");
    }
}
