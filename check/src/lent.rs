//! What a host lends to a job run, and what the run leaves.

use crate::model::map::{self, OPTIONS_LEN, OTP_LEN, RDP, SRAM_LEN};
use crate::model::time::TIMINGS_LEN;

/// A job run over slices: main flash, OTP, option cells, backup SRAM, timings,
/// scrap, job, answers.
pub type JobRun =
    fn(&mut [u8], &mut [u8], &mut [u8], &mut [u8], &[u8], &[u8], &[u8], &mut [u8]) -> u32;

/// The scrap that the program `rehearse` lends, FF throughout.
const REHEARSE_SCRAP_LEN: usize = 65_536;

/// The eight buffers before a run. Each may have a length that does not fit.
#[derive(Clone, Default)]
pub struct Lent {
    pub main: Vec<u8>,
    pub otp: Vec<u8>,
    pub options: Vec<u8>,
    pub sram: Vec<u8>,
    pub timings: Vec<u8>,
    pub scrap: Vec<u8>,
    pub job: Vec<u8>,
    pub answers: Vec<u8>,
}

impl Lent {
    /// An erased part at level 0 with zeros in the SRAM, every operation taking
    /// `timing` microseconds, the scrap of `rehearse`, and a buffer that the
    /// job's answers just fill.
    pub fn erased(sectors: usize, timing: u32, job: Vec<u8>) -> Lent {
        let mut lent = Lent {
            main: vec![0xFF; map::main_len(sectors)],
            otp: vec![0xFF; OTP_LEN],
            options: vec![0xFF; OPTIONS_LEN],
            sram: vec![0; SRAM_LEN],
            timings: timing.to_le_bytes().repeat(TIMINGS_LEN / 4),
            scrap: vec![0xFF; REHEARSE_SCRAP_LEN],
            answers: vec![0xA5; job.len().saturating_sub(7)],
            job,
        };
        lent.options[RDP] = 0xAA;
        lent
    }

    /// The part that the program `rehearse` holds.
    pub fn for_rehearse(job: Vec<u8>) -> Lent {
        Lent::erased(4, 1_000, job)
    }
}

/// The buffers that a run can change, and its result.
#[derive(Default)]
pub struct Left {
    pub result: u32,
    pub main: Vec<u8>,
    pub otp: Vec<u8>,
    pub options: Vec<u8>,
    pub sram: Vec<u8>,
    pub answers: Vec<u8>,
}

impl Left {
    /// Takes copies of the buffers, into memory that it already has.
    pub fn copy(&mut self, lent: &Lent) {
        self.main.clone_from(&lent.main);
        self.otp.clone_from(&lent.otp);
        self.options.clone_from(&lent.options);
        self.sram.clone_from(&lent.sram);
        self.answers.clone_from(&lent.answers);
    }

    /// Whether main flash, OTP, option cells or SRAM differ.
    pub fn cells_differ(&self, other: &Left) -> bool {
        self.options != other.options
            || self.otp != other.otp
            || self.sram != other.sram
            || self.main != other.main
    }

    /// Runs the lent job on copies of the buffers.
    pub fn run(&mut self, run: JobRun, lent: &Lent) {
        self.copy(lent);
        self.result = run(
            &mut self.main,
            &mut self.otp,
            &mut self.options,
            &mut self.sram,
            &lent.timings,
            &lent.scrap,
            &lent.job,
            &mut self.answers,
        );
    }
}
