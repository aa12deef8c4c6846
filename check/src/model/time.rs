//! Time: durations in microseconds, waiting limits in milliseconds, and the
//! table of timings.

#[derive(Clone, Copy, PartialEq, Eq, PartialOrd, Ord, Debug)]
pub struct Micros(pub u32);

#[derive(Clone, Copy, PartialEq, Eq, PartialOrd, Ord, Debug)]
pub struct Millis(pub u32);

/// The longest time that a call may pass, and the longest waiting limit. They
/// are the same stretch of time.
pub const PASS_LIMIT: Micros = Micros(120_000_000);
pub const WAIT_LIMIT: Millis = Millis(120_000);

/// The longest time that the table of timings may hold.
pub const TIMING_LIMIT: Micros = Micros(60_000_000);

pub const TIMINGS_LEN: usize = 96;

impl Millis {
    /// For limits that are at most `WAIT_LIMIT`; the product then fits.
    pub fn micros(self) -> Micros {
        Micros(self.0 * 1_000)
    }
}

/// One row of the table, for one PSIZE.
#[derive(Clone, Copy, Debug)]
pub struct Row([Micros; 6]);

impl Row {
    pub fn program(&self) -> Micros {
        self.0[0]
    }

    /// Sectors 0 to 3 have 16 KiB, sector 4 has 64 KiB, the others 128 KiB.
    pub fn erase(&self, sector: usize) -> Micros {
        match sector {
            0..=3 => self.0[1],
            4 => self.0[2],
            _ => self.0[3],
        }
    }

    pub fn mass_erase(&self) -> Micros {
        self.0[4]
    }

    pub fn option(&self) -> Micros {
        self.0[5]
    }

    pub fn regression(&self) -> Micros {
        Micros(self.mass_erase().0 + self.option().0)
    }
}

/// Four rows, for PSIZE 0 to 3.
pub struct Timings([Row; 4]);

impl Timings {
    /// None when a timing is out of range.
    pub fn decode(bytes: &[u8; TIMINGS_LEN]) -> Option<Timings> {
        let mut timings = [0; 24];
        for (timing, word) in timings.iter_mut().zip(bytes.as_chunks().0) {
            *timing = u32::from_le_bytes(*word);
        }
        let in_range = |timing: &u32| (1..=TIMING_LIMIT.0).contains(timing);
        if !timings.iter().all(in_range) {
            return None;
        }
        let row = |first: usize| {
            Row(std::array::from_fn(|column| {
                Micros(timings[first + column])
            }))
        };
        Some(Timings([row(0), row(6), row(12), row(18)]))
    }

    pub fn row(&self, psize: u32) -> &Row {
        &self.0[psize as usize & 3]
    }
}
