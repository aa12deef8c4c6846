//! The job file: its head, its records, and the calls that they ask for.

use super::refusal::JobRefusal;
use super::time::{Micros, Millis};

/// The job mark and version 1, as they stand at the start of a file.
pub const MARK_AND_VERSION: [u8; 5] = *b"FJB\x01\x00";
pub const HEAD_LEN: usize = 7;
pub const RECORD_LEN: usize = 16;
pub const COUNT_MAX: usize = 2_000;
/// The bytes of an instruction fetch.
pub const FETCH_WIDTH: u32 = 4;

#[derive(Clone, Copy, PartialEq, Eq, Debug)]
pub enum Who {
    Cpu,
    Debugger,
}

#[derive(Clone, Copy, PartialEq, Eq, Debug)]
pub struct Access {
    pub who: Who,
    pub width: u32,
    pub address: u32,
}

#[derive(Clone, Copy, PartialEq, Eq, Debug)]
pub enum Call {
    /// Boot 0 is from flash, 1 from system memory, 2 from RAM.
    Reset {
        boot: u32,
    },
    DebuggerOn,
    DebuggerOff,
    Read(Access),
    Write(Access, u64),
    Pass(Micros),
    Wait(Millis),
    /// Of an instruction, four bytes, by the CPU.
    Fetch {
        address: u32,
    },
}

/// The records of a job that is well formed and whose answers fit.
pub fn accept(job: &[u8], answers_len: usize) -> Result<&[[u8; RECORD_LEN]], JobRefusal> {
    let rest = job
        .strip_prefix(&MARK_AND_VERSION)
        .ok_or(JobRefusal::Head)?;
    let (count, records) = rest.split_first_chunk().ok_or(JobRefusal::Length)?;
    let count = usize::from(u16::from_le_bytes(*count));
    let (records, tail) = records.as_chunks();
    if count > COUNT_MAX || records.len() != count || !tail.is_empty() {
        return Err(JobRefusal::Length);
    }
    if answers_len < RECORD_LEN * count {
        return Err(JobRefusal::AnswerBuffer);
    }
    if records.iter().any(|record| Call::decode(record).is_none()) {
        return Err(JobRefusal::Record);
    }
    Ok(records)
}

impl Call {
    /// None when the record is malformed. It is part of the loops that check and
    /// run records, and of the writer.
    #[inline(always)]
    pub fn decode(record: &[u8; RECORD_LEN]) -> Option<Call> {
        let [kind, who, width, zero, n0, n1, n2, n3, value @ ..] = *record;
        let number = u32::from_le_bytes([n0, n1, n2, n3]);
        let value = u64::from_le_bytes(value);
        let number_only = who == 0 && width == 0 && value == 0;
        if zero != 0 {
            return None;
        }
        match kind {
            0 if number_only && number <= 2 => Some(Call::Reset { boot: number }),
            1 if number_only && number == 0 => Some(Call::DebuggerOn),
            2 if number_only && number == 0 => Some(Call::DebuggerOff),
            3 if value == 0 => Some(Call::Read(Access::decode(who, width, number)?)),
            4 if fits(value, width) => {
                Some(Call::Write(Access::decode(who, width, number)?, value))
            }
            5 if number_only => Some(Call::Pass(Micros(number))),
            6 if number_only => Some(Call::Wait(Millis(number))),
            7 if who == 0 && u32::from(width) == FETCH_WIDTH && value == 0 => {
                Some(Call::Fetch { address: number })
            }
            _ => None,
        }
    }

    pub fn encode(self) -> [u8; RECORD_LEN] {
        let (kind, who, width, number, value) = match self {
            Call::Reset { boot } => (0, 0, 0, boot, 0),
            Call::DebuggerOn => (1, 0, 0, 0, 0),
            Call::DebuggerOff => (2, 0, 0, 0, 0),
            Call::Read(access) => (3, access.who as u8, access.width as u8, access.address, 0),
            Call::Write(access, value) => (
                4,
                access.who as u8,
                access.width as u8,
                access.address,
                value,
            ),
            Call::Pass(micros) => (5, 0, 0, micros.0, 0),
            Call::Wait(millis) => (6, 0, 0, millis.0, 0),
            Call::Fetch { address } => (7, 0, FETCH_WIDTH as u8, address, 0),
        };
        let mut record = [0; RECORD_LEN];
        record[..4].copy_from_slice(&[kind, who, width, 0]);
        record[4..8].copy_from_slice(&number.to_le_bytes());
        record[8..].copy_from_slice(&value.to_le_bytes());
        record
    }
}

impl Access {
    fn decode(who: u8, width: u8, address: u32) -> Option<Access> {
        let who = match who {
            0 => Who::Cpu,
            1 => Who::Debugger,
            _ => return None,
        };
        matches!(width, 1 | 2 | 4 | 8).then_some(Access {
            who,
            width: width.into(),
            address,
        })
    }
}

/// Whether a value fits into this many bytes.
fn fits(value: u64, width: u8) -> bool {
    width >= 8 || value >> (8 * width) == 0
}
