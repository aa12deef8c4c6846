//! Job files: a head, then a record of 16 bytes for each call; and the answers
//! that come back. docs/OPERATORS.md has the layout.

pub const MARK: &[u8; 3] = b"FJB";
pub const VERSION: u16 = 1;
pub const HEAD: usize = 7;
pub const RECORD: usize = 16;
pub const ANSWER: usize = 16;
pub const MOST_CALLS: usize = 2000;

/// The fields of a record as they stand in it, sound or not.
#[derive(Clone, Copy, Debug, Default, PartialEq, Eq)]
pub struct Record {
    pub kind: u8,
    pub who: u8,
    pub width: u8,
    pub zero: u8,
    pub number: u32,
    pub value: u64,
}

impl Record {
    pub fn of(bytes: &[u8]) -> Record {
        Record {
            kind: bytes[0],
            who: bytes[1],
            width: bytes[2],
            zero: bytes[3],
            number: little_endian(&bytes[4..8]) as u32,
            value: little_endian(&bytes[8..16]),
        }
    }

    pub fn bytes(&self) -> [u8; RECORD] {
        let mut bytes = [0; RECORD];
        bytes[..4].copy_from_slice(&[self.kind, self.who, self.width, self.zero]);
        bytes[4..8].copy_from_slice(&self.number.to_le_bytes());
        bytes[8..].copy_from_slice(&self.value.to_le_bytes());
        bytes
    }

    /// The call of a record that the job run has taken; None for a kind that
    /// no call has.
    pub fn call(&self) -> Option<Call> {
        let access = Access { who: self.who, width: self.width, address: self.number };
        Some(match self.kind {
            0 => Call::Reset { boot: self.number },
            1 => Call::On,
            2 => Call::Off,
            3 => Call::Read(access),
            4 => Call::Write(access, self.value),
            5 => Call::Pass { us: self.number },
            6 => Call::Wait { ms: self.number },
            7 => Call::Fetch { address: self.number },
            _ => return None,
        })
    }
}

#[derive(Clone, Copy, Debug, PartialEq, Eq)]
pub struct Access {
    pub who: u8,
    pub width: u8,
    pub address: u32,
}

#[derive(Clone, Copy, Debug, PartialEq, Eq)]
pub enum Call {
    Reset { boot: u32 },
    On,
    Off,
    Read(Access),
    Write(Access, u64),
    Pass { us: u32 },
    Wait { ms: u32 },
    Fetch { address: u32 },
}

impl Call {
    /// Where a read, a write or a fetch goes.
    pub fn access(&self) -> Option<Access> {
        match self {
            Call::Read(access) | Call::Write(access, _) => Some(*access),
            Call::Fetch { address } => Some(fetched(*address)),
            _ => None,
        }
    }

    pub fn record(&self) -> Record {
        let access = |kind, a: &Access| Record {
            kind,
            who: a.who,
            width: a.width,
            number: a.address,
            ..Record::default()
        };
        let number = |kind, number| Record { kind, number, ..Record::default() };
        match self {
            Call::Reset { boot } => number(0, *boot),
            Call::On => number(1, 0),
            Call::Off => number(2, 0),
            Call::Read(a) => access(3, a),
            Call::Write(a, value) => Record { value: *value, ..access(4, a) },
            Call::Pass { us } => number(5, *us),
            Call::Wait { ms } => number(6, *ms),
            Call::Fetch { address } => access(7, &fetched(*address)),
        }
    }
}

/// An instruction fetch is by the CPU, and of four bytes.
fn fetched(address: u32) -> Access {
    Access { who: 0, width: 4, address }
}

/// What a call gets back: 0 is done, all else the number of a refusal.
#[derive(Clone, Copy, Debug, PartialEq, Eq)]
pub struct Answer {
    pub code: u8,
    pub value: u64,
}

impl Answer {
    pub fn of(bytes: &[u8]) -> Answer {
        Answer { code: bytes[0], value: little_endian(&bytes[8..16]) }
    }

    pub fn is_done(&self) -> bool {
        self.code == 0
    }

    /// The line that the program `rehearse` prints.
    pub fn line(&self) -> String {
        format!("{:02X} {:016X}", self.code, self.value)
    }
}

pub fn little_endian(bytes: &[u8]) -> u64 {
    bytes.iter().rev().fold(0, |value, byte| value << 8 | u64::from(*byte))
}

/// The bytes of a job of so many calls.
pub fn length(count: usize) -> usize {
    HEAD + RECORD * count
}

/// The count that a head says; None where there is no whole head.
pub fn count(job: &[u8]) -> Option<usize> {
    Some(little_endian(job.get(5..HEAD)?) as usize)
}

/// Another count in the head than the writer's.
pub fn lay_count(job: &mut [u8], count: u16) {
    job[5..HEAD].copy_from_slice(&count.to_le_bytes());
}

/// The whole records behind the head.
pub fn records(job: &[u8]) -> Vec<Record> {
    job.get(HEAD..).unwrap_or(&[]).chunks_exact(RECORD).map(Record::of).collect()
}

#[cfg(test)]
mod tests {
    use super::*;
    use crate::job_writer;

    #[test]
    fn a_record_is_its_bytes() {
        // Document 01's job: a reset, then a read of OPTCR.
        let read = Call::Read(Access { who: 0, width: 4, address: 0x4002_3C14 });
        let calls = [Call::Reset { boot: 0 }.record(), read.record()];
        let job = job_writer::file(&calls);
        let mut bytes = vec![0x46, 0x4A, 0x42, 0x01, 0x00, 0x02, 0x00];
        bytes.extend([0; 16]);
        bytes.extend([0x03, 0x00, 0x04, 0x00, 0x14, 0x3C, 0x02, 0x40]);
        bytes.extend([0; 8]);
        assert_eq!(job, bytes);
        assert_eq!(records(&job)[1].call(), Some(read));
        assert_eq!(count(&job), Some(2));
    }

    #[test]
    fn a_fetch_is_by_the_cpu_and_of_four_bytes() {
        let fetch = Call::Fetch { address: 0x0800_0102 };
        let bytes = [7, 0, 4, 0, 0x02, 0x01, 0x00, 0x08, 0, 0, 0, 0, 0, 0, 0, 0];
        assert_eq!(fetch.record().bytes(), bytes);
        assert_eq!(Record::of(&bytes).call(), Some(fetch));
    }

    #[test]
    fn every_field_has_its_place() {
        let bytes: Vec<u8> = (1..=16).collect();
        let record = Record::of(&bytes);
        assert_eq!((record.kind, record.who, record.width, record.zero), (1, 2, 3, 4));
        assert_eq!((record.number, record.value), (0x0807_0605, 0x100F_0E0D_0C0B_0A09));
        assert_eq!(record.bytes().to_vec(), bytes);
    }
}
