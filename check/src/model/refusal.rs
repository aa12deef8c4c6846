//! Refusals and answers, with the numbers of documents 01 and 02.

/// Why a whole job is refused.
#[derive(Clone, Copy, PartialEq, Eq, Debug)]
pub enum JobRefusal {
    BufferLength = 1,
    Timing = 2,
    Head = 3,
    Length = 4,
    Record = 5,
    AnswerBuffer = 6,
}

/// Why one call of a job is refused: its number, and the value beside it.
#[derive(Clone, Copy, PartialEq, Eq, Debug)]
pub struct Refusal {
    number: u8,
    value: u32,
}

impl Refusal {
    pub const OUTSIDE_MAP: Refusal = Refusal::plain(7);
    pub const TOO_LONG: Refusal = Refusal::plain(8);
    pub const REGISTER_ACCESS: Refusal = Refusal::plain(9);
    pub const NO_POWER: Refusal = Refusal::plain(10);
    pub const STALLED: Refusal = Refusal::plain(11);
    pub const LOCKED: Refusal = Refusal::plain(12);
    pub const CLOSED: Refusal = Refusal::plain(13);
    pub const WRONG_KEY: Refusal = Refusal::plain(14);
    pub const NOT_CONNECTED: Refusal = Refusal::plain(15);
    pub const LEVEL_TWO: Refusal = Refusal::plain(16);
    pub const SHORT_SCRAP: Refusal = Refusal::plain(21);

    const fn plain(number: u8) -> Refusal {
        Refusal { number, value: 0 }
    }

    /// The flag that rose, as its bit in SR.
    pub fn flag(bit: u32) -> Refusal {
        Refusal {
            number: 17,
            value: bit,
        }
    }

    /// The microseconds that passed before the limit was reached.
    pub fn expired(micros: u32) -> Refusal {
        Refusal {
            number: 18,
            value: micros,
        }
    }
}

/// What a call leaves in the answer buffer.
#[derive(Clone, Copy, PartialEq, Eq, Debug)]
pub struct Answer {
    pub code: u8,
    pub value: u64,
}

impl Answer {
    pub fn encode(self) -> [u8; 16] {
        let mut bytes = [0; 16];
        bytes[0] = self.code;
        bytes[8..].copy_from_slice(&self.value.to_le_bytes());
        bytes
    }
}

impl From<Result<u64, Refusal>> for Answer {
    fn from(outcome: Result<u64, Refusal>) -> Self {
        let (code, value) = match outcome {
            Ok(value) => (0, value),
            Err(refusal) => (refusal.number, refusal.value.into()),
        };
        Answer { code, value }
    }
}
