//! The job writer: a job is begun in a lent buffer, calls are appended to it
//! one at a time, and closing it writes their count. It keeps nothing between
//! its calls: the caller says how many calls stand in the buffer.

use super::job::{Call, COUNT_MAX, HEAD_LEN, MARK_AND_VERSION, RECORD_LEN};

pub const DONE: u32 = 0;
pub const MALFORMED: u32 = 5;
pub const NO_ROOM: u32 = 20;

/// A call as a caller in C hands it over, with more bits than a record has
/// for its first three fields.
#[derive(Clone, Copy, PartialEq, Eq, Debug)]
pub struct Fields {
    pub kind: u32,
    pub who: u32,
    pub width: u32,
    pub number: u32,
    pub value: u64,
}

pub fn begin(buffer: &mut [u8]) -> u32 {
    let Some(head) = buffer.first_chunk_mut::<HEAD_LEN>() else {
        return NO_ROOM;
    };
    head[..5].copy_from_slice(&MARK_AND_VERSION);
    head[5..].fill(0);
    DONE
}

/// Not inlined: the proved one, in an archive, can't be either.
#[inline(never)]
pub fn append(buffer: &mut [u8], count: u32, fields: Fields) -> u32 {
    let Some(record) = fields.record() else {
        return MALFORMED;
    };
    let count = count as usize;
    if count >= COUNT_MAX {
        return NO_ROOM;
    }
    let rest = buffer.get_mut(HEAD_LEN + RECORD_LEN * count..);
    let Some(place) = rest.and_then(|rest| rest.first_chunk_mut()) else {
        return NO_ROOM;
    };
    *place = record;
    DONE
}

pub fn close(buffer: &mut [u8], count: u32) -> u32 {
    if buffer.len() < HEAD_LEN || count as usize > COUNT_MAX {
        return NO_ROOM;
    }
    buffer[5..HEAD_LEN].copy_from_slice(&(count as u16).to_le_bytes());
    DONE
}

impl Fields {
    pub fn of(record: &[u8; RECORD_LEN]) -> Fields {
        let [kind, who, width, _, n0, n1, n2, n3, value @ ..] = *record;
        Fields {
            kind: kind.into(),
            who: who.into(),
            width: width.into(),
            number: u32::from_le_bytes([n0, n1, n2, n3]),
            value: u64::from_le_bytes(value),
        }
    }

    /// None when no record has these fields, or when it is malformed.
    fn record(self) -> Option<[u8; RECORD_LEN]> {
        let mut record = [0; RECORD_LEN];
        record[0] = self.kind.try_into().ok()?;
        record[1] = self.who.try_into().ok()?;
        record[2] = self.width.try_into().ok()?;
        record[4..8].copy_from_slice(&self.number.to_le_bytes());
        record[8..].copy_from_slice(&self.value.to_le_bytes());
        Call::decode(&record)?;
        Some(record)
    }
}
