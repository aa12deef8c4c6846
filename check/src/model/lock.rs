//! The key locks of CR and OPTCR.

pub const CR_KEYS: [u32; 2] = [0x4567_0123, 0xCDEF_89AB];
pub const OPTCR_KEYS: [u32; 2] = [0x0819_2A3B, 0x4C5D_6E7F];

#[derive(Clone, Copy, PartialEq, Eq, Debug)]
pub enum Lock {
    /// The first key comes next.
    Closed,
    /// The second key comes next.
    HalfOpen,
    Open,
    /// Closed by a wrong word: no word opens it before a reset.
    Jammed,
}

impl Lock {
    /// Takes a word written to the key register; false when it is wrong.
    pub fn take(&mut self, word: u32, keys: [u32; 2]) -> bool {
        *self = match *self {
            Lock::Closed if word == keys[0] => Lock::HalfOpen,
            Lock::HalfOpen if word == keys[1] => Lock::Open,
            _ => Lock::Jammed,
        };
        *self != Lock::Jammed
    }
}
