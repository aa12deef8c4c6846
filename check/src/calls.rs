//! Short forms for calls, and job files made of them.

use crate::model::job::{Access, Call, Who, MARK_AND_VERSION};
use crate::model::lock::{CR_KEYS, OPTCR_KEYS};
use crate::model::map::REGISTERS;
use crate::model::registers::{CR, KEYR, OPTCR, OPTKEYR};

pub fn reset(boot: u32) -> Call {
    Call::Reset { boot }
}

pub fn read(address: u32, width: u32) -> Call {
    Call::Read(Access {
        who: Who::Cpu,
        width,
        address,
    })
}

pub fn write(address: u32, width: u32, value: u64) -> Call {
    Call::Write(
        Access {
            who: Who::Cpu,
            width,
            address,
        },
        value,
    )
}

pub fn fetch(address: u32) -> Call {
    Call::Fetch { address }
}

pub fn read_register(register: usize) -> Call {
    read(REGISTERS + register as u32, 4)
}

pub fn write_register(register: usize, value: u32) -> Call {
    write(REGISTERS + register as u32, 4, value.into())
}

/// The calls that open CR after a reset.
pub fn open_cr() -> [Call; 2] {
    CR_KEYS.map(|key| write_register(KEYR, key))
}

/// The calls that open OPTCR after a reset.
pub fn open_optcr() -> [Call; 2] {
    OPTCR_KEYS.map(|key| write_register(OPTKEYR, key))
}

pub fn set_cr(value: u32) -> Call {
    write_register(CR, value)
}

pub fn set_optcr(value: u32) -> Call {
    write_register(OPTCR, value)
}

/// The file of a job of these calls.
pub fn job(calls: &[Call]) -> Vec<u8> {
    let records: Vec<_> = calls.iter().map(|call| call.encode()).collect();
    job_of_records(&records)
}

pub fn job_of_records(records: &[[u8; 16]]) -> Vec<u8> {
    let count = records.len() as u16;
    [
        &MARK_AND_VERSION[..],
        &count.to_le_bytes(),
        records.as_flattened(),
    ]
    .concat()
}
