//! Document 02's job writer, worked through by hand: the job that document 01
//! prints, with refusals on the way, the longest job there is, and fetches.

use crate::model::writer::Fields;
use crate::writing::Writer;

const RESET: Fields = Fields {
    kind: 0,
    who: 0,
    width: 0,
    number: 0,
    value: 0,
};
const READ_OPTCR: Fields = Fields {
    kind: 3,
    width: 4,
    number: 0x4002_3C14,
    ..RESET
};
const KIND_8: Fields = Fields { kind: 8, ..RESET };

const FETCH: Fields = Fields {
    kind: 7,
    width: 4,
    number: 0x0800_0001,
    ..RESET
};

pub fn check(writer: &Writer) -> Result<usize, String> {
    printed_job(writer)?;
    longest_job(writer)?;
    fetches(writer)?;
    Ok(3)
}

/// The job has 39 bytes, and the buffer one more.
fn printed_job(writer: &Writer) -> Result<(), String> {
    let mut buffer = [0xA5; 40];
    let mut after = buffer;
    after[..7].copy_from_slice(&[0x46, 0x4A, 0x42, 0x01, 0x00, 0x00, 0x00]);
    let result = (writer.begin)(&mut buffer);
    expect("begin", result, 0, &buffer, &after)?;
    after[7..23].fill(0);
    let result = (writer.append)(&mut buffer, 0, RESET);
    expect("append a reset", result, 0, &buffer, &after)?;
    let result = (writer.append)(&mut buffer, 1, KIND_8);
    expect("append kind 8", result, 5, &buffer, &after)?;
    after[23..39].copy_from_slice(&[3, 0, 4, 0, 0x14, 0x3C, 2, 0x40, 0, 0, 0, 0, 0, 0, 0, 0]);
    let result = (writer.append)(&mut buffer, 1, READ_OPTCR);
    expect("append a read", result, 0, &buffer, &after)?;
    let result = (writer.append)(&mut buffer, 2, RESET);
    expect("append with 1 byte left", result, 20, &buffer, &after)?;
    let result = (writer.append)(&mut buffer, 2, KIND_8);
    expect("append kind 8 there", result, 5, &buffer, &after)?;
    after[5] = 2;
    let result = (writer.close)(&mut buffer, 2);
    expect("close", result, 0, &buffer, &after)
}

/// 2,000 calls end at byte 32,007; there is room for more in the buffer.
fn longest_job(writer: &Writer) -> Result<(), String> {
    let mut buffer = [0xA5; 40_000];
    let mut after = buffer;
    after[31_991..32_007].fill(0);
    let result = (writer.append)(&mut buffer, 1_999, RESET);
    expect("append call 2,000", result, 0, &buffer, &after)?;
    let result = (writer.append)(&mut buffer, 2_000, RESET);
    expect("append call 2,001", result, 20, &buffer, &after)?;
    after[5..7].copy_from_slice(&[0xD0, 0x07]);
    let result = (writer.close)(&mut buffer, 2_000);
    expect("close 2,000", result, 0, &buffer, &after)?;
    let result = (writer.close)(&mut buffer, 2_001);
    expect("close 2,001", result, 20, &buffer, &after)
}

/// Four bytes by the CPU, without a value, and nothing else.
fn fetches(writer: &Writer) -> Result<(), String> {
    let mut buffer = [0xA5; 23];
    let mut after = buffer;
    let wrong = [
        ("by a debugger", Fields { who: 1, ..FETCH }),
        ("of 8 bytes", Fields { width: 8, ..FETCH }),
        ("of no bytes", Fields { width: 0, ..FETCH }),
        ("with a value", Fields { value: 1, ..FETCH }),
    ];
    for (what, fields) in wrong {
        let result = (writer.append)(&mut buffer, 0, fields);
        expect(
            &format!("append a fetch {what}"),
            result,
            5,
            &buffer,
            &after,
        )?;
    }
    after[7..].copy_from_slice(&[7, 0, 4, 0, 1, 0, 0, 8, 0, 0, 0, 0, 0, 0, 0, 0]);
    let result = (writer.append)(&mut buffer, 0, FETCH);
    expect("append a fetch", result, 0, &buffer, &after)
}

fn expect(step: &str, got: u32, result: u32, buffer: &[u8], after: &[u8]) -> Result<(), String> {
    if got != result {
        return Err(format!("{step} got {got}, the paper says {result}"));
    }
    match (0..after.len()).find(|&offset| buffer[offset] != after[offset]) {
        Some(offset) => Err(format!("{step}: byte {offset} is {:02X}", buffer[offset])),
        None => Ok(()),
    }
}
