//! The door to the proved job writer: `flash_job_begin`, `flash_job_append` and
//! `flash_job_close` of its archive. What one of them refuses leaves the job as
//! it was.

use crate::job::{self, Record};

#[link(name = "job_writer", kind = "static")]
extern "C" {
    fn flash_job_begin(buffer: *mut u8, buffer_length: usize) -> u32;
    fn flash_job_append(
        buffer: *mut u8,
        buffer_length: usize,
        count: u32,
        kind: u32,
        who: u32,
        width: u32,
        number: u32,
        value: u64,
    ) -> u32;
    fn flash_job_close(buffer: *mut u8, buffer_length: usize, count: u32) -> u32;
}

/// Done, or the number of the refusal.
type Written = Result<(), u32>;

fn written(refusal: u32) -> Written {
    if refusal == 0 {
        Ok(())
    } else {
        Err(refusal)
    }
}

fn begin(job: &mut [u8]) -> Written {
    // Safe, here and below: the pointer comes with the length of its buffer.
    written(unsafe { flash_job_begin(job.as_mut_ptr(), job.len()) })
}

/// Appends a record behind `count` others. Its byte that is always 0 is no field
/// of the writer's, which writes it so.
pub fn append(job: &mut [u8], count: usize, record: &Record) -> Written {
    written(unsafe {
        flash_job_append(
            job.as_mut_ptr(),
            job.len(),
            count as u32,
            record.kind.into(),
            record.who.into(),
            record.width.into(),
            record.number,
            record.value,
        )
    })
}

pub fn close(job: &mut [u8], count: usize) -> Written {
    written(unsafe { flash_job_close(job.as_mut_ptr(), job.len(), count as u32) })
}

/// The job of these records. A text may also ask for what the writer refuses, a
/// malformed record or more calls than a job has: that is laid by hand where the
/// writer left the bytes alone.
pub fn file(records: &[Record]) -> Vec<u8> {
    let count = records.len();
    let mut job = vec![0; job::length(count)];
    // Never refused: there is room for a head.
    let _ = begin(&mut job);
    for (i, record) in records.iter().enumerate() {
        if record.zero != 0 || append(&mut job, i, record).is_err() {
            job[job::length(i)..job::length(i + 1)].copy_from_slice(&record.bytes());
        }
    }
    if close(&mut job, count).is_err() {
        job::lay_count(&mut job, count as u16);
    }
    job
}

#[cfg(test)]
mod tests {
    use super::*;
    use crate::refusals::wrong_field;

    const HEAD: [u8; 7] = [0x46, 0x4A, 0x42, 0x01, 0x00, 0x00, 0x00];
    const READ: Record =
        Record { kind: 3, who: 1, width: 8, zero: 0, number: 0x4002_3C14, value: 0 };
    const READ_BYTES: [u8; 16] = [3, 1, 8, 0, 0x14, 0x3C, 0x02, 0x40, 0, 0, 0, 0, 0, 0, 0, 0];
    const NO_KIND: Record = Record { kind: 8, who: 0, width: 0, zero: 0, number: 0, value: 0 };

    /// A buffer of that length with no byte that the writer would write.
    fn lent(length: usize) -> Vec<u8> {
        vec![0xA5; length]
    }

    /// Done in buffers of these lengths: the bytes from `at` on are these, and no
    /// other has changed.
    fn leaves(lengths: &[usize], write: impl Fn(&mut [u8]) -> Written, at: usize, bytes: &[u8]) {
        for length in lengths {
            let (mut job, mut wanted) = (lent(*length), lent(*length));
            wanted[at..at + bytes.len()].copy_from_slice(bytes);
            assert_eq!((write(&mut job), job), (Ok(()), wanted), "{length}");
        }
    }

    /// Refused in buffers of these lengths, and no byte has changed.
    fn refuses(number: u32, lengths: &[usize], write: impl Fn(&mut [u8]) -> Written) {
        for length in lengths {
            let mut job = lent(*length);
            assert_eq!((write(&mut job), job), (Err(number), lent(*length)), "{length}");
        }
    }

    #[test]
    fn a_head_needs_seven_bytes() {
        refuses(20, &[0, 1, 2, 3, 4, 5, 6], begin);
        leaves(&[7, 8, 40], begin, 0, &HEAD);
    }

    #[test]
    fn a_record_needs_sixteen_more() {
        for (count, needed) in [(0, 23), (1, 39), (1_999, 32_007)] {
            let append = |job: &mut [u8]| append(job, count, &READ);
            refuses(20, &[0, 7, needed - 1], append);
            leaves(&[needed, needed + 1], append, needed - 16, &READ_BYTES);
        }
    }

    #[test]
    fn a_close_writes_two_bytes() {
        for (count, bytes) in [(0, [0, 0]), (1, [1, 0]), (258, [2, 1]), (2_000, [0xD0, 0x07])] {
            let close = |job: &mut [u8]| close(job, count);
            refuses(20, &[0, 5, 6], close);
            leaves(&[7, 23], close, 5, &bytes);
        }
    }

    #[test]
    fn no_job_has_more_than_two_thousand_calls() {
        for count in [2_000, 2_001, 65_536, 0xFFFF_FFFF] {
            refuses(20, &[40_000], |job| append(job, count, &READ));
        }
        for count in [2_001, 65_536, 0xFFFF_FFFF] {
            refuses(20, &[40_000], |job| close(job, count));
        }
    }

    #[test]
    fn a_malformed_record_is_told_before_the_room() {
        refuses(5, &[0, 22, 23], |job| append(job, 0, &NO_KIND));
        refuses(5, &[40_000], |job| append(job, 2_000, &NO_KIND));
    }

    /// The fields that the tool finds wrong are those that the writer refuses.
    #[test]
    fn the_tool_and_the_writer_agree_on_records() {
        let mut job = [0; 23];
        let fields = |i: usize| (i % 9, i / 9 % 3, i / 27 % 10);
        for (kind, who, width) in (0..270).map(fields) {
            for number in [0, 1, 2, 3, 0xFFFF_FFFF] {
                for value in [0, 0xFF, 0x100, 0xFFFF, 0x1_0000, 0xFFFF_FFFF, 1 << 32, u64::MAX] {
                    let (kind, who, width) = (kind as u8, who as u8, width as u8);
                    let record = Record { kind, who, width, zero: 0, number, value };
                    let refused = append(&mut job, 0, &record) == Err(5);
                    assert_eq!(refused, wrong_field(&record).is_some(), "{record:?}");
                }
            }
        }
    }

    #[test]
    fn a_closed_job_is_appended_to_and_closed_again() {
        let mut job = file(&[READ]);
        assert_eq!(job, [[0x46, 0x4A, 0x42, 1, 0, 1, 0].as_slice(), &READ_BYTES].concat());
        job.resize(39, 0);
        assert_eq!((append(&mut job, 1, &READ), close(&mut job, 2)), (Ok(()), Ok(())));
        assert_eq!(job, file(&[READ, READ]));
        assert_eq!(file(&[]), HEAD);
    }

    #[test]
    fn what_the_writer_refuses_is_laid_by_hand() {
        let stray = Record { zero: 9, ..READ };
        let job = file(&[NO_KIND, READ, stray]);
        assert_eq!(job[5..8], [3, 0, 8]);
        assert_eq!(job[8..23], [0; 15]);
        assert_eq!(job[23..39], READ_BYTES);
        assert_eq!(job[39..43], [3, 1, 8, 9]);
        assert_eq!(job[43..], READ_BYTES[4..]);
        let job = file(&[READ; 2_001]);
        assert_eq!(
            (job.len(), &job[5..7], &job[32_007..]),
            (32_023, &[0xD1, 7][..], &READ_BYTES[..])
        );
    }
}
