//! What the part would answer to one call more. It is asked on a copy, so that
//! the tool needs no rule of its own on what runs, and for how long.

use crate::archive;
use crate::fields::BSY;
use crate::job::{self, Access, Answer, Call, Record};
use crate::job_writer;
use crate::map;
use crate::part::Part;

const READ_SR: Call = Call::Read(Access { who: 0, width: 4, address: map::SR });

/// The longest wait that a part takes; no operation is longer.
pub const LONG_WAIT: Call = Call::Wait { ms: 120_000 };

/// The answer to a call behind the first `count` calls of a job; the part is handed
/// over as it was before the job. None where a job of as many calls as there may be
/// has no read or fetch that can make room: these change lines, on which no register
/// and no time depends.
pub fn asked(before: &Part, job: &[u8], mut count: usize, call: Call) -> Option<Answer> {
    let mut job = job.get(..job::length(count))?.to_vec();
    if count == job::MOST_CALLS {
        let is_read =
            |record: &Record| matches!(record.call(), Some(Call::Read(_) | Call::Fetch { .. }));
        let read = job::records(&job).iter().position(is_read)?;
        job.drain(job::length(read)..job::length(read + 1));
        count -= 1;
    }
    job.resize(job::length(count + 1), 0);
    job_writer::append(&mut job, count, &call.record()).ok()?;
    job_writer::close(&mut job, count + 1).ok()?;
    let mut part = before.clone();
    archive::run(&mut part, &job).ok()?.last().copied()
}

/// Whether an operation runs behind the first `count` calls.
pub fn is_busy(before: &Part, job: &[u8], count: usize) -> Option<bool> {
    let sr = asked(before, job, count, READ_SR)?;
    Some(sr.is_done() && sr.value & u64::from(BSY) != 0)
}
