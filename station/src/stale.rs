//! Answers that come from a stale line, one that holds other bytes than the cells
//! do. The tool keeps no lines: the part without lines answers the same job, and
//! where its value is another one, the answer is stale.

use crate::archive;
use crate::fields::{Side, DATA, INSTRUCTION};
use crate::job::{Answer, Call};
use crate::number::hexadecimal;
use crate::part::Part;

/// A stale answer: its call, from 0, and the value that the cells have there.
#[derive(Clone, Copy, Debug, PartialEq, Eq)]
pub struct Stale {
    pub call: usize,
    pub cells: u64,
}

/// The stale ones among the answers of a job; the part is handed over as it was
/// before the job.
pub fn found(before: &Part, job: &[u8], answers: &[Answer]) -> Vec<Stale> {
    let cells = archive::run_uncached(&mut before.clone(), job).unwrap_or_default();
    let pairs = answers.iter().zip(&cells).enumerate();
    pairs
        .filter(|(_, (answer, cells))| answer.value != cells.value)
        .map(|(call, (_, cells))| Stale { call, cells: cells.value })
        .collect()
}

/// What is to be known of a stale answer to this call.
pub fn words(call: &Call, cells: u64) -> String {
    let width = call.access().map_or(4, |access| access.width);
    let cells = hexadecimal(width, cells);
    let (a, Side { name, on, empty }, after, next) = match call {
        Call::Fetch { .. } => ("an", INSTRUCTION, "programming or an erase", "fetch"),
        _ => ("a", DATA, "an erase", "read"),
    };
    format!(
        "STALE: {a} {name} line holds this, the cells hold {cells}; after {after}, empty the \
         {name} lines ({} in ACR while {} is 0) or reset before the next {next}",
        empty.1, on.1
    )
}
