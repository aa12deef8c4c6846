//! The two job writers, and scripts for them: calls of the three functions,
//! and runs of the job that stands in the buffer.

use crate::lent::Lent;
use crate::model::writer::{self, Fields};
use crate::proved;

/// The three functions of a job writer.
pub struct Writer {
    pub begin: fn(&mut [u8]) -> u32,
    pub append: fn(&mut [u8], u32, Fields) -> u32,
    pub close: fn(&mut [u8], u32) -> u32,
}

pub const PLAIN: Writer = Writer {
    begin: writer::begin,
    append: writer::append,
    close: writer::close,
};

pub const PROVED: Writer = Writer {
    begin: proved::begin,
    append: proved::append,
    close: proved::close,
};

/// The count that a call is told.
#[derive(Clone, Copy)]
pub enum Count {
    /// The caller's own: the appends done since the last begin.
    Kept,
    /// One made by hand; an append that is told it is not counted.
    Made(u32),
}

#[derive(Clone, Copy)]
pub enum Step {
    Begin,
    Append(Count, Fields),
    Close(Count),
    /// Runs the job of as many calls as the caller has counted, with this many
    /// bytes more than their answers need.
    Run {
        spare: usize,
    },
}

/// The buffer as it is lent, what happens to it, and the part for its jobs.
#[derive(Default)]
pub struct Script {
    pub buffer: Vec<u8>,
    pub steps: Vec<Step>,
    pub lent: Lent,
}
