//! Playing a script with both job writers, each in a buffer of its own, and
//! running its jobs with both job runs.

pub mod tell;

use crate::compare::{Comparer, Pair};
use crate::lent::Lent;
use crate::model::job::{HEAD_LEN, RECORD_LEN};
use crate::model::writer::DONE;
use crate::writing::{Count, Script, Step, Writer, PLAIN, PROVED};

/// A step, the count that it was told, and what both made of it.
pub struct Played<'a> {
    pub step: Step,
    pub count: u32,
    /// What the caller had counted before it.
    pub kept: u32,
    pub plain: u32,
    pub proved: u32,
    pub buffer_len: usize,
    /// The part, with the job if the step ran one.
    pub lent: &'a Lent,
}

/// Odd, so that no buffer is aligned by luck.
const GUARD: usize = 61;
const GUARD_BYTE: u8 = 0xC3;

/// The two buffers, each between two guards, and what runs their jobs.
#[derive(Default)]
pub struct Stage {
    plain: Vec<u8>,
    proved: Vec<u8>,
    lent: Lent,
    comparer: Comparer,
}

impl Stage {
    /// Plays a script up to the first step at which a result or any byte
    /// differs, and shows each step, that one too. True if there is one.
    pub fn differs(&mut self, script: &Script, mut show: impl FnMut(&Played)) -> bool {
        self.lay(script);
        let mut kept = 0;
        for &step in &script.steps {
            let count = match step {
                Step::Append(Count::Made(made), _) | Step::Close(Count::Made(made)) => made,
                _ => kept,
            };
            let (plain, proved, alike) = self.take(step, count);
            show(&Played {
                step,
                count,
                kept,
                plain,
                proved,
                buffer_len: script.buffer.len(),
                lent: &self.lent,
            });
            if !alike {
                return true;
            }
            kept = match step {
                Step::Begin if plain == DONE => 0,
                Step::Append(Count::Kept, _) if plain == DONE => kept + 1,
                _ => kept,
            };
        }
        false
    }

    fn lay(&mut self, script: &Script) {
        let guard = [GUARD_BYTE; GUARD];
        self.plain.clear();
        self.plain.extend(guard);
        self.plain.extend(&script.buffer);
        self.plain.extend(guard);
        self.proved.clone_from(&self.plain);
        self.lent.clone_from(&script.lent);
    }

    /// Both results of a step, and whether all is alike after it.
    fn take(&mut self, step: Step, count: u32) -> (u32, u32, bool) {
        if let Step::Run { spare } = step {
            return self.run(count as usize, spare);
        }
        let plain = PLAIN.take(step, count, within_guards(&mut self.plain));
        let proved = PROVED.take(step, count, within_guards(&mut self.proved));
        let alike = plain == proved && self.plain == self.proved;
        (plain, proved, alike)
    }

    /// A buffer that is too short for the job is run as it is.
    fn run(&mut self, count: usize, spare: usize) -> (u32, u32, bool) {
        let buffer = within_guards(&mut self.plain);
        let len = buffer.len().min(HEAD_LEN + RECORD_LEN * count);
        self.lent.job.clear();
        self.lent.job.extend(&buffer[..len]);
        self.lent.answers.resize(RECORD_LEN * count + spare, 0xA5);
        let differs = self.comparer.differs(&self.lent);
        let Pair { plain, proved } = &self.comparer.cached;
        (plain.result, proved.result, !differs)
    }
}

fn within_guards(bytes: &mut [u8]) -> &mut [u8] {
    let end = bytes.len() - GUARD;
    &mut bytes[GUARD..end]
}

impl Writer {
    fn take(&self, step: Step, count: u32, buffer: &mut [u8]) -> u32 {
        match step {
            Step::Begin => (self.begin)(buffer),
            Step::Append(_, fields) => (self.append)(buffer, count, fields),
            Step::Close(_) => (self.close)(buffer, count),
            Step::Run { .. } => unreachable!("a run is no call of a writer"),
        }
    }
}
