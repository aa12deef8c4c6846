//! Resets that cut what is running, at any microsecond of it.

use super::access::{boot, probe};
use super::script::Script;
use super::time::wait_to_the_end;
use crate::model::job::Call;
use crate::model::operation::{Operation, Running};
use crate::model::time::Micros;
use crate::random::Random;

/// How often a job aims at what is running, and when it cuts. The random numbers
/// are those for the SRAM; a job that is made without them aims at nothing.
#[derive(Clone, Copy)]
pub struct Cuts<'a> {
    random: &'a Random,
    /// How often an operation is cut, in percent.
    percent: u32,
}

impl<'a> Cuts<'a> {
    pub fn new(random: &'a Random) -> Cuts<'a> {
        let percent = random.pick(&[0, 10, 40]);
        Cuts { random, percent }
    }

    /// The microseconds left at the cut: all of them, the last one, those where
    /// a regression changes its target, or any.
    fn moment(&self, running: Running) -> u32 {
        let left = running.left.0;
        let option_time = match running.operation {
            Operation::Regression { option_time } => option_time.0,
            _ => 1,
        };
        let any = 1 + self.random.below(left);
        let moment = self.random.weigh(&[
            (2, left),
            (1, option_time + 1),
            (2, option_time),
            (1, option_time - 1),
            (1, 1),
            (2, any),
        ]);
        moment.clamp(1, left)
    }
}

/// Cuts what is running, if it shall be cut. What a refused reset leaves running
/// is mostly watched to its end.
pub fn cut(script: &mut Script) -> bool {
    let (Some(cuts), Some(running)) = (script.cuts, script.part.record.running) else {
        return false;
    };
    let random = cuts.random;
    if !random.chance(cuts.percent) {
        return false;
    }
    let left = cuts.moment(running);
    script.call(Call::Pass(Micros(running.left.0 - left)));
    if random.chance(75) {
        boot(script);
    } else {
        script.call(Call::DebuggerOn);
        let boot = random.pick(&[0, 0, 1, 2]);
        script.call(Call::Reset { boot });
    }
    probe(script);
    if script.is_busy() && random.chance(80) {
        wait_to_the_end(script);
    }
    true
}
