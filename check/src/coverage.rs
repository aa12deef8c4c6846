//! What the jobs and scripts of a run have reached. A comparison tells nothing
//! about a state that none of them came to, so a run is complete only when
//! every row of this table was counted.

mod cuts;
mod edges;
mod emptied;
mod fetches;
mod flags;
mod lines;
mod operations;
mod reads;
mod refused;
mod registers;
mod sram;
mod table;
mod twins;
mod visits;
mod watch;
mod writing;

use crate::generate::Damage;
use crate::lent::{Left, Lent};
use crate::model::job::{self, Call, HEAD_LEN};
use crate::model::lines::Lines;
use crate::model::part::Part;
use std::collections::BTreeMap;
use table::{Group, JOB, NO_CALLS, PAIR};
pub use writing::Watch;

fn groups() -> impl Iterator<Item = Group> {
    let tables = [
        table::TABLE,
        sram::TABLE,
        cuts::TABLE,
        fetches::TABLE,
        lines::TABLE,
        emptied::TABLE,
        twins::TABLE,
        writing::TABLE,
    ];
    tables.into_iter().flatten().copied()
}

#[derive(Default)]
pub struct Coverage {
    counts: BTreeMap<(&'static str, &'static str), u64>,
    calls: u64,
    steps: u64,
    stepped: Left,
}

impl Coverage {
    pub fn new() -> Coverage {
        let rows = groups().flat_map(|(group, names)| names.iter().map(move |&name| (group, name)));
        Coverage {
            counts: rows.map(|row| (row, 0)).collect(),
            ..Coverage::default()
        }
    }

    fn count(&mut self, group: &'static str, name: &'static str) {
        let count = self.counts.get_mut(&(group, name));
        *count.unwrap_or_else(|| panic!("{group}: {name} is no row of the table")) += 1;
    }

    fn count_if(&mut self, group: Group, name: &'static str, applies: bool) {
        if applies {
            self.count(group.0, name);
        }
    }

    /// Counts a job by the result of its run; the calls of one that was done
    /// are taken once more, one by one. An error tells of one that breaks a
    /// promise.
    pub fn observe(&mut self, lent: &Lent, damage: Damage, result: u32) -> Result<(), String> {
        self.count(JOB.0, JOB.1[result as usize]);
        for (index, &(first, second)) in table::PAIRS.iter().enumerate() {
            if result == first && damage.asks_for(second) {
                self.count(PAIR.0, PAIR.1[index]);
            }
        }
        if lent.job.len() == HEAD_LEN && lent.job.ends_with(&[0, 0]) {
            self.count_no_calls(lent, result);
        }
        if result == 0 {
            return self.step_through(lent);
        }
        refused::count(self, lent, result);
        Ok(())
    }

    fn count_no_calls(&mut self, lent: &Lent, result: u32) {
        let row = match result {
            0 => usize::from(!lent.answers.is_empty()),
            _ => 1 + result as usize,
        };
        self.count(NO_CALLS.0, NO_CALLS.1[row]);
    }

    fn step_through(&mut self, lent: &Lent) -> Result<(), String> {
        let mut stepped = std::mem::take(&mut self.stepped);
        stepped.copy(lent);
        let Left {
            main,
            otp,
            options,
            sram,
            answers,
            ..
        } = &mut stepped;
        let part = Part::fresh(main, otp, options, sram, &lent.timings, &lent.scrap);
        let records = job::accept(&lent.job, answers.len());
        let mut kept = Ok(());
        if let (Ok(mut part), Ok(records)) = (part, records) {
            let mut lines = Lines::EMPTY;
            part.lines = Some(&mut lines);
            self.calls += records.len() as u64;
            kept = watch::watch(self, part, records.iter().filter_map(Call::decode));
        }
        self.stepped = stepped;
        kept
    }

    pub fn calls(&self) -> u64 {
        self.calls
    }

    /// Of scripts.
    pub fn steps(&self) -> u64 {
        self.steps
    }

    /// Prints the table; the result is the number of rows never counted.
    pub fn print(&self) -> usize {
        let mut missing = 0;
        for (group, names) in groups() {
            println!("{group}");
            for name in names {
                let count = self.counts[&(group, *name)];
                let remark = if count == 0 { "  <- never" } else { "" };
                println!("  {name:<44}{count:>10}{remark}");
                missing += usize::from(count == 0);
            }
        }
        missing
    }
}
