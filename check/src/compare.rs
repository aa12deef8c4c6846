//! One job through both job runs, and on the uncached part through both too.

use crate::lent::{JobRun, Left, Lent};
use crate::model::job::{Call, HEAD_LEN, RECORD_LEN};
use crate::model::map::{self, Area};
use crate::{model, proved};

/// What the plain and the proved run of a job have left.
#[derive(Default)]
pub struct Pair {
    pub plain: Left,
    pub proved: Left,
}

impl Pair {
    fn run(&mut self, plain: JobRun, proved: JobRun, lent: &Lent) {
        self.plain.run(plain, lent);
        self.proved.run(proved, lent);
    }

    pub fn differs(&self) -> bool {
        let Pair { plain, proved } = self;
        plain.result != proved.result
            || plain.answers != proved.answers
            || plain.cells_differ(proved)
    }
}

#[derive(Default)]
pub struct Comparer {
    pub cached: Pair,
    pub uncached: Pair,
}

impl Comparer {
    /// Runs the job both ways, each on its own copies; true when the result
    /// or any byte of any buffer differs.
    pub fn differs(&mut self, lent: &Lent) -> bool {
        self.cached.run(model::run, proved::run, lent);
        self.uncached
            .run(model::run_uncached, proved::run_uncached, lent);
        self.cached.differs() || self.uncached.differs()
    }

    /// Lines change the values of done reads of main flash and of done fetches,
    /// and nothing else. The error tells what differs from the uncached part.
    pub fn lines_show_in_values(&self, lent: &Lent) -> Result<(), String> {
        let [cached, uncached] = [&self.cached, &self.uncached].map(|pair| &pair.plain);
        if cached.result != uncached.result || cached.cells_differ(uncached) {
            return Err("lines change the result or cells".to_string());
        }
        if cached.answers == uncached.answers {
            return Ok(());
        }
        let records = lent.job[HEAD_LEN..].as_chunks::<RECORD_LEN>().0;
        let answers = [cached, uncached].map(|left| left.answers.as_chunks::<RECORD_LEN>().0);
        for (index, record) in records.iter().enumerate() {
            let [one, other] = answers.map(|answers| answers[index]);
            let compared = if one[0] == 0 && is_of_main(record, lent.main.len()) {
                VALUE_AT
            } else {
                RECORD_LEN
            };
            if one[..compared] != other[..compared] {
                return Err(format!("lines change the answer of call {index}"));
            }
        }
        Ok(())
    }
}

/// Where the value starts in an answer.
const VALUE_AT: usize = 8;

/// A read of main flash or a fetch.
fn is_of_main(record: &[u8; RECORD_LEN], main_len: usize) -> bool {
    match Call::decode(record) {
        Some(Call::Read(access)) => map::place(access.address, access.width, main_len)
            .is_some_and(|place| place.area == Area::Main),
        Some(Call::Fetch { .. }) => true,
        _ => false,
    }
}
