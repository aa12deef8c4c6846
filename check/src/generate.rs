//! Random jobs from a seed. A job is a chain of scenario fragments, run on a
//! part of its own while it is written, so that each fragment can look at the
//! state that it starts from. Some jobs are damaged afterwards.

mod access;
mod cuts;
mod damage;
mod lines;
mod locks;
mod operations;
mod options;
mod part;
mod script;
mod sram;
mod time;
mod writing;

use crate::calls::job_of_records;
use crate::lent::{Left, Lent};
use crate::model::job::{COUNT_MAX, RECORD_LEN};
use crate::model::lines::Lines;
use crate::model::part::Part;
use crate::random::Random;
pub use damage::Damage;
use script::{Script, Temper};

const PERCENT_DAMAGED: u32 = 20;

/// A stretch of calls with a purpose.
type Fragment = fn(&mut Script);

/// Fragments, each with the weight of being chosen next.
const FRAGMENTS: [(u32, Fragment); 22] = [
    (6, access::stray),
    (6, access::boot),
    (6, access::debugger_visit),
    (5, access::read_at_edge),
    (4, access::write_at_edge),
    (6, access::read_around),
    (6, access::probe),
    (3, locks::open_cr),
    (2, locks::open_optcr),
    (2, locks::spoil),
    (3, locks::close),
    (4, locks::write_lanes),
    (5, locks::clear_flags),
    (3, locks::set_caches),
    (14, operations::program),
    (4, operations::lock_otp_block),
    (8, operations::erase_sector),
    (3, operations::mass_erase),
    (3, operations::start_oddly),
    (8, options::change),
    (4, options::regression),
    (4, time::idle_time),
];

/// Makes jobs into buffers that it uses again.
#[derive(Default)]
pub struct Generator {
    steered: Left,
    records: Vec<[u8; 16]>,
}

impl Generator {
    /// Fills the buffers with the job of this seed, and says how it was
    /// damaged.
    pub fn generate(&mut self, seed: u64, lent: &mut Lent) -> Damage {
        let random = Random::new(seed);
        let sectors = part::choose_sectors(&random);
        let count = choose_count(&random);
        self.generate_sound(&random, Some(&beside(seed)), sectors, count, lent);
        if random.chance(PERCENT_DAMAGED) {
            damage::damage(&random, lent)
        } else {
            Damage::default()
        }
    }

    /// A job of this many calls without damage, on a part with this many
    /// sectors. What is in the SRAM and comes to it, the scrap and the cuts, and
    /// what goes through lines on purpose, are by the second random numbers.
    /// Without these the SRAM is all 0 and left alone, the scrap is FF and long
    /// enough for every target, and nothing is fetched.
    pub fn generate_sound(
        &mut self,
        random: &Random,
        beside: Option<&Random>,
        sectors: usize,
        count: usize,
        lent: &mut Lent,
    ) {
        part::choose(random, sectors, lent);
        part::choose_sram(beside, lent);
        part::choose_scrap(beside, sectors, lent);
        self.write_calls(random, beside, count, lent);
        lent.job = job_of_records(&self.records);
        let spare = random.pick(&[0, 0, 0, 1, 15, 16, 40]);
        lent.answers.resize(RECORD_LEN * count + spare, 0);
        random.fill(&mut lent.answers);
    }

    fn write_calls(&mut self, random: &Random, beside: Option<&Random>, count: usize, lent: &Lent) {
        self.steered.copy(lent);
        let Left {
            main,
            otp,
            options,
            sram,
            ..
        } = &mut self.steered;
        let mut part = Part::fresh(main, otp, options, sram, &lent.timings, &lent.scrap)
            .expect("the chosen part fits");
        let mut lines = Lines::EMPTY;
        part.lines = Some(&mut lines);
        let temper = Temper::choose(random);
        self.records.clear();
        let mut script = Script::new(random, beside, part, temper, &mut self.records, count);
        if script.random.chance(90) {
            access::boot(&mut script);
        }
        while !script.is_full() {
            next_fragment(&mut script);
        }
    }
}

/// The random numbers for SRAM, scrap and lines, of a stream that no job begins.
fn beside(seed: u64) -> Random {
    Random::new(!seed)
}

/// What is running is mostly brought to some end first.
fn next_fragment(script: &mut Script) {
    if script.is_busy() && script.random.chance(60) {
        return time::settle(script);
    }
    if script.random.chance(script.temper.finality) {
        return options::level_two(script);
    }
    if lines::stretch(script) {
        return;
    }
    let fragment = script.random.weigh(&FRAGMENTS);
    fragment(script);
}

fn choose_count(random: &Random) -> usize {
    let (least, most) = random.weigh(&[
        (2, (0, 0)),
        (22, (1, 8)),
        (40, (9, 80)),
        (26, (81, 400)),
        (8, (401, COUNT_MAX)),
        (2, (COUNT_MAX, COUNT_MAX)),
    ]);
    least + random.index(most - least + 1)
}
