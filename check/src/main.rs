//! `check COUNT SEED` compares the proved job run and job writer with plain
//! ones that were written from documents 01 and 02 alone, on COUNT random jobs
//! from SEED on and a tenth as many scripts for the writer. It ends with 1 at
//! the first difference, which it tells, and writes to a file where it is that
//! of a job; or if two parts at level 1 or 2 can be told apart; or if a call
//! takes RDP to AA and leaves main flash; or if lines show in more than the
//! values that they may change; or if a worked example fails; and with 2 when
//! the jobs and scripts have not reached everything that they should. Each job
//! runs on the uncached part too.

mod calls;
mod compare;
mod coverage;
mod generate;
mod lent;
mod model;
mod proved;
mod random;
mod report;
mod shrink;
mod stage;
mod twins;
mod worked;
mod writing;

use compare::Comparer;
use coverage::{Coverage, Watch};
use generate::Generator;
use lent::Lent;
use stage::Stage;
use std::process::ExitCode;
use twins::Twins;
use writing::Script;

const DEFAULT_COUNT: u64 = 40_000;
const DEFAULT_SEED: u64 = 1;
const JOBS_PER_SCRIPT: u64 = 10;

const ALIKE: u8 = 0;
const DIFFERENCE: u8 = 1;
const NOT_REACHED: u8 = 2;
const MISUSED: u8 = 3;

fn main() -> ExitCode {
    let Some((count, seed)) = arguments() else {
        eprintln!("usage: check [COUNT [SEED]]");
        return ExitCode::from(MISUSED);
    };
    if let Err(message) = worked::check(model::run, model::run_uncached, &writing::PLAIN) {
        println!("The plain one fails a worked example: {message}");
        return ExitCode::from(DIFFERENCE);
    }
    let worked = worked::check(proved::run, proved::run_uncached, &writing::PROVED);
    match &worked {
        Ok(count) => println!("{count} worked examples hold for both."),
        Err(message) => println!("The proved one fails a worked example: {message}"),
    }
    let compared = compare(count, seed);
    ExitCode::from(if worked.is_err() {
        DIFFERENCE
    } else {
        compared
    })
}

fn arguments() -> Option<(u64, u64)> {
    let mut arguments = std::env::args().skip(1);
    let mut number = |default| {
        arguments
            .next()
            .map_or(Some(default), |text| text.parse().ok())
    };
    let numbers = (number(DEFAULT_COUNT)?, number(DEFAULT_SEED)?);
    arguments.next().is_none().then_some(numbers)
}

fn compare(count: u64, seed: u64) -> u8 {
    let scripts = count.div_ceil(JOBS_PER_SCRIPT);
    let mut coverage = Coverage::new();
    if !jobs_alike(count, seed, &mut coverage) || !scripts_alike(scripts, seed, &mut coverage) {
        return DIFFERENCE;
    }
    let missing = coverage.print();
    println!(
        "{count} jobs from seed {seed}, {} calls, and {scripts} writer scripts, {} steps: \
         no difference.",
        coverage.calls(),
        coverage.steps()
    );
    if missing > 0 {
        println!("{missing} rows of the table were never counted.");
        return NOT_REACHED;
    }
    ALIKE
}

/// Job i has the seed SEED + i, so that it can be made again alone.
fn jobs_alike(count: u64, seed: u64, coverage: &mut Coverage) -> bool {
    let mut generator = Generator::default();
    let mut comparer = Comparer::default();
    let mut twins = Twins::default();
    let mut lent = Lent::default();
    for index in 0..count {
        let seed = seed.wrapping_add(index);
        let damage = generator.generate(seed, &mut lent);
        if comparer.differs(&lent) {
            println!("Job {} of {count} differs.", index + 1);
            let shrunk = shrink::shrink(&mut comparer, &lent);
            report::report(&mut comparer, &shrunk, seed);
            return false;
        }
        let result = comparer.cached.plain.result;
        let kept = coverage.observe(&lent, damage, result);
        if let Err(message) = kept.and_then(|()| comparer.lines_show_in_values(&lent)) {
            println!("A promise is broken by the job of `check 1 {seed}`: {message}.");
            return false;
        }
        if result == 0 && Twins::concerns(&lent) {
            if let Err(message) = twins.difference(&lent, &comparer.cached.proved, coverage) {
                println!("Two parts are told apart by the job of `check 1 {seed}`: {message}.");
                return false;
            }
        }
    }
    true
}

/// As with the jobs, script i has the seed SEED + i.
fn scripts_alike(count: u64, seed: u64, coverage: &mut Coverage) -> bool {
    let mut generator = Generator::default();
    let mut stage = Stage::default();
    let mut script = Script::default();
    for index in 0..count {
        let seed = seed.wrapping_add(index);
        generator.generate_script(seed, &mut script);
        let mut watch = Watch::default();
        if stage.differs(&script, |played| watch.observe(coverage, played)) {
            println!("Script {} of {count} differs.", index + 1);
            stage::tell::tell(&mut stage, &script, seed);
            return false;
        }
    }
    true
}
