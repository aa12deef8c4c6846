//! Times the proved job run beside the plain one, and the proved job writer
//! beside the plain one, on the same jobs and in the same rounds. It prints
//! times and ratios, and judges neither.

// The comparison uses more of these than is used here.
#[allow(dead_code)]
mod calls;
#[allow(dead_code)]
mod generate;
#[allow(dead_code)]
mod lent;
mod mixes;
#[allow(dead_code)]
mod model;
#[allow(dead_code)]
mod proved;
#[allow(dead_code)]
mod random;
#[allow(dead_code)]
mod writing;

use lent::{JobRun, Left};
use mixes::Mix;
use model::job::{HEAD_LEN, RECORD_LEN};
use model::writer::{self, Fields};
use std::hint::black_box;
use std::time::Instant;
use writing::{Writer, PLAIN, PROVED};

const ROUNDS: usize = 300;

/// Nanoseconds per unit, the best of all rounds.
struct Times {
    proved: f64,
    plain: f64,
    /// Filling the same bytes, where the mix erases.
    memset: Option<f64>,
}

fn main() {
    println!("Nanoseconds per unit, best of {ROUNDS} rounds.");
    println!(
        "{:<33}{:>3}  {:<7}{:>11}{:>11}{:>14}{:>15}",
        "", "n", "unit", "proved", "plain", "proved/plain", "proved/memset"
    );
    let mut growth = Vec::new();
    for (small, large) in mixes::all(1).into_iter().zip(mixes::all(12)) {
        let [at_1, at_12] = [(1, &small), (12, &large)].map(|(sectors, mix)| {
            let times = measure(mix);
            print_times(mix, sectors, &times);
            times
        });
        growth.push((
            small.name,
            at_12.proved / at_1.proved,
            at_12.plain / at_1.plain,
        ));
    }
    println!("\nTime at n = 12 over time at n = 1.");
    println!("{:<33}{:>10}{:>10}", "", "proved", "plain");
    for (name, proved, plain) in growth {
        println!("{name:<33}{proved:>10.2}{plain:>10.2}");
    }
    println!("\nNanoseconds per append of jobs of 2,000 calls, best of {ROUNDS} rounds.");
    println!(
        "{:<33}{:>10}{:>10}{:>14}",
        "", "proved", "plain", "proved/plain"
    );
    for mix in mixes::written() {
        let (proved, plain) = measure_writing(&mix);
        let ratio = proved / plain;
        println!("{:<33}{proved:>10.2}{plain:>10.2}{ratio:>14.2}", mix.name);
    }
}

/// The two take turns within a round, so that neither gets the quiet hours.
fn measure(mix: &Mix) -> Times {
    let mut best = [f64::INFINITY; 3];
    let mut left = Left::default();
    for _ in 0..ROUNDS {
        let times = [
            time_run(proved::run, mix, &mut left),
            time_run(model::run, mix, &mut left),
            time_memset(mix, &mut left),
        ];
        for (best, time) in best.iter_mut().zip(times) {
            *best = best.min(time);
        }
    }
    let [proved, plain, memset] = best.map(|time| time / mix.units as f64);
    Times {
        proved,
        plain,
        memset: (!mix.erased.is_empty()).then_some(memset),
    }
}

/// Nanoseconds for one run of all the jobs; copying the buffers does not
/// count.
fn time_run(run: JobRun, mix: &Mix, left: &mut Left) -> f64 {
    let mut total = 0.0;
    for lent in &mix.lents {
        left.copy(lent);
        let Left {
            main,
            otp,
            options,
            sram,
            answers,
            ..
        } = &mut *left;
        let start = Instant::now();
        for _ in 0..mix.repeat {
            let result = black_box(run)(
                main,
                otp,
                options,
                sram,
                &lent.timings,
                &lent.scrap,
                black_box(&lent.job),
                answers,
            );
            assert_eq!(result, mix.result, "{}", mix.name);
        }
        total += start.elapsed().as_nanos() as f64 / mix.repeat as f64;
    }
    total
}

fn time_memset(mix: &Mix, left: &mut Left) -> f64 {
    let start = Instant::now();
    for range in &mix.erased {
        black_box(&mut left.main)[range.clone()].fill(0xFF);
    }
    start.elapsed().as_nanos() as f64
}

fn print_times(mix: &Mix, sectors: usize, times: &Times) {
    let Times {
        proved,
        plain,
        memset,
    } = times;
    let over_memset = memset.map_or(String::new(), |memset| format!("{:.2}", proved / memset));
    println!(
        "{:<33}{sectors:>3}  {:<7}{proved:>11.1}{plain:>11.1}{:>14.2}{over_memset:>15}",
        mix.name,
        mix.unit,
        proved / plain,
    );
}

/// Nanoseconds per call for the proved writer and the plain one, the best of
/// all rounds. The two take turns as above.
fn measure_writing(mix: &Mix) -> (f64, f64) {
    let job = &mix.lents[0].job;
    let (records, _) = job[HEAD_LEN..].as_chunks::<RECORD_LEN>();
    let calls: Vec<Fields> = records.iter().map(Fields::of).collect();
    let mut buffer = vec![0; job.len()];
    let mut best = (f64::INFINITY, f64::INFINITY);
    for _ in 0..ROUNDS {
        best.0 = best
            .0
            .min(time_writing(&PROVED, proved::append, &calls, &mut buffer));
        assert_eq!(&buffer, job, "{}", mix.name);
        best.1 = best
            .1
            .min(time_writing(&PLAIN, writer::append, &calls, &mut buffer));
        assert_eq!(&buffer, job, "{}", mix.name);
    }
    (best.0 / calls.len() as f64, best.1 / calls.len() as f64)
}

/// Nanoseconds for a job begun, appended to call by call, and closed. Appends
/// are calls by name, as a host makes them, and not through a pointer.
fn time_writing(
    writer: &Writer,
    append: impl Fn(&mut [u8], u32, Fields) -> u32,
    calls: &[Fields],
    buffer: &mut [u8],
) -> f64 {
    buffer.fill(0xA5);
    let start = Instant::now();
    (writer.begin)(buffer);
    let mut count = 0;
    for &call in calls {
        let result = append(black_box(&mut *buffer), count, call);
        count += u32::from(result == 0);
    }
    (writer.close)(buffer, count);
    start.elapsed().as_nanos() as f64
}
