//! Telling a person of a script that shows a difference.

use super::{Played, Stage};
use crate::writing::{Script, Step};
use crate::{report, shrink};

/// Longer scripts are told by their last calls.
const STEPS_TOLD: usize = 40;

/// Plays the script once more and tells each step up to the one that differs.
pub fn tell(stage: &mut Stage, script: &Script, seed: u64) {
    println!("A difference at seed {seed}; `check 1 {seed}` makes this script again.");
    println!(
        "A buffer of {} bytes (fields in hexadecimal, all else in decimal):",
        script.buffer.len()
    );
    let mut lines = Vec::new();
    stage.differs(script, |played| lines.push(line(played)));
    for line in &lines[lines.len().saturating_sub(STEPS_TOLD)..] {
        println!("  {line}");
    }
    tell_bytes(stage);
    if stage.comparer.differs(&stage.lent) {
        let shrunk = shrink::shrink(&mut stage.comparer, &stage.lent);
        report::report(&mut stage.comparer, &shrunk, seed);
    }
}

fn line(played: &Played) -> String {
    let count = played.count;
    let call = match played.step {
        Step::Begin => "begin".to_string(),
        Step::Append(_, fields) => format!("append at {count} {fields:X?}"),
        Step::Close(_) => format!("close at {count}"),
        Step::Run { .. } => format!(
            "run the first {} bytes, room for {} bytes of answers",
            played.lent.job.len(),
            played.lent.answers.len()
        ),
    };
    if played.plain == played.proved {
        format!("{call}: {}", played.plain)
    } else {
        format!(
            "{call}: {} by the plain one, {} by the proved one",
            played.plain, played.proved
        )
    }
}

/// An offset below 0, or not below the buffer's length, is in a guard.
fn tell_bytes(stage: &Stage) {
    let pairs = stage.plain.iter().zip(&stage.proved);
    let mut differing = pairs
        .enumerate()
        .filter(|(_, (plain, proved))| plain != proved);
    if let Some((place, (plain, proved))) = differing.next() {
        let offset = place as isize - super::GUARD as isize;
        println!(
            "Bytes that differ in the buffer: {}, first at {offset}: \
             {plain:02X} by the plain writer, {proved:02X} by the proved one.",
            1 + differing.count()
        );
    }
}
