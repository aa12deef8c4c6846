//! Times in words, and the remark on a time that may be meant in the other
//! unit.

use crate::fields::{Lanes, OPTSTRT, STRT};
use crate::job::{Answer, Call};
use crate::map;
use crate::number::decimal;

/// Longer times get a remark: the slip that it is about turns half a second
/// into eight minutes.
const LONG_US: u64 = 10_000_000;

/// A time in the units that a clock has, parts that are 0 left out.
pub fn span(us: u64) -> String {
    let parts = [
        (us / 3_600_000_000, "h"),
        (us / 60_000_000 % 60, "min"),
        (us / 1_000_000 % 60, "s"),
        (us / 1_000 % 1_000, "ms"),
        (us % 1_000, "us"),
    ];
    let words: Vec<String> = parts
        .iter()
        .filter(|(n, _)| *n != 0)
        .map(|(n, unit)| format!("{} {unit}", decimal(*n)))
        .collect();
    if words.is_empty() {
        "0 us".into()
    } else {
        words.join(" ")
    }
}

/// The microseconds that a call lets pass.
pub fn passed(call: &Call, answer: &Answer) -> u64 {
    match (call, answer.code) {
        (Call::Pass { us }, 0) => (*us).into(),
        (Call::Wait { .. }, 0 | 18) => answer.value,
        _ => 0,
    }
}

/// The time that a call names, with its number and unit, in microseconds.
fn named(call: &Call) -> Option<(u64, &'static str, &'static str, u64)> {
    match call {
        Call::Pass { us } => Some(((*us).into(), "us", "ms", (*us).into())),
        Call::Wait { ms } => Some(((*ms).into(), "ms", "us", 1_000 * u64::from(*ms))),
        _ => None,
    }
}

/// The remark on the time of each call; empty where there is none. That on a
/// slip of units is made once for each time that the job names.
pub fn remarks(calls: &[Call], answers: &[Answer]) -> Vec<String> {
    let mut slips: Vec<(usize, String)> = Vec::new();
    for waited in waited(calls, answers) {
        for &i in &waited.calls {
            let known = slips.iter().any(|(j, _)| calls[*j] == calls[i]);
            let alone = waited.calls.iter().filter(|&&j| calls[j] == calls[i]).count() == 1;
            slips.extend(slip(&calls[i], waited.us, alone).filter(|_| !known).map(|s| (i, s)));
        }
    }
    let mut remarks: Vec<Vec<String>> =
        calls.iter().map(|c| long(c).into_iter().collect()).collect();
    for (i, slip) in slips {
        remarks[i].push(slip);
    }
    let in_brackets = |remark: Vec<String>| match remark.is_empty() {
        true => String::new(),
        false => format!(" ({})", remark.join("; ")),
    };
    remarks.into_iter().map(in_brackets).collect()
}

/// The passes and waits for one operation, and the time that it took.
struct Waited {
    calls: Vec<usize>,
    us: u64,
}

/// What an operation took is known where a wait has seen its end: one that is
/// done and let time pass.
fn waited(calls: &[Call], answers: &[Answer]) -> Vec<Waited> {
    let mut ended = Vec::new();
    let mut waited = Waited { calls: Vec::new(), us: 0 };
    for (i, (call, answer)) in calls.iter().zip(answers).enumerate() {
        if answer.is_done() && (may_begin(call) || matches!(call, Call::Reset { .. })) {
            waited = Waited { calls: Vec::new(), us: 0 };
        }
        if named(call).is_some() && matches!(answer.code, 0 | 18) {
            waited.calls.push(i);
            waited.us += passed(call, answer);
        }
        if matches!(call, Call::Wait { .. }) && answer.is_done() && answer.value > 0 {
            ended.push(std::mem::replace(&mut waited, Waited { calls: Vec::new(), us: 0 }));
        }
    }
    ended
}

/// Only a write begins an operation: of cells that are programmed, of STRT in CR,
/// or of OPTSTRT. The backup SRAM stores at once.
pub fn may_begin(call: &Call) -> bool {
    let Call::Write(access, value) = call else {
        return false;
    };
    let sets = |bit| Lanes::of(access, *value).is_some_and(|written| written.is_set(bit));
    match map::register_at(access.address) {
        None => !map::is_sram(access.address),
        Some(map::CR) => sets(STRT),
        Some(map::OPTCR) => sets(OPTSTRT),
        _ => false,
    }
}

fn long(call: &Call) -> Option<String> {
    let (n, unit, _, us) = named(call)?;
    (us > LONG_US).then(|| format!("{} {unit} is {}", decimal(n), span(us)))
}

/// A time that is a thousandfold of what the operation took, or a thousandth of
/// it, each up to twice that. One of several equal times, as between polls, is no
/// thousandth by mistake.
fn slip(call: &Call, took: u64, alone: bool) -> Option<String> {
    let (n, unit, other, us) = named(call)?;
    let near =
        |large: u64, small: u64| small > 0 && (1_000 * small..=2_000 * small).contains(&large);
    let times = if near(us, took) {
        "a thousandfold"
    } else if near(took, us) && alone {
        "a thousandth"
    } else {
        return None;
    };
    let (n, took) = (decimal(n), decimal(took));
    Some(format!(
        "{n} {unit} is {times} of the {took} us that the operation took: is {n} {other} meant?"
    ))
}

#[cfg(test)]
mod tests {
    use super::*;
    use crate::job::Access;

    #[test]
    fn spans_leave_out_what_is_0() {
        assert_eq!(span(0), "0 us");
        assert_eq!(span(10_000_001), "10 s 1 us");
        assert_eq!(span(61_002_003), "1 min 1 s 2 ms 3 us");
        assert_eq!(span(4_294_967_295_000), "1,193 h 2 min 47 s 295 ms");
    }

    fn remarked(calls: &[(Call, u8, u64)]) -> Vec<String> {
        let calls_only: Vec<Call> = calls.iter().map(|c| c.0).collect();
        let answers: Vec<Answer> = calls.iter().map(|c| Answer { code: c.1, value: c.2 }).collect();
        remarks(&calls_only, &answers)
    }

    #[test]
    fn a_wait_a_thousandfold_too_long_is_remarked() {
        let write = Call::Write(Access { who: 0, width: 4, address: 0x0800_0000 }, 0);
        let said = remarked(&[(write, 0, 0), (Call::Wait { ms: 60 }, 0, 50)]);
        assert_eq!(
            said[1],
            " (60 ms is a thousandfold of the 50 us that the operation took: is 60 us meant?)"
        );
        let said = remarked(&[(write, 0, 0), (Call::Wait { ms: 101 }, 0, 50)]);
        assert_eq!(said[1], "", "2,020 times as long is a generous limit");
        let said = remarked(&[(write, 0, 0), (Call::Wait { ms: 49 }, 0, 50)]);
        assert_eq!(said[1], "", "980 times as long");
    }

    #[test]
    fn a_thousandth_is_seen_when_the_operation_has_ended() {
        let write = Call::Write(Access { who: 0, width: 4, address: map::CR }, 0x1_0002);
        let said = remarked(&[
            (write, 0, 0),
            (Call::Pass { us: 250 }, 0, 0),
            (Call::Wait { ms: 120 }, 18, 120_000),
            (Call::Wait { ms: 500 }, 0, 129_750),
        ]);
        assert_eq!(
            said[1],
            " (250 us is a thousandth of the 250,000 us that the operation took: is 250 ms meant?)"
        );
        assert_eq!((said[2].as_str(), said[3].as_str()), ("", ""));
    }

    #[test]
    fn a_write_to_the_backup_sram_begins_nothing() {
        let erase = Call::Write(Access { who: 0, width: 4, address: map::CR }, 0x1_0002);
        let store = Call::Write(Access { who: 0, width: 4, address: 0x4002_4000 }, 1);
        let said = remarked(&[
            (erase, 0, 0),
            (Call::Pass { us: 250 }, 0, 0),
            (store, 0, 0),
            (Call::Wait { ms: 500 }, 0, 249_750),
        ]);
        assert!(said[1].ends_with("the 250,000 us that the operation took: is 250 ms meant?)"));
    }

    #[test]
    fn polls_and_repeated_waits_are_not_remarked_on_again() {
        let write = Call::Write(Access { who: 0, width: 4, address: map::CR }, 0x1_0002);
        let poll = (Call::Pass { us: 1_000 }, 0, 0);
        let said = remarked(&[(write, 0, 0), poll, poll, (Call::Wait { ms: 2_000 }, 0, 998_000)]);
        assert_eq!(said, ["", "", "", ""]);
        let wait = (Call::Wait { ms: 20 }, 0, 16);
        let said = remarked(&[(write, 0, 0), wait, (write, 0, 0), wait]);
        assert!(said[1].contains("is 20 us meant?"));
        assert_eq!(said[3], "");
    }

    #[test]
    fn a_long_time_can_be_a_slip_too() {
        let write = Call::Write(Access { who: 0, width: 4, address: map::CR }, 0x1_0002);
        let said = remarked(&[(write, 0, 0), (Call::Wait { ms: 60_000 }, 0, 50_000)]);
        assert_eq!(
            said[1],
            " (60,000 ms is 1 min; 60,000 ms is a thousandfold of the 50,000 us that the \
             operation took: is 60,000 us meant?)"
        );
    }

    #[test]
    fn an_idle_wait_says_nothing_of_units() {
        assert_eq!(remarked(&[(Call::Wait { ms: 500 }, 0, 0)]), [""]);
    }
}
