//! The timeline of a job as a picture: a lane for each sector, OTP, the option
//! cells and the backup SRAM, one for waits and passes, one for refusals.

use crate::job::Call;
use crate::map;
use crate::number::{counted, decimal};
use crate::rehearsal::Rehearsal;
use crate::report::escaped;
use crate::timeline::{Operation, Timeline, Work};
use crate::times;

const WIDTH: u64 = 1_100;
const LEFT: u64 = 100;
const RIGHT: u64 = 30;
const LANE: u64 = 22;
const BAR: u64 = 14;
/// The least width of a bar, so that it can be seen and pointed at; the width of
/// one that can be told from its neighbour; the gap that can't be seen.
const LEAST: f64 = 2.0;
const SEEN: f64 = 4.0;
const NEAR: f64 = 1.0;

const PROGRAM: &str = "#2b6cb0";
const ERASE: &str = "#c77700";
const OPTIONS: &str = "#7a3e9d";
const STORE: &str = "#2e7d4f";
const TIME: &str = "#b8c2d0";
const EXPIRED: &str = "#d9a300";
const REFUSED: &str = "#b3261e";
const EXPECTED: &str = "#6b7684";

/// What parts neighbours, and what shows an operation that was not finished.
const EDGE: &str = " stroke=\"#fff\" stroke-width=\"0.5\"";
const CUT: &str = " fill-opacity=\"0.35\" stroke=\"#b3261e\" stroke-dasharray=\"3 2\"";

struct Picture<'a> {
    sectors: usize,
    timeline: &'a Timeline,
    rehearsal: &'a Rehearsal<'a>,
    bars: Vec<Bar>,
    drawn: String,
}

/// A stretch of a lane: one call's, or that of several calls whose stretches are
/// too short to be told apart.
struct Bar {
    lane: usize,
    from: u64,
    to: u64,
    fill: &'static str,
    edge: &'static str,
    /// What the calls are, each kind once.
    names: Vec<String>,
    first: usize,
    last: usize,
    count: usize,
}

pub fn svg(sectors: usize, timeline: &Timeline, rehearsal: &Rehearsal) -> String {
    let (bars, drawn) = (Vec::new(), String::new());
    let mut picture = Picture { sectors, timeline, rehearsal, bars, drawn };
    picture.lanes();
    picture.axis();
    for operation in &timeline.operations {
        picture.operation(operation);
    }
    picture.calls();
    picture.draw_bars();
    picture.refusals();
    picture.legend();
    let height = picture.height();
    format!(
        "<svg viewBox=\"0 0 {WIDTH} {height}\" width=\"{WIDTH}\" height=\"{height}\" \
         role=\"img\">\n{}</svg>",
        picture.drawn
    )
}

impl Picture<'_> {
    fn lane_names(&self) -> Vec<String> {
        let sectors = (0..self.sectors).map(|sector| format!("sector {sector}"));
        let others = ["OTP", "options", "backup SRAM", "waits, passes", "refusals"];
        sectors.chain(others.map(String::from)).collect()
    }

    fn otp(&self) -> usize {
        self.sectors
    }

    fn options(&self) -> usize {
        self.sectors + 1
    }

    fn sram(&self) -> usize {
        self.sectors + 2
    }

    fn time_lane(&self) -> usize {
        self.sectors + 3
    }

    fn refusal_lane(&self) -> usize {
        self.sectors + 4
    }

    fn bottom(&self) -> u64 {
        LANE * (self.sectors as u64 + 5)
    }

    fn height(&self) -> u64 {
        self.bottom() + 70
    }

    /// Where a time stands in the picture.
    fn x(&self, us: u64) -> f64 {
        let total = self.timeline.total().max(1) as f64;
        LEFT as f64 + us as f64 / total * (WIDTH - LEFT - RIGHT) as f64
    }

    fn lanes(&mut self) {
        for (i, name) in self.lane_names().iter().enumerate() {
            let y = LANE * i as u64;
            if i % 2 == 0 {
                self.drawn += &format!(
                    "<rect x=\"0\" y=\"{y}\" width=\"{WIDTH}\" height=\"{LANE}\" fill=\"#f4f6f9\"/>\n"
                );
            }
            self.drawn += &format!("<text x=\"4\" y=\"{}\">{name}</text>\n", y + 15);
        }
    }

    /// The unit and some five to ten marks, by the whole time.
    fn axis(&mut self) {
        let total = self.timeline.total();
        let (unit, us) = match total {
            0..=9_999 => ("us", 1),
            10_000..=9_999_999 => ("ms", 1_000),
            _ => ("s", 1_000_000),
        };
        let bottom = self.bottom();
        let step = step(total, us);
        for time in (0..=total).step_by(step as usize) {
            let x = self.x(time);
            let label = decimal(time / us);
            self.drawn += &format!(
                "<line x1=\"{x:.1}\" y1=\"0\" x2=\"{x:.1}\" y2=\"{bottom}\" stroke=\"#c9d0da\"/>\n\
                 <text x=\"{x:.1}\" y=\"{}\" text-anchor=\"middle\">{label}</text>\n",
                bottom + 16
            );
        }
        self.drawn += &format!("<text x=\"4\" y=\"{}\">time in {unit}</text>\n", bottom + 16);
    }

    /// A call's stretch of a lane, joined to the one before it where neither
    /// could be seen by itself.
    fn bar(
        &mut self,
        lane: usize,
        call: usize,
        span: (u64, u64),
        fill: &'static str,
        edge: &'static str,
        name: &str,
    ) {
        let (from, to) = span;
        let width = |from, to| self.x(to) - self.x(from);
        let short = |from, to| width(from, to) < SEEN;
        let before = self.bars.iter().rposition(|bar| bar.lane == lane);
        if let Some(i) = before {
            let bar = &self.bars[i];
            let alike = bar.fill == fill && bar.edge == edge;
            let near = width(bar.to.min(from), from) < NEAR;
            if alike && near && short(from, to) && (bar.count > 1 || short(bar.from, bar.to)) {
                let bar = &mut self.bars[i];
                (bar.to, bar.last, bar.count) = (to, call, bar.count + 1);
                if !bar.names.iter().any(|known| known == name) {
                    bar.names.push(name.to_string());
                }
                return;
            }
        }
        let names = vec![name.to_string()];
        self.bars.push(Bar {
            lane,
            from,
            to,
            fill,
            edge,
            names,
            first: call,
            last: call,
            count: 1,
        });
    }

    fn draw_bars(&mut self) {
        for bar in std::mem::take(&mut self.bars) {
            let (x, end) = (self.x(bar.from), self.x(bar.to));
            let width = (end - x).max(LEAST);
            let y = LANE * bar.lane as u64 + (LANE - BAR) / 2;
            let (first, last) = (decimal(bar.first as u64 + 1), decimal(bar.last as u64 + 1));
            let calls = match bar.count {
                1 => format!("call {first}: {}", bar.names[0]),
                n => {
                    let names = bar.names.join(" or ");
                    format!("calls {first} to {last}: {} times {names}", decimal(n as u64))
                }
            };
            let (from, to) = (times::span(bar.from), times::span(bar.to));
            let edge = if width > SEEN || bar.edge == CUT { bar.edge } else { "" };
            self.drawn += &format!(
                "<rect x=\"{x:.1}\" y=\"{y}\" width=\"{width:.1}\" height=\"{BAR}\" fill=\"{}\"{edge}>\
                 <title>{}, {from} to {to}</title></rect>\n",
                bar.fill,
                escaped(&calls)
            );
        }
    }

    fn operation(&mut self, operation: &Operation) {
        let all = 0..self.sectors;
        let (lanes, fill, name) = match operation.work {
            Work::Program(sector) => (vec![sector], PROGRAM, "program"),
            Work::ProgramOtp => (vec![self.otp()], PROGRAM, "program"),
            Work::Erase(sector) => (vec![sector], ERASE, "erase"),
            Work::MassErase => (all.collect(), ERASE, "mass erase"),
            Work::OptionChange(_) => (vec![self.options()], OPTIONS, "option change"),
            Work::Regression(_) => {
                let lanes = all.chain([self.options(), self.sram()]);
                (lanes.collect(), OPTIONS, "regression")
            }
        };
        let (edge, ended) = if operation.whole { (EDGE, "") } else { (CUT, ", not finished") };
        for lane in lanes {
            let span = (operation.start, operation.end);
            self.bar(lane, operation.call, span, fill, edge, &format!("{name}{ended}"));
        }
    }

    /// The time that waits and passes take, and writes to the backup SRAM, which
    /// take none.
    fn calls(&mut self) {
        let Ok(answers) = &self.rehearsal.answers else {
            return;
        };
        for (i, (call, answer)) in self.rehearsal.calls().iter().zip(answers).enumerate() {
            let span = (self.timeline.times[i], self.timeline.times[i + 1]);
            let (lane, fill, name) = match (call, answer.is_done()) {
                (Call::Write(access, _), true) if map::is_sram(access.address) => {
                    (self.sram(), STORE, "write")
                }
                _ if span.0 == span.1 => continue,
                (Call::Pass { .. }, _) => (self.time_lane(), TIME, "pass"),
                (Call::Wait { .. }, true) => (self.time_lane(), TIME, "wait"),
                _ => (self.time_lane(), EXPIRED, "wait, expired"),
            };
            self.bar(lane, i, span, fill, EDGE, name);
        }
    }

    /// A mark for the refusals and stale answers at one place: red where one of
    /// them was not expected.
    fn refusals(&mut self) {
        let Ok(answers) = &self.rehearsal.answers else {
            return;
        };
        let unexpected: Vec<usize> =
            self.rehearsal.faults().iter().filter_map(|fault| fault.call).collect();
        let mut marks: Vec<(i64, Vec<usize>)> = Vec::new();
        let marked = |i: &usize| {
            !answers[*i].is_done() || unexpected.contains(i) || self.rehearsal.is_stale(*i)
        };
        for i in (0..answers.len()).filter(marked) {
            let x = self.x(self.timeline.times[i]).round() as i64;
            match marks.last_mut() {
                Some((at, calls)) if *at == x => calls.push(i),
                _ => marks.push((x, vec![i])),
            }
        }
        let red = |calls: &[usize]| calls.iter().any(|call| unexpected.contains(call));
        let (reds, greys): (Vec<_>, Vec<_>) = marks.into_iter().partition(|(_, calls)| red(calls));
        // A red one is not to be covered by its neighbour.
        for (marks, fill) in [(greys, EXPECTED), (reds, REFUSED)] {
            for (x, calls) in marks {
                self.mark(x, &calls, fill);
            }
        }
    }

    fn mark(&mut self, x: i64, calls: &[usize], fill: &str) {
        let first: Vec<String> =
            calls.iter().take(8).map(|call| decimal(*call as u64 + 1)).collect();
        let more = if calls.len() > 8 { " and more" } else { "" };
        let title = format!("{}: {}{more}", counted(calls.len(), "call"), first.join(", "));
        let y = LANE * self.refusal_lane() as u64 + 4;
        self.drawn += &format!(
            "<path d=\"M{x} {y} l5 13 h-10 z\" fill=\"{fill}\"><title>{title}</title></path>\n"
        );
    }

    fn legend(&mut self) {
        let names = [
            (PROGRAM, "", "program"),
            (ERASE, "", "erase"),
            (OPTIONS, "", "option change, regression"),
            (STORE, "", "write to backup SRAM"),
            (ERASE, CUT, "not finished"),
            (TIME, "", "wait or pass"),
            (EXPIRED, "", "wait expired"),
            (REFUSED, "", "refused, different, cut or stale"),
            (EXPECTED, "", "refused or stale as expected"),
        ];
        let (mut x, mut y) = (LEFT, self.bottom() + 40);
        for (fill, edge, name) in names {
            let width = 40 + 7 * name.len() as u64;
            if x + width > WIDTH {
                (x, y) = (LEFT, y + 20);
            }
            self.drawn += &format!(
                "<rect x=\"{x}\" y=\"{}\" width=\"12\" height=\"12\" fill=\"{fill}\"{edge}/>\
                 <text x=\"{}\" y=\"{y}\">{name}</text>\n",
                y - 11,
                x + 17
            );
            x += width;
        }
    }
}

/// A step of 1, 2 or 5 with zeros, in whole units, that gives ten marks at most.
fn step(total: u64, unit: u64) -> u64 {
    let mut step = unit;
    for factor in [2, 5, 10].iter().cycle() {
        if total / step < 10 {
            return step;
        }
        let tens = unit * 10_u64.pow((step / unit).ilog10());
        step = tens * factor;
    }
    step
}

#[cfg(test)]
mod tests {
    use super::*;
    use crate::part::Part;
    use crate::rehearsal::rehearse;
    use crate::source::Source;
    use crate::timeline::timeline;

    /// The name of a lane, and the titles of its bars.
    fn drawn(text: &str, lane: u64) -> (String, Vec<String>) {
        let source = Source::of("a.txt".into(), text.into()).expect("a text");
        let before = Part::of_rehearse();
        let rehearsal = rehearse(&source, &mut before.clone());
        let svg = svg(before.sectors(), &timeline(&rehearsal, &before), &rehearsal);
        let name = format!("<text x=\"4\" y=\"{}\">", LANE * lane + 15);
        let name = svg.split(&name).nth(1).and_then(|rest| rest.split('<').next());
        let bar = format!(" y=\"{}\" ", LANE * lane + (LANE - BAR) / 2);
        let title = |line: &str| Some(line.split_once("<title>")?.1.split_once('<')?.0.to_string());
        let titles = svg.lines().filter(|line| line.contains(&bar)).filter_map(title).collect();
        (name.unwrap_or("").into(), titles)
    }

    #[test]
    fn the_backup_sram_has_writes_and_regressions() {
        let text = "reset flash\nwrite cpu 4 OPTKEYR 0x08192A3B\nwrite cpu 4 OPTKEYR 0x4C5D6E7F\n\
                    write cpu 4 OPTCR 0x0FFF55EE\nwait 1 ms\nwrite cpu 4 0x40024000 1\n\
                    write cpu 4 OPTCR 0x0FFFAAEE\nwait 2 ms\nwrite cpu 4 0x40024FFE 1\n";
        let (name, titles) = drawn(text, 6);
        assert_eq!(name, "backup SRAM");
        assert_eq!(
            titles,
            ["call 7: regression, 1 ms to 3 ms", "call 6: write, 1 ms to 1 ms"],
            "a refused write is none"
        );
    }

    #[test]
    fn steps_are_round() {
        assert_eq!(step(0, 1), 1);
        assert_eq!(step(9, 1), 1);
        assert_eq!(step(10, 1), 2);
        assert_eq!(step(1_000, 1), 200);
        assert_eq!(step(4_999, 1), 500);
        assert_eq!(step(5_000, 1), 1_000);
        assert_eq!(step(16_000_000, 1_000_000), 2_000_000);
        assert_eq!(step(240_000_000_000, 1_000_000), 50_000_000_000);
    }
}
