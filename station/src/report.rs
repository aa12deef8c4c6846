//! Rehearsals as one page for a browser, with nothing from elsewhere: how each
//! job ended, its timeline, its calls in words.

use crate::number::{counted, decimal};
use crate::part::Part;
use crate::picture;
use crate::rehearsal::{End, Fault, Rehearsal};
use crate::telling::Told;
use crate::timeline::Timeline;
use crate::times;

const STYLE: &str = "
body { font: 15px/1.45 system-ui, sans-serif; color: #1c2430; margin: 2em auto; max-width: 75em;
       padding: 0 1em; }
h1 { font-size: 1.5em; } h2 { font-size: 1.2em; margin-top: 2em; overflow-wrap: anywhere; }
.verdict { padding: .6em .9em; border-left: .4em solid; font-weight: 600; overflow-wrap: anywhere; }
.ok { border-color: #2e7d4f; background: #e9f5ee; }
.unknown { border-color: #c77700; background: #fff6e5; }
.failed { border-color: #b3261e; background: #fbeae9; }
.picture { overflow-x: auto; }
svg text { font: 12px system-ui, sans-serif; fill: #1c2430; }
table { border-collapse: collapse; width: 100%; font-size: .93em; }
th { position: sticky; top: 0; background: #fff; text-align: left; }
th, td { padding: .2em .7em .2em 0; border-bottom: 1px solid #dde2ea; vertical-align: top; }
td.n { text-align: right; white-space: nowrap; }
tr.refused td { background: #f3f4f6; } tr.stale td { background: #fff6e5; }
tr.fault td { background: #fbeae9; }
";

/// The page. `folder` is the part's, None for the part of `rehearse`; the last
/// line is that of all jobs.
pub fn page(
    folder: Option<&str>,
    part: &Part,
    last_line: &str,
    timelines: &[Timeline],
    rehearsals: &[Rehearsal],
) -> String {
    let sectors = counted(part.sectors(), "sector");
    let on = match folder {
        Some(folder) => format!("the part in {}, {sectors}", escaped(folder)),
        None => format!("a blank part of {sectors}, 1 ms for every operation"),
    };
    let mut page = format!(
        "<!DOCTYPE html>\n<html lang=\"en\">\n<head>\n<meta charset=\"utf-8\">\n\
         <title>Rehearsal</title>\n<style>{STYLE}</style>\n</head>\n<body>\n\
         <h1>Rehearsal on {on}</h1>\n"
    );
    if rehearsals.len() > 1 {
        page += &index(last_line, rehearsals);
    }
    for (i, (timeline, rehearsal)) in timelines.iter().zip(rehearsals).enumerate() {
        page += &section(i, part.sectors(), timeline, rehearsal);
    }
    page + "</body>\n</html>\n"
}

fn class(rehearsal: &Rehearsal) -> &'static str {
    match (rehearsal.is_ok(), rehearsal.end) {
        (false, _) => "failed",
        (true, End::Idle) => "ok",
        (true, _) => "unknown",
    }
}

/// How several jobs ended, each with a way to its section.
fn index(last_line: &str, rehearsals: &[Rehearsal]) -> String {
    let line = |(i, rehearsal): (usize, &Rehearsal)| {
        format!(
            "<li><a href=\"#job-{i}\">{}</a>: {}</li>\n",
            escaped(&rehearsal.source.name),
            escaped(&rehearsal.last_line())
        )
    };
    let all = rehearsals.iter().all(Rehearsal::is_ok);
    format!(
        "<p class=\"verdict {}\">{}</p>\n<ol>\n{}</ol>\n",
        if all { "ok" } else { "failed" },
        escaped(last_line),
        rehearsals.iter().enumerate().map(line).collect::<String>()
    )
}

fn section(i: usize, sectors: usize, timeline: &Timeline, rehearsal: &Rehearsal) -> String {
    let mut section = format!(
        "<h2 id=\"job-{i}\">{}</h2>\n<p class=\"verdict {}\">{}</p>\n",
        escaped(&rehearsal.source.name),
        class(rehearsal),
        escaped(&rehearsal.last_line())
    );
    if let Some(remark) = rehearsal.remark() {
        section += &format!("<p>{}</p>\n", escaped(remark));
    }
    if let Some(answers) = rehearsal.answers.as_ref().ok().filter(|a| !a.is_empty()) {
        let done = answers.iter().filter(|answer| answer.is_done()).count();
        section += &format!(
            "<p>{}: {} done, {} refused; {} passed; {}.</p>\n",
            counted(answers.len(), "call"),
            decimal(done as u64),
            decimal((answers.len() - done) as u64),
            times::span(timeline.total()),
            counted(timeline.operations.len(), "operation"),
        );
        let picture = picture::svg(sectors, timeline, rehearsal);
        section += &format!("<div class=\"picture\">{picture}</div>\n");
        section += &table(timeline, rehearsal);
    }
    section
}

fn table(timeline: &Timeline, rehearsal: &Rehearsal) -> String {
    let text = !rehearsal.source.calls.is_empty();
    let line = if text { "<th>line</th>" } else { "" };
    let mut table = format!(
        "<table>\n<thead><tr><th>call</th>{line}<th>time</th><th>what is asked</th>\
         <th>what comes back</th></tr></thead>\n<tbody>\n"
    );
    let faults = rehearsal.faults();
    for told in rehearsal.told() {
        table += &row(&told, timeline, rehearsal, &faults);
    }
    table + "</tbody>\n</table>\n"
}

fn row(told: &Told, timeline: &Timeline, rehearsal: &Rehearsal, faults: &[Fault]) -> String {
    let calls = told.first - 1..told.last;
    let here: Vec<_> =
        faults.iter().filter(|f| f.call.is_some_and(|call| calls.contains(&call))).collect();
    let class = match (here.is_empty(), told.done) {
        (false, _) => " class=\"fault\"",
        (true, false) => " class=\"refused\"",
        (true, true) if rehearsal.is_stale(calls.start) => " class=\"stale\"",
        (true, true) => "",
    };
    let line = match rehearsal.source.line(calls.start) {
        Some(line) => format!("<td class=\"n\">{}</td>", decimal(line as u64)),
        None => String::new(),
    };
    let differs: String = here
        .iter()
        .filter(|fault| fault.unseen)
        .map(|fault| format!("<br><b>{}</b>", escaped(&fault.words)))
        .collect();
    format!(
        "<tr{class}><td class=\"n\">{}</td>{line}<td class=\"n\">{}</td><td>{}</td>\
         <td>{}{differs}</td></tr>\n",
        told.numbers(),
        times::span(timeline.times.get(calls.start).copied().unwrap_or(0)),
        escaped(&told.call),
        escaped(&told.answer),
    )
}

/// Names and words as a page has them.
pub fn escaped(words: &str) -> String {
    words.replace('&', "&amp;").replace('<', "&lt;").replace('>', "&gt;").replace('"', "&quot;")
}
