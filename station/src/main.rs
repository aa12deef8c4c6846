//! The operators' tool: jobs as text or as job files, on parts that live in
//! folders, told in numbers, in words and as a page. No answer is worked out
//! here: the proved job run answers, and what is said of an answer comes from it,
//! from its call and from those before. Jobs are made by the proved job writer.

mod archive;
mod arguments;
mod asking;
mod fields;
mod grammar;
mod help;
mod job;
mod job_writer;
mod letters;
mod map;
mod number;
mod part;
mod picture;
mod refusals;
mod rehearsal;
mod report;
mod source;
mod stale;
mod telling;
mod text;
mod timeline;
mod times;
mod timings;
mod whole;
mod words;
mod writing;

use arguments::Arguments;
use part::{Folder, Part};
use rehearsal::Rehearsal;
use source::Source;
use std::ffi::OsString;
use std::fs::File;
use std::io::Write;
use std::os::fd::AsFd;
use std::path::{Path, PathBuf};
use std::process::ExitCode;

/// Whether all is well; or what could not be read or written, or how a command is
/// called.
type Outcome = Result<bool, String>;

fn main() -> ExitCode {
    let words: Vec<OsString> = std::env::args_os().skip(1).collect();
    match command(&words) {
        Ok(true) => ExitCode::SUCCESS,
        Ok(false) => ExitCode::from(1),
        Err(message) => {
            // Nothing is left to tell where standard error is gone too.
            let _ = writeln!(std::io::stderr(), "station: {message}");
            ExitCode::from(2)
        }
    }
}

fn command(words: &[OsString]) -> Outcome {
    let Some((name, rest)) = words.split_first() else {
        return Err(format!("which command?\n{}", help::GENERAL));
    };
    let name = name.to_string_lossy();
    if matches!(name.as_ref(), "help" | "--help" | "-h") {
        return show_help(rest.first());
    }
    let Some(page) = help::of(&name) else {
        return Err(format!("there is no command {name}\n{}", help::GENERAL));
    };
    let arguments = Arguments::parse(rest).map_err(|error| help::usage(&error, page))?;
    if arguments.help {
        return print(page).map(|()| true);
    }
    arguments.allowed(&name).map_err(|error| help::usage(&error, page))?;
    match (name.as_ref(), arguments.files.as_slice()) {
        ("make", [text, job]) => make(text, job, None),
        ("make", [text, job, answers]) => make(text, job, Some(answers)),
        ("text", [job]) => to_text(job),
        ("blank", [folder, sectors]) => blank(folder, sectors),
        ("rehearse", [_, ..]) => rehearse(&arguments, numbers),
        ("explain", [_, ..]) => rehearse(&arguments, in_words),
        ("report", [_, ..]) => report(&arguments),
        _ => Err(help::usage("the files don't fit", page)),
    }
}

fn show_help(name: Option<&OsString>) -> Outcome {
    let Some(name) = name else {
        return print(help::GENERAL).map(|()| true);
    };
    let name = name.to_string_lossy();
    match help::of(&name) {
        Some(page) => print(page).map(|()| true),
        None => Err(format!("there is no command {name}\n{}", help::GENERAL)),
    }
}

/// A full disk or a closed pipe is an error, and it is told. The library's own
/// standard output would take some of them for none.
fn print(text: &str) -> Result<(), String> {
    let output = std::io::stdout().as_fd().try_clone_to_owned().map(File::from);
    let written = output.and_then(|mut output| output.write_all(text.as_bytes()));
    written.map_err(|error| whole::message(Path::new("standard output"), &error))
}

/// An output that would replace what is read, or that no file can be.
fn check_output(output: &OsString, inputs: &[PathBuf]) -> Result<(), String> {
    let name = Path::new(output);
    if output == "-" {
        return Err("-: standard input; an output has a file's name".into());
    }
    let Ok(place) = name.canonicalize() else {
        return Ok(());
    };
    match inputs.iter().find(|input| input.canonicalize().is_ok_and(|input| input == place)) {
        Some(_) => Err(format!("{}: would be replaced, and it is read", name.display())),
        None => Ok(()),
    }
}

/// Where a job comes from; standard input may be a file too.
fn place(job: &OsString) -> PathBuf {
    match job.to_str() {
        Some("-") => "/dev/stdin".into(),
        _ => job.into(),
    }
}

fn make(text: &OsString, job: &OsString, answers: Option<&OsString>) -> Outcome {
    let source = Source::read(text)?;
    if !source.is_text {
        return Err(format!("{}: a job file; make wants a text", source.name));
    }
    for output in answers.iter().chain(&[job]) {
        check_output(output, &[place(text)])?;
    }
    if answers == Some(job) {
        return Err(help::usage("the job and its answers have one name", help::MAKE));
    }
    if let Some(answers) = answers {
        whole::write(Path::new(answers), expected_lines(&source)?.as_bytes())?;
    }
    whole::write(Path::new(job), &source.job)?;
    Ok(true)
}

/// The lines that the program `rehearse` has to print, by the text's answers.
fn expected_lines(source: &Source) -> Result<String, String> {
    if let Some((_, number)) = source.refused {
        return Ok(format!("refused {number}\n"));
    }
    let mut lines = String::new();
    for (line, expected) in &source.calls {
        match expected {
            Some(expected) => lines += &format!("{}\n", expected.answer.line()),
            None => return Err(format!("{}:{line}: this call has no answer", source.name)),
        }
    }
    // A job of no calls has no answers to be written.
    match lines.is_empty() && source.job != job_writer::file(&[]) {
        true => Err(format!("{}: no answer stands in this text", source.name)),
        false => Ok(lines),
    }
}

fn to_text(job: &OsString) -> Outcome {
    print(&writing::written(&Source::read(job)?.job))?;
    Ok(true)
}

fn blank(folder: &OsString, sectors: &OsString) -> Outcome {
    let word = sectors.to_string_lossy();
    let wanted = |why| format!("{word}: {why}; a part has 1 to {} sectors", map::SECTORS);
    let sectors = number::parse(&word).map_err(wanted)?;
    part::make_blank(Path::new(folder), sectors as usize)?;
    Ok(true)
}

/// The jobs of a command and the part that they run on.
struct Bench {
    sources: Vec<Source>,
    folder: Option<Folder>,
    part: Part,
}

/// Everything is read before anything runs.
fn bench(arguments: &Arguments) -> Result<Bench, String> {
    if arguments.files.iter().filter(|path| *path == "-").count() > 1 {
        return Err("-: standard input can be read once".into());
    }
    let sources = arguments.files.iter().map(|path| Source::read(path));
    let sources = sources.collect::<Result<Vec<_>, _>>()?;
    let (folder, part) = match &arguments.part {
        Some(path) => {
            let (folder, part) = Folder::open(Path::new(path), arguments.save)?;
            (Some(folder), part)
        }
        None => (None, Part::of_rehearse()),
    };
    Ok(Bench { sources, folder, part })
}

/// The cells go back to the folder where that is asked for, once what comes
/// before is written.
fn save(
    arguments: &Arguments,
    folder: &Option<Folder>,
    part: &Part,
    written: Result<(), String>,
) -> Result<(), String> {
    match folder {
        Some(folder) if arguments.save => {
            written.map_err(|error| format!("{error}; the part is not saved"))?;
            folder.save(part)
        }
        _ => written,
    }
}

fn numbers(rehearsal: &Rehearsal) -> Vec<String> {
    rehearsal.lines()
}

fn in_words(rehearsal: &Rehearsal) -> Vec<String> {
    match rehearsal.refusal() {
        Some(words) => vec![words],
        None if rehearsal.calls().is_empty() => vec!["the job has no calls".into()],
        None => rehearsal.told().iter().map(|told| told.line()).collect(),
    }
}

fn rehearse(arguments: &Arguments, answers: fn(&Rehearsal) -> Vec<String>) -> Outcome {
    let Bench { sources, folder, mut part } = bench(arguments)?;
    let many = sources.len() > 1;
    let mut rehearsals = Vec::new();
    for source in &sources {
        rehearsals.push(rehearsal::rehearse(source, &mut part));
    }
    let mut lines = Vec::new();
    for rehearsal in &rehearsals {
        if many {
            lines.push(format!("{}:", rehearsal.source.name));
        }
        lines.extend(answers(rehearsal));
        lines.extend(differences(rehearsal));
        if many {
            lines.push(rehearsal.last_line());
        }
    }
    let text: String = lines.iter().map(|line| format!("{line}\n")).collect();
    save(arguments, &folder, &part, print(&text))?;
    conclude(arguments, &rehearsals)
}

/// The last line, and whether all is well.
fn conclude(arguments: &Arguments, rehearsals: &[Rehearsal]) -> Outcome {
    let saved = if arguments.save { "; the part is saved" } else { "" };
    print(&format!("{}\n", last_line(rehearsals))).map_err(|error| format!("{error}{saved}"))?;
    Ok(rehearsals.iter().all(Rehearsal::is_ok))
}

/// Each answer that is not the text's, each reset that cuts an operation, and what
/// else is to be known.
fn differences(rehearsal: &Rehearsal) -> Vec<String> {
    let faults = rehearsal.faults();
    let unseen = faults.iter().filter(|fault| fault.unseen).map(|fault| fault.told());
    let name = &rehearsal.source.name;
    unseen
        .chain(rehearsal.remark().map(String::from))
        .map(|words| format!("{name}: {words}"))
        .collect()
}

fn last_line(rehearsals: &[Rehearsal]) -> String {
    if let [only] = rehearsals {
        return only.last_line();
    }
    let jobs = number::counted(rehearsals.len(), "job");
    match rehearsals.iter().find(|rehearsal| !rehearsal.is_ok()) {
        Some(first) => {
            let ok = rehearsals.iter().filter(|rehearsal| rehearsal.is_ok()).count();
            format!("{ok} of {jobs} OK; {}: {}", first.source.name, first.last_line())
        }
        None => format!("{jobs} OK"),
    }
}

fn report(arguments: &Arguments) -> Outcome {
    let Some(page) = &arguments.output else {
        return Err(help::usage("the page's name is missing: -o PAGE.html", help::REPORT));
    };
    let cells = arguments.part.iter().flat_map(|folder| part::files(Path::new(folder)));
    let inputs: Vec<PathBuf> = arguments.files.iter().map(place).chain(cells).collect();
    check_output(page, &inputs)?;
    let Bench { sources, folder, mut part } = bench(arguments)?;
    let mut sections = Vec::new();
    for source in &sources {
        let before = part.clone();
        let rehearsal = rehearsal::rehearse(source, &mut part);
        sections.push((timeline::timeline(&rehearsal, &before), rehearsal));
    }
    let on = arguments.part.as_ref().map(|path| path.to_string_lossy().into_owned());
    let (timelines, rehearsals): (Vec<_>, Vec<_>) = sections.into_iter().unzip();
    let text = report::page(on.as_deref(), &part, &last_line(&rehearsals), &timelines, &rehearsals);
    let written = whole::write(Path::new(page), text.as_bytes());
    save(arguments, &folder, &part, written)?;
    conclude(arguments, &rehearsals)
}
