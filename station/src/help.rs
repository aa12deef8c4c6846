//! What each command says of itself.

pub const GENERAL: &str = "\
usage: station COMMAND ...

  rehearse  run jobs on a part; a line of numbers for each answer
  explain   the same in words
  report    the same as a page for a browser, with a timeline
  make      a text to a job file
  text      a job file back to text
  blank     a folder with a blank part
  help      this page, or that of a command: station help COMMAND

A JOB is a job file or a text, told apart by content; - is standard input.
Exit status: 0 all is well; 1 a call or a job is refused, an answer differs from
the text's or is stale, or a job cuts a running operation or ends in one; 2
something could not be read or written.
";

pub const REHEARSE: &str = "\
usage: station rehearse [--part FOLDER [--save]] JOB...

Runs the jobs one after the other on one part, each from no power, and prints a
line for each answer: the code in two hexadecimal digits (00 is done), a space,
the value in sixteen. A job that is refused as a whole prints one line, as
refused 4. Answers behind -> in a text are compared, and each that differs is
shown; so is each that is stale, where the text doesn't say that it is. The last
line says how it ended.

  --part FOLDER  the part; without it four blank sectors of 16 KiB at level 0,
                 1 ms for every operation
  --save         write the cells back to the folder; without it they are left
";

pub const EXPLAIN: &str = "\
usage: station explain [--part FOLDER [--save]] JOB...

As rehearse, in words: each call with its units and the register or sector that
it names, its answer, and why a job is refused. Runs of polls are one line. A
time that may be meant in the other unit gets a remark. A read or fetch that a
line answered with other bytes than the cells hold is marked STALE, with what
they hold.

  --part FOLDER  the part; without it four blank sectors of 16 KiB at level 0,
                 1 ms for every operation
  --save         write the cells back to the folder; without it they are left
";

pub const REPORT: &str = "\
usage: station report [--part FOLDER [--save]] -o PAGE.html JOB...

As explain, as a page that needs nothing beside it: how each job ended, a
timeline with the operations by sector, OTP and options, the writes to the
backup SRAM, the waits, the refusals and the stale answers, and a table of the
calls.

  -o PAGE.html   the page to write
  --part FOLDER  the part; without it four blank sectors of 16 KiB at level 0,
                 1 ms for every operation
  --save         write the cells back to the folder; without it they are left
";

pub const MAKE: &str = "\
usage: station make TEXT JOB [ANSWERS]

Makes the job file JOB of a text. With ANSWERS, that file gets the lines that
rehearse has to print by the answers in the text, each call of which has one.
";

pub const TEXT: &str = "\
usage: station text JOB

Prints a job as a text. A job file made of that text is the same bytes.
";

pub const BLANK: &str = "\
usage: station blank FOLDER SECTORS

Makes a folder with a blank part of 1 to 12 sectors at level 0: main.bin,
otp.bin, options.bin, sram.bin and timings.txt, whose numbers are to be replaced
by your own.
";

pub fn of(command: &str) -> Option<&'static str> {
    Some(match command {
        "rehearse" => REHEARSE,
        "explain" => EXPLAIN,
        "report" => REPORT,
        "make" => MAKE,
        "text" => TEXT,
        "blank" => BLANK,
        "help" => GENERAL,
        _ => return None,
    })
}

/// A wrong call, with the line that says how it is made.
pub fn usage(error: &str, page: &str) -> String {
    format!("{error}\n{}", page.lines().next().unwrap_or(""))
}
