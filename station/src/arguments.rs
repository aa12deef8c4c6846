//! The words behind a command.

use std::ffi::OsString;

#[derive(Debug, Default, PartialEq, Eq)]
pub struct Arguments {
    pub part: Option<OsString>,
    pub save: bool,
    pub output: Option<OsString>,
    pub help: bool,
    pub files: Vec<OsString>,
}

impl Arguments {
    /// Options may stand anywhere; behind `--` everything is a file's name.
    pub fn parse(words: &[OsString]) -> Result<Arguments, String> {
        let mut arguments = Arguments::default();
        let mut words = words.iter();
        while let Some(word) = words.next() {
            match word.to_string_lossy().as_ref() {
                "--part" => once(&mut arguments.part, word, words.next(), "a folder")?,
                "-o" => once(&mut arguments.output, word, words.next(), "a file")?,
                "--save" => arguments.save = true,
                "-h" | "--help" => arguments.help = true,
                "--" => arguments.files.extend(words.by_ref().cloned()),
                "-" => arguments.files.push(word.clone()),
                option if option.starts_with('-') => {
                    return Err(format!("there is no option {option}"));
                }
                _ => arguments.files.push(word.clone()),
            }
        }
        Ok(arguments)
    }

    /// Whether the command has the options that were given.
    pub fn allowed(&self, command: &str) -> Result<(), String> {
        let runs = matches!(command, "rehearse" | "explain" | "report");
        if self.part.is_some() && !runs {
            return Err(format!("{command} has no --part"));
        }
        if self.output.is_some() && command != "report" {
            return Err(format!("{command} has no -o"));
        }
        if self.save && !runs {
            return Err(format!("{command} has no --save"));
        }
        if self.save && self.part.is_none() {
            return Err("--save needs a part: --part FOLDER".into());
        }
        Ok(())
    }
}

/// An option with a value, which is given once at most.
fn once(
    place: &mut Option<OsString>,
    option: &OsString,
    value: Option<&OsString>,
    wanted: &str,
) -> Result<(), String> {
    let option = option.to_string_lossy();
    let Some(value) = value else {
        return Err(format!("{option} wants {wanted}"));
    };
    match place.replace(value.clone()) {
        Some(_) => Err(format!("{option} is given twice")),
        None => Ok(()),
    }
}

#[cfg(test)]
mod tests {
    use super::*;

    fn parsed(words: &[&str]) -> Result<Arguments, String> {
        Arguments::parse(&words.iter().map(OsString::from).collect::<Vec<_>>())
    }

    #[test]
    fn options_stand_anywhere() {
        let arguments = parsed(&["a b.txt", "--part", "p", "--save", "-", "--", "--x"]).unwrap();
        assert_eq!(arguments.files, ["a b.txt", "-", "--x"]);
        assert_eq!((arguments.part, arguments.save), (Some("p".into()), true));
        assert_eq!(parsed(&["--part"]), Err("--part wants a folder".into()));
        assert_eq!(parsed(&["--prat", "p"]), Err("there is no option --prat".into()));
        let twice = parsed(&["--part", "p", "--part", "q"]);
        assert_eq!(twice, Err("--part is given twice".into()));
    }

    #[test]
    fn each_command_has_its_options() {
        let said = |command, words: &[&str]| parsed(words).unwrap().allowed(command).err();
        assert_eq!(said("make", &["--part", "p"]), Some("make has no --part".into()));
        assert_eq!(said("rehearse", &["-o", "p"]), Some("rehearse has no -o".into()));
        assert_eq!(said("text", &["--save"]), Some("text has no --save".into()));
        assert_eq!(said("explain", &["--save"]), Some("--save needs a part: --part FOLDER".into()));
        assert_eq!(said("report", &["--part", "p", "--save", "-o", "x"]), None);
    }
}
