//! Parts: the cells and timings in memory, and the folders that keep them.

use crate::fields::RDP_LEVEL_0;
use crate::map::{sector_start, SECTORS};
use crate::number::{counted, decimal};
use crate::timings::{Timings, TYPICAL};
use crate::whole;
use std::fs::{self, File, TryLockError};
use std::io::{self, ErrorKind, Read};
use std::path::{Path, PathBuf};

const MAIN: &str = "main.bin";
const OTP: &str = "otp.bin";
const OPTIONS: &str = "options.bin";
const SRAM: &str = "sram.bin";
const TIMINGS: &str = "timings.txt";
const FILES: [&str; 5] = [MAIN, OTP, OPTIONS, SRAM, TIMINGS];
const A_PART: &str =
    "a part is a folder with the files main.bin, otp.bin, options.bin, sram.bin and timings.txt";

pub const OTP_LENGTH: usize = 528;
pub const OPTIONS_LENGTH: usize = 16;
pub const SRAM_LENGTH: usize = 4_096;
const LONGEST_TEXT: usize = 65_536;

const BLANK: u8 = 0xFF;
const RDP: usize = 1;

#[derive(Clone, Debug, PartialEq, Eq)]
pub struct Part {
    pub main: Vec<u8>,
    pub otp: Vec<u8>,
    pub options: Vec<u8>,
    pub sram: Vec<u8>,
    pub timings: Timings,
}

impl Part {
    pub fn blank(sectors: usize, timings: Timings) -> Part {
        let mut options = vec![BLANK; OPTIONS_LENGTH];
        options[RDP] = RDP_LEVEL_0;
        let main = vec![BLANK; sector_start(sectors)];
        let (otp, sram) = (vec![BLANK; OTP_LENGTH], vec![0; SRAM_LENGTH]);
        Part { main, otp, options, sram, timings }
    }

    /// The part that `rehearse` starts from.
    pub fn of_rehearse() -> Part {
        Part::blank(4, Timings::thousands())
    }

    pub fn sectors(&self) -> usize {
        let has = |sectors: &usize| sector_start(*sectors) == self.main.len();
        (1..=SECTORS).find(has).unwrap_or(0)
    }
}

/// A part's folder, locked as long as this lives: by one run that saves, or by
/// any number of runs that only read.
pub struct Folder {
    path: PathBuf,
    // The lock is the folder's own, so that it needs no file, and the system
    // takes it back however a run ends.
    _locked: File,
}

impl Folder {
    pub fn open(path: &Path, saving: bool) -> Result<(Folder, Part), String> {
        let folder = Folder::lock(path, saving)?;
        let part = folder.read()?;
        Ok((folder, part))
    }

    /// Writes the cells back, each file whole or not at all. For a folder that was
    /// opened to be saved.
    pub fn save(&self, part: &Part) -> Result<(), String> {
        whole::sweep(&self.path, &FILES);
        // What a regression wipes comes before the option cells, which open the
        // part, for the case that an interruption leaves the files of two saves.
        // Where one file changes there is no such case.
        let cells = [
            (MAIN, &part.main[..]),
            (SRAM, &part.sram),
            (OTP, &part.otp),
            (OPTIONS, &part.options),
        ];
        let changed = |cells: &(&str, &[u8])| !self.has(cells.0, cells.1);
        let changed: Vec<(&str, &[u8])> = cells.into_iter().filter(changed).collect();
        whole::write_all(&self.path, &changed)
    }

    fn has(&self, name: &str, cells: &[u8]) -> bool {
        read(&self.path.join(name), cells.len()).is_ok_and(|(bytes, _)| bytes == cells)
    }

    fn lock(path: &Path, saving: bool) -> Result<Folder, String> {
        if path.as_os_str().is_empty() {
            return Err(format!("the name of the part is empty; {A_PART}"));
        }
        let folder = whole::open_folder(path)
            .map_err(|error| format!("{}; {A_PART}", whole::message(path, &error)))?;
        let locked = match saving {
            true => folder.try_lock(),
            false => folder.try_lock_shared(),
        };
        match locked {
            Ok(()) => Ok(Folder { path: path.to_path_buf(), _locked: folder }),
            Err(TryLockError::WouldBlock) => {
                let user = if saving { "another run" } else { "another run that saves it" };
                Err(format!("{}: in use by {user}; try again when it has ended", path.display()))
            }
            Err(TryLockError::Error(error)) => {
                Err(format!("{}; the part cannot be locked", whole::message(path, &error)))
            }
        }
    }

    fn read(&self) -> Result<Part, String> {
        let lengths: Vec<usize> = (1..=SECTORS).map(sector_start).collect();
        Ok(Part {
            main: self.cells(MAIN, "a part with 1 to 12 sectors has", &lengths)?,
            otp: self.cells(OTP, "OTP has", &[OTP_LENGTH])?,
            options: self.cells(OPTIONS, "the option cells have", &[OPTIONS_LENGTH])?,
            sram: self.cells(SRAM, "the backup SRAM has", &[SRAM_LENGTH])?,
            timings: self.timings()?,
        })
    }

    fn cells(&self, name: &str, whose: &str, lengths: &[usize]) -> Result<Vec<u8>, String> {
        let path = self.path.join(name);
        if path.is_symlink() {
            // The lock of this folder does not protect a file of another one.
            return Err(format!("{}: a link; the cells of a part are its own", path.display()));
        }
        let longest = lengths.iter().copied().max().unwrap_or(0);
        let (bytes, length) = read(&path, longest)?;
        match lengths.contains(&bytes.len()) {
            true => Ok(bytes),
            false => Err(wrong_length(&path, length, whose, lengths)),
        }
    }

    fn timings(&self) -> Result<Timings, String> {
        let path = self.path.join(TIMINGS);
        let (text, length) = read(&path, LONGEST_TEXT)?;
        match text.len() > LONGEST_TEXT {
            true => Err(wrong_length(&path, length, "the timings have at most", &[LONGEST_TEXT])),
            false => Timings::parse(&path.display().to_string(), &text),
        }
    }
}

/// The files of a part's folder.
pub fn files(folder: &Path) -> [PathBuf; 5] {
    FILES.map(|name| folder.join(name))
}

/// Makes a part with typical timings in a new folder, or in an empty one.
pub fn make_blank(path: &Path, sectors: usize) -> Result<(), String> {
    if !(1..=SECTORS).contains(&sectors) {
        return Err(format!("{sectors} sectors; a part has 1 to {SECTORS}"));
    }
    if path.as_os_str().is_empty() {
        return Err(format!("the name of the part is empty; {A_PART}"));
    }
    let made = match fs::create_dir(path) {
        Ok(()) => true,
        Err(error) if error.kind() == ErrorKind::AlreadyExists => false,
        Err(error) => return Err(whole::message(path, &error)),
    };
    let filled = fill(path, &Part::blank(sectors, Timings::typical()));
    if filled.is_err() && made {
        let _ = fs::remove_dir(path);
    }
    filled
}

fn fill(path: &Path, part: &Part) -> Result<(), String> {
    let _folder = Folder::lock(path, true)?;
    whole::sweep(path, &FILES);
    let mut names = fs::read_dir(path).map_err(|error| whole::message(path, &error))?;
    if names.next().is_some() {
        let right = "a blank part is made in a new folder or in an empty one";
        return Err(format!("{}: not empty; {right}", path.display()));
    }
    let text = part.timings.text(TYPICAL);
    let contents = [&part.main[..], &part.otp, &part.options, &part.sram, text.as_bytes()];
    let files: Vec<(&str, &[u8])> = FILES.into_iter().zip(contents).collect();
    whole::write_all(path, &files).inspect_err(|_| {
        for name in FILES {
            let _ = fs::remove_file(path.join(name));
        }
    })
}

/// The bytes of a regular file, cut off behind the first one too many, and how
/// long the file is.
fn read(path: &Path, longest: usize) -> Result<(Vec<u8>, u64), String> {
    let wrong = |error: io::Error| match error.kind() {
        ErrorKind::NotFound => format!("{}: missing; {A_PART}", path.display()),
        _ => whole::message(path, &error),
    };
    // Asked before it is opened: a pipe would wait for a writer.
    let metadata = fs::metadata(path).map_err(wrong)?;
    if !metadata.is_file() {
        return Err(format!("{}: not a regular file; {A_PART}", path.display()));
    }
    let mut bytes = Vec::new();
    let file = File::open(path).map_err(wrong)?;
    file.take(longest as u64 + 1).read_to_end(&mut bytes).map_err(wrong)?;
    let length = match bytes.len() > longest {
        true => metadata.len().max(bytes.len() as u64),
        false => bytes.len() as u64,
    };
    Ok((bytes, length))
}

fn wrong_length(path: &Path, length: u64, whose: &str, lengths: &[usize]) -> String {
    let right: Vec<String> = lengths.iter().map(|length| decimal(*length as u64)).collect();
    let right = match right.split_last() {
        Some((last, more)) if !more.is_empty() => format!("{} or {last}", more.join(", ")),
        _ => right.concat(),
    };
    format!("{}: {}; {whose} {right}", path.display(), counted(length as usize, "byte"))
}

#[cfg(test)]
mod tests {
    use super::*;
    use crate::whole::tests::{names, of, Temp};
    use std::os::unix::fs::{symlink, MetadataExt, PermissionsExt};
    use std::os::unix::net::UnixListener;

    const RIGHT: &str = "; a part is a folder with the files main.bin, otp.bin, options.bin, \
                         sram.bin and timings.txt";

    /// A part's files in the order of their names.
    const NAMES: [&str; 5] = ["main.bin", "options.bin", "otp.bin", "sram.bin", "timings.txt"];

    /// A folder with a blank part of two sectors.
    fn two_sectors() -> Temp {
        let temp = Temp::new();
        make_blank(temp.folder(), 2).unwrap();
        temp
    }

    fn opened(temp: &Temp) -> Result<(), String> {
        Folder::open(temp.folder(), false).map(|_| ())
    }

    /// What is said when the file is not as it should be.
    fn refused(temp: &Temp, name: &str, words: &str) {
        assert_eq!(opened(temp), of(&temp.path(name), words));
    }

    #[test]
    fn lengths_of_main_flash() {
        let lengths: Vec<usize> = (1..=12).map(sector_start).collect();
        assert_eq!(lengths[..4], [16_384, 32_768, 49_152, 65_536]);
        assert_eq!(lengths[4..8], [131_072, 262_144, 393_216, 524_288]);
        assert_eq!(lengths[8..], [655_360, 786_432, 917_504, 1_048_576]);
        for sectors in 1..=12 {
            assert_eq!(Part::blank(sectors, Timings::thousands()).sectors(), sectors);
        }
    }

    #[test]
    fn the_part_of_rehearse() {
        let part = Part::of_rehearse();
        assert!(part.main == [0xFF; 65_536] && part.otp == [0xFF; 528]);
        let rest = [0xFF; 14];
        assert_eq!(part.options, [&[0xFF, 0xAA], &rest[..]].concat());
        assert_eq!(part.sram, [0; 4_096]);
        assert_eq!((part.sectors(), part.timings), (4, Timings::thousands()));
    }

    #[test]
    fn a_blank_part_is_made_and_read() {
        let temp = Temp::new();
        for sectors in 1..=12 {
            let path = temp.path(&sectors.to_string());
            assert_eq!(make_blank(&path, sectors), Ok(()));
            assert_eq!(names(&path), NAMES);
            let (_folder, part) = Folder::open(&path, false).unwrap();
            assert!(part == Part::blank(sectors, Timings::typical()));
        }
    }

    #[test]
    fn the_example_is_a_blank_part() {
        let part = Part::blank(12, Timings::typical());
        assert!(part.main == include_bytes!("../../examples/part/main.bin"));
        assert_eq!(part.otp, include_bytes!("../../examples/part/otp.bin"));
        assert_eq!(part.options, include_bytes!("../../examples/part/options.bin"));
        assert_eq!(part.sram, include_bytes!("../../examples/part/sram.bin"));
        let text = include_str!("../../examples/part/timings.txt");
        assert_eq!(part.timings.text(TYPICAL), text);
        assert!(text.contains("REPLACE THEM BY YOUR\n# OWN"));
    }

    #[test]
    fn a_blank_part_replaces_nothing() {
        let temp = Temp::new();
        for sectors in [0, 13, usize::MAX] {
            let message = format!("{sectors} sectors; a part has 1 to 12");
            assert_eq!(make_blank(&temp.path("a"), sectors), Err(message));
        }
        fs::write(temp.path("file"), b"mine").unwrap();
        let not_empty = ": not empty; a blank part is made in a new folder or in an empty one";
        assert_eq!(make_blank(temp.folder(), 1), of(temp.folder(), not_empty));
        let no_folder = format!(": Not a directory{RIGHT}");
        assert_eq!(make_blank(&temp.path("file"), 1), of(&temp.path("file"), &no_folder));
        let missing = of(&temp.path("b/c"), ": No such file or directory");
        assert_eq!(make_blank(&temp.path("b/c"), 1), missing);
        assert_eq!(temp.names(), ["file"]);
    }

    #[test]
    fn a_blank_part_is_made_after_an_interruption() {
        let temp = Temp::new();
        fs::write(temp.path("main.bin.17.0.new"), b"half").unwrap();
        assert_eq!(make_blank(temp.folder(), 1), Ok(()));
        assert_eq!(temp.names(), NAMES);
    }

    #[test]
    fn cells_are_saved() {
        let temp = two_sectors();
        fs::write(temp.path("otp.bin.17.0.new"), b"half").unwrap();
        let (folder, mut part) = Folder::open(temp.folder(), true).unwrap();
        part.main[32_767] = 1;
        part.otp[527] = 2;
        part.options[15] = 3;
        part.sram[4_095] = 4;
        part.timings = Timings::thousands();
        assert_eq!(folder.save(&part), Ok(()));
        assert_eq!(temp.names(), NAMES);
        drop(folder);
        let (_folder, read) = Folder::open(temp.folder(), false).unwrap();
        // Timings are the operator's own and are not written back.
        assert!(read == Part { timings: Timings::typical(), ..part });
    }

    #[test]
    fn a_file_without_a_change_is_left_alone() {
        let temp = two_sectors();
        let file = |name: &str| fs::metadata(temp.path(name)).unwrap().ino();
        let before = FILES.map(file);
        let (folder, mut part) = Folder::open(temp.folder(), true).unwrap();
        assert_eq!(folder.save(&part), Ok(()));
        assert_eq!(FILES.map(file), before);
        (part.otp[0], part.sram[0]) = (0, 1);
        assert_eq!(folder.save(&part), Ok(()));
        let after = FILES.map(file);
        let changed = (0..FILES.len()).filter(|&i| after[i] != before[i]);
        assert_eq!(changed.map(|i| FILES[i]).collect::<Vec<_>>(), ["otp.bin", "sram.bin"]);
    }

    #[test]
    fn a_save_that_fails_changes_nothing() {
        let temp = two_sectors();
        let (folder, part) = Folder::open(temp.folder(), true).unwrap();
        let protected = fs::Permissions::from_mode(0o444);
        fs::set_permissions(temp.path("options.bin"), protected).unwrap();
        let mut changed = part.clone();
        changed.main[0] = 0;
        changed.options[0] = 0;
        let words = ": protected from writing, so it is not replaced";
        assert_eq!(folder.save(&changed), of(&temp.path("options.bin"), words));
        assert_eq!(temp.names(), NAMES);
        assert!(fs::read(temp.path("main.bin")).unwrap() == part.main);
    }

    #[test]
    fn a_part_is_locked_while_it_is_used() {
        let temp = two_sectors();
        let open = |saving| Folder::open(temp.folder(), saving).map(|_| ());
        let used =
            |user| of(temp.folder(), &format!(": in use by {user}; try again when it has ended"));
        let saving = Folder::open(temp.folder(), true).unwrap();
        assert_eq!(open(true), used("another run"));
        assert_eq!(open(false), used("another run that saves it"));
        assert_eq!(make_blank(temp.folder(), 1), used("another run"));
        drop(saving);
        let reading = Folder::open(temp.folder(), false).unwrap();
        assert_eq!((open(false), open(true)), (Ok(()), used("another run")));
        drop(reading);
        assert_eq!(open(true), Ok(()));
    }

    #[test]
    fn a_folder_that_is_none() {
        let temp = two_sectors();
        let open = |name| Folder::open(&temp.path(name), false).map(|_| ());
        let missing = format!(": No such file or directory{RIGHT}");
        assert_eq!(open("a"), of(&temp.path("a"), &missing));
        let file = format!(": Not a directory{RIGHT}");
        assert_eq!(open("main.bin"), of(&temp.path("main.bin"), &file));
        let empty = Folder::open(Path::new(""), false).map(|_| ());
        assert_eq!(empty, Err(format!("the name of the part is empty{RIGHT}")));
    }

    #[test]
    fn a_file_of_a_wrong_length() {
        let temp = two_sectors();
        let cut = |name: &str, length: u64| {
            File::options().write(true).open(temp.path(name)).unwrap().set_len(length).unwrap();
        };
        let right = "a part with 1 to 12 sectors has 16,384, 32,768, 49,152, 65,536, 131,072, \
                     262,144, 393,216, 524,288, 655,360, 786,432, 917,504 or 1,048,576";
        let lengths = [
            (0, "0 bytes"),
            (1, "1 byte"),
            (1000, "1,000 bytes"),
            (10 << 30, "10,737,418,240 bytes"),
        ];
        for (length, words) in lengths {
            cut("main.bin", length);
            refused(&temp, "main.bin", &format!(": {words}; {right}"));
        }
        cut("main.bin", 16_384);
        cut("otp.bin", 512);
        refused(&temp, "otp.bin", ": 512 bytes; OTP has 528");
        cut("otp.bin", 528);
        cut("options.bin", 17);
        refused(&temp, "options.bin", ": 17 bytes; the option cells have 16");
        cut("options.bin", 16);
        for (length, words) in [(4_095, "4,095"), (4_097, "4,097")] {
            cut("sram.bin", length);
            refused(&temp, "sram.bin", &format!(": {words} bytes; the backup SRAM has 4,096"));
        }
        cut("sram.bin", 4_096);
        cut("timings.txt", 65_537);
        refused(&temp, "timings.txt", ": 65,537 bytes; the timings have at most 65,536");
    }

    #[test]
    fn a_file_that_is_missing_or_no_file() {
        for name in FILES {
            let temp = two_sectors();
            fs::remove_file(temp.path(name)).unwrap();
            refused(&temp, name, &format!(": missing{RIGHT}"));
            let socket = UnixListener::bind(temp.path(name)).unwrap();
            refused(&temp, name, &format!(": not a regular file{RIGHT}"));
            drop(socket);
            fs::remove_file(temp.path(name)).unwrap();
            fs::create_dir(temp.path(name)).unwrap();
            refused(&temp, name, &format!(": not a regular file{RIGHT}"));
        }
    }

    #[test]
    fn links() {
        let (temp, other) = (two_sectors(), two_sectors());
        for name in FILES {
            fs::remove_file(temp.path(name)).unwrap();
            symlink(other.path(name), temp.path(name)).unwrap();
            if name != TIMINGS {
                refused(&temp, name, ": a link; the cells of a part are its own");
                fs::remove_file(temp.path(name)).unwrap();
                fs::copy(other.path(name), temp.path(name)).unwrap();
            }
        }
        assert_eq!(opened(&temp), Ok(()));
        fs::remove_file(temp.path(TIMINGS)).unwrap();
        symlink("/dev/zero", temp.path(TIMINGS)).unwrap();
        refused(&temp, TIMINGS, &format!(": not a regular file{RIGHT}"));
    }

    #[test]
    fn wrong_timings_are_named_with_their_file() {
        let temp = two_sectors();
        fs::write(temp.path(TIMINGS), "# mine\nprogram, x8: 16\n").unwrap();
        let words =
            ":2: 16: the unit is missing: us, ms or s; a line is as: erase 16 KiB, x32: 250 ms";
        refused(&temp, TIMINGS, words);
    }
}
