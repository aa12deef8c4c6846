//! Files that are written whole or not at all.

use std::ffi::OsString;
use std::fs::{self, File, Permissions};
use std::io::{self, ErrorKind, Write};
use std::path::{Path, PathBuf};

/// Writes a file: whatever interrupts, it has its old bytes or the new ones.
pub fn write(path: &Path, bytes: &[u8]) -> Result<(), String> {
    let file = followed(path)?;
    match (file.parent(), file.file_name()) {
        (Some(folder), Some(name)) => write_all(folder, &[(name, bytes)]),
        _ => Err(format!("{}: no name of a file", path.display())),
    }
}

/// Writes files of one folder, each whole or not at all. All bytes are on the
/// disk before the first file changes, so that only an interruption between
/// the renames leaves some files new and some old.
pub fn write_all<N: AsRef<Path>>(folder: &Path, files: &[(N, &[u8])]) -> Result<(), String> {
    // Opened first: a folder that cannot be synced is left as it is.
    let handle = open_folder(folder).map_err(|error| message(folder, &error))?;
    let mut written = Vec::new();
    for (name, bytes) in files {
        written.push(New::written(folder.join(name), bytes)?);
    }
    place(&mut written)?;
    handle.sync_all().map_err(|error| {
        format!("{}; all is written, but a power cut may undo it", message(folder, &error))
    })
}

/// Opens a folder, and nothing else: a pipe would wait for a writer. An empty
/// path is the current folder, as the parent of a bare file name is.
pub fn open_folder(folder: &Path) -> io::Result<File> {
    File::open(folder.join("."))
}

/// Removes the new files that interrupted writes of these files left behind.
/// Only for a folder that is locked, or another run may be writing them.
pub fn sweep(folder: &Path, names: &[&str]) {
    // What cannot be removed is no hindrance: a new file gets another name.
    for entry in fs::read_dir(folder).into_iter().flatten().flatten() {
        let left = entry.file_name();
        if left.to_str().is_some_and(|left| names.iter().any(|name| is_new_of(left, name))) {
            let _ = fs::remove_file(entry.path());
        }
    }
}

/// What went wrong with a file, without the number that the system adds.
pub fn message(path: &Path, error: &io::Error) -> String {
    let cause = error.to_string();
    let words = cause.split(" (os error").next().unwrap_or(&cause);
    format!("{}: {words}", path.display())
}

/// A written file beside the one whose place it is to take. It is removed
/// when it is dropped before that.
struct New {
    path: PathBuf,
    new: PathBuf,
    placed: bool,
    // Open until all renames are done: each would have to free the old bytes
    // too otherwise, and the time between them would be many times as long.
    _old: Option<File>,
}

impl New {
    fn written(path: PathBuf, bytes: &[u8]) -> Result<New, String> {
        let permissions = replaceable(&path)?;
        let (new, mut file) = New::created(&path).map_err(|error| message(&path, &error))?;
        let filled = || {
            // Before the bytes: nobody reads them who could not read the old ones.
            if let Some(permissions) = permissions {
                file.set_permissions(permissions)?;
            }
            file.write_all(bytes)?;
            file.sync_all()
        };
        filled().map_err(|error| message(&path, &error))?;
        Ok(new)
    }

    fn created(path: &Path) -> io::Result<(New, File)> {
        let (path, mut number) = (path.to_path_buf(), 0);
        loop {
            let new = new_name(&path, number);
            match File::options().write(true).create_new(true).open(&new) {
                Ok(file) => {
                    let _old = File::open(&path).ok();
                    return Ok((New { path, new, placed: false, _old }, file));
                }
                // Left by an earlier run that had the same process id.
                Err(error) if error.kind() == ErrorKind::AlreadyExists => number += 1,
                Err(error) => return Err(error),
            }
        }
    }
}

impl Drop for New {
    fn drop(&mut self) {
        if !self.placed {
            let _ = fs::remove_file(&self.new);
        }
    }
}

/// A link stays, and the file that it names is replaced.
fn followed(path: &Path) -> Result<PathBuf, String> {
    if !path.is_symlink() {
        return Ok(path.to_path_buf());
    }
    let named = fs::metadata(path).map_err(|error| message(path, &error))?;
    if !named.is_file() {
        return Err(no_file(path));
    }
    path.canonicalize().map_err(|error| message(path, &error))
}

fn no_file(path: &Path) -> String {
    format!("{}: not a regular file, so it is not replaced", path.display())
}

/// The permissions of the file that is to be replaced, if there is one. A
/// rename would replace a device or a protected file too.
fn replaceable(path: &Path) -> Result<Option<Permissions>, String> {
    let old = match fs::symlink_metadata(path) {
        Ok(old) => old,
        Err(error) if error.kind() == ErrorKind::NotFound => return Ok(None),
        Err(error) => return Err(message(path, &error)),
    };
    if !old.is_file() {
        return Err(no_file(path));
    }
    if old.permissions().readonly() {
        return Err(format!("{}: protected from writing, so it is not replaced", path.display()));
    }
    Ok(Some(old.permissions()))
}

fn place(written: &mut [New]) -> Result<(), String> {
    let mut placed = Vec::new();
    for new in written {
        if let Err(error) = fs::rename(&new.new, &new.path) {
            let before = match placed.is_empty() {
                true => "nothing has changed".to_string(),
                false => format!("already replaced: {}", placed.join(", ")),
            };
            return Err(format!("{}; {before}", message(&new.path, &error)));
        }
        new.placed = true;
        placed.push(new.path.display().to_string());
    }
    Ok(())
}

/// `main.bin.PROCESS.NUMBER.new`: no two runs write to the same new file.
fn new_name(path: &Path, number: u32) -> PathBuf {
    let mut name = OsString::from(path);
    name.push(format!(".{}.{number}.new", std::process::id()));
    PathBuf::from(name)
}

fn is_new_of(left: &str, name: &str) -> bool {
    let rest = left.strip_prefix(name).and_then(|rest| rest.strip_prefix('.'));
    let numbers = rest.and_then(|rest| rest.strip_suffix(".new")).and_then(|n| n.split_once('.'));
    let is_number = |text: &str| !text.is_empty() && text.bytes().all(|b| b.is_ascii_digit());
    numbers.is_some_and(|(process, number)| is_number(process) && is_number(number))
}

#[cfg(test)]
pub mod tests {
    use super::*;
    use std::os::unix::fs::{symlink, PermissionsExt};
    use std::sync::atomic::{AtomicU32, Ordering};

    /// A new folder that is removed at the end of a test.
    pub struct Temp(PathBuf);

    impl Temp {
        pub fn new() -> Temp {
            static COUNT: AtomicU32 = AtomicU32::new(0);
            let count = COUNT.fetch_add(1, Ordering::Relaxed);
            let name = format!("station-{}-{count}", std::process::id());
            let path = std::env::temp_dir().join(name);
            fs::create_dir(&path).unwrap();
            Temp(path)
        }

        pub fn path(&self, name: &str) -> PathBuf {
            self.0.join(name)
        }

        pub fn folder(&self) -> &Path {
            &self.0
        }

        pub fn names(&self) -> Vec<String> {
            names(&self.0)
        }
    }

    impl Drop for Temp {
        fn drop(&mut self) {
            let _ = fs::remove_dir_all(&self.0);
        }
    }

    pub fn names(folder: &Path) -> Vec<String> {
        let name = |entry: io::Result<fs::DirEntry>| entry.unwrap().file_name();
        let mut names: Vec<String> =
            fs::read_dir(folder).unwrap().map(|e| name(e).into_string().unwrap()).collect();
        names.sort();
        names
    }

    /// The message that begins with the path of a file.
    pub fn of(path: &Path, words: &str) -> Result<(), String> {
        Err(format!("{}{words}", path.display()))
    }

    #[test]
    fn a_file_is_made_and_replaced() {
        let temp = Temp::new();
        let path = temp.path("a");
        assert_eq!(write(&path, b"one"), Ok(()));
        assert_eq!(fs::read(&path).unwrap(), b"one");
        assert_eq!(write(&path, b""), Ok(()));
        assert_eq!(fs::read(&path).unwrap(), b"");
        assert_eq!(temp.names(), ["a"]);
    }

    #[test]
    fn the_permissions_stay() {
        let temp = Temp::new();
        let path = temp.path("a");
        write(&path, b"one").unwrap();
        fs::set_permissions(&path, Permissions::from_mode(0o620)).unwrap();
        write(&path, b"two").unwrap();
        assert_eq!(fs::metadata(&path).unwrap().permissions().mode() & 0o777, 0o620);
    }

    #[test]
    fn what_is_protected_or_no_file_is_not_replaced() {
        let temp = Temp::new();
        let path = temp.path("a");
        write(&path, b"one").unwrap();
        fs::set_permissions(&path, Permissions::from_mode(0o444)).unwrap();
        let protected = of(&path, ": protected from writing, so it is not replaced");
        assert_eq!(write(&path, b"two"), protected);
        assert_eq!(fs::read(&path).unwrap(), b"one");
        fs::create_dir(temp.path("b")).unwrap();
        let no_file = of(&temp.path("b"), ": not a regular file, so it is not replaced");
        assert_eq!(write(&temp.path("b"), b"two"), no_file);
        assert_eq!(temp.names(), ["a", "b"]);
    }

    #[test]
    fn the_file_behind_a_link_is_replaced() {
        let temp = Temp::new();
        write(&temp.path("a"), b"one").unwrap();
        symlink("a", temp.path("link")).unwrap();
        symlink("nothing", temp.path("open")).unwrap();
        symlink("/dev/null", temp.path("null")).unwrap();
        assert_eq!(write(&temp.path("link"), b"two"), Ok(()));
        assert_eq!(fs::read(temp.path("a")).unwrap(), b"two");
        assert!(temp.path("link").is_symlink());
        let nothing = of(&temp.path("open"), ": No such file or directory");
        assert_eq!(write(&temp.path("open"), b"two"), nothing);
        let device = of(&temp.path("null"), ": not a regular file, so it is not replaced");
        assert_eq!(write(&temp.path("null"), b"two"), device);
        assert_eq!(temp.names(), ["a", "link", "null", "open"]);
    }

    #[test]
    fn a_message_names_what_is_wrong() {
        let temp = Temp::new();
        write(&temp.path("a"), b"one").unwrap();
        let missing = of(&temp.path("b"), ": No such file or directory");
        assert_eq!(write(&temp.path("b/c"), b"two"), missing);
        assert_eq!(write(&temp.path("a/c"), b"two"), of(&temp.path("a"), ": Not a directory"));
        assert_eq!(write(Path::new(".."), b"two"), of(Path::new(".."), ": no name of a file"));
        assert_eq!(write(Path::new(""), b"two"), of(Path::new(""), ": no name of a file"));
    }

    #[test]
    fn a_left_over_is_no_hindrance() {
        let temp = Temp::new();
        let path = temp.path("a");
        let left = new_name(&path, 0);
        assert_eq!(left, temp.path(&format!("a.{}.0.new", std::process::id())));
        fs::write(&left, b"half").unwrap();
        assert_eq!(write(&path, b"one"), Ok(()));
        assert_eq!(fs::read(&path).unwrap(), b"one");
        assert_eq!(fs::read(&left).unwrap(), b"half");
    }

    #[test]
    fn left_overs_and_nothing_else_are_swept() {
        let temp = Temp::new();
        let left = ["a.1.0.new", "a.23.45.new", "b.6.7.new"];
        let kept = [".new", "a", "a..0.new", "a.1.0.new.txt", "a.1.new", "a.1.x.new", "a.new"];
        for name in left.iter().chain(&kept).chain(&["c.1.0.new"]) {
            fs::write(temp.path(name), b"").unwrap();
        }
        sweep(temp.folder(), &["a", "b"]);
        assert_eq!(temp.names(), [&kept[..], &["c.1.0.new"]].concat());
    }

    #[test]
    fn all_or_nothing_is_replaced() {
        let temp = Temp::new();
        fs::write(temp.path("a"), b"old").unwrap();
        fs::create_dir(temp.path("b")).unwrap();
        let files: [(&str, &[u8]); 2] = [("a", b"new"), ("b", b"new")];
        let no_file = of(&temp.path("b"), ": not a regular file, so it is not replaced");
        assert_eq!(write_all(temp.folder(), &files), no_file);
        assert_eq!(fs::read(temp.path("a")).unwrap(), b"old");
        assert_eq!(temp.names(), ["a", "b"]);
        fs::remove_dir(temp.path("b")).unwrap();
        assert_eq!(write_all(temp.folder(), &files), Ok(()));
        assert_eq!(fs::read(temp.path("a")).unwrap(), b"new");
        assert_eq!(fs::read(temp.path("b")).unwrap(), b"new");
        assert_eq!(temp.names(), ["a", "b"]);
    }

    #[test]
    fn a_rename_that_fails_tells_what_is_replaced() {
        let temp = Temp::new();
        let new = |name: &str| New::written(temp.path(name), b"new").unwrap();
        let mut written = vec![new("a"), new("b"), new("c")];
        fs::create_dir(temp.path("b")).unwrap();
        let words = format!(": Is a directory; already replaced: {}", temp.path("a").display());
        assert_eq!(place(&mut written), of(&temp.path("b"), &words));
        let nothing = of(&temp.path("b"), ": Is a directory; nothing has changed");
        assert_eq!(place(&mut written[1..]), nothing);
        drop(written);
        assert_eq!(temp.names(), ["a", "b"]);
    }
}
