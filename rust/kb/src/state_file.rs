//! STATE files, read and written. A call that writes one keeps others from
//! writing it meanwhile, and writes it whole or not at all.

use crate::task::Task;
use crate::{input, say, Failure};
use std::fs::{self, File, Metadata, TryLockError};
use std::io::{self, ErrorKind, Write};
use std::os::unix::fs::{fchown, MetadataExt, OpenOptionsExt};
use std::path::{Path, PathBuf};
use std::process;
use task_text::state::{self, StateFile};

/// The state in a file.
pub fn read(name: &str, task: &Task) -> Result<StateFile, Failure> {
    let file = File::open(name).map_err(|error| input::unreadable(name, error))?;
    state_in(name, &file, task)
}

fn state_in(name: &str, file: &File, task: &Task) -> Result<StateFile, Failure> {
    let text = input::text(name, input::bytes_of(name, file)?)?;
    let read = state::read(&text, &task.names, task.atoms());
    read.map_err(|mistake| input::failure(name, &mistake))
}

/// Writes a text into a file, which need not be there.
pub fn write(name: &str, text: &str) -> Result<(), Failure> {
    let written = match Locked::open(name) {
        Ok(locked) => locked.replace(text),
        Err(error) if error.kind() == ErrorKind::NotFound => replace(&target(name), None, text),
        Err(error) => Err(error),
    };
    written.map_err(|error| input::unwritable(name, error))
}

/// Writes the text that `change` makes of the state in a file. No other call
/// writes the file from before it is read until then.
pub fn change(
    name: &str,
    task: &Task,
    change: impl FnOnce(StateFile) -> Result<String, Failure>,
) -> Result<String, Failure> {
    let locked = Locked::open(name).map_err(|error| input::unwritable(name, error))?;
    let text = change(state_in(name, &locked.file, task)?)?;
    let written = locked.replace(&text);
    written.map_err(|error| input::unwritable(name, error))?;
    Ok(text)
}

/// A file that no other call writes until this is dropped.
struct Locked {
    target: PathBuf,
    file: File,
}

impl Locked {
    /// Opens the file, and waits until no other call writes it. That call has
    /// put a new file in its place, which is to be opened then.
    fn open(name: &str) -> io::Result<Locked> {
        let mut said = false;
        loop {
            let target = target(name);
            let file = File::options().read(true).write(true).open(&target)?;
            if !file.metadata()?.is_file() {
                return Err(io::Error::other("it is not a plain file"));
            }
            if !try_lock(&file)? {
                if !said {
                    say(&format!("kb: another call writes {name}; waiting for it"));
                }
                said = true;
                file.lock().map_err(unlockable)?;
            }
            if is_at(name, &file)? {
                return Ok(Locked { target, file });
            }
        }
    }

    fn replace(&self, text: &str) -> io::Result<()> {
        replace(&self.target, Some(self.file.metadata()?), text)
    }
}

/// What a name stands for: behind symbolic links, which need not lead to a file.
fn target(name: &str) -> PathBuf {
    const MOST_LINKS: usize = 40; // as many as Linux follows
    let mut target = PathBuf::from(name);
    for _ in 0..MOST_LINKS {
        let Ok(next) = fs::read_link(&target) else {
            break;
        };
        target.pop();
        target.push(next);
    }
    target
}

/// Locks a file; false if another call has locked it.
fn try_lock(file: &File) -> io::Result<bool> {
    match file.try_lock() {
        Ok(()) => Ok(true),
        Err(TryLockError::WouldBlock) => Ok(false),
        Err(TryLockError::Error(error)) => Err(unlockable(error)),
    }
}

/// Some file systems have no locks; nothing is written there.
fn unlockable(error: io::Error) -> io::Error {
    io::Error::other(format!("it cannot be locked: {error}"))
}

/// Whether a name stands for an open file still.
fn is_at(name: &str, file: &File) -> io::Result<bool> {
    let held = file.metadata()?;
    let same = |named: Metadata| (named.dev(), named.ino()) == (held.dev(), held.ino());
    Ok(fs::metadata(name).is_ok_and(same))
}

/// Puts a new file with the text in the place of a file, whose permissions and,
/// where the caller may, owner and group it gets.
fn replace(target: &Path, old: Option<Metadata>, text: &str) -> io::Result<()> {
    let folder = match target.parent() {
        Some(folder) if folder != Path::new("") => folder,
        _ => Path::new("."),
    };
    let (path, file) = temporary(folder, old.is_some())?;
    let written = fill(file, old, text).and_then(|()| fs::rename(&path, target));
    match written {
        Ok(()) => {
            // The new file is in its place, also where a folder cannot be synced.
            let _ = File::open(folder).and_then(|folder| folder.sync_all());
        }
        Err(_) => {
            let _ = fs::remove_file(&path);
        }
    }
    written
}

/// A file that was not there. One that gets the permissions of another file is
/// its owner's alone until then.
fn temporary(folder: &Path, is_private: bool) -> io::Result<(PathBuf, File)> {
    let mode = if is_private { 0o600 } else { 0o666 };
    let mut options = File::options();
    options.write(true).create_new(true).mode(mode);
    let mut number = 0;
    loop {
        let path = folder.join(format!(".kb-{}-{number}", process::id()));
        match options.open(&path) {
            Err(error) if error.kind() == ErrorKind::AlreadyExists => number += 1,
            created => return created.map(|file| (path, file)),
        }
    }
}

fn fill(mut file: File, old: Option<Metadata>, text: &str) -> io::Result<()> {
    if let Some(old) = old {
        // Only the superuser can give a file away; its group can be kept by members.
        let _ = fchown(&file, Some(old.uid()), Some(old.gid()))
            .or_else(|_| fchown(&file, None, Some(old.gid())));
        file.set_permissions(old.permissions())?;
    }
    file.write_all(text.as_bytes())?;
    file.sync_all()
}

#[cfg(test)]
mod tests {
    use super::*;
    use std::os::unix::fs::{symlink, PermissionsExt};

    /// A folder for a test.
    fn folder(test: &str) -> PathBuf {
        let folder = std::env::temp_dir().join(format!("kb-{test}-{}", process::id()));
        fs::create_dir_all(&folder).expect("a temporary folder");
        folder
    }

    fn names_in(folder: &Path) -> Vec<String> {
        let entries = fs::read_dir(folder).expect("it is a folder");
        let names = entries.map(|entry| entry.expect("an entry").file_name());
        let mut names: Vec<String> = names.map(|name| name.to_string_lossy().into()).collect();
        names.sort();
        names
    }

    #[test]
    fn links_and_permissions_stay() {
        let folder = folder("links");
        let [first, second, file] = ["first", "second", "file"].map(|name| folder.join(name));
        symlink("second", &first).expect("a link");
        symlink(&file, &second).expect("a link");
        let name = first.to_string_lossy().into_owned();
        for text in ["one\n", "two\n"] {
            write(&name, text).expect("it can be written");
            assert_eq!(fs::read_to_string(&file).expect("it is there"), text);
            fs::set_permissions(&file, PermissionsExt::from_mode(0o640)).expect("it is ours");
        }
        write(&name, "three\n").expect("it can be written");
        let mode = fs::metadata(&file)
            .expect("it is there")
            .permissions()
            .mode();
        assert_eq!(mode & 0o777, 0o640);
        assert_eq!(names_in(&folder), ["file", "first", "second"]);
        assert!(fs::read_link(&first).is_ok() && fs::read_link(&second).is_ok());
        fs::remove_dir_all(&folder).expect("it is ours");
    }

    #[test]
    fn nothing_stays_of_a_failure() {
        let folder = folder("failure");
        let [inner, link] = ["inner", "link"].map(|name| folder.join(name));
        fs::create_dir(&inner).expect("a folder");
        symlink("link", &link).expect("a link to itself");
        for path in [
            inner.join("none/file"),
            inner.clone(),
            link,
            "/dev/null".into(),
        ] {
            let name = path.to_string_lossy().into_owned();
            assert!(
                matches!(write(&name, "x"), Err(Failure::Usage(_))),
                "{name}"
            );
        }
        assert!(replace(&inner, None, "x").is_err());
        assert_eq!(names_in(&folder), ["inner", "link"]);
        assert_eq!(names_in(&inner), [] as [&str; 0]);
        fs::remove_dir_all(&folder).expect("it is ours");
    }
}
