//! A folder inside a folder, in which files stand until all are whole.
use crate::folder::{failed, is_there, shown, NewFile};
use crate::output;
use crate::typed;
use crate::words::several;
use std::fs::{self, DirEntry, File};
use std::io::{self, ErrorKind};
use std::path::{Path, PathBuf};

/// The name of the folder inside. One is enough, since a run that writes has locked the folder around it.
const PART: &str = "lamp.part";

/// The files of a run on their way, and those of them that were moved to their places.
pub struct Part<'a> {
    folder: &'a Path,
    path: PathBuf,
    files: &'a [&'a NewFile],
    moved: Vec<PathBuf>,
}

impl<'a> Part<'a> {
    pub fn new(folder: &'a Path, files: &'a [&'a NewFile]) -> Result<Self, String> {
        let path = folder.join(PART);
        match fs::create_dir(&path) {
            Ok(()) => Ok(Part { folder, path, files, moved: Vec::new() }),
            Err(error) if error.kind() == ErrorKind::AlreadyExists => Err(of_another(&path)),
            Err(error) => Err(failed(folder, &error)),
        }
    }

    /// Writes the files and moves them to their places. If that fails or the program is asked to stop, all are taken back. What could
    /// not be removed is told.
    pub fn write(mut self) -> Result<(), String> {
        let ended = self.fill().and_then(|()| self.hand_over());
        let kept = if ended.is_err() { self.take_back() } else { 0 };
        let cleared = self.remove();
        let cards = (kept > 0).then(|| several(kept, "card"));
        let left: Vec<_> = cards.into_iter().chain(cleared.is_err().then(|| PART.to_string())).collect();
        match (ended, cleared) {
            (Ok(()), cleared) => cleared.map_err(|error| format!("{}; the cards were written", failed(&self.path, &error))),
            (Err(why), _) if left.is_empty() => Err(format!("{why}; nothing was written")),
            (Err(why), _) => Err(format!("{why}; {} could not be removed", left.join(" and "))),
        }
    }

    fn fill(&self) -> Result<(), String> {
        for NewFile { name, bytes } in self.files {
            go_on()?;
            let made = File::create_new(self.path.join(name)).and_then(|mut file| output::write_to(&mut file, bytes));
            made.map_err(|error| failed(&self.folder.join(name), &error))?;
        }
        Ok(())
    }

    fn hand_over(&mut self) -> Result<(), String> {
        for NewFile { name, bytes } in self.files {
            go_on()?;
            let place = self.folder.join(name);
            if put(&self.path.join(name), &place, bytes)? {
                self.moved.push(place);
            }
        }
        Ok(())
    }

    /// Removes the files that were moved. Answers how many of them are there still.
    fn take_back(&self) -> u64 {
        self.moved.iter().filter(|place| gone(fs::remove_file(place)).is_err()).count() as u64
    }

    /// Removes the files that stand in the folder still, and the folder, which is empty then.
    fn remove(&self) -> io::Result<()> {
        self.files.iter().for_each(|file| drop(fs::remove_file(self.path.join(&file.name))));
        gone(fs::remove_dir(&self.path))
    }
}

/// Whether the program may go on, or was asked to stop.
fn go_on() -> Result<(), String> {
    if output::is_stopped() {
        return Err("stopped".to_string());
    }
    Ok(())
}

/// What is not there is gone too.
fn gone(removed: io::Result<()>) -> io::Result<()> {
    match removed {
        Err(error) if error.kind() == ErrorKind::NotFound => Ok(()),
        removed => removed,
    }
}

/// Puts a file to its place, and replaces none there. Answers whether it is this run's: one that is there with the same bytes is not.
fn put(from: &Path, place: &Path, bytes: &[u8]) -> Result<bool, String> {
    match fs::hard_link(from, place) {
        Ok(()) => Ok(true),
        Err(error) if error.kind() == ErrorKind::AlreadyExists && is_there(place, bytes)? => Ok(false),
        Err(error) if has_no_links(&error) => put_without_links(from, place, bytes),
        Err(error) => Err(failed(place, &error)),
    }
}

/// Whether an error is what file systems without links answer. They do not agree on one.
fn has_no_links(error: &io::Error) -> bool {
    use ErrorKind::{CrossesDevices, PermissionDenied, TooManyLinks, Unsupported};
    matches!(error.kind(), PermissionDenied | Unsupported | TooManyLinks | CrossesDevices)
}

/// Looks at the place and then moves the file there. A file that appears between the two is replaced.
fn put_without_links(from: &Path, place: &Path, bytes: &[u8]) -> Result<bool, String> {
    if is_there(place, bytes)? {
        return Ok(false);
    }
    fs::rename(from, place).map(|()| true).map_err(|error| failed(place, &error))
}

/// What is said of a folder that is there without a lock: it may be of a run that goes on.
fn of_another(path: &Path) -> String {
    format!("{}: this is of another run; remove it if that has ended", shown(path))
}

/// Removes the folder that a killed run left, with the cards in it. Where anything else is found, nothing is removed.
pub fn clear(folder: &Path, is_locked: bool) -> Result<(), String> {
    let path = folder.join(PART);
    match fs::symlink_metadata(&path) {
        Err(error) if error.kind() == ErrorKind::NotFound => return Ok(()),
        Err(error) => return Err(failed(&path, &error)),
        Ok(found) if !found.is_dir() => return Err(format!("{}: not a folder; a run needs this name", shown(&path))),
        Ok(_) if !is_locked => return Err(of_another(&path)),
        Ok(_) => {}
    }
    if fs::remove_dir(&path).is_ok() {
        return Ok(());
    }
    let cleared = cards_in(&path)?.iter().try_for_each(fs::remove_file).and_then(|()| fs::remove_dir(&path));
    cleared.map_err(|error| failed(&path, &error))
}

/// The paths of the cards in a folder that has nothing else.
fn cards_in(path: &Path) -> Result<Vec<PathBuf>, String> {
    let mut out = Vec::new();
    for entry in fs::read_dir(path).map_err(|error| failed(path, &error))? {
        let entry = entry.map_err(|error| failed(path, &error))?;
        if !is_card(&entry) {
            return Err(format!("{}: this is not of a killed run; move it away", shown(&entry.path())));
        }
        out.push(entry.path());
    }
    Ok(out)
}

/// Whether this is a file that has a practice card's name.
fn is_card(entry: &DirEntry) -> bool {
    let name = entry.file_name();
    let number = name.to_str().and_then(|name| name.strip_suffix(".card")).map(|number| typed::number(number, u32::MAX.into()));
    matches!(number, Some(Ok(1..))) && entry.file_type().is_ok_and(|kind| kind.is_file())
}
