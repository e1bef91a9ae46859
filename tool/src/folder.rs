//! Files that are written into a folder: all of them whole, or none. No file that is there already is changed.
use crate::input::{printable, reason};
use crate::output;
use crate::part::{self, Part};
use std::fs::{self, File, TryLockError};
use std::io;
use std::path::Path;

/// A file that is to be written.
#[derive(Clone, Debug)]
pub struct NewFile {
    pub name: String,
    pub bytes: Vec<u8>,
}

/// Writes files into a folder that is there. A file that is there already with the same bytes is left alone, and anything else of a
/// file's name is an error before the first byte is written. The folder is locked for the whole run, so that what stands there of
/// another run is of one that was killed. Signals are noted only from the first byte on: before it they may end the program at once.
pub fn write(folder: &Path, files: &[NewFile]) -> Result<(), String> {
    is_folder(folder)?;
    let lock = lock(folder);
    let cleared = part::clear(folder, lock.is_some());
    let missing = cleared.and_then(|()| missing(folder, files)).map_err(nothing_written)?;
    if missing.is_empty() {
        return Ok(());
    }
    output::note_stops();
    Part::new(folder, &missing).map_err(nothing_written)?.write()
}

fn nothing_written(why: String) -> String {
    format!("{why}; nothing was written")
}

/// What is said of a path where something could not be done.
pub fn failed(path: &Path, error: &io::Error) -> String {
    format!("{}: {}", shown(path), reason(error))
}

pub fn shown(path: &Path) -> String {
    printable(path.as_os_str())
}

fn is_folder(path: &Path) -> Result<(), String> {
    match fs::metadata(path) {
        Ok(found) if found.is_dir() => Ok(()),
        Ok(_) => Err(format!("{}: not a folder", shown(path))),
        Err(error) if error.kind() == io::ErrorKind::NotFound => Err(format!("{}: no such folder; make it first", shown(path))),
        Err(error) => Err(nothing_written(failed(path, &error))),
    }
}

/// Waits until no other run writes into the folder, and keeps others out as long as the answer lives. There is none where the folder
/// cannot be opened or its file system has no locks.
fn lock(folder: &Path) -> Option<File> {
    let opened = File::open(folder).ok()?;
    if let Err(TryLockError::WouldBlock) = opened.try_lock() {
        output::complain(&format!("lamp: {}: waiting for another run to end\n", shown(folder)));
    }
    opened.lock().is_ok().then_some(opened)
}

/// The files that are not in the folder yet.
fn missing<'a>(folder: &Path, files: &'a [NewFile]) -> Result<Vec<&'a NewFile>, String> {
    let mut out = Vec::new();
    for file in files {
        if !is_there(&folder.join(&file.name), &file.bytes)? {
            out.push(file);
        }
    }
    Ok(out)
}

/// Whether the file is there already with these bytes. Another file of its name is an error, and so is a link to nothing.
pub fn is_there(path: &Path, bytes: &[u8]) -> Result<bool, String> {
    match fs::symlink_metadata(path) {
        Err(error) if error.kind() == io::ErrorKind::NotFound => return Ok(false),
        Err(error) => return Err(failed(path, &error)),
        Ok(_) => {}
    }
    match holds(path, bytes) {
        Ok(true) => Ok(true),
        Err(error) if error.kind() != io::ErrorKind::NotFound => {
            Err(format!("{}: cannot be read: {}", shown(path), reason(&error)))
        }
        _ => Err(format!("{}: another file of this name is there", shown(path))),
    }
}

/// Whether a path leads to a file with these bytes. Only a file is opened, since a pipe would be waited for, and only one of their
/// length is read.
fn holds(path: &Path, bytes: &[u8]) -> io::Result<bool> {
    if !fs::metadata(path)?.is_file() {
        return Ok(false);
    }
    let alike = File::open(path)?.metadata()?.len() == bytes.len() as u64;
    Ok(alike && fs::read(path)? == bytes)
}
