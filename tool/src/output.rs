//! Output that is written whole or not taken for written.
//!
//! The standard library takes a closed standard output for one that swallows all, and the usual start of a Rust program opens the null
//! device in its place. A key would then be lost and the status 0. So the program starts without it, and writes to the file
//! descriptor itself. Files that are written together are taken back when the program is asked to stop, so the signals that ask for it
//! are noted here.
use std::fs::File;
use std::io::{self, Write};
use std::mem::ManuallyDrop;
use std::os::fd::FromRawFd;
use std::sync::atomic::{AtomicI32, Ordering};

extern "C" {
    fn signal(number: i32, handler: usize) -> usize;
    fn raise(number: i32) -> i32;
}

const SIG_DFL: usize = 0;
const SIG_IGN: usize = 1;

/// A write to a pipe that nobody reads, or beyond the largest size of a file, is then an error, and does not end the process.
pub fn keep_on_failed_write() {
    const SIGPIPE: i32 = 13;
    const SIGXFSZ: i32 = 25;
    for number in [SIGPIPE, SIGXFSZ] {
        unsafe { signal(number, SIG_IGN) };
    }
}

/// The signal that asked the program to stop, and 0 before there is one.
static STOPPED: AtomicI32 = AtomicI32::new(0);

extern "C" fn note(number: i32) {
    STOPPED.store(number, Ordering::Relaxed);
}

/// A signal that asks the program to stop is then noted, and does not end it. One that is ignored, as `nohup` wants it, stays so.
pub fn note_stops() {
    const SIGHUP: i32 = 1;
    const SIGINT: i32 = 2;
    const SIGTERM: i32 = 15;
    for number in [SIGHUP, SIGINT, SIGTERM] {
        if unsafe { signal(number, note as *const () as usize) } == SIG_IGN {
            unsafe { signal(number, SIG_IGN) };
        }
    }
}

pub fn is_stopped() -> bool {
    STOPPED.load(Ordering::Relaxed) != 0
}

/// Ends the program by the signal that was noted, so that a shell sees it. Without one the program goes on.
pub fn end_if_stopped() {
    let number = STOPPED.load(Ordering::Relaxed);
    if number != 0 {
        unsafe { signal(number, SIG_DFL) };
        unsafe { raise(number) };
    }
}

/// A standard stream by its number, which is not closed afterwards.
pub fn stream(number: i32) -> ManuallyDrop<File> {
    ManuallyDrop::new(unsafe { File::from_raw_fd(number) })
}

/// Writes all bytes to standard output.
pub fn write_whole(bytes: &[u8]) -> io::Result<()> {
    if bytes.is_empty() {
        return Ok(());
    }
    write_to(&mut stream(1), bytes)
}

/// Writes all bytes. A file is also brought to its disk, since some file systems tell only then that they are full; one that has no
/// such request is not asked.
pub fn write_to(out: &mut File, bytes: &[u8]) -> io::Result<()> {
    out.write_all(bytes)?;
    if !out.metadata()?.is_file() {
        return Ok(());
    }
    match out.sync_all() {
        Err(error) if matches!(error.kind(), io::ErrorKind::InvalidInput | io::ErrorKind::Unsupported) => Ok(()),
        synced => synced,
    }
}

/// Writes a message to standard error, as far as that is possible.
pub fn complain(message: &str) {
    let _ = stream(2).write_all(message.as_bytes());
}
