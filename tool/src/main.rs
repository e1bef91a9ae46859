//! The command `lamp`.
#![no_main]
use lamp::commands::{self, Outcome};
use lamp::output;
use std::panic;

/// The start of the program as C has it; see `lamp::output` for the reason.
#[no_mangle]
pub extern "C" fn main(_count: i32, _words: *const *const u8) -> i32 {
    output::keep_on_failed_write();
    let words: Vec<_> = std::env::args_os().skip(1).collect();
    let outcome = panic::catch_unwind(|| commands::run(&words))
        .unwrap_or_else(|_| Outcome::error("a fault of the tool; nothing was written"));
    if let Err(error) = output::write_whole(&outcome.output) {
        output::complain(&format!("lamp: standard output was not written whole: {error}\n"));
        return 2;
    }
    output::complain(&outcome.complaint);
    output::end_if_stopped();
    outcome.status
}
