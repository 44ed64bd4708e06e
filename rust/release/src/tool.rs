//! What the programs of this package have in common: how a sheet's file is
//! read, how a call's panic is taken, and how one complains.

use std::fs::File;
use std::io::{self, Read, Write};
use std::panic::{self, UnwindSafe};
use std::path::Path;

/// The status where there is no answer.
pub const NO_ANSWER: u8 = 2;

/// One byte more than the longest sheet has is enough to refuse a longer file
/// as the whole of it would be.
const MOST_BYTES: u64 = flow::LONGEST_SHEET as u64 + 1;

/// One line on standard error, if that is open.
pub fn complain(line: &str) {
    let line = line.replace(char::is_control, " ");
    let _ = writeln!(io::stderr(), "{line}");
}

/// The bytes of a file, as many as can be a sheet's.
pub fn read(path: &Path) -> Result<Vec<u8>, String> {
    let mut bytes = Vec::new();
    File::open(path)
        .and_then(|file| file.take(MOST_BYTES).read_to_end(&mut bytes))
        .map_err(|error| format!("{}: {error}", path.display()))?;
    Ok(bytes)
}

/// What the calls come to, or one line on an internal failure. The wrapper
/// panics where a result of the archive stands for no answer: that is such a
/// failure too.
pub fn taken<T>(calls: impl FnOnce() -> Result<T, String> + UnwindSafe) -> Result<T, String> {
    panic::set_hook(Box::new(|_| ()));
    panic::catch_unwind(calls)
        .unwrap_or_else(|panic| Err(panic.downcast_ref::<String>().cloned().unwrap_or_default()))
        .map_err(|message| format!("internal failure: {message}"))
}
