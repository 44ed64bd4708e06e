//! `convert named|plain IN OUT`: the sheet in the file IN as a named or as a
//! plain sheet in the file OUT.
//!
//! The sheet comes from a proved call alone: `named` gives a plain sheet decimal
//! names, `plain` takes such names away, and either copies a sheet that is of
//! its kind already. Page and move records stay as they are. IN and OUT may be
//! the same file.
//!
//! | Status | Standard error | When |
//! |---|---|---|
//! | 0 | nothing | OUT is written |
//! | 2 | one line: `refused` and a number | the sheet is refused |
//! | 2 | one line | bad usage, a file that cannot be read or written, an internal failure |
//!
//! Where the status is not 0, OUT is as it was.

#![deny(unsafe_code)]

#[path = "../../tool.rs"]
mod tool;
mod whole_file;

use flow::Refusal;
use std::ffi::OsString;
use std::path::PathBuf;
use std::process::ExitCode;

/// A proved call.
type Call = fn(&[u8]) -> Result<Vec<u8>, Refusal>;

/// What the program is asked for.
struct Request {
    call: Call,
    from: PathBuf,
    to: PathBuf,
}

fn main() -> ExitCode {
    let done = match request(std::env::args_os().skip(1)) {
        Some(request) => convert(&request),
        None => Err("usage: convert named|plain IN OUT".to_string()),
    };
    match done {
        Ok(()) => ExitCode::SUCCESS,
        Err(line) => {
            tool::complain(&line);
            ExitCode::from(tool::NO_ANSWER)
        }
    }
}

/// The words of the call; none if there is a wrong one.
fn request(words: impl Iterator<Item = OsString>) -> Option<Request> {
    let [kind, from, to] = words.collect::<Vec<_>>().try_into().ok()?;
    let call: Call = match kind.to_str()? {
        "named" => flow::to_named,
        "plain" => flow::to_plain,
        _ => return None,
    };
    let is_option = |word: &OsString| word.as_encoded_bytes().starts_with(b"-");
    if is_option(&from) || is_option(&to) {
        return None;
    }
    Some(Request {
        call,
        from: from.into(),
        to: to.into(),
    })
}

/// Converts the one file into the other, or gives one line that says why not.
fn convert(request: &Request) -> Result<(), String> {
    let failed = |message| format!("convert: {message}");
    let sheet = tool::read(&request.from).map_err(failed)?;
    let converted = tool::taken(|| Ok((request.call)(&sheet)))
        .map_err(failed)?
        .map_err(|refusal| refusal.to_string())?;
    whole_file::write(&request.to, &converted)
        .map_err(|error| failed(format!("{}: {error}", request.to.display())))
}
