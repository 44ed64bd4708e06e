//! `release [--ready] [--entries] [--json] SITE RULES`: may the site be released
//! under its access rules?
//!
//! SITE and RULES are files with one sheet each, plain or named. The answer
//! comes from proved calls alone; of the sheets the tool itself takes no more
//! than the count of pages and the actions' names. With `--ready` its story also
//! takes the moves of the joined sheet, to say by which actions two pages differ;
//! a proved call confirms each action that is told so.
//!
//! | Status | First line | When |
//! |---|---|---|
//! | 0 | `open` | compare says yes: the rules can follow the site in everything |
//! | 1 | `closed` | compare says no; the next line says in how many rounds at most the rules lose, and the lines after it tell why |
//! | 2 | `refused` and a number | a sheet is refused |
//! | 2 | none; one line on standard error | bad usage, a file that cannot be read, an output that cannot be written, an internal failure |
//!
//! Actions are told by their names, which a plain sheet's have by number. A
//! refusal's line has its sentence, the record that it is about, if any, and
//! the sheet. With `--entries` the plan's bare entries stand in the place of
//! the rounds and the story, with the page and action numbers of the joined
//! flow. With `--json` the same content is one JSON object on one line, a
//! failure's line too; it has the joined flow's action numbers beside the
//! names, and the rounds also with the entries.
//!
//! With `--ready` compare ready is asked in the place of compare: a page of the
//! rules can follow one of the site only if both have the same set of actions.
//! The plan is then one from the ready start, and where a step of the story is
//! about a pair outside that start it tells how the two pages differ: by the end
//! mark, by the actions that the rules' page has also and by those that it has
//! not.

#![deny(unsafe_code)]

mod form;
mod joined;
mod json;
mod replies;
mod story;
mod text;
mod tool;
mod unlike;
mod verdict;

#[cfg(test)]
mod tests;

use form::Form;
use std::ffi::OsString;
use std::io::{self, Write};
use std::path::PathBuf;
use std::process::ExitCode;
use tool::{complain, NO_ANSWER};
use verdict::Verdict;

/// What the tool is asked for.
struct Request {
    site: PathBuf,
    rules: PathBuf,
    form: Form,
    entries: bool,
    json: bool,
}

fn main() -> ExitCode {
    let Some(request) = request(std::env::args_os().skip(1)) else {
        complain("usage: release [--ready] [--entries] [--json] SITE RULES");
        return ExitCode::from(NO_ANSWER);
    };
    let found = find(&request);
    if let Err(message) = &found {
        complain(&format!("release: {message}"));
    }
    let text = if request.json {
        json::line(&found)
    } else {
        found.as_ref().map(text::lines).unwrap_or_default()
    };
    let mut out = io::stdout();
    if let Err(error) = out.write_all(text.as_bytes()).and_then(|()| out.flush()) {
        complain(&format!("release: standard output: {error}"));
        return ExitCode::from(NO_ANSWER);
    }
    ExitCode::from(match found {
        Ok(Verdict::Open { .. }) => 0,
        Ok(Verdict::Closed { .. }) => 1,
        Ok(Verdict::Refused { .. }) | Err(_) => NO_ANSWER,
    })
}

/// The words of the call; none if there is a wrong one.
fn request(words: impl Iterator<Item = OsString>) -> Option<Request> {
    let (mut paths, mut form) = (Vec::new(), Form::Older);
    let (mut entries, mut json) = (false, false);
    for word in words {
        match word.to_str() {
            Some("--ready") => form = Form::Ready,
            Some("--entries") => entries = true,
            Some("--json") => json = true,
            Some(option) if option.starts_with('-') => return None,
            _ => paths.push(PathBuf::from(word)),
        }
    }
    let [site, rules] = paths.try_into().ok()?;
    Some(Request {
        site,
        rules,
        form,
        entries,
        json,
    })
}

/// Reads the files and gives the verdict, or one line that says why there is
/// none.
fn find(request: &Request) -> Result<Verdict, String> {
    let (site, rules) = (tool::read(&request.site)?, tool::read(&request.rules)?);
    tool::taken(|| verdict::judge(&site, &rules, request.form, request.entries))
}
