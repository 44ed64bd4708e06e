//! The converting program, run as a process on files.

mod run;

use differential::{damage, flows};
use reference::labels::decimal;
use reference::lts::Lts;
use reference::prng::Prng;
use reference::refusal::Refusal;
use reference::{convert, random, sheet};
use run::{Folder, Run};
use std::ffi::OsStr;
use std::fs;
use std::path::Path;
use std::process::{Command, Stdio};

/// Sheets of all kinds that are run.
const SHEETS: u64 = 300;

/// The examples and the page that tells of them.
const EXAMPLES: &str = concat!(env!("CARGO_MANIFEST_DIR"), "/../../examples");

const NOT_DECIMAL: &str = "refused 19: names that a plain sheet can't carry\n";

/// The program with these words.
fn program<W: AsRef<OsStr>>(words: &[W]) -> Command {
    let mut command = Command::new(env!("CARGO_BIN_EXE_convert"));
    command.args(words).stdin(Stdio::null());
    command
}

impl Folder {
    /// A folder with these files and no others.
    fn with(name: &str, files: &[(&str, &[u8])]) -> Folder {
        let folder = Folder::new(&format!("convert-{name}"));
        fs::remove_dir_all(&folder.0).unwrap();
        fs::create_dir(&folder.0).unwrap();
        for (name, bytes) in files {
            fs::write(folder.0.join(name), bytes).unwrap();
        }
        folder
    }

    /// The run with these words in this folder.
    fn on(&self, words: &[&str]) -> Run {
        let mut command = program(words);
        command.current_dir(&self.0);
        Run::of(command)
    }

    /// The file's bytes.
    fn read(&self, name: &str) -> Vec<u8> {
        fs::read(self.0.join(name)).unwrap()
    }

    /// What is in the folder, in order.
    fn names(&self) -> Vec<String> {
        let entries = fs::read_dir(&self.0).unwrap();
        let name = |entry: fs::DirEntry| entry.file_name().into_string().unwrap();
        let mut names: Vec<String> = entries.map(|entry| name(entry.unwrap())).collect();
        names.sort();
        names
    }
}

/// A plain sheet whose records and chains are not in normal order, and the
/// named sheets with its records: with decimal names, and with others.
fn sheets() -> [Vec<u8>; 3] {
    let lts = Lts::of(3, 2, &[(0, 1, 1), (0, 2, 1), (0, 2, 2), (2, 1, 2)]);
    let mut rng = Prng::new(50);
    let mut plain = random::shuffled_sheet(&mut rng, &lts);
    while plain == sheet::write(&lts) {
        plain = random::shuffled_sheet(&mut rng, &lts);
    }
    let other = ["open", "2"].map(String::from);
    let named = [&decimal(2)[..], &other].map(|labels| sheet::with_labels(&plain, labels));
    let [twin, other] = named;
    [plain, twin, other]
}

#[test]
fn both_directions_and_copies() {
    let [plain, named, other] = sheets();
    let files: [(&str, &[u8]); 3] = [("plain", &plain), ("named", &named), ("other", &other)];
    let folder = Folder::with("both", &files);
    let rows = [
        (["named", "plain", "out"], &named),
        (["plain", "named", "out"], &plain),
        (["named", "named", "out"], &named),
        (["plain", "plain", "out"], &plain),
        (["named", "other", "new"], &other),
    ];
    for (words, converted) in rows {
        folder.on(&words).is(0, "");
        assert_eq!(folder.read(words[2]), *converted, "{words:?}");
    }
    for (name, bytes) in files {
        assert_eq!(folder.read(name), bytes);
    }
    assert_eq!(folder.names(), ["named", "new", "other", "out", "plain"]);
}

/// IN and OUT are one file, by its name or by a path to it.
#[test]
fn the_same_file() {
    let [plain, named, _] = sheets();
    let folder = Folder::with("same", &[("sheet", &plain)]);
    for out in ["sheet", "./sheet", "../convert-same/sheet"] {
        folder.on(&["named", "sheet", out]).is(0, "");
        assert_eq!(folder.read("sheet"), named);
        folder.on(&["plain", out, "sheet"]).is(0, "");
        assert_eq!(folder.read("sheet"), plain);
    }
    assert_eq!(folder.names(), ["sheet"]);
}

/// A link stays one, and a file keeps its permissions.
#[cfg(unix)]
#[test]
fn links_and_permissions() {
    use std::os::unix::fs::{symlink, PermissionsExt};
    let [plain, named, _] = sheets();
    let folder = Folder::with("links", &[("sheet", &plain)]);
    let path = |name: &str| folder.0.join(name);
    symlink("sheet", path("link")).unwrap();
    fs::set_permissions(path("sheet"), PermissionsExt::from_mode(0o640)).unwrap();
    folder.on(&["named", "link", "link"]).is(0, "");
    assert!(fs::symlink_metadata(path("link")).unwrap().is_symlink());
    assert_eq!(folder.read("sheet"), named);
    let mode = fs::metadata(path("sheet")).unwrap().permissions().mode();
    assert_eq!(mode & 0o777, 0o640);
    assert_eq!(folder.names(), ["link", "sheet"]);
}

/// Sheets that are refused by both calls, and the line of each.
fn refused_sheets() -> Vec<(Vec<u8>, &'static str)> {
    let [plain, named, _] = sheets();
    let with = |sheet: &[u8], at: usize, bytes: &[u8]| {
        let mut sheet = sheet.to_vec();
        sheet[at..at + bytes.len()].copy_from_slice(bytes);
        sheet
    };
    let lone = fs::read(Path::new(EXAMPLES).join("draft.sheet")).unwrap();
    let f9 = [
        3, 0, 1, 0, 2, 0, 0, 0, 1, 0, 0, 0, 0, 0, 0, 0, 2, 0, 1, 0, 1, 0, 1, 0, 1, 0, 2, 0, 0, 0,
    ];
    let length = "refused 1: under 6 bytes, or another length than the counts say\n";
    vec![
        (vec![], length),
        (plain[..5].to_vec(), length),
        ([&named[..], &[0]].concat(), length),
        (vec![1; 100_000], "refused 2: n, m or k outside its range\n"),
        (
            with(&named, 22, b"1"),
            "refused 17: a bad or repeated name\n",
        ),
        (lone, "refused 5: a record on no chain: record 4\n"),
        (
            f9.to_vec(),
            "refused 16: a record reached twice: record 1\n",
        ),
    ]
}

/// A refused sheet's line is the release tool's, and OUT stays: as it was, or
/// missing.
#[test]
fn refusals() {
    let [.., other] = sheets();
    let folder = Folder::with("refusals", &[("out", b"as it was")]);
    let refused = |words: [&str; 3], line: &str| {
        let run = folder.on(&words);
        run.fails(line);
        assert_eq!(run.errors, line);
        assert_eq!(folder.read("out"), b"as it was");
        assert_eq!(folder.names(), ["in", "out"]);
    };
    for (sheet, line) in refused_sheets() {
        fs::write(folder.0.join("in"), sheet).unwrap();
        for kind in ["named", "plain"] {
            refused([kind, "in", "out"], line);
            refused([kind, "in", "new"], line);
        }
    }
    fs::write(folder.0.join("in"), &other).unwrap();
    refused(["plain", "in", "out"], NOT_DECIMAL);
    refused(["plain", "in", "new"], NOT_DECIMAL);
    refused(["plain", "in", "in"], NOT_DECIMAL);
    assert_eq!(folder.read("in"), other);
}

#[test]
fn bad_usage() {
    let [plain, ..] = sheets();
    let folder = Folder::with("usage", &[("in", &plain)]);
    let wrong: [&[&str]; 12] = [
        &[],
        &["named"],
        &["named", "in"],
        &["in", "out"],
        &["named", "in", "out", "out"],
        &["Named", "in", "out"],
        &["", "in", "out"],
        &["normal", "in", "out"],
        &["--help"],
        &["named", "--help", "out"],
        &["plain", "in", "-"],
        &["in", "out", "named"],
    ];
    for words in wrong {
        folder.on(words).fails("usage: convert named|plain IN OUT");
    }
    assert_eq!(folder.names(), ["in"]);
}

#[test]
fn files_that_cannot_be_read() {
    let folder = Folder::with("unreadable", &[("out", b"as it was")]);
    fs::create_dir(folder.0.join("folder")).unwrap();
    for missing in ["missing", "folder", "out/below", "", "say \"x\"\n\\"] {
        for kind in ["named", "plain"] {
            let run = folder.on(&[kind, missing, "out"]);
            run.fails(&format!("convert: {}: ", missing.replace('\n', " ")));
            assert_eq!(folder.read("out"), b"as it was");
        }
    }
    assert_eq!(folder.names(), ["folder", "out"]);
}

/// No such folder, a file in the place of one, no file but a folder.
#[test]
fn files_that_cannot_be_written() {
    let [plain, ..] = sheets();
    let folder = Folder::with("unwritable", &[("in", &plain)]);
    fs::create_dir(folder.0.join("folder")).unwrap();
    let mut names = vec!["missing/out", "in/out", "folder", "new/", "..", ""];
    if cfg!(target_os = "linux") {
        names.push("/proc/out"); // No folder for files, whoever runs this.
    }
    for name in names {
        let run = folder.on(&["named", "in", name]);
        run.fails(&format!("convert: {name}: "));
        assert_eq!(folder.names(), ["folder", "in"]);
        assert_eq!(folder.read("in"), plain);
    }
    assert!(fs::read_dir(folder.0.join("folder"))
        .unwrap()
        .next()
        .is_none());
}

/// A file that nobody can write, beside which nobody can make another.
#[cfg(target_os = "linux")]
#[test]
fn a_file_of_the_system() {
    let [plain, ..] = sheets();
    let folder = Folder::with("system", &[("in", &plain)]);
    let before = fs::read("/proc/version").unwrap();
    let run = folder.on(&["named", "in", "/proc/version"]);
    run.fails("convert: /proc/version: ");
    assert_eq!(fs::read("/proc/version").unwrap(), before);
    assert_eq!(folder.names(), ["in"]);
}

/// A folder or a file without the permission, where that binds who runs this:
/// all but the system's owner.
#[cfg(unix)]
#[test]
fn files_that_may_not_be_written() {
    use std::os::unix::fs::PermissionsExt;
    let [plain, ..] = sheets();
    let folder = Folder::with("forbidden", &[("in", &plain), ("out", b"as it was")]);
    let path = |name: &str| folder.0.join(name);
    let allow = |name: &str, mode| {
        fs::set_permissions(path(name), PermissionsExt::from_mode(mode)).unwrap();
    };
    let _ = fs::create_dir(path("shut"));
    allow("shut", 0o555);
    allow("out", 0o444);
    let binds = fs::write(path("shut/try"), b"").is_err();
    if binds {
        for name in ["shut/out", "out"] {
            folder.on(&["named", "in", name]).fails("convert: ");
            assert_eq!(folder.read("out"), b"as it was");
        }
    }
    allow("shut", 0o755);
    allow("out", 0o644);
    let left = fs::read_dir(path("shut")).unwrap().count();
    assert_eq!(left, usize::from(!binds));
}

/// A pipe stays a pipe.
#[cfg(unix)]
#[test]
fn no_regular_file() {
    use std::os::unix::fs::FileTypeExt;
    let [plain, ..] = sheets();
    let folder = Folder::with("pipe", &[("in", &plain)]);
    let path = folder.0.join("pipe");
    let made = Command::new("mkfifo").arg(&path).status().unwrap();
    assert!(made.success());
    let run = folder.on(&["named", "in", "pipe"]);
    run.fails("convert: pipe: not a regular file");
    assert!(fs::metadata(&path).unwrap().file_type().is_fifo());
    assert_eq!(folder.names(), ["in", "pipe"]);
}

/// Names are those of the caller's folder, whatever their bytes.
#[cfg(unix)]
#[test]
fn names_of_any_kind() {
    use std::os::unix::ffi::OsStrExt;
    let [plain, named, _] = sheets();
    let folder = Folder::with("names", &[]);
    let long = [b'x'; 255];
    for out in [&b"a \xff name"[..], b"./--help", b"plain", &long] {
        let [from, out] = [b"in \xfe", out].map(OsStr::from_bytes);
        fs::write(folder.0.join(from), &plain).unwrap();
        let mut command = program(&[OsStr::new("named"), from, out]);
        command.current_dir(&folder.0);
        Run::of(command).is(0, "");
        assert_eq!(fs::read(folder.0.join(out)).unwrap(), named);
    }
}

/// What the independent program makes of a sheet.
fn expected(kind: &str, sheet: &[u8]) -> Result<Vec<u8>, Refusal> {
    let lts = sheet::read(sheet)?;
    let (n, m, k) = (lts.states(), lts.actions(), lts.transitions().len());
    if kind == "named" {
        let mut out = vec![0; sheet::named_length(n, m, k)];
        return convert::to_named(sheet, &mut out).map(|()| out);
    }
    let mut out = vec![0; sheet::length(n, k)];
    convert::to_plain(sheet, &mut out).map(|()| out)
}

/// Each sheet comes to what the independent program says.
#[test]
fn sheets_of_all_kinds() {
    let folder = Folder::with("all", &[]);
    let sizes = flows::Sizes {
        large: 30,
        edges: 200,
    };
    let mut count = [0; 2];
    for seed in 0..SHEETS {
        let rng = &mut Prng::new(12_000_000 + seed);
        let lts = flows::flow(rng, sizes);
        let flow = flows::to_convert(rng, lts);
        let sheet = damage::sheet(rng, &flow, 15);
        fs::write(folder.0.join("in"), &sheet).unwrap();
        for kind in ["named", "plain"] {
            fs::write(folder.0.join("out"), b"as it was").unwrap();
            let run = folder.on(&[kind, "in", "out"]);
            let expected = expected(kind, &sheet);
            count[usize::from(expected.is_ok())] += 1;
            match expected {
                Ok(converted) => {
                    run.is(0, "");
                    assert_eq!(folder.read("out"), converted);
                }
                Err(Refusal { number, record }) => {
                    run.fails(&format!("refused {number}: "));
                    let told = run.errors.ends_with(&format!(": record {record}\n"));
                    assert_eq!(told, record != 0, "{run:?}");
                    assert_eq!(folder.read("out"), b"as it was");
                }
            }
        }
    }
    assert!(count.iter().all(|&count| count > 60), "{count:?}");
}

/// The old sheet is the flow that the examples' page describes, with its
/// records as told there, and goes there and back; the site's sheet does not.
#[test]
fn the_example() {
    let example = |name: &str| Path::new(EXAMPLES).join(name);
    let old = fs::read(example("old.sheet")).unwrap();
    let pages = [
        [0, 0, 5, 0],
        [0, 0, 4, 0],
        [0, 0, 2, 0],
        [0, 0, 1, 0],
        [1, 0, 0, 0],
    ];
    let records = [
        [3, 0, 4, 0, 0, 0],
        [4, 0, 3, 0, 3, 0],
        [3, 0, 4, 0, 0, 0],
        [2, 0, 2, 0, 0, 0],
        [1, 0, 1, 0, 0, 0],
    ];
    let bytes = [&[5, 0, 4, 0, 5, 0], &pages.concat()[..], &records.concat()].concat();
    assert_eq!(old, bytes);
    let site = fs::read(example("site.sheet")).unwrap();
    assert_eq!(sheet::read(&old), sheet::read(&site));
    let site: &[u8] = &site;
    let folder = Folder::with("example", &[("old.sheet", &old), ("site.sheet", site)]);
    folder.on(&["named", "old.sheet", "named.sheet"]).is(0, "");
    let named = folder.read("named.sheet");
    assert_eq!((old.len(), named.len()), (56, 120));
    assert_eq!(named, sheet::with_labels(&old, &decimal(4)));
    folder
        .on(&["plain", "named.sheet", "plain.sheet"])
        .is(0, "");
    assert_eq!(folder.read("plain.sheet"), old);
    let run = folder.on(&["plain", "site.sheet", "plain.sheet"]);
    assert_eq!((run.status, run.errors.as_str()), (2, NOT_DECIMAL));
    let page = fs::read_to_string(example("README.md")).unwrap();
    assert!(page.contains(&format!("```\n{NOT_DECIMAL}```\n")));
}
