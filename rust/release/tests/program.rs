//! The release tool, run as a process, against the independent program.

mod json;
mod pairs;
mod ready;
mod run;

use json::Json;
use reference::labels::{decimal, LabelledLts};
use reference::lts::Lts;
use reference::prng::Prng;
use reference::{compare, random, sheet};
use run::{Folder, Run};
use std::ffi::OsStr;
use std::fs;
use std::path::{Path, PathBuf};
use std::process::{Command, Stdio};

/// The example's sheets and the page that tells of them.
const EXAMPLES: &str = concat!(env!("CARGO_MANIFEST_DIR"), "/../../examples");

/// The program with these words.
fn program<W: AsRef<OsStr>>(words: &[W]) -> Command {
    let mut command = Command::new(env!("CARGO_BIN_EXE_release"));
    command.args(words).stdin(Stdio::null());
    command
}

impl Folder {
    /// The run on two sheets, with these options.
    fn run(&self, options: &[&str], site: &[u8], rules: &[u8]) -> Run {
        fs::write(self.0.join("site"), site).unwrap();
        fs::write(self.0.join("rules"), rules).unwrap();
        self.on(&[options, &["site", "rules"]].concat())
    }

    /// The run with these words in this folder.
    fn on(&self, words: &[&str]) -> Run {
        let mut command = program(words);
        command.current_dir(&self.0);
        Run::of(command)
    }
}

/// The site moves by action 1 twice, the rules once.
fn twice_and_once() -> [Vec<u8>; 2] {
    let site = Lts::of(3, 1, &[(0, 1, 1), (1, 1, 2)]);
    let rules = Lts::of(2, 1, &[(0, 1, 1)]);
    [sheet::write(&site), sheet::write(&rules)]
}

/// A refusal: its number, the record that it is about, and its sentence, which
/// is document 01's, or document 02's for 5 and from 16 on.
#[derive(Clone, Copy)]
struct Refused {
    number: usize,
    record: Option<u64>,
    sentence: &'static str,
}

impl Refused {
    const LENGTH: Refused = Refused {
        number: 1,
        record: None,
        sentence: "under 6 bytes, or another length than the counts say",
    };
    const COUNTS: Refused = Refused {
        number: 2,
        record: None,
        sentence: "n, m or k outside its range",
    };
    const JOINED: Refused = Refused {
        number: 7,
        record: None,
        sentence: "joined flow above 256 pages or 1,024 moves",
    };
    const LABEL: Refused = Refused {
        number: 17,
        record: None,
        sentence: "a bad or repeated name",
    };
    const TOO_MANY_LABELS: Refused = Refused {
        number: 18,
        record: None,
        sentence: "more than 64 joined names",
    };

    /// The line about one of the sheets, or about both.
    fn line(self, sheet: Option<&str>) -> String {
        let about = sheet.map_or(String::new(), |sheet| format!(" ({sheet} sheet)"));
        format!("refused {}: {}{about}\n", self.number, self.sentence)
    }

    /// Is the object about it, and about the sheet?
    fn is(self, object: &Json, sheet: Option<&str>) {
        let names = ["result", "number", "record", "sheet", "sentence"];
        assert_eq!(object.names(), names);
        assert_eq!(object.field("result").string(), "refused");
        assert_eq!(object.field("number").number(), self.number);
        let record = self.record.map_or(Json::Null, Json::Number);
        assert_eq!(object.field("record"), &record);
        let sheet = sheet.map_or(Json::Null, |sheet| Json::String(sheet.to_string()));
        assert_eq!(object.field("sheet"), &sheet);
        assert_eq!(object.field("sentence").string(), self.sentence);
    }
}

/// The named sheet of a flow.
fn named(lts: &Lts, labels: &[&str]) -> Vec<u8> {
    let labels = labels.iter().map(|label| label.to_string()).collect();
    sheet::write_labelled(&LabelledLts::named(lts.clone(), labels))
}

/// A readable sheet.
fn good_sheet() -> Vec<u8> {
    sheet::write(&Lts::of(2, 2, &[(0, 1, 1), (0, 2, 1), (1, 1, 0)]))
}

/// The sheet above with the damage that each refusal of a sheet is for, those
/// about a record with several.
fn refused_sheets() -> Vec<(Vec<u8>, Refused)> {
    let good = good_sheet();
    let with = |at: usize, byte: u8| {
        let mut sheet = good.clone();
        sheet[at] = byte;
        sheet
    };
    let refused = |number, record, sentence| Refused {
        number,
        record,
        sentence,
    };
    let mut twice = sheet::with_labels(&good, &decimal(2));
    twice[6 + 16] = b'1';
    let page = "a page record: mark, spare byte or index";
    let record = "a move record: action, spare byte, target or next index";
    vec![
        (good[..31].to_vec(), Refused::LENGTH),
        (with(0, 0), Refused::COUNTS),
        (twice, Refused::LABEL),
        (with(6, 2), refused(3, None, page)),
        (with(15, 1), refused(4, None, record)),
        (
            with(8, 0),
            refused(5, Some(1), "a record on no chain: record 1"),
        ),
        (
            with(18, 0),
            refused(5, Some(2), "a record on no chain: record 2"),
        ),
        (
            with(18, 3),
            refused(5, Some(2), "a record on no chain: record 2"),
        ),
        (
            with(24, 1),
            refused(16, Some(1), "a record reached twice: record 1"),
        ),
        (
            with(30, 3),
            refused(16, Some(3), "a record reached twice: record 3"),
        ),
        (
            with(20, 1),
            refused(6, None, "an action and target twice in one chain"),
        ),
    ]
}

#[test]
fn open() {
    let folder = Folder::new("open");
    let [twice, once] = twice_and_once();
    folder.run(&[], &once, &twice).is(0, "open\n");
    folder.run(&["--entries"], &once, &twice).is(0, "open\n");
    let (_, turns) = compare::compare(&once, &twice).unwrap();
    let object = format!("{{\"result\":\"open\",\"turns\":{turns}}}\n");
    folder.run(&["--json"], &once, &twice).is(0, &object);
}

#[test]
fn closed() {
    let folder = Folder::new("closed");
    let [twice, once] = twice_and_once();
    let story = "closed\nthe rules lose in 2 rounds at most\n\
        step 1 (site at page 0, rules at page 0): the site moves 0 -1-> 1; \
        whatever the rules answer from page 0 by action 1:\n\
        \x20 page 1: see step 2\n\
        step 2 (site at page 1, rules at page 1): the site moves 1 -1-> 2; \
        the rules at page 1 have no move 1\n";
    folder.run(&[], &twice, &once).is(1, story);
    let entries =
        "closed\n(0,2,1,1)\n(0,4,1,1)\n(1,2,1,2)\n(1,4,1,2)\n(3,2,1,4)\n(3,4,1,4)\n(0,3,1,1)\n";
    folder.run(&["--entries"], &twice, &once).is(1, entries);
    let (_, turns) = compare::compare(&twice, &once).unwrap();
    let object =
        |rest: &str| format!("{{\"result\":\"closed\",\"turns\":{turns},\"rounds\":2,{rest}}}\n");
    let steps = object(
        "\"steps\":[\
        {\"step\":1,\"site\":0,\"rules\":0,\"why\":\"move\",\"action\":1,\"label\":\"1\",\
        \"target\":1,\"replies\":[{\"page\":1,\"step\":2}]},\
        {\"step\":2,\"site\":1,\"rules\":1,\"why\":\"move\",\"action\":1,\"label\":\"1\",\
        \"target\":2,\"replies\":[]}]",
    );
    folder.run(&["--json"], &twice, &once).is(1, &steps);
    let entries = object(
        "\"labels\":[\"1\"],\"entries\":[[0,2,1,1],[0,4,1,1],[1,2,1,2],[1,4,1,2],[3,2,1,4],[3,4,1,4],[0,3,1,1]]",
    );
    for options in [["--json", "--entries"], ["--entries", "--json"]] {
        folder.run(&options, &twice, &once).is(1, &entries);
    }
    folder
        .on(&["site", "--json", "rules", "--entries"])
        .is(1, &entries);
}

/// Names in the text and, escaped, in the object, beside the numbers of the
/// joined flow.
#[test]
fn names() {
    let folder = Folder::new("labels");
    let site = named(&Lts::of(2, 2, &[(0, 2, 1)]), &["a", "\"\\<-"]);
    let rules = named(&Lts::of(1, 2, &[(0, 1, 0)]), &["b", "\"\\<-"]);
    let story = "closed\nthe rules lose in 1 rounds at most\n\
        step 1 (site at page 0, rules at page 0): \
        the site moves 0 -\"\\<--> 1; the rules at page 0 have no move \"\\<-\n";
    folder.run(&[], &site, &rules).is(1, story);
    let (_, turns) = compare::compare(&site, &rules).unwrap();
    let object =
        |rest: &str| format!("{{\"result\":\"closed\",\"turns\":{turns},\"rounds\":1,{rest}}}\n");
    let steps = object(
        r#""steps":[{"step":1,"site":0,"rules":0,"why":"move","action":2,"label":"\"\\<-","target":1,"replies":[]}]"#,
    );
    folder.run(&["--json"], &site, &rules).is(1, &steps);
    let entries = object(r#""labels":["a","\"\\<-","b"],"entries":[[0,2,2,1]]"#);
    let run = folder.run(&["--json", "--entries"], &site, &rules);
    run.is(1, &entries);
    folder
        .run(&["--entries"], &site, &rules)
        .is(1, "closed\n(0,2,2,1)\n");
}

#[test]
fn each_refusal() {
    let folder = Folder::new("refusals");
    let refused = |site: &[u8], rules: &[u8], refusal: Refused, sheet: Option<&str>| {
        let line = refusal.line(sheet);
        for options in [&[][..], &["--entries"], &["--ready"]] {
            folder.run(options, site, rules).is(2, &line);
        }
        for options in [&["--json"][..], &["--ready", "--json"]] {
            let run = folder.run(options, site, rules);
            assert_eq!((run.status, run.errors.as_str()), (2, ""));
            refusal.is(&Json::read(&run.out), sheet);
        }
    };
    let (sheets, good) = (refused_sheets(), good_sheet());
    for (bad, refusal) in &sheets {
        refused(bad, &good, *refusal, Some("first"));
        refused(&good, bad, *refusal, Some("second"));
        for (other, _) in &sheets {
            refused(bad, other, *refusal, Some("first"));
        }
    }
    refused(&[], &good, Refused::LENGTH, Some("first"));
    refused(&good, &[], Refused::LENGTH, Some("second"));
    let large = sheet::write(&Lts::of(255, 0, &[]));
    refused(&good, &large, Refused::JOINED, None);
    refused(&large, &good, Refused::JOINED, None);
    let most = sheet::write(&Lts::of(1, 64, &[]));
    let other = named(&Lts::of(1, 1, &[]), &["a"]);
    refused(&most, &other, Refused::TOO_MANY_LABELS, None);
    refused(&other, &most, Refused::TOO_MANY_LABELS, None);
}

/// The whole object of a refusal, with a record and without.
#[test]
fn the_object_of_a_refusal() {
    let folder = Folder::new("refusal");
    let good = good_sheet();
    let (mut lone, mut marked) = (good.clone(), good.clone());
    (lone[12], marked[6]) = (0, 2);
    folder.run(&["--json"], &good, &lone).is(
        2,
        "{\"result\":\"refused\",\"number\":5,\"record\":3,\"sheet\":\"second\",\
        \"sentence\":\"a record on no chain: record 3\"}\n",
    );
    folder.run(&["--json"], &marked, &lone).is(
        2,
        "{\"result\":\"refused\",\"number\":3,\"record\":null,\"sheet\":\"first\",\
        \"sentence\":\"a page record: mark, spare byte or index\"}\n",
    );
}

/// A file that is longer than any sheet is refused as its whole would be.
#[test]
fn a_file_above_the_longest_sheet() {
    let folder = Folder::new("long");
    for (first, refusal) in [
        ([1, 0], Refused::LENGTH),
        ([1, 128], Refused::LENGTH),
        ([0, 128], Refused::COUNTS),
    ] {
        let mut long = vec![0; 100_000];
        long[..2].copy_from_slice(&first);
        let number = sheet::read(&long).unwrap_err().number;
        assert_eq!(usize::from(number), refusal.number);
        let line = refusal.line(Some("second"));
        folder.run(&[], &good_sheet(), &long).is(2, &line);
    }
    // One byte more than the longest sheet; that itself is read.
    let lts = random::lts_exact(&mut Prng::new(19), 256, 64, 1_024, 10);
    let mut longest = sheet::with_labels(&sheet::write(&lts), &decimal(64));
    let line = Refused::JOINED.line(None);
    folder.run(&[], &good_sheet(), &longest).is(2, &line);
    longest.push(0);
    let line = Refused::LENGTH.line(Some("second"));
    folder.run(&[], &good_sheet(), &longest).is(2, &line);
}

#[test]
fn bad_usage() {
    let folder = Folder::new("usage");
    let [twice, once] = twice_and_once();
    folder.run(&[], &once, &twice).is(0, "open\n");
    let wrong: [&[&str]; 12] = [
        &[],
        &["site"],
        &["site", "rules", "rules"],
        &["--json"],
        &["--json", "site"],
        &["--ready"],
        &["--ready", "site"],
        &["--readyx", "site", "rules"],
        &["--jsonx", "site", "rules"],
        &["--entry", "site", "rules"],
        &["-", "rules"],
        &["site", "rules", "--help"],
    ];
    for words in wrong {
        folder.on(words).fails("usage: release ");
    }
}

#[test]
fn files_that_cannot_be_read() {
    let folder = Folder::new("unreadable");
    let [twice, once] = twice_and_once();
    folder.run(&[], &once, &twice).is(0, "open\n");
    fs::create_dir_all(folder.0.join("folder")).unwrap();
    for missing in ["missing", "folder", "site/below", "", "say \"x\"\n\\"] {
        for words in [[missing, "rules"], ["site", missing]] {
            folder.on(&words).fails("release: ");
            let run = folder.on(&[&["--json"], &words[..]].concat());
            assert_eq!((run.status, run.errors.lines().count()), (2, 1));
            let object = Json::read(&run.out);
            assert_eq!(object.names(), ["result", "message"]);
            assert_eq!(object.field("result").string(), "error");
            let message = object.field("message").string();
            assert!(message.starts_with(&format!("{missing}: ")), "{message}");
        }
    }
}

/// Names are those of the caller's folder, whatever their bytes.
#[cfg(unix)]
#[test]
fn names_of_any_kind() {
    use std::os::unix::ffi::OsStrExt;
    let folder = Folder::new("names");
    let [twice, once] = twice_and_once();
    let names = [
        OsStr::from_bytes(b"a \xff name"),
        OsStr::from_bytes(b"./--json"),
    ];
    fs::write(folder.0.join(names[0]), once).unwrap();
    fs::write(folder.0.join(names[1]), twice).unwrap();
    let mut command = program(&names);
    command.current_dir(&folder.0);
    Run::of(command).is(0, "open\n");
}

/// Nobody reads what it prints: it ends with a complaint, and never with 0.
#[test]
fn a_closed_output() {
    let folder = Folder::new("output");
    let [twice, once] = twice_and_once();
    folder.run(&[], &once, &twice).is(0, "open\n");
    for words in [["site", "rules"], ["rules", "site"], ["site", "missing"]] {
        let (reader, writer) = std::io::pipe().unwrap();
        drop(reader);
        let mut command = program(&words);
        command.current_dir(&folder.0).stdout(writer);
        command.stderr(Stdio::piped());
        let run = Run::of(command);
        assert_eq!(run.status, 2);
        assert!(!run.errors.contains("panic"), "{run:?}");
    }
}

/// The example's sheets are the flows that its page describes, and the page
/// shows what the tool prints for them.
#[test]
fn the_example() {
    let read = |name: &str| fs::read(Path::new(EXAMPLES).join(name)).unwrap();
    let marked = |page: usize, lts: Lts| {
        let marks = (0..lts.states()).map(|p| p == page).collect();
        Lts::new(lts.actions(), marks, lts.transitions().to_vec())
    };
    let site = [(0, 1, 1), (1, 2, 2), (2, 3, 4), (2, 4, 3), (3, 3, 4)];
    let rules = [
        (0, 4, 1),
        (0, 4, 2),
        (1, 1, 3),
        (2, 1, 4),
        (3, 2, 5),
        (3, 5, 6),
        (4, 5, 0),
        (5, 3, 3),
    ];
    let [site, rules] = [
        marked(4, Lts::of(5, 4, &site)),
        marked(6, Lts::of(7, 5, &rules)),
    ];
    let by_number = [&site, &rules].map(sheet::write);
    let names = ["sign-in", "open-book", "sign-out", "sell-bird"];
    let site = named(&site, &names);
    let names = [
        "open-book",
        "sell-bird",
        "countersign",
        "sign-in",
        "sign-out",
    ];
    let rules = named(&rules, &names);
    assert_eq!(read("site.sheet"), site);
    assert_eq!(read("rules.sheet"), rules);
    // Record 3 names record 4 in the site's sheet, and none in the draft.
    let next = sheet::named_length(5, 4, 3) - 2;
    assert_eq!(site[next..next + 2], [4, 0]);
    let draft = [&site[..next], &[0, 0], &site[next + 2..]].concat();
    assert_eq!(read("draft.sheet"), draft);
    shown(&["site.sheet", "rules.sheet"], 1, fenced);
    shown(&["--ready", "site.sheet", "rules.sheet"], 1, indented);
    shown(&["draft.sheet", "rules.sheet"], 2, fenced);
    shown(&["--json", "draft.sheet", "rules.sheet"], 2, fenced);
    let run = Folder::new("example").run(&[], &by_number[0], &by_number[1]);
    let story = "closed\nthe rules lose in 1 rounds at most\n\
        step 1 (site at page 0, rules at page 0): \
        the site moves 0 -1-> 1; the rules at page 0 have no move 1\n";
    run.is(1, story);
}

/// Ends with this status, and prints what the examples' page shows in a block of
/// this kind.
fn shown(words: &[&str], status: i32, block: fn(&str) -> String) {
    let folder = Folder(PathBuf::from(EXAMPLES));
    let run = folder.on(words);
    assert_eq!((run.status, run.errors.as_str()), (status, ""));
    let page = fs::read_to_string(folder.0.join("README.md")).unwrap();
    assert!(page.contains(&block(&run.out)), "{}", run.out);
}

/// The lines between two fences.
fn fenced(lines: &str) -> String {
    format!("```\n{lines}```\n")
}

/// The lines behind four blanks each, and nothing before or after them.
fn indented(lines: &str) -> String {
    let lines: String = lines.lines().map(|line| format!("    {line}\n")).collect();
    format!("\n\n{lines}\n")
}
