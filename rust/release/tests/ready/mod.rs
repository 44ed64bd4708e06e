//! Runs with `--ready`.

use super::{named, twice_and_once, Folder};
use reference::compare;
use reference::lts::Lts;

/// The site's page 1 is a dead end, where the rules' page 1 has an action more:
/// the older form is open.
fn dead_end() -> [Vec<u8>; 2] {
    let site = Lts::of(2, 1, &[(0, 1, 1)]);
    let rules = Lts::of(2, 2, &[(0, 2, 1), (1, 1, 0)]);
    [named(&site, &["in"]), named(&rules, &["out", "in"])]
}

/// An object of a closed verdict with these turns and rounds.
fn object(turns: usize, rounds: usize, rest: &str) -> String {
    format!("{{\"result\":\"closed\",\"turns\":{turns},\"rounds\":{rounds},{rest}}}\n")
}

#[test]
fn open() {
    let folder = Folder::new("ready-open");
    let [twice, once] = twice_and_once();
    folder.run(&["--ready"], &twice, &twice).is(0, "open\n");
    let options = ["--ready", "--entries"];
    folder.run(&options, &once, &once).is(0, "open\n");
    let (_, turns) = compare::compare_ready(&twice, &twice).unwrap();
    let object = format!("{{\"result\":\"open\",\"turns\":{turns}}}\n");
    let run = folder.run(&["--ready", "--json"], &twice, &twice);
    run.is(0, &object);
}

#[test]
fn closed_where_the_older_form_is_open() {
    let folder = Folder::new("ready-closed");
    let [site, rules] = dead_end();
    folder.run(&[], &site, &rules).is(0, "open\n");
    folder.run(&["--entries"], &site, &rules).is(0, "open\n");
    let story = "closed\nthe rules lose in 1 rounds at most\n\
        step 1 (site at page 0, rules at page 0): the site moves 0 -in-> 1; \
        whatever the rules answer from page 0 by action in:\n\
        \x20 page 1: see step 2\n\
        step 2 (site at page 1, rules at page 1): \
        the rules' page has another set of actions: also out\n";
    folder.run(&["--ready"], &site, &rules).is(1, story);
    let (_, turns) = compare::compare_ready(&site, &rules).unwrap();
    let steps = object(
        turns,
        1,
        "\"steps\":[\
        {\"step\":1,\"site\":0,\"rules\":0,\"why\":\"move\",\"action\":1,\"label\":\"in\",\
        \"target\":1,\"replies\":[{\"page\":1,\"step\":2}]},\
        {\"step\":2,\"site\":1,\"rules\":1,\"why\":\"outside the ready start\",\
        \"end mark\":false,\"also\":[{\"action\":2,\"label\":\"out\"}],\"not\":[]}]",
    );
    folder
        .run(&["--json", "--ready"], &site, &rules)
        .is(1, &steps);
}

/// Pairs outside the ready start in either way, by page: those of the site are 0
/// and 1, those of the rules 2 and 3.
#[test]
fn entries() {
    let folder = Folder::new("ready-entries");
    let [site, rules] = dead_end();
    // Pages 0 and 2 have "in", page 1 has nothing, and page 3 has "out".
    let outside = [
        [0, 1],
        [0, 3],
        [1, 0],
        [1, 2],
        [1, 3],
        [2, 1],
        [2, 3],
        [3, 0],
        [3, 1],
        [3, 2],
    ];
    let lines: String = outside
        .iter()
        .map(|[p, q]| format!("({p},{q},0,0)\n"))
        .collect();
    let lines = format!("closed\n{lines}(0,2,1,1)\n");
    folder
        .run(&["--ready", "--entries"], &site, &rules)
        .is(1, &lines);
    let (_, turns) = compare::compare_ready(&site, &rules).unwrap();
    let arrays = outside.map(|[p, q]| format!("[{p},{q},0,0],")).concat();
    let rest = format!("\"labels\":[\"in\",\"out\"],\"entries\":[{arrays}[0,2,1,1]]");
    let object = object(turns, 1, &rest);
    for words in [
        ["--ready", "--entries", "--json", "site", "rules"],
        ["--json", "--entries", "--ready", "site", "rules"],
        ["--entries", "site", "--ready", "rules", "--json"],
        ["site", "rules", "--json", "--ready", "--entries"],
    ] {
        folder.on(&words).is(1, &object);
    }
}

/// The end mark, and names that JSON escapes, in both lists.
#[test]
fn every_reason_at_once() {
    let folder = Folder::new("ready-reasons");
    let loops = |end_mark, labels: &[&str]| {
        let moves: Vec<_> = (1..=labels.len()).map(|action| (0, action, 0)).collect();
        let lts = Lts::of(1, labels.len(), &moves);
        let lts = Lts::new(lts.actions(), vec![end_mark], lts.transitions().to_vec());
        named(&lts, labels)
    };
    let site = loops(true, &["a\"", "b", "c"]);
    let rules = loops(false, &["\\d", "b", "e"]);
    let story = "closed\nthe rules lose in 0 rounds at most\n\
        step 1 (site at page 0, rules at page 0): \
        page 0 of the site has the end mark, page 0 of the rules has not; \
        the rules' page has another set of actions: also \\d, e; not a\", c\n";
    folder.run(&["--ready"], &site, &rules).is(1, story);
    let (_, turns) = compare::compare_ready(&site, &rules).unwrap();
    let steps = object(
        turns,
        0,
        r#""steps":[{"step":1,"site":0,"rules":0,"why":"outside the ready start","end mark":true,"also":[{"action":4,"label":"\\d"},{"action":5,"label":"e"}],"not":[{"action":1,"label":"a\""},{"action":3,"label":"c"}]}]"#,
    );
    folder
        .run(&["--ready", "--json"], &site, &rules)
        .is(1, &steps);
    // In the older form the end mark is all that is told.
    let story = "closed\nthe rules lose in 0 rounds at most\n\
        step 1 (site at page 0, rules at page 0): \
        page 0 of the site has the end mark, page 0 of the rules has not\n";
    folder.run(&[], &site, &rules).is(1, story);
    let (_, turns) = compare::compare(&site, &rules).unwrap();
    let rest = r#""steps":[{"step":1,"site":0,"rules":0,"why":"end mark"}]"#;
    let run = folder.run(&["--json"], &site, &rules);
    run.is(1, &object(turns, 0, rest));
}
