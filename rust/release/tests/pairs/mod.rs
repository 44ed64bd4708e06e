//! Runs on pairs of sheets of all kinds, against the independent program.

use super::{Folder, Json, Run};
use differential::{damage, flows, make};
use reference::labels::LabelledLts;
use reference::lts::Lts;
use reference::plans::Rounds;
use reference::prng::Prng;
use reference::refusal::Refusal;
use reference::relation::Preorder;
use reference::{compare, grid, random, sheet};

/// Pairs of sheets that are run in each form.
const PAIRS: u64 = 300;

/// What the independent program says of two sheets: yes or no, and the turns.
type Compared = Result<(bool, usize), Refusal>;

/// A form of the tool: its name, its options, what the independent program has
/// for it, and what a step on a pair outside its start says.
struct Form {
    name: &'static str,
    options: &'static [&'static str],
    compare: fn(&[u8], &[u8]) -> Compared,
    start_of: fn(&Lts) -> Preorder,
    outside: &'static str,
}

const OLDER: Form = Form {
    name: "pairs",
    options: &[],
    compare: compare::compare,
    start_of: grid::end_start_of,
    outside: "end mark",
};

const READY: Form = Form {
    name: "ready-pairs",
    options: &["--ready"],
    compare: compare::compare_ready,
    start_of: grid::ready_start_of,
    outside: "outside the ready start",
};

#[test]
fn pairs_of_all_kinds() {
    let sizes = flows::Sizes {
        large: 30,
        edges: 200,
    };
    OLDER.agrees(8_000_000, |rng| {
        let site = flows::flow(rng, sizes);
        let rules = if rng.chance(60) {
            random::fewer(rng, &site, 1)
        } else {
            flows::flow(rng, sizes)
        };
        flows::labelled(rng, [site, rules])
    });
}

#[test]
fn pairs_in_the_ready_form() {
    READY.agrees(8_100_000, make::two_flows_for_ready);
}

impl Form {
    /// The status, the first line, the turns and the rounds are the independent
    /// program's, and the steps of text and object are the same.
    fn agrees(&self, seed: u64, two: impl Fn(&mut Prng) -> [LabelledLts; 2]) {
        let folder = Folder::new(self.name);
        let mut count = [0; 3];
        for seed in seed..seed + PAIRS {
            let rng = &mut Prng::new(seed);
            let sheets = two(rng).map(|flow| damage::sheet(rng, &flow, 15));
            let run = |more: &[&str]| {
                let options = [self.options, more].concat();
                folder.run(&options, &sheets[0], &sheets[1])
            };
            let (text, object) = (run(&[]), run(&["--json"]));
            assert_eq!(text.status, object.status);
            count[text.status as usize] += 1;
            self.agree(&sheets, &text, &Json::read(&object.out));
        }
        assert!(count.iter().all(|&count| count > 40), "{count:?}");
    }

    /// Holds one run to the independent program.
    fn agree(&self, sheets: &[Vec<u8>; 2], text: &Run, object: &Json) {
        let result = object.field("result").string();
        match (self.compare)(&sheets[0], &sheets[1]) {
            Err(Refusal { number, record }) => {
                assert_eq!((text.status, result), (2, "refused"));
                assert!(text.out.starts_with(&format!("refused {number}: ")));
                assert_eq!(object.field("number").number(), usize::from(number));
                let told = text.out.contains(&format!(": record {record} ("));
                let field = match object.field("record") {
                    Json::Null => 0,
                    record => record.number(),
                };
                assert_eq!(
                    (field, told),
                    (usize::from(record), record != 0),
                    "{text:?}"
                );
            }
            Ok((yes, turns)) => {
                assert_eq!(text.status, i32::from(!yes));
                let word = if yes { "open" } else { "closed" };
                assert_eq!((text.out.lines().next(), result), (Some(word), word));
                assert_eq!(object.field("turns").number(), turns);
                if !yes {
                    self.closed_agrees(sheets, text, object);
                }
            }
        }
    }

    /// Holds the rounds and the steps of one run to the independent program.
    fn closed_agrees(&self, sheets: &[Vec<u8>; 2], text: &Run, object: &Json) {
        assert_eq!(object.names(), ["result", "turns", "rounds", "steps"]);
        let [site, rules] = sheets
            .each_ref()
            .map(|sheet| sheet::read_labelled(sheet).unwrap());
        let joined = compare::join_labelled(&site, &rules).unwrap();
        let lts = joined.lts();
        let falls = Rounds::of(lts, &(self.start_of)(lts)).falls_at(0, site.lts().states());
        let rounds = object.field("rounds").number();
        assert_eq!(falls, Some(rounds));
        let steps = object.field("steps").array();
        let lines: String = steps.iter().map(told).collect();
        let begin = format!("closed\nthe rules lose in {rounds} rounds at most\n");
        assert_eq!(text.out, begin + &lines);
        let labels = joined.labels();
        for step in steps {
            let why = step.field("why").string();
            assert!(why == "move" || why == self.outside, "{why}");
            actions(step).for_each(|own| is_named(own, labels));
        }
    }
}

/// The actions that an object's step tells of, each with its number and name.
fn actions(step: &Json) -> Box<dyn Iterator<Item = &Json> + '_> {
    match step.field("why").string() {
        "move" => Box::new([step].into_iter()),
        "outside the ready start" => {
            let lists = ["also", "not"].map(|name| step.field(name).array());
            Box::new(lists.into_iter().flatten())
        }
        _ => Box::new([].into_iter()),
    }
}

/// The object has an action's number and its name.
fn is_named(own: &Json, labels: &[String]) {
    let action = own.field("action").number();
    assert_eq!(own.field("label").string(), labels[action - 1]);
}

/// The lines that tell an object's step.
fn told(step: &Json) -> String {
    let number = |name: &str| step.field(name).number();
    let (site, rules) = (number("site"), number("rules"));
    let begin = format!(
        "step {} (site at page {site}, rules at page {rules}): ",
        number("step")
    );
    let end_mark =
        format!("page {site} of the site has the end mark, page {rules} of the rules has not");
    let why = step.field("why").string();
    match why {
        "end mark" => return format!("{begin}{end_mark}\n"),
        "outside the ready start" => return format!("{begin}{}\n", outside(step, end_mark)),
        _ => assert_eq!(why, "move"),
    }
    let (label, target) = (step.field("label").string(), number("target"));
    let begin = format!("{begin}the site moves {site} -{label}-> {target}; ");
    let replies = step.field("replies").array();
    if replies.is_empty() {
        return format!("{begin}the rules at page {rules} have no move {label}\n");
    }
    let reply = |reply: &Json| {
        let (page, step) = (reply.field("page").number(), reply.field("step").number());
        format!("  page {page}: see step {step}\n")
    };
    let replies: String = replies.iter().map(reply).collect();
    format!("{begin}whatever the rules answer from page {rules} by action {label}:\n{replies}")
}

/// The sentences on a pair outside the ready start.
fn outside(step: &Json, end_mark: String) -> String {
    let names = ["step", "site", "rules", "why", "end mark", "also", "not"];
    assert_eq!(step.names(), names);
    let labels = |list: &str| -> Vec<&str> {
        let actions = step.field(list).array().iter();
        actions.map(|own| own.field("label").string()).collect()
    };
    let (also, not) = (labels("also").join(", "), labels("not").join(", "));
    let set = "the rules' page has another set of actions";
    let actions = match (also.is_empty(), not.is_empty()) {
        (true, true) => None,
        (false, true) => Some(format!("{set}: also {also}")),
        (true, false) => Some(format!("{set}: not {not}")),
        (false, false) => Some(format!("{set}: also {also}; not {not}")),
    };
    match (step.field("end mark").bool(), actions) {
        (true, None) => end_mark,
        (true, Some(actions)) => format!("{end_mark}; {actions}"),
        (false, Some(actions)) => actions,
        (false, None) => panic!("no reason: {step:?}"),
    }
}
