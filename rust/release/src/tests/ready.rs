//! Verdicts and stories in the ready form.

use super::{
    closed, entries_held, is_right, marked, named, rounds_held, steps, story_held, told, told_by,
};
use crate::form::Form;
use crate::joined::Joined;
use crate::story::{self, Step, Why};
use crate::unlike::Unlike;
use differential::make;
use flow::Entry;
use reference::labels::LabelledLts;
use reference::lts::Lts;
use reference::prng::Prng;
use reference::shapes::path;
use reference::{random, ready_flows, sheet};

/// The text for two sheets in the ready form.
fn told_ready(site: &[u8], rules: &[u8]) -> String {
    told_by(Form::Ready, site, rules)
}

/// A page with these actions, by name, and with the end mark or without. Its
/// moves lead to itself.
fn page(labels: &[&str], end_mark: bool) -> Vec<u8> {
    let moves: Vec<_> = (1..=labels.len()).map(|action| (0, action, 0)).collect();
    let lts = Lts::of(1, labels.len(), &moves);
    let lts = match end_mark {
        true => marked(0, &lts),
        false => lts,
    };
    named(&lts, labels)
}

/// The text of a verdict whose only step is about the pages 0 and says this.
fn only(reason: &str) -> String {
    let begin = "closed\nthe rules lose in 0 rounds at most\n\
        step 1 (site at page 0, rules at page 0): ";
    format!("{begin}{reason}\n")
}

/// The end mark alone, each list alone, both lists, and all of them.
#[test]
fn each_kind_of_reason() {
    let mark = "page 0 of the site has the end mark, page 0 of the rules has not";
    let set = "the rules' page has another set of actions: ";
    let told = |site: &[&str], end_mark, rules: &[&str]| {
        told_ready(&page(site, end_mark), &page(rules, false))
    };
    assert_eq!(told(&[], true, &[]), only(mark));
    assert_eq!(told(&["in", "out"], true, &["out", "in"]), only(mark));
    let reason = |rest: &str| only(&format!("{set}{rest}"));
    assert_eq!(told(&[], false, &["in"]), reason("also in"));
    assert_eq!(told(&["in"], false, &[]), reason("not in"));
    assert_eq!(told(&["in"], false, &["out"]), reason("also out; not in"));
    // By the joined flow's numbers: the site's first, then the rules' new ones.
    let (site, rules) = (["sell", "in", "buy"], ["open", "buy", "close", "in"]);
    assert_eq!(
        told(&site[..1], false, &rules),
        reason("also open, buy, close, in; not sell")
    );
    assert_eq!(told(&rules[1..2], false, &site), reason("also sell, in"));
    assert_eq!(
        told(&site, false, &rules[..1]),
        reason("also open; not sell, in, buy")
    );
    let all = format!("{mark}; {set}also open, close; not sell");
    assert_eq!(told(&site, true, &rules), only(&all));
    assert_eq!(
        told(&["in"], true, &[]),
        only(&format!("{mark}; {set}not in"))
    );
    // A mark of the rules alone is none of the reasons.
    let both = [page(&["in"], false), page(&["in", "out"], true)];
    assert_eq!(told_ready(&both[0], &both[1]), reason("also out"));
}

/// The names of plain sheets, and of one sheet of each kind.
#[test]
fn actions_by_name() {
    let plain = sheet::write(&Lts::of(1, 12, &[(0, 2, 0), (0, 12, 0)]));
    let other = sheet::write(&Lts::of(1, 9, &[(0, 9, 0), (0, 2, 0), (0, 1, 0)]));
    let reason = |rest: &str| {
        only(&format!(
            "the rules' page has another set of actions: {rest}"
        ))
    };
    assert_eq!(told_ready(&plain, &other), reason("also 1, 9; not 12"));
    assert_eq!(told_ready(&other, &plain), reason("also 12; not 1, 9"));
    // The named page's "2" is its first action, and its "x" is new.
    let named = page(&["2", "x"], false);
    assert_eq!(told_ready(&plain, &named), reason("also x; not 12"));
    assert_eq!(told_ready(&named, &plain), reason("also 12; not x"));
}

/// A dead end that the rules can leave: the older form opens, this one does not.
#[test]
fn open_in_the_older_form_alone() {
    let site = named(&Lts::of(2, 1, &[(0, 1, 1)]), &["in"]);
    let rules = Lts::of(3, 2, &[(0, 1, 1), (0, 1, 2), (1, 2, 0), (2, 1, 0)]);
    let rules = named(&rules, &["in", "out"]);
    assert_eq!(told(&site, &rules), "open\n");
    let words = "closed\nthe rules lose in 1 rounds at most\n\
        step 1 (site at page 0, rules at page 0): the site moves 0 -in-> 1; \
        whatever the rules answer from page 0 by action in:\n\
        \x20 page 1: see step 3\n\
        \x20 page 2: see step 2\n\
        step 2 (site at page 1, rules at page 2): \
        the rules' page has another set of actions: also in\n\
        step 3 (site at page 1, rules at page 1): \
        the rules' page has another set of actions: also out\n";
    assert_eq!(told_ready(&site, &rules), words);
    // With a dead end among the answers both are open.
    let rules = Lts::of(3, 2, &[(0, 1, 1), (0, 1, 2), (1, 2, 0)]);
    let rules = named(&rules, &["in", "out"]);
    assert_eq!(told(&site, &rules), "open\n");
    assert_eq!(told_ready(&site, &rules), "open\n");
}

/// What the pages of a step differ by: an end mark, actions that the rules' page
/// has also, actions that it has not.
fn kind(step: &Step) -> Option<[bool; 3]> {
    match &step.why {
        Why::Unlike(Unlike {
            end_mark,
            also,
            not,
        }) => Some([*end_mark, !also.is_empty(), !not.is_empty()]),
        _ => None,
    }
}

/// Every kind of reason comes often, and so do long stories.
#[test]
fn stories_of_many_flows() {
    let mut rng = Prng::new(26);
    let (mut open, mut longest, mut kinds) = (0, 0, [[[0; 2]; 2]; 2]);
    for _ in 0..6_000 {
        let [site, rules] = make::two_flows_for_ready(&mut rng);
        let Some(steps) = story_held(Form::Ready, &mut rng, [&site, &rules]) else {
            continue;
        };
        open += usize::from(steps.is_empty());
        longest = longest.max(steps.len());
        for [mark, also, not] in steps.iter().filter_map(kind) {
            kinds[usize::from(mark)][usize::from(also)][usize::from(not)] += 1;
        }
    }
    assert!(open > 1_000 && open < 5_000, "{open} are open");
    assert!(longest > 40, "{longest}");
    let kinds = kinds.as_flattened().as_flattened();
    assert_eq!(kinds[0], 0);
    assert!(kinds[1..].iter().all(|&count| count > 30), "{kinds:?}");
}

/// The rounds are the round in which the pair falls, and what the steps take.
#[test]
fn rounds_of_many_flows() {
    let mut rng = Prng::new(29);
    let mut count = [0; 4];
    for _ in 0..4_000 {
        let [site, rules] = make::two_flows_for_ready(&mut rng);
        if let Some(rounds) = rounds_held(Form::Ready, &mut rng, [&site, &rules]) {
            count[usize::from(rounds).min(3)] += 1;
        }
    }
    assert!(count.iter().all(|&count| count > 20), "{count:?}");
}

#[test]
fn entries_are_the_written_plan() {
    let mut rng = Prng::new(28);
    let mut closed = 0;
    for _ in 0..500 {
        let [site, rules] = make::two_flows_for_ready(&mut rng);
        closed += usize::from(entries_held(Form::Ready, [&site, &rules]));
    }
    assert!(closed > 100, "{closed} are closed");
}

/// Two paths of 128 pages, 256 together. The last page of the rules has an
/// action more.
#[test]
fn a_long_story() {
    let [site, rules] = [vec![], vec![(127, 2, 127)]].map(|more| {
        let moves = [path(128), more].concat();
        Lts::of(128, 2, &moves)
    });
    let sheets = [&site, &rules].map(sheet::write);
    assert_eq!(steps(Form::Older, &sheets[0], &sheets[1]), None);
    let (rounds, steps) = closed(Form::Ready, &sheets[0], &sheets[1]).unwrap();
    assert_eq!((rounds, steps.len()), (127, 128));
    let plain = [site, rules].map(LabelledLts::plain);
    is_right(Form::Ready, plain.each_ref(), &steps);
    let words = "step 128 (site at page 127, rules at page 127): \
        the rules' page has another set of actions: also 2\n";
    assert!(told_ready(&sheets[0], &sheets[1]).ends_with(words));
    // Pages with few sets of actions, and the same with some moves less.
    let mut rng = Prng::new(27);
    let mut longest = 0;
    for _ in 0..10 {
        let site = ready_flows::few_sets(&mut rng, 128, 3, 3, 5);
        let rules = random::fewer(&mut rng, &site, 20);
        let flows = [site, rules].map(LabelledLts::plain);
        let steps = story_held(Form::Ready, &mut rng, flows.each_ref()).unwrap();
        longest = longest.max(steps.len());
    }
    assert!(longest > 20, "{longest}");
}

/// An entry with a = 0 for a pair that the ready start holds is a failure.
#[test]
fn nothing_to_tell_is_a_failure() {
    let (one, two) = (page(&["in"], false), page(&["in", "out"], false));
    let outside = Entry {
        p: 0,
        q: 1,
        a: 0,
        t: 0,
    };
    let tell = |rules: &[u8]| {
        let joined = Joined::new(Form::Ready, &one, rules).unwrap();
        story::tell(&joined, &[outside])
    };
    assert!(tell(&two).is_ok());
    assert!(tell(&one).is_err());
}
