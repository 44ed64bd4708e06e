//! Verdicts and stories, against the independent program.

mod ready;

use crate::form::Form;
use crate::joined::{Action, Joined};
use crate::story::{self, Reply, Step, Why};
use crate::text;
use crate::unlike::Unlike;
use crate::verdict::{judge, Reason, Sheet, Verdict};
use differential::flows::{self, Sizes};
use flow::{Compared, Entry, Refusal};
use reference::labels::LabelledLts;
use reference::lts::{Lts, Transition};
use reference::plans::Rounds;
use reference::prng::Prng;
use reference::relation::Preorder;
use reference::{compare, grid, random, sheet};
use std::collections::HashSet;

/// Both forms of compare.
const FORMS: [Form; 2] = [Form::Older, Form::Ready];

/// The rounds and the steps for two sheets; none where the verdict is open.
fn closed(form: Form, site: &[u8], rules: &[u8]) -> Option<(u16, Vec<Step>)> {
    match judge(site, rules, form, false).unwrap() {
        Verdict::Open { .. } => None,
        Verdict::Closed {
            rounds,
            reason: Reason::Story(steps),
            ..
        } => Some((rounds, steps)),
        other => panic!("{other:?}"),
    }
}

/// The steps for two sheets; none where the verdict is open.
fn steps(form: Form, site: &[u8], rules: &[u8]) -> Option<Vec<Step>> {
    closed(form, site, rules).map(|(_, steps)| steps)
}

/// The text for two sheets in the older form.
fn told(site: &[u8], rules: &[u8]) -> String {
    told_by(Form::Older, site, rules)
}

/// The text for two sheets.
fn told_by(form: Form, site: &[u8], rules: &[u8]) -> String {
    text::lines(&judge(site, rules, form, false).unwrap())
}

/// The text for two flows in the older form.
fn text(site: &Lts, rules: &Lts) -> String {
    told(&sheet::write(site), &sheet::write(rules))
}

/// The named sheet of a flow.
fn named(lts: &Lts, labels: &[&str]) -> Vec<u8> {
    let labels = labels.iter().map(|label| label.to_string()).collect();
    sheet::write_labelled(&LabelledLts::named(lts.clone(), labels))
}

/// A flow with one end mark.
fn marked(page: usize, lts: &Lts) -> Lts {
    let mut marks = lts.end_marks().to_vec();
    marks[page] = true;
    Lts::new(lts.actions(), marks, lts.transitions().to_vec())
}

#[test]
fn a_move_without_reply() {
    let site = Lts::of(5, 3, &[(0, 3, 4)]);
    let rules = Lts::of(2, 3, &[(0, 1, 1), (1, 3, 1)]);
    let told = "closed\nthe rules lose in 1 rounds at most\n\
        step 1 (site at page 0, rules at page 0): \
        the site moves 0 -3-> 4; the rules at page 0 have no move 3\n";
    assert_eq!(text(&site, &rules), told);
}

/// The rules' action 1 is the site's action 2, by name.
#[test]
fn actions_by_name() {
    let site = Lts::of(3, 2, &[(0, 2, 1), (1, 1, 2)]);
    let site = named(&site, &["sign-out", "open\"->"]);
    let rules = Lts::of(2, 2, &[(0, 1, 1), (1, 1, 1)]);
    let words = "closed\nthe rules lose in 2 rounds at most\n\
        step 1 (site at page 0, rules at page 0): the site moves 0 -open\"->-> 1; \
        whatever the rules answer from page 0 by action open\"->:\n\
        \x20 page 1: see step 2\n\
        step 2 (site at page 1, rules at page 1): the site moves 1 -sign-out-> 2; \
        the rules at page 1 have no move sign-out\n";
    assert_eq!(
        told(&site, &named(&rules, &["open\"->", "sign-out"])),
        words
    );
    assert_eq!(told(&site, &named(&rules, &["open\"->", "new"])), words);
    // A plain sheet's actions are named by their numbers.
    let words = "closed\nthe rules lose in 1 rounds at most\n\
        step 1 (site at page 0, rules at page 0): \
        the site moves 0 -open\"->-> 1; the rules at page 0 have no move open\"->\n";
    assert_eq!(told(&site, &sheet::write(&rules)), words);
    let one = Lts::of(1, 1, &[(0, 1, 0)]);
    let (plain, two) = (sheet::write(&one), named(&one, &["2"]));
    let words = |label| {
        format!(
            "closed\nthe rules lose in 1 rounds at most\n\
            step 1 (site at page 0, rules at page 0): \
            the site moves 0 -{label}-> 0; the rules at page 0 have no move {label}\n"
        )
    };
    assert_eq!(told(&plain, &two), words("1"));
    assert_eq!(told(&two, &plain), words("2"));
    assert_eq!(told(&plain, &named(&one, &["1"])), "open\n");
}

#[test]
fn an_end_mark() {
    let (one, marked) = (Lts::of(1, 0, &[]), marked(0, &Lts::of(1, 0, &[])));
    let told = "closed\nthe rules lose in 0 rounds at most\n\
        step 1 (site at page 0, rules at page 0): \
        page 0 of the site has the end mark, page 0 of the rules has not\n";
    assert_eq!(text(&marked, &one), told);
    assert_eq!(text(&one, &marked), "open\n");
    assert_eq!(text(&marked, &marked), "open\n");
}

/// The rules reply with page 1, which has no move 2, or with page 3, which has
/// no end mark; page 2 has both, but no move leads there.
#[test]
fn every_reply_and_no_other_page() {
    let site = marked(1, &Lts::of(3, 2, &[(0, 1, 1), (1, 2, 2)]));
    let rules = Lts::of(4, 2, &[(0, 1, 1), (0, 1, 3), (2, 2, 2), (3, 2, 0)]);
    let rules = marked(1, &marked(2, &rules));
    let steps = steps(Form::Older, &sheet::write(&site), &sheet::write(&rules)).unwrap();
    let step = |site, rules, why| Step { site, rules, why };
    let moves = |number: u16, target, replies: &[(u16, usize)]| Why::Move {
        action: Action {
            number,
            label: number.to_string(),
        },
        target,
        replies: replies
            .iter()
            .map(|&(page, step)| Reply { page, step })
            .collect(),
    };
    let expected = [
        step(0, 0, moves(1, 1, &[(1, 2), (3, 3)])),
        step(1, 1, moves(2, 2, &[])),
        step(1, 3, Why::EndMark),
    ];
    assert_eq!(steps, expected);
    let told = "closed\nthe rules lose in 2 rounds at most\n\
        step 1 (site at page 0, rules at page 0): the site moves 0 -1-> 1; \
        whatever the rules answer from page 0 by action 1:\n\
        \x20 page 1: see step 2\n\
        \x20 page 3: see step 3\n\
        step 2 (site at page 1, rules at page 1): the site moves 1 -2-> 2; \
        the rules at page 1 have no move 2\n\
        step 3 (site at page 1, rules at page 3): \
        page 1 of the site has the end mark, page 3 of the rules has not\n";
    assert_eq!(text(&site, &rules), told);
}

/// The start that the form uses.
fn start_of(form: Form, lts: &Lts) -> Preorder {
    match form {
        Form::Older => grid::end_start_of(lts),
        Form::Ready => grid::ready_start_of(lts),
    }
}

/// The rounds of the joined flow.
fn rounds_of(form: Form, [site, rules]: [&LabelledLts; 2]) -> Rounds {
    let joined = compare::join_labelled(site, rules).unwrap();
    let joined = joined.lts();
    Rounds::of(joined, &start_of(form, joined))
}

/// Has the site's page the end mark, and the rules' has not?
fn is_marked_alone([site, rules]: [&LabelledLts; 2], step: &Step) -> bool {
    site.lts().has_end_mark(step.site.into()) && !rules.lts().has_end_mark(step.rules.into())
}

/// How the pages of a step differ: the actions that one of them has alone are
/// those by name, in the order of the joined flow's numbers.
fn unlike_of(flows: [&LabelledLts; 2], step: &Step) -> Unlike {
    let labels_of = |flow: &LabelledLts, page: u16| -> Vec<String> {
        let actions = flow.lts().actions_of(page.into());
        let labels = actions.iter().map(|&action| &flow.labels()[action - 1]);
        labels.cloned().collect()
    };
    let [site, rules] = [
        labels_of(flows[0], step.site),
        labels_of(flows[1], step.rules),
    ];
    let alone = |own: &[String], others: &[String]| -> Vec<Action> {
        let joined = compare::joined_labels(flows[0].labels(), flows[1].labels());
        (1..)
            .zip(joined)
            .filter(|(_, label)| own.contains(label) && !others.contains(label))
            .map(|(number, label)| Action { number, label })
            .collect()
    };
    Unlike {
        end_mark: is_marked_alone(flows, step),
        also: alone(&rules, &site),
        not: alone(&site, &rules),
    }
}

/// The pages that the rules can reply with to a step's move of the site, which
/// is there.
fn replies_to([site, rules]: [&LabelledLts; 2], step: &Step) -> Vec<u16> {
    let Why::Move { action, target, .. } = &step.why else {
        panic!("no move: {step:?}");
    };
    let number = usize::from(action.number);
    assert_eq!(site.labels()[number - 1], action.label);
    let own = Transition {
        source: step.site.into(),
        action: number,
        target: usize::from(*target),
    };
    assert!(site.lts().has(own), "{step:?}");
    let place = rules.labels().iter().position(|own| *own == action.label);
    let replies = place.map_or(&[][..], |at| rules.lts().replies(step.rules.into(), at + 1));
    replies.iter().map(|reply| reply.target as u16).collect()
}

/// Holds every step to the flows: the site's move is there, the replies are
/// all that the rules have by its name, each is beaten by a later step; an end
/// mark is there and not there, or the pages differ as they are told to; the
/// pair is dropped; no pair is told twice, and none that no earlier step needs.
fn is_right(form: Form, flows: [&LabelledLts; 2], steps: &[Step]) {
    let (rounds, pages) = (rounds_of(form, flows), flows[0].lts().states());
    let pairs: Vec<(u16, u16)> = steps.iter().map(|step| (step.site, step.rules)).collect();
    assert_eq!(pairs.iter().collect::<HashSet<_>>().len(), pairs.len());
    let mut needed = HashSet::from([(0, 0)]);
    for (number, step) in (1..).zip(steps) {
        assert!(needed.contains(&(step.site, step.rules)), "{steps:?}");
        let falls = rounds.falls_at(step.site.into(), pages + usize::from(step.rules));
        assert!(falls.is_some(), "{steps:?}");
        match (form, &step.why) {
            (Form::Older, Why::EndMark) => assert!(is_marked_alone(flows, step)),
            (Form::Ready, Why::Unlike(unlike)) => {
                assert_eq!((falls, unlike), (Some(0), &unlike_of(flows, step)));
            }
            (
                _,
                Why::Move {
                    target, replies, ..
                },
            ) => {
                let pages = replies.iter().map(|reply| reply.page);
                assert!(pages.eq(replies_to(flows, step)), "{steps:?}");
                for reply in replies {
                    assert!(reply.step > number, "{steps:?}");
                    assert_eq!(pairs[reply.step - 1], (*target, reply.page));
                    needed.insert((*target, reply.page));
                }
            }
            other => panic!("not of the form: {other:?}"),
        }
    }
    assert_eq!(needed.len(), pairs.len());
}

/// Two flows of many shapes and of both kinds, unlike ones or with a few moves
/// less.
fn flows(rng: &mut Prng, sizes: Sizes) -> [LabelledLts; 2] {
    let site = flows::flow(rng, sizes);
    let rules = match rng.chance(40) {
        true => flows::flow(rng, sizes),
        false => random::fewer(rng, &site, 2),
    };
    flows::labelled(rng, [site, rules])
}

/// The rounds that the steps themselves take: a pair outside the start none, a
/// move without reply one, any other one more than the longest of its replies.
fn rounds_told(steps: &[Step]) -> u16 {
    let mut rounds = vec![0; steps.len()];
    for (at, step) in steps.iter().enumerate().rev() {
        if let Why::Move { replies, .. } = &step.why {
            let longest = replies.iter().map(|reply| rounds[reply.step - 1]).max();
            rounds[at] = longest.unwrap_or(0) + 1;
        }
    }
    rounds[0]
}

/// The rounds of a closed verdict on two flows, with the entries and without:
/// the round in which the pair falls, and what the steps take. None where the
/// verdict is another.
fn rounds_held(form: Form, rng: &mut Prng, flows: [&LabelledLts; 2]) -> Option<u16> {
    let sheets = flows.map(|flow| random::shuffled_labelled(rng, flow));
    let verdict = |entries| judge(&sheets[0], &sheets[1], form, entries).unwrap();
    let Verdict::Closed { rounds, reason, .. } = verdict(false) else {
        return None;
    };
    let falls = rounds_of(form, flows).falls_at(0, flows[0].lts().states());
    assert_eq!(falls, Some(rounds.into()));
    let Reason::Story(steps) = reason else {
        panic!("{reason:?}");
    };
    assert_eq!(rounds_told(&steps), rounds, "{steps:?}");
    let same = |verdict| matches!(verdict, Verdict::Closed { rounds: own, .. } if own == rounds);
    assert!(same(verdict(true)));
    Some(rounds)
}

#[test]
fn rounds_of_many_flows() {
    let sizes = Sizes {
        large: 0,
        edges: 50,
    };
    let mut rng = Prng::new(19);
    let mut count = [0; 6];
    for _ in 0..4_000 {
        let [site, rules] = match rng.chance(50) {
            true => flows(&mut rng, sizes),
            false => [(); 2].map(|()| LabelledLts::plain(flows::for_plans(&mut rng, sizes))),
        };
        if let Some(rounds) = rounds_held(Form::Older, &mut rng, [&site, &rules]) {
            count[usize::from(rounds).min(5)] += 1;
        }
    }
    assert!(count.iter().all(|&count| count > 20), "{count:?}");
}

/// The steps for two flows, none of them where the verdict is open; held to the
/// independent program. None where the flows are too large together.
fn story_held(form: Form, rng: &mut Prng, flows: [&LabelledLts; 2]) -> Option<Vec<Step>> {
    let [site, rules] = flows.map(|flow| random::shuffled_labelled(rng, flow));
    let (yes, _) = match form {
        Form::Older => compare::compare(&site, &rules).ok()?,
        Form::Ready => compare::compare_ready(&site, &rules).ok()?,
    };
    let told = steps(form, &site, &rules);
    assert_eq!(told.is_none(), yes);
    if let Some(steps) = &told {
        is_right(form, flows, steps);
    }
    Some(told.unwrap_or_default())
}

#[test]
fn stories_of_many_flows() {
    let sizes = Sizes {
        large: 0,
        edges: 100,
    };
    let mut rng = Prng::new(16);
    let (mut open, mut longest, mut most_replies) = (0, 0, 0);
    for _ in 0..6_000 {
        let [site, rules] = flows(&mut rng, sizes);
        let Some(steps) = story_held(Form::Older, &mut rng, [&site, &rules]) else {
            continue;
        };
        open += usize::from(steps.is_empty());
        longest = longest.max(steps.len());
        for step in &steps {
            if let Why::Move { replies, .. } = &step.why {
                most_replies = most_replies.max(replies.len());
            }
        }
    }
    assert!(open > 1_000 && open < 5_000, "{open} are open");
    assert!(longest > 40 && most_replies > 8, "{longest} {most_replies}");
}

/// The rules can leave a path of 128 pages one page earlier than the site.
#[test]
fn a_long_story() {
    let path =
        |n: usize| -> Vec<(usize, usize, usize)> { (0..n - 1).map(|p| (p, 1, p + 1)).collect() };
    let site = Lts::of(128, 1, &path(128));
    let rules = Lts::of(127, 1, &path(127));
    let sheets = [&site, &rules].map(sheet::write);
    let (rounds, steps) = closed(Form::Older, &sheets[0], &sheets[1]).unwrap();
    assert_eq!((rounds, steps.len()), (127, 127));
    let [site, rules] = [site, rules].map(LabelledLts::plain);
    is_right(Form::Older, [&site, &rules], &steps);
    // At the limits of pages and moves, with many replies.
    let mut rng = Prng::new(17);
    for _ in 0..5 {
        let site = random::forward(&mut rng, 128, 2, 10);
        let k = 1_024 - site.transitions().len();
        let rules = random::lts_exact(&mut rng, 128, 2, k, 30);
        let [site, rules] = [site, rules].map(LabelledLts::plain);
        assert!(story_held(Form::Older, &mut rng, [&site, &rules]).is_some());
    }
}

/// Where the verdict on two flows is closed, its entries are the independent
/// program's plan. Is it closed?
fn entries_held(form: Form, flows: [&LabelledLts; 2]) -> bool {
    let sheets = flows.map(sheet::write_labelled);
    let verdict = judge(&sheets[0], &sheets[1], form, true).unwrap();
    let Verdict::Closed { reason, .. } = verdict else {
        return false;
    };
    let joined = compare::join_labelled(flows[0], flows[1]).unwrap();
    let (labels, joined) = (joined.labels().to_vec(), joined.lts());
    let rounds = Rounds::of(joined, &start_of(form, joined));
    let plan = rounds.strategy(joined, 0, flows[0].lts().states()).unwrap();
    let entry = |e: &reference::plans::Entry| Entry {
        p: e.p,
        q: e.q,
        a: e.a,
        t: e.t,
    };
    let entries = plan.entries.iter().map(entry).collect();
    assert_eq!(reason, Reason::Entries { labels, entries });
    true
}

#[test]
fn entries_are_the_written_plan() {
    let sizes = Sizes { large: 0, edges: 0 };
    let mut rng = Prng::new(18);
    let mut closed = 0;
    for _ in 0..500 {
        let [site, rules] = flows(&mut rng, sizes);
        closed += usize::from(entries_held(Form::Older, [&site, &rules]));
    }
    assert!(closed > 100, "{closed} are closed");
}

#[test]
fn refusals_name_their_sheet() {
    let good = sheet::write(&Lts::of(2, 1, &[(0, 1, 1)]));
    let mut bad = good.clone();
    bad[6] = 2;
    let refused = |site: &[u8], rules: &[u8], refusal, sheet| {
        for form in FORMS {
            let verdict = judge(site, rules, form, false);
            assert_eq!(verdict, Ok(Verdict::Refused { refusal, sheet }), "{form:?}");
        }
    };
    let (first, second) = (Some(Sheet::First), Some(Sheet::Second));
    refused(&bad, &good, Refusal::PageRecord, first);
    refused(&good, &bad, Refusal::PageRecord, second);
    refused(&bad, &good[..5], Refusal::PageRecord, first);
    let large = sheet::write(&Lts::of(255, 0, &[]));
    refused(&good, &large, Refusal::Joined, None);
    // A bad name, and too many of them together.
    let mut bad = named(&Lts::of(1, 1, &[]), &["open"]);
    bad[6] = b' ';
    refused(&bad, &good[..5], Refusal::Label, first);
    refused(&good, &bad, Refusal::Label, second);
    let other = named(&Lts::of(1, 1, &[]), &["open"]);
    let most = sheet::write(&Lts::of(1, 64, &[]));
    refused(&most, &other, Refusal::TooManyLabels, None);
    refused(&other, &most, Refusal::TooManyLabels, None);
}

/// Where both sheets have such a record, the first's is told.
#[test]
fn refusals_name_their_record() {
    let good = sheet::write(&Lts::of(2, 1, &[(0, 1, 0), (0, 1, 1), (1, 1, 0)]));
    let with = |at: usize, byte: u8| {
        let mut sheet = good.clone();
        sheet[at] = byte;
        sheet
    };
    let (second, third) = (with(18, 0), with(12, 0));
    let (twice, both) = (with(30, 2), with(12, 2));
    let lone = |record: u8, sheet: &str| {
        format!("refused 5: a record on no chain: record {record} ({sheet} sheet)\n")
    };
    for form in FORMS {
        let told = |site: &[u8], rules: &[u8]| told_by(form, site, rules);
        assert_eq!(told(&second, &third), lone(2, "first"));
        assert_eq!(told(&third, &second), lone(3, "first"));
        assert_eq!(told(&good, &second), lone(2, "second"));
        assert_eq!(told(&good, &third), lone(3, "second"));
        assert_eq!(
            told(&twice, &both),
            "refused 16: a record reached twice: record 2 (first sheet)\n"
        );
        assert_eq!(told(&both, &twice), lone(3, "first"));
    }
}

/// What the proved calls would not give is a failure, and no story.
#[test]
fn disagreement_is_a_failure() {
    let site = sheet::write(&Lts::of(2, 1, &[(0, 1, 1), (1, 1, 1)]));
    let rules = sheet::write(&Lts::of(2, 1, &[(0, 1, 1)]));
    for (form, in_rounds) in [(Form::Older, 2), (Form::Ready, 1)] {
        let joined = Joined::new(form, &site, &rules).unwrap();
        let compared = form.compare(&site, &rules).unwrap();
        assert!(!compared.yes && joined.confirm(compared).is_ok());
        let yes = Compared {
            yes: true,
            ..compared
        };
        let turns = Compared {
            turns: compared.turns + 1,
            ..compared
        };
        assert!(joined.confirm(yes).is_err() && joined.confirm(turns).is_err());

        let (plan, rounds) = joined.plan().unwrap();
        assert_eq!(rounds, in_rounds);
        assert!(story::tell(&joined, &plan).is_ok());
        let last = plan.len() - 1;
        assert!(story::tell(&joined, &plan[last..]).is_err());
        assert!(story::tell(&joined, &plan[..last]).is_err());
        let mut other = plan.clone();
        other[last].t = 0;
        assert!(story::tell(&joined, &other).is_err());
        assert!(Joined::new(form, &site, &rules[1..]).is_err());
    }
}
