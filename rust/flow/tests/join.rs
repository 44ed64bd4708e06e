//! Join beside compare: what coarsest finds on the joined sheet is what
//! compare says, in either form.

use flow::{Compared, Grid, Refusal, LONGEST_SHEET};
use reference::labels::LabelledLts;
use reference::lts::Lts;
use reference::prng::Prng;
use reference::random;

/// Two flows: small ones of several shapes, like ones, and now and then large
/// ones.
fn flows(rng: &mut Prng) -> [Lts; 2] {
    if rng.chance(3) {
        let n = rng.between(1, 255);
        return [n, 256 - n].map(|n| random::lts(rng, n, 3, 2 * n, 10));
    }
    let first = random::small(rng, 9, 4);
    if rng.chance(50) {
        return [first, random::small(rng, 9, 4)];
    }
    let second = random::fewer(rng, &first, 1);
    [first, second]
}

/// Sheets of the flows, of one kind or of two; the same names, and some of them
/// with other numbers.
fn sheets(rng: &mut Prng, flows: &[Lts; 2]) -> [Vec<u8>; 2] {
    let labels: Vec<String> = (1..=4).map(|a| a.to_string()).collect();
    flows.each_ref().map(|lts| {
        let own = labels[..lts.actions()].to_vec();
        let flow = match rng.below(3) {
            0 => LabelledLts::plain(lts.clone()),
            1 => LabelledLts::named(lts.clone(), own),
            _ => random::renumbered(rng, &LabelledLts::named(lts.clone(), own)),
        };
        random::shuffled_labelled(rng, &flow)
    })
}

/// The call that writes a start, and the form of compare that uses it.
type Start = fn(&[u8], &mut [u8]) -> Result<(), Refusal>;
type Compare = fn(&[u8], &[u8]) -> Result<Compared, Refusal>;

/// Coarsest from the joined sheet's start says what the form of compare says.
fn coarsest_is(write_start: Start, compare: Compare) -> Result<(), Refusal> {
    let mut rng = Prng::new(14);
    let mut answers = [0; 2];
    for _ in 0..4_000 {
        let flows = flows(&mut rng);
        let sheets = sheets(&mut rng, &flows);
        let mut joined = vec![0xa5; LONGEST_SHEET];
        let length = flow::join(&sheets[0], &sheets[1], &mut joined)?;
        assert!(joined[length..].iter().all(|&byte| byte == 0xa5));
        joined.truncate(length);
        let first = flows[0].states();
        let pages = first + flows[1].states();
        let mut start = Grid::new(pages);
        write_start(&joined, start.bytes_mut())?;
        let (mut kept, mut names) = (Grid::new(pages), vec![0; 2 * pages]);
        let counts = flow::coarsest(&joined, start.bytes(), &[], kept.bytes_mut(), &mut names)?;
        let compared = compare(&sheets[0], &sheets[1])?;
        assert_eq!(kept.holds(0, first), compared.yes);
        assert_eq!(counts.turns, compared.turns);
        answers[usize::from(compared.yes)] += 1;
    }
    assert!(answers.iter().all(|&count| count > 500), "{answers:?}");
    Ok(())
}

#[test]
fn coarsest_on_the_joined_sheet_is_compare() -> Result<(), Refusal> {
    coarsest_is(flow::end_start, flow::compare)
}

#[test]
fn coarsest_from_the_ready_start_is_compare_ready() -> Result<(), Refusal> {
    coarsest_is(flow::ready_start, flow::compare_ready)
}

#[test]
fn a_joined_sheet_is_normal() -> Result<(), Refusal> {
    let mut rng = Prng::new(15);
    for _ in 0..1_000 {
        let flows = flows(&mut rng);
        let sheets = sheets(&mut rng, &flows);
        let mut joined = vec![0; LONGEST_SHEET];
        let length = flow::join(&sheets[0], &sheets[1], &mut joined)?;
        joined.truncate(length);
        let mut normal = vec![0; joined.len()];
        flow::normalise(&joined, &mut normal)?;
        assert_eq!(normal, joined);
    }
    Ok(())
}
