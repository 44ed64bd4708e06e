//! Ready start and compare ready, the archive's and the independent program's,
//! against answers written by hand; and the laws between the archive's own
//! answers in the two forms.

use differential::case::{Call, Case};
use differential::flows::{self, Sizes};
use differential::make;
use differential::memory::{Heap, Slot, SLOTS};
use differential::sides::{agreed, archive, carried};
use flow::Grid;
use reference::labels::decimal;
use reference::prng::Prng;
use reference::ready_flows::{self, Compared, Worked};
use reference::{grid, random, sheet};

fn case(call: Call, buffers: [Vec<u8>; 2]) -> Case {
    Case {
        call,
        bytes: buffers.into(),
        numbers: Vec::new(),
    }
}

/// Ready start writes the flow's start, from its plain sheet and its named one.
fn writes<S: Slot>(worked: &Worked, slots: &mut [S; SLOTS]) {
    let start = carried(&grid::write(&worked.alike));
    let plain = sheet::write(&worked.lts);
    let named = sheet::with_labels(&plain, &decimal(worked.lts.actions()));
    for sheet in [plain, named] {
        let blank = vec![0xa5; start.len()];
        let outcome = agreed(&case(Call::ReadyStart, [sheet.clone(), blank]), slots);
        assert_eq!(outcome.answer, Ok(vec![]), "{:?}", worked.lts);
        assert_eq!(outcome.bytes, [sheet, start.clone()], "{:?}", worked.lts);
    }
}

/// Both forms of compare say what is written beside the flows.
fn compares<S: Slot>(compared: &Compared, slots: &mut [S; SLOTS]) {
    let Compared { flows, yes, ready } = compared;
    for (call, yes) in [(Call::Compare, *yes), (Call::CompareReady, *ready)] {
        let outcome = agreed(&case(call, flows.each_ref().map(sheet::write)), slots);
        let answer = outcome.answer.map(|values| values[0]);
        assert_eq!(answer, Ok(yes.into()), "{call:?} {flows:?}");
    }
}

/// The flows and pairs of flows by hand.
fn by_hand<S: Slot>(slots: &mut [S; SLOTS]) {
    for worked in ready_flows::small() {
        writes(&worked, slots);
    }
    for compared in ready_flows::pairs() {
        compares(&compared, slots);
    }
}

#[test]
fn by_hand_on_the_heap() {
    by_hand(&mut Heap::slots());
}

#[cfg(target_os = "linux")]
#[test]
fn by_hand_beside_pages_without_access() {
    use differential::memory::{Guarded, Side};
    for side in [Side::Begin, Side::End] {
        by_hand(&mut Guarded::slots(side));
    }
}

/// Every set of a few actions, each of 64 actions, all of them, all but one;
/// numbers of pages around the ends of words.
#[test]
fn sets_of_all_kinds() {
    let slots = &mut Heap::slots();
    for actions in 0..=5 {
        writes(&ready_flows::every_set(actions), slots);
    }
    for pages in [1, 63, 64, 65, 66, 127, 128, 129, 255, 256] {
        writes(&ready_flows::single_actions(pages), slots);
    }
    for pages in [1, 2, 16] {
        writes(&ready_flows::all_actions(pages), slots);
    }
    writes(&ready_flows::all_actions_but_one(), slots);
}

/// On the made cases the archive's ready yes is its yes too, and the two forms
/// refuse alike. Each answer comes often, also the older form's yes alone.
#[test]
fn a_ready_yes_is_a_yes() {
    let slots = &mut Heap::slots();
    let (mut count, mut refused) = ([[0; 2]; 2], 0);
    for seed in 0..10_000 {
        let mut case = make::case(Call::CompareReady, seed);
        let ready = archive(&case, slots).answer;
        case.call = Call::Compare;
        let older = archive(&case, slots).answer;
        match (older, ready) {
            (Ok(older), Ok(ready)) => count[older[0] as usize][ready[0] as usize] += 1,
            (older, ready) => {
                assert_eq!(older, ready, "given {case:?}");
                refused += 1;
            }
        }
    }
    let [[neither, ready_alone], [yes_alone, both]] = count;
    assert_eq!(ready_alone, 0, "{count:?}");
    for count in [neither, yes_alone, both, refused] {
        assert!(count > 1_000, "{neither} {yes_alone} {both} {refused}");
    }
}

/// What coarsest keeps under a start that a call writes.
fn kept(sheet: &[u8], start: &Grid, pages: usize) -> Result<Grid, flow::Refusal> {
    let (mut kept, mut names) = (Grid::new(pages), vec![0; 2 * pages]);
    flow::coarsest(sheet, start.bytes(), &[], kept.bytes_mut(), &mut names)?;
    Ok(kept)
}

/// Has the second grid all pairs of the first?
fn is_inside(first: &Grid, second: &Grid) -> bool {
    let mut bytes = first.bytes().iter().zip(second.bytes());
    bytes.all(|(first, second)| first & !second == 0)
}

/// The archive's ready start is inside its end start, coarsest takes it, and
/// what coarsest keeps under it is inside what it keeps under the end start; by
/// test simulation it is a simulation inside either.
#[test]
fn coarsest_under_the_two_starts() -> Result<(), flow::Refusal> {
    let sizes = Sizes {
        large: 100,
        edges: 300,
    };
    let rng = &mut Prng::new(12_000_000);
    let (mut smaller, mut below_start, mut fewer) = (0, 0, 0);
    for _ in 0..3_000 {
        let lts = flows::for_ready(rng, sizes);
        let flow = random::labelled(rng, &lts);
        let (sheet, pages) = (random::shuffled_labelled(rng, &flow), lts.states());
        let (mut end, mut ready) = (Grid::new(pages), Grid::new(pages));
        flow::end_start(&sheet, end.bytes_mut())?;
        flow::ready_start(&sheet, ready.bytes_mut())?;
        assert!(is_inside(&ready, &end), "{lts:?}");
        let [under_end, under_ready] = [&end, &ready].map(|start| kept(&sheet, start, pages));
        let (under_end, under_ready) = (under_end?, under_ready?);
        assert!(is_inside(&under_ready, &under_end), "{lts:?}");
        for start in [&end, &ready] {
            let claim = under_ready.bytes();
            assert!(flow::test_simulation(&sheet, start.bytes(), claim)?);
        }
        smaller += usize::from(ready != end);
        below_start += usize::from(under_ready != ready);
        fewer += usize::from(under_ready != under_end);
    }
    for count in [smaller, below_start, fewer] {
        assert!(count > 500, "{smaller} {below_start} {fewer}");
    }
    Ok(())
}
