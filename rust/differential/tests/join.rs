//! Join where its refusals and lengths meet: every pair of sound and unsound
//! sheets, flows at and above the limits, each with buffers of every kind.

use differential::case::{Call, Case, Outcome};
use differential::memory::{Heap, Slot, SLOTS};
use differential::sides::agreed;
use reference::lts::Lts;
use reference::prng::Prng;
use reference::refusal::Refusal;
use reference::{random, sheet};

/// A sheet of two pages and the moves 0 -1-> 1, 0 -1-> 0 and 1 -2-> 1, with
/// its records in no order.
const SOUND: [u8; 32] = [
    2, 0, 2, 0, 3, 0, 0, 0, 3, 0, 1, 0, 2, 0, 1, 0, 0, 0, 0, 0, 2, 0, 1, 0, 0, 0, 1, 0, 1, 0, 1, 0,
];

/// The sheet above, and then the same with the damage that each refusal of a
/// sheet is for.
fn sheets() -> [(Vec<u8>, Option<Refusal>); 8] {
    let with = |at: usize, byte: u8| {
        let mut sheet = SOUND.to_vec();
        sheet[at] = byte;
        sheet
    };
    let refused = |number, record| Some(Refusal { number, record });
    [
        (SOUND.to_vec(), None),
        (SOUND[..31].to_vec(), refused(1, 0)),
        (with(2, 65), refused(2, 0)),
        (with(6, 2), refused(3, 0)),
        (with(15, 1), refused(4, 0)),
        (with(12, 0), refused(5, 2)),
        (with(18, 3), refused(16, 3)),
        (with(28, 0), refused(6, 0)),
    ]
}

/// Runs a join on both sides and gives what it came to.
fn outcome<S: Slot>(first: &[u8], second: &[u8], length: usize, slots: &mut [S; SLOTS]) -> Outcome {
    let out = (0..length).map(|at| at as u8 ^ 0xa5).collect();
    let case = Case {
        call: Call::Join,
        bytes: vec![first.to_vec(), second.to_vec(), out],
        numbers: Vec::new(),
    };
    let outcome = agreed(&case, slots);
    if outcome.answer.is_err() {
        assert_eq!(outcome.bytes, case.bytes);
    }
    let written = match outcome.answer {
        Ok(ref values) => values[0] as usize,
        Err(_) => 0,
    };
    assert_eq!(outcome.bytes[2][written..], case.bytes[2][written..]);
    outcome
}

/// Joins two sheets into buffers of every kind; `refusal` is the one that the
/// sheets give, if any.
fn joins<S: Slot>(first: &[u8], second: &[u8], refusal: Option<Refusal>, slots: &mut [S; SLOTS]) {
    let right = first.len() + second.len() - sheet::HEADER;
    for length in [right, right + 1, right + 64, right - 1, 0] {
        let answer = outcome(first, second, length, slots).answer;
        match refusal {
            Some(refusal) => assert_eq!(answer, Err(refusal)),
            None if length >= right => assert_eq!(answer, Ok(vec![right as u64])),
            None => assert_eq!(answer, Err(Refusal::BUFFER)),
        }
    }
}

/// Every pair of sheets, and flows at and above the limits.
fn joins_all<S: Slot>(slots: &mut [S; SLOTS]) {
    let sheets = sheets();
    for (first, one) in &sheets {
        for (second, two) in &sheets {
            joins(first, second, one.or(*two), slots);
        }
    }
    let large = Some(Refusal::JOIN);
    let mut rng = Prng::new(7_000_000);
    for first in [1, 2, 100, 128, 255] {
        for (second, refusal) in [(256 - first, None), (257 - first, large), (256, large)] {
            let sheets = [first, second].map(|n| sheet::write(&Lts::of(n, 0, &[])));
            joins(&sheets[0], &sheets[1], refusal, slots);
        }
    }
    for first in [1, 2, 512, 1023, 1024] {
        for (second, refusal) in [(1024 - first, None), (1025 - first, large)] {
            let sheets = [first, second].map(|k| {
                let lts = random::lts_exact(&mut rng, 24, 2, k, 20);
                random::shuffled_sheet(&mut rng, &lts)
            });
            joins(&sheets[0], &sheets[1], refusal, slots);
        }
    }
}

#[test]
fn on_the_heap() {
    joins_all(&mut Heap::slots());
}

#[cfg(target_os = "linux")]
#[test]
fn beside_pages_without_access() {
    use differential::memory::{Guarded, Side};
    joins_all(&mut Guarded::slots(Side::Begin));
    joins_all(&mut Guarded::slots(Side::End));
}
