//! The two sides: the archive's calls and the independent program's.

use crate::case::{Call, Case, Outcome};
use crate::memory::{Slot, SLOTS};
use reference::refusal::Refusal;
use reference::{compare, convert, game, grid, join, plans, sheet, turns};

/// The outcome of both sides; panics where they differ.
pub fn agreed<S: Slot>(case: &Case, slots: &mut [S; SLOTS]) -> Outcome {
    let outcome = archive(case, slots);
    assert_eq!(outcome, expected(case), "given {case:?}");
    outcome
}

/// The archive's outcome, with the lent buffers lying in the given slots.
pub fn archive<S: Slot>(case: &Case, slots: &mut [S; SLOTS]) -> Outcome {
    let mut bytes: Vec<&mut [u8]> = case
        .bytes
        .iter()
        .zip(slots)
        .map(|(content, slot)| slot.bytes(content))
        .collect();
    let answer = archive_answer(case.call, &mut bytes, &case.numbers);
    Outcome {
        answer: answer.map_err(numbers_of),
        bytes: bytes.iter().map(|buffer| buffer.to_vec()).collect(),
    }
}

/// The numbers of a refusal.
fn numbers_of(refusal: flow::Refusal) -> Refusal {
    Refusal {
        number: refusal.number(),
        record: refusal.record().unwrap_or(0),
    }
}

/// The values of compare's answer, in either form.
fn values_of(compared: flow::Compared) -> Vec<u64> {
    vec![compared.yes.into(), compared.turns.into()]
}

/// The call itself.
fn archive_answer(
    call: Call,
    bytes: &mut [&mut [u8]],
    numbers: &[u64],
) -> Result<Vec<u64>, flow::Refusal> {
    match (call, bytes, numbers) {
        (Call::Coarsest, [sheet, start, turns, grid, names], []) => {
            let c = flow::coarsest(sheet, start, turns, grid, names)?;
            Ok(vec![c.turns.into(), c.kept.into(), c.blocks.into()])
        }
        (Call::Compare, [first, second], []) => flow::compare(first, second).map(values_of),
        (Call::CompareReady, [first, second], []) => {
            flow::compare_ready(first, second).map(values_of)
        }
        (Call::Normalise, [sheet, out], []) => flow::normalise(sheet, out).map(|()| Vec::new()),
        (Call::EndStart, [sheet, grid], []) => flow::end_start(sheet, grid).map(|()| Vec::new()),
        (Call::ReadyStart, [sheet, grid], []) => {
            flow::ready_start(sheet, grid).map(|()| Vec::new())
        }
        (Call::TestSimulation, [sheet, start, claim], []) => {
            flow::test_simulation(sheet, start, claim).map(|yes| vec![yes.into()])
        }
        (Call::CheckPlan, [sheet, start, plan], []) => {
            let flow::Accepted { pair, depth } = flow::check_plan(sheet, start, plan)?;
            Ok(vec![pair.p.into(), pair.q.into(), depth.into()])
        }
        (Call::WritePlan, [sheet, start, plan], &[p, q]) => {
            flow::write_plan(sheet, start, p, q, plan).map(|count| vec![count as u64])
        }
        (Call::HandPlay, [sheet, start], &[p, q, rounds]) => {
            flow::hand_play(sheet, start, p, q, rounds).map(|wins| vec![wins.into()])
        }
        (Call::Join, [first, second, out], []) => {
            flow::join(first, second, out).map(|length| vec![length as u64])
        }
        (Call::ToNamed, [sheet, out], []) => flow::to_named_into(sheet, out).map(|()| Vec::new()),
        (Call::ToPlain, [sheet, out], []) => flow::to_plain_into(sheet, out).map(|()| Vec::new()),
        _ => panic!("a case with other buffers than its call takes"),
    }
}

/// The independent program's outcome.
pub fn expected(case: &Case) -> Outcome {
    let mut bytes = case.bytes.clone();
    let answer = expected_answer(case.call, &mut bytes, &case.numbers);
    Outcome { answer, bytes }
}

/// The independent program's call, on the numbers that the bytes carry.
fn expected_answer(
    call: Call,
    bytes: &mut [Vec<u8>],
    numbers: &[u64],
) -> Result<Vec<u64>, Refusal> {
    match (call, bytes, numbers) {
        (Call::Coarsest, [sheet, start, turns, grid, names], []) => {
            let start = words(start);
            let list = list16(turns);
            let (mut kept_words, mut block_names) = (words(grid), numbers16(names));
            let (turns, kept, blocks) =
                turns::coarsest(sheet, &start, &list, &mut kept_words, &mut block_names)?;
            *grid = carried(&kept_words);
            *names = carried16(&block_names);
            Ok(vec![turns as u64, kept as u64, blocks as u64])
        }
        (Call::Compare, [first, second], []) => {
            compare::compare(first, second).map(|(yes, turns)| vec![yes.into(), turns as u64])
        }
        (Call::CompareReady, [first, second], []) => {
            compare::compare_ready(first, second).map(|(yes, turns)| vec![yes.into(), turns as u64])
        }
        (Call::Normalise, [sheet, out], []) => sheet::normalise(sheet, out).map(|()| Vec::new()),
        (Call::EndStart, [sheet, grid], []) => {
            written(grid, |words| grid::end_start(sheet, words)).map(|()| Vec::new())
        }
        (Call::ReadyStart, [sheet, grid], []) => {
            written(grid, |words| grid::ready_start(sheet, words)).map(|()| Vec::new())
        }
        (Call::TestSimulation, [sheet, start, claim], []) => {
            let yes = grid::test_simulation(sheet, &words(start), &words(claim))?;
            Ok(vec![yes.into()])
        }
        (Call::CheckPlan, [sheet, start, plan], []) => {
            let accepted = plans::check_plan(sheet, &words(start), &list16(plan))?;
            let plans::Checked { p, q, depth } = accepted;
            Ok(vec![p.into(), q.into(), depth as u64])
        }
        (Call::WritePlan, [sheet, start, plan], &[p, q]) => {
            let mut list = list16(plan);
            let (p, q) = (short(p), short(q));
            let count = plans::write_plan(sheet, &words(start), p, q, &mut list)?;
            plan[..2 * list.len()].copy_from_slice(&carried16(&list));
            Ok(vec![count as u64])
        }
        (Call::HandPlay, [sheet, start], &[p, q, rounds]) => {
            let (p, q, rounds) = (short(p), short(q), short(rounds));
            let wins = game::hand_play(sheet, &words(start), p, q, rounds)?;
            Ok(vec![wins.into()])
        }
        (Call::Join, [first, second, out], []) => {
            join::join(first, second, out).map(|length| vec![length as u64])
        }
        (Call::ToNamed, [sheet, out], []) => convert::to_named(sheet, out).map(|()| Vec::new()),
        (Call::ToPlain, [sheet, out], []) => convert::to_plain(sheet, out).map(|()| Vec::new()),
        _ => panic!("a case with other buffers than its call takes"),
    }
}

/// Lets a call write a grid's words and carries them back, unless it refuses.
fn written(
    grid: &mut Vec<u8>,
    call: impl FnOnce(&mut [u64]) -> Result<(), Refusal>,
) -> Result<(), Refusal> {
    let mut words = words(grid);
    call(&mut words)?;
    *grid = carried(&words);
    Ok(())
}

/// The numbers that bytes carry. Bytes that are no whole numbers carry none,
/// and no numbers are refused wherever a grid or names are due.
fn exactly<T, const SIZE: usize>(bytes: &[u8], read: fn(&[u8; SIZE]) -> T) -> Vec<T> {
    let (whole, rest) = bytes.as_chunks::<SIZE>();
    match rest {
        [] => whole.iter().map(read).collect(),
        _ => Vec::new(),
    }
}

/// The words of a grid.
fn words(bytes: &[u8]) -> Vec<u64> {
    exactly(bytes, |word| u64::from_le_bytes(*word))
}

/// The numbers of names.
fn numbers16(bytes: &[u8]) -> Vec<u16> {
    exactly(bytes, |number| u16::from_le_bytes(*number))
}

/// The numbers of a turn list or of a plan; an odd last byte is ignored.
fn list16(bytes: &[u8]) -> Vec<u16> {
    numbers16(&bytes[..bytes.len() / 2 * 2])
}

/// The bytes that carry words.
pub fn carried(words: &[u64]) -> Vec<u8> {
    words.iter().flat_map(|word| word.to_le_bytes()).collect()
}

/// The bytes that carry 16-bit numbers.
pub fn carried16(numbers: &[u16]) -> Vec<u8> {
    numbers.iter().flat_map(|x| x.to_le_bytes()).collect()
}

/// A number in 16 bits; one that does not fit becomes the largest, which is
/// as far outside every range.
fn short(number: u64) -> u16 {
    number.try_into().unwrap_or(u16::MAX)
}
